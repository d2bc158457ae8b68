/* Pieces of memory with a page on each side that nothing may touch. */
#ifndef REGIONS_H
#define REGIONS_H

#include <stddef.h>
#include <stdint.h>

/* Where a region stands: at the address that the run writes; or so that it ends where a page ends, or begins where one begins, so that the
 * page beyond it traps from the first byte on. */
typedef enum { WRITTEN, AT_END, AT_START, PLACINGS } placing;

/* `bytes` of them from `at` on are the region's, in `pages` bytes of whole pages from `page` on, in a mapping of a page more on each side.
 * `due` is what the pages must hold at the end. A region of no bytes stands nowhere. */
typedef struct region {
    uint8_t *at, *page, *due;
    size_t bytes, pages;
} region;

/* Numbers that nothing may depend on. */
void seed(uint64_t from);
uint64_t junk(void);

/* A region of that many bytes. It and its pages' other bytes are junk. */
region lay(size_t bytes, placing how, uint64_t written);
void release(region *r);

/* Whether memory can be had at such an address: the runs' reach above 2^39, where some kernels have none. */
int reachable(uint64_t address);

/* What the region holds, from an offset on. */
void put(region *r, size_t offset, const void *from, size_t bytes);
void put32(region *r, size_t offset, uint32_t v);
void put64(region *r, size_t offset, uint64_t v);

/* What it must hold at the end: `settle`, what it holds now; then `expect`, what differs from that. */
void settle(region *r);
void expect(region *r, size_t offset, const void *from, size_t bytes);
void expect32(region *r, size_t offset, uint32_t v);
void expect64(region *r, size_t offset, uint64_t v);
int as_due(const region *r);

/* The first byte that is not, by its offset from the region's begin, which is negative before it; and what is due there. */
ptrdiff_t first_other(const region *r, uint8_t *due);

/* What may be done with it from now on, of PROT_READ, PROT_WRITE and PROT_EXEC. The instruction cache is told before it is executed. */
void protect(region *r, int protection);

#endif
