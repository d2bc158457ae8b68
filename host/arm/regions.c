/* Regions by mmap. Before its use every byte of a region's pages is junk, and behind it all of them are compared. */
#include "regions.h"

#include <stdio.h>
#include <stdlib.h>
#include <string.h>
#include <sys/mman.h>
#include <unistd.h>

static uint64_t state = 1;

void seed(uint64_t from) {
    state = from * 2 + 1;
}

/* xorshift64* */
uint64_t junk(void) {
    state ^= state >> 12;
    state ^= state << 25;
    state ^= state >> 27;
    return state * 0x2545f4914f6cdd1du;
}

static void failed(const char *what) {
    perror(what);
    exit(2);
}

static size_t page_bytes(void) {
    return (size_t)sysconf(_SC_PAGESIZE);
}

/* Pages that trap, at this address or, if it is 0, anywhere. Null where they cannot be had. */
static uint8_t *pages_at(uint64_t address, size_t bytes) {
    void *want = (void *)(uintptr_t)address;
    void *got = mmap(want, bytes, PROT_NONE, MAP_PRIVATE | MAP_ANONYMOUS | (address == 0 ? 0 : MAP_FIXED_NOREPLACE), -1, 0);
    return got == MAP_FAILED || (address != 0 && got != want) ? NULL : got;
}

int reachable(uint64_t address) {
    size_t page = page_bytes();
    uint8_t *there = pages_at(address - address % page, page);
    return there != NULL && munmap(there, page) == 0;
}

region lay(size_t bytes, placing how, uint64_t written) {
    size_t page = page_bytes(), before = how == WRITTEN ? written % page : 0;
    region r = {.bytes = bytes, .pages = (before + bytes + page - 1) / page * page};
    uint8_t *room;
    if (bytes == 0) {
        return r;
    }
    room = pages_at(how == WRITTEN ? written - before - page : 0, r.pages + 2 * page);
    if (room == NULL) {
        failed("mmap");
    }
    r.page = room + page;
    r.at = how == AT_END ? r.page + r.pages - bytes : r.page + before;
    r.due = malloc(r.pages);
    if (r.due == NULL) {
        failed("malloc");
    }
    protect(&r, PROT_READ | PROT_WRITE);
    for (size_t i = 0; i < r.pages; i += sizeof(uint64_t)) {
        memcpy(r.page + i, &(uint64_t){junk()}, sizeof(uint64_t));
    }
    return r;
}

void release(region *r) {
    if (r->bytes != 0) {
        munmap(r->page - page_bytes(), r->pages + 2 * page_bytes());
        free(r->due);
    }
    *r = (region){0};
}

/* `from` is written into `into`, which holds the region's pages: the memory itself, or what is due. */
static void write_at(const region *r, uint8_t *into, size_t offset, const void *from, size_t bytes) {
    if (bytes > r->bytes || offset > r->bytes - bytes) {
        fprintf(stderr, "%zu bytes at %zu of a region of %zu\n", bytes, offset, r->bytes);
        exit(2);
    }
    if (bytes != 0) {
        memcpy(into + (r->at - r->page) + offset, from, bytes);
    }
}

void put(region *r, size_t offset, const void *from, size_t bytes) {
    write_at(r, r->page, offset, from, bytes);
}

void put32(region *r, size_t offset, uint32_t v) {
    put(r, offset, &v, sizeof v);
}

void put64(region *r, size_t offset, uint64_t v) {
    put(r, offset, &v, sizeof v);
}

void settle(region *r) {
    if (r->bytes != 0) {
        memcpy(r->due, r->page, r->pages);
    }
}

void expect(region *r, size_t offset, const void *from, size_t bytes) {
    write_at(r, r->due, offset, from, bytes);
}

void expect32(region *r, size_t offset, uint32_t v) {
    expect(r, offset, &v, sizeof v);
}

void expect64(region *r, size_t offset, uint64_t v) {
    expect(r, offset, &v, sizeof v);
}

int as_due(const region *r) {
    return r->bytes == 0 || memcmp(r->page, r->due, r->pages) == 0;
}

ptrdiff_t first_other(const region *r, uint8_t *due) {
    size_t i = 0;
    while (i < r->pages - 1 && r->page[i] == r->due[i]) {
        i++;
    }
    *due = r->due[i];
    return (ptrdiff_t)i - (r->at - r->page);
}

void protect(region *r, int protection) {
    if (r->bytes == 0) {
        return;
    }
    if (protection & PROT_EXEC) {
        __builtin___clear_cache((char *)r->page, (char *)r->page + r->pages);
    }
    if (mprotect(r->page, r->pages, protection) != 0) {
        failed("mprotect");
    }
}
