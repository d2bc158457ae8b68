/* Block records, as a host reads and makes them: what a run needs to know of one, and other blocks beside it. */
#ifndef RECORDS_H
#define RECORDS_H

#include <stddef.h>
#include <stdint.h>

enum { MOST_RECORD = 4096 };

typedef struct record {
    uint8_t byte[MOST_RECORD];
    size_t bytes;
} record;

/* Offsets of field 01, in order. */
enum { REGS, SP_CELL, RETS, PC, HOLD, OFFSETS };

/* Addresses of field 03, in order, and those of field 06. */
enum { READ_ADDRESS, WRITE_ADDRESS, TABLE_ADDRESS, GUARD_ADDRESS, RAM_OK_ADDRESS, RECORD_ADDRESSES };

/* Regions of field 02, in order. */
enum { IN_RAM, IN_XIP };

record record_of(const uint8_t *bytes, size_t count);
size_t operations(const record *r);
uint32_t offset(const record *r, int of);
uint32_t guest(const record *r);

/* Whether the record has field 06: the block stands in RAM. */
int guarded(const record *r);

/* 0 where the record has no such address. */
uint64_t address(const record *r, int of);
void set_address(record *r, int of, uint64_t to);

/* A region's base; a guest address' offset in it, and whether that many bytes from there on, 1 to 4, lie inside. */
uint32_t base_of(const record *r, int region);
int inside(const record *r, int region, uint32_t at, uint32_t bytes, uint32_t *offset);

/* Whether a block can start there that has the same fields 01 to 03 and, if it is not in flash, 06: in flash's range, or inside RAM. */
int in_flash(uint32_t pc);
int startable(const record *r, uint32_t pc);

/* Such a block, with no operations yet; and one more for it. */
record another(const record *r, uint32_t pc);
void operation(record *r, uint8_t kind, uint8_t length, size_t operands, const uint32_t *operand);

#endif
