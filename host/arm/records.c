/* Fields 01 to 04 of an accepted record stand at fixed places; then comes 06, in a RAM block's alone; then the operations. */
#include "records.h"

#include <stdio.h>
#include <stdlib.h>
#include <string.h>

enum { LAYOUT = 3, MEMORY = 26, ADDRESSES = 46, GUEST = 73, HEAD = 77, GUARD_ADDRESSES = 80, RAM_HEAD = 96 };

static uint32_t get32(const uint8_t *p) {
    uint32_t v;
    memcpy(&v, p, sizeof v);
    return v;
}

record record_of(const uint8_t *bytes, size_t count) {
    record r = {.bytes = count};
    if (count > sizeof r.byte) {
        fprintf(stderr, "a record of %zu bytes\n", count);
        exit(2);
    }
    memcpy(r.byte, bytes, count);
    return r;
}

size_t operations(const record *r) {
    size_t count = 0;
    for (size_t at = guarded(r) ? RAM_HEAD : HEAD; at < r->bytes; at += 3u + r->byte[at + 1]) {
        count++;
    }
    return count;
}

uint32_t offset(const record *r, int of) {
    return get32(r->byte + LAYOUT + 4 * of);
}

uint32_t guest(const record *r) {
    return get32(r->byte + GUEST);
}

int guarded(const record *r) {
    return r->bytes > HEAD && r->byte[HEAD] == 6;
}

static size_t address_at(int of) {
    return of < GUARD_ADDRESS ? ADDRESSES + 8 * (size_t)of : GUARD_ADDRESSES + 8 * (size_t)(of - GUARD_ADDRESS);
}

uint64_t address(const record *r, int of) {
    uint64_t v = 0;
    if (of < GUARD_ADDRESS || guarded(r)) {
        memcpy(&v, r->byte + address_at(of), sizeof v);
    }
    return v;
}

void set_address(record *r, int of, uint64_t to) {
    if (of < GUARD_ADDRESS || guarded(r)) {
        memcpy(r->byte + address_at(of), &to, sizeof to);
    }
}

uint32_t base_of(const record *r, int region) {
    return get32(r->byte + MEMORY + 8 * region);
}

int inside(const record *r, int region, uint32_t at, uint32_t bytes, uint32_t *offset) {
    *offset = at - base_of(r, region);
    return *offset <= get32(r->byte + MEMORY + 8 * region + 4) - bytes;
}

int in_flash(uint32_t pc) {
    return pc >= 0x02000000 && pc <= 0x03ffffff;
}

int startable(const record *r, uint32_t pc) {
    uint32_t offset;
    return in_flash(pc) || (guarded(r) && inside(r, IN_RAM, pc, 1, &offset));
}

record another(const record *r, uint32_t pc) {
    record a = record_of(r->byte, in_flash(pc) ? HEAD : RAM_HEAD);
    memcpy(a.byte + GUEST, &pc, sizeof pc);
    return a;
}

/* Tag, length, kind, guest length, glue 0, operands. */
void operation(record *r, uint8_t kind, uint8_t length, size_t operands, const uint32_t *operand) {
    const uint8_t head[6] = {5, (uint8_t)(3 + 4 * operands), 0, kind, length, 0};
    memcpy(r->byte + r->bytes, head, sizeof head);
    memcpy(r->byte + r->bytes + sizeof head, operand, 4 * operands);
    r->bytes += sizeof head + 4 * operands;
}
