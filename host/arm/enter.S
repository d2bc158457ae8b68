/* Into a block and out of it: every register is set before, and every one is seen behind.
 *
 *     int enter(const struct registers *start, uint64_t pc, struct registers *end)
 *
 * loads x0 to x16, x18 to x30, sp, the flags and d8 to d15 from `start` and goes on at `pc`, which x17 holds then. A block leaves to `left`,
 * by the return address that it was given, or to one of the `pads`, which stand in the jump table as bodies. Registers, sp and flags are then
 * stored in `end`, but for x16 and x17, and enter answers -1 for `left`, a pad's number for a pad.
 *
 * h_read, h_write and h_ram_ok are the helpers that a block calls. Each calls its function in C, with the registers as the block has them, on
 * the stack that enter was called on, so that a block's own stack holds its frame and nothing else. It comes back with the registers of
 * `call`: x0 to x16, x18, x30 and the flags are what C put there, which may be any, but for W0, its answer. x19 to x29 and sp are as they
 * were; x17 holds the way back.
 */
#include "machine.h"

    .text

    .macro address register, name
    adrp \register, \name
    add \register, \register, :lo12:\name
    .endm

    .global enter
    .type enter, %function
enter:
    stp x29, x30, [sp, #-160]!
    stp x19, x20, [sp, #16]
    stp x21, x22, [sp, #32]
    stp x23, x24, [sp, #48]
    stp x25, x26, [sp, #64]
    stp x27, x28, [sp, #80]
    stp d8, d9, [sp, #96]
    stp d10, d11, [sp, #112]
    stp d12, d13, [sp, #128]
    stp d14, d15, [sp, #144]
    address x16, host
    mov x17, sp
    stp x17, x2, [x16]
    mov x17, x1
    mov x16, x0
    ldr x0, [x16, #NZCV]
    msr nzcv, x0
    ldr x0, [x16, #SP]
    mov sp, x0
    ldp d8, d9, [x16, #D8]
    ldp d10, d11, [x16, #D8 + 16]
    ldp d12, d13, [x16, #D8 + 32]
    ldp d14, d15, [x16, #D8 + 48]
    ldp x0, x1, [x16]
    ldp x2, x3, [x16, #16]
    ldp x4, x5, [x16, #32]
    ldp x6, x7, [x16, #48]
    ldp x8, x9, [x16, #64]
    ldp x10, x11, [x16, #80]
    ldp x12, x13, [x16, #96]
    ldp x14, x15, [x16, #112]
    ldp x18, x19, [x16, #144]
    ldp x20, x21, [x16, #160]
    ldp x22, x23, [x16, #176]
    ldp x24, x25, [x16, #192]
    ldp x26, x27, [x16, #208]
    ldp x28, x29, [x16, #224]
    ldr x30, [x16, #240]
    ldr x16, [x16, #128]
    br x17

    .global pads
pads:
    .set pad, 0
    .rept PADS
    mov x17, #pad
    b out
    .set pad, pad + 1
    .endr

    .global left
left:
    mov x17, #-1
out:
    address x16, host
    ldr x16, [x16, #8]
    stp x0, x1, [x16]
    stp x2, x3, [x16, #16]
    stp x4, x5, [x16, #32]
    stp x6, x7, [x16, #48]
    stp x8, x9, [x16, #64]
    stp x10, x11, [x16, #80]
    stp x12, x13, [x16, #96]
    stp x14, x15, [x16, #112]
    stp x18, x19, [x16, #144]
    stp x20, x21, [x16, #160]
    stp x22, x23, [x16, #176]
    stp x24, x25, [x16, #192]
    stp x26, x27, [x16, #208]
    stp x28, x29, [x16, #224]
    str x30, [x16, #240]
    mov x0, sp
    str x0, [x16, #SP]
    mrs x0, nzcv
    str x0, [x16, #NZCV]
    stp d8, d9, [x16, #D8]
    stp d10, d11, [x16, #D8 + 16]
    stp d12, d13, [x16, #D8 + 32]
    stp d14, d15, [x16, #D8 + 48]
    address x16, host
    ldr x0, [x16]
    mov sp, x0
    mov x0, x17
    ldp x19, x20, [sp, #16]
    ldp x21, x22, [sp, #32]
    ldp x23, x24, [sp, #48]
    ldp x25, x26, [sp, #64]
    ldp x27, x28, [sp, #80]
    ldp d8, d9, [sp, #96]
    ldp d10, d11, [sp, #112]
    ldp d12, d13, [sp, #128]
    ldp d14, d15, [sp, #144]
    ldp x29, x30, [sp], #160
    ret

    .global h_read, h_write, h_ram_ok
h_read:
    address x17, answer_read
    b called
h_write:
    address x17, answer_write
    b called
h_ram_ok:
    address x17, answer_ram_ok
called:
    address x16, call
    str x30, [x16, #BACK]
    mov x9, sp
    str x9, [x16, #SP]
    address x16, host
    ldr x9, [x16]
    mov sp, x9
    blr x17
    address x16, call
    str w0, [x16]
    ldr x0, [x16, #SP]
    mov sp, x0
    ldr x0, [x16, #NZCV]
    msr nzcv, x0
    ldp x0, x1, [x16]
    ldp x2, x3, [x16, #16]
    ldp x4, x5, [x16, #32]
    ldp x6, x7, [x16, #48]
    ldp x8, x9, [x16, #64]
    ldp x10, x11, [x16, #80]
    ldp x12, x13, [x16, #96]
    ldp x14, x15, [x16, #112]
    ldr x18, [x16, #144]
    ldr x30, [x16, #240]
    ldr x17, [x16, #BACK]
    ldr x16, [x16, #128]
    br x17

    .bss
    .balign 16
host: /* the stack pointer that enter was called with, less its frame; where the registers go */
    .skip 16
    .section .note.GNU-stack, "", %progbits
