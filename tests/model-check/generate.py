#!/usr/bin/env python3
"""Vectors of single instructions, run on Unicorn.

    python3 generate.py SEED OUT.txt [ORACLE]     # with ORACLE, each word is compared with `ORACLE --enc`
"""
import random
import subprocess
import sys

from unicorn import UC_ARCH_ARM64, UC_MODE_ARM, Uc, UcError
from unicorn.arm64_const import UC_ARM64_REG_NZCV, UC_ARM64_REG_PC, UC_ARM64_REG_SP, UC_ARM64_REG_X0, UC_ARM64_REG_X29, UC_ARM64_REG_X30

import vec
from vec import CODE, MASK, RAM, RECORD, REGIONS, STACK, Case
from words import ENC

XREG = [UC_ARM64_REG_X0 + i for i in range(29)] + [UC_ARM64_REG_X29, UC_ARM64_REG_X30]
E32 = [0, 1, 2, 3, 0x7F, 0x80, 0xFF, 0x7FFF, 0x8000, 0xFFFF, 0x10000, 0x7FFFFFFF, 0x80000000, 0x80000001, 0xFFFFFFFE, 0xFFFFFFFF, 0x55555555, 0xAAAAAAAA, 0x12345678, 0xABCDEF01]
E64 = [0, 1, 0x7FFFFFFFFFFFFFFF, 0x8000000000000000, MASK, MASK - 1, 0xFFFFFFFF, 0x100000000, 0x80000000, 0x7FFFFFFF, 0x0123456789ABCDEF]
REGS = [0, 1, 2, 9, 17, 18, 19, 28, 29, 30]


class Gen:
    def __init__(self, seed):
        self.r = random.Random(seed)
        self.out = []
        self.calls = []

    # ---- draws
    def reg(self):
        return self.r.choice(REGS) if self.r.random() < 0.5 else self.r.randrange(31)

    def w(self):
        low = self.r.choice(E32) if self.r.random() < 0.7 else self.r.getrandbits(32)
        return self.r.choice([0, 0xFFFFFFFF, self.r.getrandbits(32), 0x80000000]) << 32 | low

    def x(self):
        return self.r.choice(E64) if self.r.random() < 0.5 else self.r.getrandbits(64)

    def shapes(self, n, k):
        """k choices of n register numbers: apart, equal in pairs, all equal, each 31, all 31"""
        out = []
        for i in range(n):
            v = self.r.sample(range(31), n)
            v[i] = 31
            out.append(v)
        for i in range(n):
            for j in range(i):
                v = self.r.sample(range(31), n)
                v[i] = v[j]
                out.append(v)
        out += [[self.reg()] * n, [31] * n]
        while len(out) < k:
            out.append(self.r.sample(range(31), n) if self.r.random() < 0.8 else [self.reg() for _ in range(n)])
        return out[:k] if len(out) > k else out

    # ---- cases
    def case(self, name, args, x=None, sp=None, f=None, pc=None, m=None):
        pc = REGIONS[CODE][1] + 4 * self.r.randrange(14) if pc is None else pc
        c = Case(name, ENC[name](*args), pc)
        c.x = {k: v for k, v in (x or {}).items() if k != 31}
        if sp is not None:
            c.sp = sp
        c.f = self.r.randrange(16) if f is None else f
        c.m = m or {}
        self.run(c)
        self.out.append(c)
        self.calls.append((name, args, c.word))

    def run(self, c):
        uc = Uc(UC_ARCH_ARM64, UC_MODE_ARM)
        mem = c.memory()
        pages = set()
        for (_, base, n), b in zip(REGIONS, mem):
            pages |= {p for p in range(base & ~0xFFF, base + n, 0x1000)}
        for p in pages:
            uc.mem_map(p, 0x1000)
        for (_, base, n), b in zip(REGIONS, mem):
            uc.mem_write(base, bytes(b))
        before = {p: bytes(uc.mem_read(p, 0x1000)) for p in pages}
        x = c.regs()
        for i in range(31):
            uc.reg_write(XREG[i], x[i])
        uc.reg_write(UC_ARM64_REG_SP, c.sp)
        uc.reg_write(UC_ARM64_REG_NZCV, c.f << 28)
        try:
            uc.emu_start(c.pc, 0xFFFFFFFFFFFFFFF0, count=1)
        except UcError as e:
            # a jump to an address that is not mapped has been executed
            if uc.reg_read(UC_ARM64_REG_PC) == c.pc:
                raise SystemExit("%s: %s" % (c.line(), e))
        # ---- what changed
        for i in range(31):
            v = uc.reg_read(XREG[i])
            if v != x[i]:
                c.x1[i] = v
        sp, f, pc = uc.reg_read(UC_ARM64_REG_SP), uc.reg_read(UC_ARM64_REG_NZCV) >> 28, uc.reg_read(UC_ARM64_REG_PC)
        c.sp1 = sp if sp != c.sp else None
        c.f1 = f if f != c.f else None
        c.pc1 = pc if pc != c.pc + 4 else None
        c.e = {"ret": 1, "br": 2}.get(c.name, 0)
        changed = [p + i for p in pages for i, v in enumerate(uc.mem_read(p, 0x1000)) if v != before[p][i]]
        for r, (_, base, n) in enumerate(REGIONS):
            offs = [a - base for a in changed if base <= a < base + n]
            if offs:
                lo, hi = min(offs), max(offs) + 1
                c.m1[r, lo] = bytes(uc.mem_read(base + lo, hi - lo))
                changed = [a for a in changed if not base <= a < base + n]
        assert not changed, c.line()

    # ---- classes
    def moves(self):
        for name, shifts in (("movz", 2), ("movk", 2), ("movn", 2), ("movz_x", 4), ("movk_x", 4)):
            for sh in range(shifts):
                for imm in (0, 1, 0x8000, 0xFFFF, self.r.getrandbits(16), self.r.getrandbits(16)):
                    rd = self.reg()
                    self.case(name, (rd, imm, 16 * sh), {rd: self.r.choice([self.x(), self.w(), MASK, 0])})
                self.case(name, (31, self.r.getrandbits(16), 16 * sh))

    def regs2(self, name, k, wide=False):
        for a, b in self.shapes(2, k):
            self.case(name, (a, b), {a: self.x(), b: self.x() if wide else self.w()})

    def regs3(self, name, k, wide=False, pairs=(), extra=()):
        val = self.x if wide else self.w
        for a, b, c in self.shapes(3, k - len(pairs)):
            e = tuple(self.r.choice(v) for v in extra)
            self.case(name, (a, b, c) + e, {a: self.x(), b: val(), c: val()})
        for p, q in pairs:
            a, b, c = self.r.sample(range(31), 3)
            e = tuple(self.r.choice(v) for v in extra)
            junk = 0 if wide else self.r.choice([0, 0xFFFFFFFF, self.r.getrandbits(32)]) << 32
            self.case(name, (a, b, c) + e, {b: p | junk, c: q | junk})

    def sums_imm(self):
        imms = [0, 1, 2, 0x7FF, 0x800, 4095]
        for name, wide in (("add_imm", 0), ("sub_imm", 0), ("subs_imm", 0), ("add_imm_x", 1)):
            for rd, rn in self.shapes(2, 12) + [[31, self.reg()], [self.reg(), 31], [31, 31]] * 4:
                v = self.x() if wide else self.w()
                self.case(name, (rd, rn, self.r.choice(imms)), {rd: self.x(), rn: v}, sp=v if rn == 31 else self.x())
            for v in [0, 1, 4094, 4095, 0x7FFFFFFF, 0x80000000, 0x80000FFE, 0xFFFFF000, 0xFFFFF001, 0xFFFFFFFF] + ([MASK, MASK - 4094, 0x7FFFFFFFFFFFFFFF] if wide else []):
                for imm in (0, 1, 4095):
                    rd, rn = self.r.sample(range(31), 2)
                    self.case(name, (rd, rn, imm), {rn: v | (0 if wide else self.r.getrandbits(32) << 32)})
        for v in (0, 1, 5, 4095, 4096, 0x7FFFFFFF, 0x80000000, 0x80000001, 0xFFFFFFFF):
            for imm in (0, 1, 5, 4095):
                rn = self.reg()
                self.case("cmp_imm", (rn, imm), {rn: v | self.r.getrandbits(32) << 32})
        for _ in range(6):
            self.case("cmp_imm", (31, self.r.choice(imms)), sp=self.r.choice([vec.SP0, self.x()]))

    def sums(self):
        near = [(a, b) for a in (0, 1, 0x7FFFFFFF, 0x80000000, 0xFFFFFFFF) for b in (0, 1, 0x7FFFFFFF, 0x80000000, 0xFFFFFFFF)]
        near64 = [(a, b) for a in (0, 1, 2**63 - 1, 2**63, MASK) for b in (0, 1, 2**63 - 1, 2**63, MASK)]
        self.regs3("add", 40, pairs=near)
        self.regs3("sub", 40, pairs=near)
        self.regs3("subs", 48, pairs=near)
        self.regs3("add_x", 40, wide=True, pairs=near64)
        for name, p, wide in (("cmp", near, 0), ("cmp_x", near64, 1)):
            for a, b in self.shapes(2, 16):
                self.case(name, (a, b), {a: self.x() if wide else self.w(), b: self.x() if wide else self.w()})
            for u, v in p + [(u, u) for u in (5, 0x1234567812345678 if wide else 0x12345678)]:
                a, b = self.r.sample(range(31), 2)
                self.case(name, (a, b), {a: u, b: v})
        for name, w, wide in (("add_lsl", 32, 0), ("add_lsr", 32, 0), ("sub_lsl", 32, 0), ("add_x_lsl", 64, 1), ("eor_lsr", 32, 0), ("orr_lsl", 32, 0)):
            for sh in (0, 1, 2, 3, w // 2 - 1, w // 2, w - 2, w - 1):
                for _ in range(3):
                    a, b, c = self.r.sample(range(31), 3)
                    val = self.x if wide else self.w
                    self.case(name, (a, b, c, sh), {b: val(), c: val()})
            self.regs3(name, 12, wide=bool(wide), extra=(range(w),))
        self.regs2("neg", 30)
        for v in (0, 1, 0x7FFFFFFF, 0x80000000, 0xFFFFFFFF):
            a, b = self.r.sample(range(31), 2)
            self.case("neg", (a, b), {b: v | self.r.getrandbits(32) << 32})

    def logics(self):
        for name in ("and", "orr", "eor", "bic", "ands"):
            self.regs3(name, 40, pairs=[(u, v) for u in (0, 0xFFFFFFFF, 0x80000000) for v in (0, 0xFFFFFFFF, 0x80000000, 0x7FFFFFFF)])
        self.regs3("orr_x", 36, wide=True)
        for name, wide in (("mov", 0), ("mov_x", 1), ("mvn", 0)):
            self.regs2(name, 24, wide=bool(wide))
        for _ in range(30):
            a, b = self.r.sample(range(32), 2)
            self.case("tst", (a, b), {a: self.w(), b: self.w()})
        masks = [(o, s) for o in (1, 2, 8, 16, 30, 31) for s in (0, 1, 2, 4, 8, 16, 24, 31) if o + s <= 32] + [(1, 31), (31, 1)]
        for o, s in masks:
            rd, rn = self.r.sample(range(31), 2)
            self.case("and_mask", (rd, rn, o, s), {rn: self.r.choice([self.w(), MASK])})
        for _ in range(12):
            o = self.r.randrange(1, 32)
            s = self.r.randrange(33 - o)
            rn = self.reg()
            self.case("and_mask", (31, rn, o, s), {rn: self.w()}, sp=self.x())
            self.case("and_mask", (rn, 31, o, s), {rn: self.x()}, sp=self.x())
            self.case("and_mask", (rn, rn, o, s), {rn: self.w()})
        for o, s in masks:
            rn = self.reg()
            self.case("tst_mask", (rn, o, s), {rn: self.r.choice([self.w(), MASK, 0, ((1 << o) - 1) << s ^ MASK])})
        for _ in range(4):
            self.case("tst_mask", (31, 31, 1), sp=self.x())

    def fields(self):
        for name, w in (("lsl_imm", 32), ("lsr_imm", 32), ("asr_imm", 32), ("lsl_imm_x", 64), ("lsr_imm_x", 64), ("asr_imm_x", 64)):
            for sh in (0, 1, 2, 7, 8, 15, 16, w - 2, w - 1):
                for v in (1 << (w - 1), (1 << w) - 1, (1 << (w - 1)) - 1, self.r.getrandbits(w)):
                    rd, rn = self.r.choice([self.r.sample(range(31), 2), [self.reg()] * 2])
                    self.case(name, (rd, rn, sh), {rn: v | (self.r.getrandbits(32) << 32 if w == 32 else 0)})
            for rd, rn in ((31, self.reg()), (self.reg(), 31), (31, 31)):
                self.case(name, (rd, rn, self.r.randrange(w)), {rn: self.x()}, sp=self.x())
        self.case("lsl_imm", (3, 4, 32), {4: self.w()})
        for name in ("ubfx", "sbfx"):
            for lsb, w in ((0, 1), (0, 8), (0, 16), (0, 31), (0, 32), (1, 1), (1, 31), (7, 8), (8, 8), (15, 1), (16, 16), (24, 8), (30, 2), (31, 1), (4, 7), (3, 28)):
                for v in (0xFFFFFFFF, self.r.getrandbits(32), 1 << (lsb + w - 1)):
                    rd, rn = self.r.choice([self.r.sample(range(31), 2), [self.reg()] * 2])
                    self.case(name, (rd, rn, lsb, w), {rn: v | self.r.getrandbits(32) << 32})
            self.case(name, (31, 5, 3, 4))
            self.case(name, (5, 31, 3, 4), sp=MASK)
        for name in ("sxth", "uxth"):
            for v in (0, 0x7FFF, 0x8000, 0xFFFF, 0x17FFF, 0xFFFF8000):
                for rd, rn in (self.r.sample(range(31), 2), [self.reg()] * 2):
                    self.case(name, (rd, rn), {rn: v | self.r.getrandbits(32) << 32})
            self.regs2(name, 8)

    def sources(self):
        for name in ("rev", "rev16", "clz"):
            self.regs2(name, 14)
            for v in [0, 1, 2, 0x80000000, 0x7FFFFFFF, 0x40000000, 0xFFFFFFFF, 0x12345678, 0x00010000, 0x0000FFFF] + [1 << self.r.randrange(32) for _ in range(6)]:
                a, b = self.r.sample(range(31), 2)
                self.case(name, (a, b), {b: v | self.r.getrandbits(32) << 32})
        corners = [(0x80000000, 0xFFFFFFFF), (7, 0), (0, 0), (0x80000000, 0), (0x80000000, 1), (0x80000000, 0x80000000), (7, 0x80000000), (0xFFFFFFF9, 2), (7, 0xFFFFFFFE), (0xFFFFFFF9, 0xFFFFFFFE), (7, 2), (1, 2), (0xFFFFFFFF, 1), (0xFFFFFFFF, 0xFFFFFFFF), (0x7FFFFFFF, 0xFFFFFFFF), (0, 0xFFFFFFFF), (6, 3), (0xFFFFFFFA, 3), (0x7FFFFFFF, 3), (0x80000001, 7)]
        for name in ("sdiv", "udiv"):
            self.regs3(name, 50, pairs=corners)
        amounts = [0, 1, 16, 31, 32, 33, 63, 64, 0x80000000, 0xFFFFFFFF, 0x1F, 0x3F]
        for name in ("lslv", "lsrv", "asrv"):
            self.regs3(name, 44, pairs=[(v, n) for n in amounts for v in (0x80000001, self.r.getrandbits(32))])
        self.regs3("lsrv_x", 44, wide=True, pairs=[(v, n | self.r.choice([0, self.r.getrandbits(31) << 33])) for n in amounts for v in (0x8000000000000001, self.r.getrandbits(64))])
        big = [(0xFFFFFFFF, 0xFFFFFFFF), (0x80000000, 0x80000000), (0x80000000, 0xFFFFFFFF), (0x7FFFFFFF, 0x7FFFFFFF), (0x10000, 0x10000), (0, 0xFFFFFFFF), (1, 0x80000000), (0xFFFFFFFF, 1), (0x80000000, 0x7FFFFFFF)]
        for name in ("mul", "umull", "smull"):
            self.regs3(name, 42, pairs=big)
        for v in self.shapes(4, 40):
            self.case("msub", tuple(v), {v[0]: self.x(), v[1]: self.w(), v[2]: self.w(), v[3]: self.w()})
        for u, v in big:
            a = self.r.sample(range(31), 4)
            self.case("msub", tuple(a), {a[1]: u, a[2]: v, a[3]: self.w()})

    def selects(self):
        for name in ("csel", "csinc", "csneg"):
            for c in range(15):
                for f in self.r.sample(range(16), 4):
                    v = self.r.choice(self.shapes(3, 24))
                    self.case(name, (v[0], v[1], v[2], c), {v[0]: self.x(), v[1]: self.w(), v[2]: self.w()}, f=f)
            for v2 in (0, 1, 0x80000000, 0xFFFFFFFF, 0x7FFFFFFF):
                a, b, d = self.r.sample(range(31), 3)
                self.case(name, (a, b, d, 0), {b: self.w(), d: v2 | self.r.getrandbits(32) << 32}, f=0)
        for c in range(15):
            for f in self.r.sample(range(16), 3):
                self.case("cset", (self.r.choice([31, self.reg(), self.reg()]), c), f=f)
                rd, rn = self.r.choice([self.r.sample(range(32), 2), [self.reg()] * 2])
                self.case("cneg", (rd, rn, c), {rn: self.w()}, f=f)

    # an address in RAM, in the low record (whose base register wraps) or, with 16-aligned sp as base, in the stack
    def place(self, n, stack=False):
        r = STACK if stack else RECORD if self.r.random() < 0.25 else RAM
        size = REGIONS[r][2]
        return r, min(self.r.choice([0, size - n, size // 2, size // 2 - min(n, size // 2), self.r.randrange(size - n + 1), self.r.randrange(size - n + 1)]), size - n)

    def content(self, r, o, n):
        top = self.r.choice([0, 0x7F, 0x80, 0xFF, self.r.getrandbits(8)])
        return {(r, o): bytes([self.r.getrandbits(8) for _ in range(n - 1)] + [top])}

    def memory(self):
        sizes = {"ldr": 4, "str": 4, "ldrh": 2, "ldr_x": 8, "str_x": 8, "strb": 1}
        for name, n in sizes.items():
            for off in (0, n, 2 * n, 15 * n, 64 * n, 2047 * n, 4095 * n):
                for shape in ("apart", "same", "rt31", "sp", "sp31", "any"):
                    rn = 31 if shape.startswith("sp") else self.reg()
                    rt = {"same": rn, "rt31": 31, "sp31": 31}.get(shape)
                    rt = self.r.choice([k for k in range(31) if k != rn]) if rt is None else rt
                    r, o = self.place(n, rn == 31)
                    a = REGIONS[r][1] + o
                    if rn == 31:
                        o -= (a - off) % 16
                        o += 16 if o < 0 else 0
                        a = REGIONS[r][1] + o
                        if o + n > REGIONS[r][2]:
                            continue
                    b = (a - off) & MASK
                    x = {rt: self.x()}
                    if rn != 31:
                        x[rn] = b
                    self.case(name, (rt, rn, off), x, sp=b if rn == 31 else None, m=self.content(r, o, n) if name[0] == "l" else None)
        idx = {"ldr_idx": (4, 4), "str_idx": (4, 4), "ldr_u": (4, 1), "ldrh_u": (2, 1), "ldrb_u": (1, 1), "ldrsb_u": (1, 1), "ldrsh_u": (2, 1), "str_u": (4, 1), "strh_u": (2, 1), "strb_u": (1, 1)}
        for name, (n, scale) in idx.items():
            shapes = self.shapes(3, 14) + self.r.choices(self.shapes(3, 40)[12:], k=22)
            for i, (rt, rn, rm) in enumerate(shapes):
                r, o = self.place(n, rn == 31)
                a = REGIONS[r][1] + o
                junk = self.r.choice([0, 0xFFFFFFFF, self.r.getrandbits(32)]) << 32
                k = self.r.choice([0, 1, 2, 0x7FFFFFFF, 0x80000000, 0xFFFFFFFF, self.r.getrandbits(32), self.r.randrange(64)])
                k = 0 if rm == 31 else k
                x = {rt: self.x()}
                if rm == rn and rn != 31:
                    # b + scale * low32(b) = a
                    low = a & 0xFFFFFFFF
                    k = low * pow(scale + 1, -1, 1 << 32) % (1 << 32) if scale % 2 == 0 else low // 2
                    if scale == 1 and low % 2:
                        o ^= 1
                        if o + n > REGIONS[r][2]:
                            o -= 2
                        a = REGIONS[r][1] + o
                        k = (a & 0xFFFFFFFF) // 2
                    b = (a - scale * k) & MASK
                    assert b & 0xFFFFFFFF == k, (name, hex(a), hex(b), hex(k))
                    x[rn] = b
                else:
                    if rn == 31:
                        d = (a - scale * k) % 16
                        o -= d
                        o += 16 if o < 0 else 0
                        if o + n > REGIONS[r][2]:
                            continue
                        a = REGIONS[r][1] + o
                    b = (a - scale * k) & MASK
                    if rm != 31:
                        x[rm] = junk | k
                    if rn != 31:
                        x[rn] = b
                self.case(name, (rt, rn, rm), x, sp=b if rn == 31 else None, m=self.content(r, o, n) if name[0] == "l" else None)

    def pairs(self):
        for name in ("stp_pre", "stp", "ldp", "ldp_post"):
            for off in (0, 8, 16, -8, -16, 96, -96, 504, -512):
                for shape in ("sp", "sp", "reg", "reg", "rt31", "base"):
                    rn = 31 if shape == "sp" else self.reg()
                    others = [k for k in range(31) if k != rn]
                    a, b = self.r.sample(others, 2)
                    if shape == "rt31":
                        a, b = self.r.choice([(31, b), (a, 31)])
                    if shape == "base" and name in ("stp", "ldp"):
                        a, b = self.r.choice([(rn, b), (a, rn)])
                    if shape == "base" and name in ("stp", "stp_pre") and a != rn != b:
                        b = a
                    if shape == "sp" and name[0] == "s" and self.r.random() < 0.3:
                        a = b = 31
                    after = name in ("ldp_post",)
                    r, o = self.place(16, rn == 31)
                    addr = REGIONS[r][1] + o
                    base = addr if after else addr - off
                    if rn == 31:
                        d = base % 16
                        o -= d
                        o += 16 if o < 0 else 0
                        if o + 16 > REGIONS[r][2]:
                            continue
                        addr = REGIONS[r][1] + o
                        base = addr if after else addr - off
                    x = {a: self.x(), b: self.x()}
                    if rn != 31:
                        x[rn] = base & MASK
                    self.case(name, (a, b, rn, off), x, sp=base if rn == 31 else None)

    def branches(self):
        for d in (0, 1, -1, 2, 12, -12, 1000, -1000, 2**25 - 1, -(2**25)) + tuple(self.r.randrange(-(2**25), 2**25) for _ in range(14)):
            self.case("b", (d,))
        far = [3, -1, 2, 7, -9, 2**18 - 1, -(2**18), 0]
        for c in range(15):
            for f in range(16):
                self.case("b_cond", (c, self.r.choice(far)), f=f)
        for name in ("cbz", "cbnz", "cbz_x", "cbnz_x"):
            for v in (0, 1, 0x80000000, 1 << 32, 0xFFFFFFFF00000000, MASK, 0x8000000000000000):
                for d in self.r.sample(far, 4):
                    rt = self.reg()
                    self.case(name, (rt, d), {rt: v})
            for d in self.r.sample(far, 4):
                self.case(name, (31, d), sp=self.x())
        for name in ("tbz", "tbnz"):
            for b in (0, 1, 2, 15, 16, 30, 31, 32, 33, 62, 63):
                for v in (0, MASK, 1 << b, MASK ^ 1 << b):
                    rt = self.reg()
                    self.case(name, (rt, b, self.r.choice([2, -1, 5, 2**13 - 1, -(2**13), 0])), {rt: v})
            for b in (0, 31, 32, 63):
                self.case(name, (31, b, 3), sp=MASK)
        for _ in range(16):
            for name in ("br", "blr"):
                rn = self.r.choice([30, 0, self.reg(), self.reg()])
                self.case(name, (rn,), {rn: self.r.choice([REGIONS[CODE][1] + 4 * self.r.randrange(16), 0x40000000, 0x7000_0000_0000 + 4 * self.r.getrandbits(20), 4 * self.r.getrandbits(30)])})
            self.case("ret", (), {30: self.r.choice([REGIONS[CODE][1], 4 * self.r.getrandbits(36), 0x10000])})

    def relative(self):
        for d in (0, 1, -1, 5, -6, 2**18 - 1, -(2**18)) + tuple(self.r.randrange(-(2**18), 2**18) for _ in range(20)):
            self.case("adr", (self.r.choice([self.reg(), self.reg(), self.reg(), 31]), d))
        base = REGIONS[CODE][1]
        for i in range(36):
            at = self.r.randrange(16)
            lit = self.r.choice([k for k in range(15) if k != at and k + 1 != at] + ([at] if at < 15 else []))
            lit = 14 if i == 1 and at < 14 else lit
            rt = self.r.choice([self.reg(), self.reg(), self.reg(), 31])
            m = {} if lit <= at <= lit + 1 else {(CODE, 4 * lit): self.r.choice([self.x(), MASK, 1 << 63, self.r.getrandbits(64)]).to_bytes(8, "little")}
            self.case("ldr_lit_x", (rt, lit - at), {rt: self.x()}, pc=base + 4 * at, m=m)

    def all(self):
        for part in (self.moves, self.sums_imm, self.sums, self.logics, self.fields, self.sources, self.selects, self.memory, self.pairs, self.branches, self.relative):
            part()


def compare(calls, oracle):
    """the words, as the oracle gives them"""
    named = [(n, a, w) for n, a, w in calls if n not in ("ret", "ldr_lit_x")]
    text = "".join("%s %s\n" % (n, " ".join(map(str, a))) for n, a, w in named)
    got = subprocess.run([oracle, "--enc"], input=text, capture_output=True, text=True, check=True).stdout.split("\n")
    bad = [(n, a, "%08x" % w, g) for (n, a, w), g in zip(named, got) if g != "%08x" % w]
    print("words compared with the oracle: %d, different: %d" % (len(named), len(bad)))
    for b in bad[:10]:
        print("  ", b)


if __name__ == "__main__":
    g = Gen(sys.argv[1])
    g.all()
    with open(sys.argv[2], "w") as f:
        f.write("# single A64 instructions; the format is in README.md. generate.py %s\n" % sys.argv[1])
        for c in g.out:
            f.write(c.line() + "\n")
    print("%d cases, %d encoders" % (len(g.out), len({c.name for c in g.out})))
    if len(sys.argv) > 3:
        compare(g.calls, sys.argv[3])
