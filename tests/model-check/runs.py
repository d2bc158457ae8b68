#!/usr/bin/env python3
"""Vectors of whole blocks: words of the oracle, run on Unicorn instruction by instruction, the outside played by a script.

    python3 runs.py make SEED COUNT ORACLE BLOCKS-DIR OUT.txt      # BLOCKS-DIR holds blocks.py
    python3 runs.py check REPO ADAPTER.antt DEPS RUNS.txt [--per N] [--crates K] [--keep DIR]

A run is a block of lines:

    run NAME
    n STEPS                       steps allowed (decimal): the number of words, or fewer
    h READ WRITE                  helper addresses (this and all else hexadecimal)
    x V0 .. V30
    s SP NZCV PC
    rK BASE BYTES                 region K, in document 01's order
    o ANSWER BRK LINK NZCV RAM MAP SCRATCH0 .. SCRATCH18      an outcome, in order
    end STATUS LEFT COUNT         decimal: 0 the steps ran out, 1 the return, 2 a table jump, 20 no outcome; outcomes left; instructions executed
    X V0 .. V30
    S SP NZCV PC
    RK BYTES                      a region that changed
    q 0 ADDRESS WIDTH DONE | q 1 ADDRESS WIDTH DONE VALUE     a request, in order
"""
import argparse
import os
import random
import re
import shutil
import subprocess
import sys
import tempfile
import time

M32, M64 = 0xFFFFFFFF, (1 << 64) - 1
CODE, STACK, RECORD, CONTEXT, RAM, XIP, MAP, TABLE = range(8)
H_READ, H_WRITE, H_TABLE = 0x600000000, 0x600000040, 0x740000000
BASES = [0x2FFFFFFF80, 0x500000100, 0x700000000, 0x710000000, 0x3FFFFFFFE0, 0x720000000, 0x730000000, H_TABLE]


def make(seed, count, oracle, blocks_dir, out):
    sys.path.insert(0, blocks_dir)
    import blocks

    r = random.Random(seed)
    d = blocks.Draw(seed)
    texts = []
    i = 0
    # every kind once, then drawn
    while len(texts) < count:
        first = i % 40
        i += 1
        ram_len, xip_len = r.choice([8, 16, 33, 64]), r.choice([8, 16, 32])
        ram, xip = r.choice([(0x01000000, 0x02000000), (0, 0x02000000), ((1 << 32) - ram_len & ~3, 0x20000000), (0x20000000, (1 << 32) - xip_len)])
        b = blocks.Block(mem=(ram, ram_len, xip, xip_len), map=r.randrange(2), addrs=(H_READ, H_WRITE, H_TABLE), pc0=0x02000000 + 2 * r.randrange(1000))
        near = [ram, ram + ram_len, xip, xip + xip_len]
        pool = r.sample(range(16), r.choice([3, 6, 12]))
        n = r.choice([1, 1, 2, 3, 5])
        kinds = [first] + [r.choice([r.randrange(40), r.randrange(21, 30)]) for _ in range(n - 1)]
        ops, pc = [], b.pc0
        for k in kinds:
            o = d.op(k, pool, near, pc)
            ops.append(o)
            pc += o[1]
            if k in blocks.JUMPS:
                break
        b.ops = ops
        t = one(r, b, oracle, near, "kind%d" % first)
        if t:
            texts.append(t)
    with open(out, "w") as f:
        f.write("# whole blocks; the format is at the head of runs.py. runs.py make %s %d\n" % (seed, count))
        f.write("\n".join(texts))
    print("%d runs" % len(texts))


def listing(oracle, record):
    text = subprocess.run([oracle], input=record, capture_output=True, check=True).stdout.decode()
    if text.startswith("refused"):
        return None
    lines = text.split("\n")
    n = int(lines[0].split()[1])
    ws = [int(w, 16) for s in lines[1:] if s and not s.startswith("site") for w in s.split()]
    assert len(ws) == n
    return ws


def one(r, b, oracle, near, name):
    ws = listing(oracle, b.record())
    if ws is None:
        return None
    ram_len, xip_len = b.mem[1], b.mem[3]
    mem = [b"".join(w.to_bytes(4, "little") for w in ws)]
    mem += [bytes(r.getrandbits(8) for _ in range(n)) for n in (112, 80, 40, ram_len, xip_len, (ram_len + 3) // 4, 16)]
    mem = [bytearray(m) for m in mem]
    mem[TABLE][:] = bytes(16)
    for k in range(16):
        v = (r.choice(near) + r.randint(-6, 9)) & M32 if r.random() < 0.6 else r.getrandbits(32)
        mem[RECORD][4 * k : 4 * k + 4] = v.to_bytes(4, "little")
    for k in (16, 17):
        mem[RECORD][4 * k : 4 * k + 4] = ((r.choice(near) + 4 * r.randint(-2, 3)) & M32).to_bytes(4, "little")
    mem[CONTEXT][24:28] = (r.choice([0, 0, 0, 1]) * r.getrandbits(32)).to_bytes(4, "little")
    mem[MAP][:] = bytes(r.choice([0, 0, 1, 255]) for _ in mem[MAP])
    x = [r.getrandbits(64) for _ in range(31)]
    x[0], x[1], x[2], x[3], x[4], x[5] = BASES[RECORD], BASES[CONTEXT], BASES[RAM], BASES[XIP], r.getrandbits(32) << 32 | r.choice([0, 31, 1000, M32 - 32]), BASES[MAP]
    state = dict(x=x, sp=BASES[STACK] + 112, f=r.randrange(16), pc=BASES[CODE], mem=mem)
    draw = r.getrandbits(64)
    bases = list(BASES)
    # which entry of the table is looked up, if any; then again with that entry alone
    end = emulate(random.Random(draw), state, bases, None)
    if end["entry"] is not None:
        bases[TABLE] = end["entry"]
        hit = r.random() < 0.6
        guest = end["x"][12] & M32 if hit else r.getrandbits(32)
        mem[TABLE][:] = guest.to_bytes(8, "little") + (4 * r.getrandbits(40)).to_bytes(8, "little")
        end = emulate(random.Random(draw), state, bases, mem[TABLE])
    # some runs find no outcome (20), some are allowed too few steps (0)
    n, table, variant = len(ws), mem[TABLE] if end["entry"] is not None else None, r.random()
    if end["reqs"] and variant < 0.3:
        end = emulate(random.Random(draw), state, bases, table, dry=r.randrange(len(end["reqs"])))
    elif variant > 0.9:
        n = r.randrange(end["count"])
        end = emulate(random.Random(draw), state, bases, table, steps=n)
    return text(name, n, state, bases, end, r)


def emulate(r, state, bases, entry, dry=None, steps=None):
    from unicorn import UC_ARCH_ARM64, UC_HOOK_MEM_READ, UC_MODE_ARM, Uc, UcError
    from unicorn.arm64_const import UC_ARM64_REG_NZCV, UC_ARM64_REG_PC, UC_ARM64_REG_SP, UC_ARM64_REG_X0, UC_ARM64_REG_X29, UC_ARM64_REG_X30

    xreg = [UC_ARM64_REG_X0 + i for i in range(29)] + [UC_ARM64_REG_X29, UC_ARM64_REG_X30]
    uc = Uc(UC_ARCH_ARM64, UC_MODE_ARM)
    mem = state["mem"]
    pages = {p for b, m in zip(bases[:TABLE], mem) for p in range(b & ~0xFFF, b + len(m), 0x1000)}
    for p in pages:
        uc.mem_map(p, 0x1000)
    uc.mem_map(H_TABLE, 0x40000)
    for k in range(TABLE):
        uc.mem_write(bases[k], bytes(mem[k]))
    if entry is not None:
        uc.mem_write(bases[TABLE], bytes(entry))
    seen = []
    uc.hook_add(UC_HOOK_MEM_READ, lambda u, a, addr, size, v, data: seen.append(addr) if H_TABLE <= addr < H_TABLE + 0x40000 else None)
    for i in range(31):
        uc.reg_write(xreg[i], state["x"][i])
    uc.reg_write(UC_ARM64_REG_SP, state["sp"])
    uc.reg_write(UC_ARM64_REG_NZCV, state["f"] << 28)
    pc, count, reqs, outs, status = state["pc"], 0, [], [], 0
    code = len(mem[CODE])
    while status == 0 and count != steps:
        w = int.from_bytes(uc.mem_read(pc, 4), "little")
        if len(reqs) == dry and w & 0xFFFFFC1F == 0xD63F0000:
            status = 20
            break
        try:
            uc.emu_start(pc, M64 - 15, count=1)
        except UcError as e:
            if not (w == 0xD65F03C0 or w & 0xFFFFFC1F == 0xD61F0000 or w & 0xFFFFFC1F == 0xD63F0000):
                raise SystemExit("%08x at %x: %s" % (w, pc, e))
        count += 1
        back = pc + 4
        pc = uc.reg_read(UC_ARM64_REG_PC)
        if w == 0xD65F03C0:
            status = 1
        elif w & 0xFFFFFC1F == 0xD61F0000:
            status = 2
        elif w & 0xFFFFFC1F == 0xD63F0000:
            a = [uc.reg_read(xreg[i]) & M32 for i in range(5)]
            assert uc.reg_read(xreg[0]) == bases[CONTEXT] and uc.reg_read(xreg[30]) == back
            if pc == H_READ:
                reqs.append([0, a[1], a[3], a[2]])
            else:
                assert pc == H_WRITE
                reqs.append([1, a[1], a[4], a[3], a[2]])
            width = reqs[-1][2]
            ans = r.choice([0, 256**width - 1, r.getrandbits(8 * width), 1 << 8 * width - 1])
            brk = r.choice([0, 0, 0, 1, r.getrandbits(32)])
            ram = bytes(r.getrandbits(8) for _ in mem[RAM])
            mp = bytes(r.choice([0, 0, 1]) for _ in mem[MAP])
            link, f, scratch = r.getrandbits(64), r.randrange(16), [ans] + [r.getrandbits(64) for _ in range(18)]
            outs.append((ans, brk, link, f, ram, mp, scratch))
            for i in range(19):
                uc.reg_write(xreg[i], scratch[i])
            uc.reg_write(xreg[30], link)
            uc.reg_write(UC_ARM64_REG_NZCV, f << 28)
            uc.mem_write(bases[RAM], ram)
            uc.mem_write(bases[MAP], mp)
            uc.mem_write(bases[CONTEXT] + 24, brk.to_bytes(4, "little"))
            pc = back
        else:
            assert bases[CODE] <= pc < bases[CODE] + code
    return dict(
        x=[uc.reg_read(g) for g in xreg], sp=uc.reg_read(UC_ARM64_REG_SP), f=uc.reg_read(UC_ARM64_REG_NZCV) >> 28, pc=pc, count=count, reqs=reqs, outs=outs, status=status,
        mem=[bytes(uc.mem_read(b, len(m))) for b, m in zip(bases, mem)], entry=min(seen) & ~15 if seen else None)


def text(name, n, s, bases, e, r):
    hx = lambda v: " ".join("%x" % k for k in v)
    out = list(e["outs"])
    left = 0 if e["status"] == 20 else r.choice([0, 1])
    for _ in range(left):
        out.append((1, 2, 3, 4, bytes(len(s["mem"][RAM])), bytes(len(s["mem"][MAP])), [5] * 19))
    t = ["run " + name, "n %d" % n, "h %x %x" % (H_READ, H_WRITE), "x " + hx(s["x"]), "s %x %x %x" % (s["sp"], s["f"], s["pc"])]
    t += ["r%d %x %s" % (k, bases[k], bytes(m).hex()) for k, m in enumerate(s["mem"])]
    t += ["o %x %x %x %x %s %s %s" % (a, b, k, f, ram.hex(), mp.hex(), hx(sc)) for a, b, k, f, ram, mp, sc in out]
    t += ["end %d %d %d" % (e["status"], left, e["count"]), "X " + hx(e["x"]), "S %x %x %x" % (e["sp"], e["f"], e["pc"])]
    t += ["R%d %s" % (k, m.hex()) for k, m in enumerate(e["mem"]) if m != bytes(s["mem"][k])]
    t += ["q " + hx(q) for q in e["reqs"]]
    return "\n".join(t) + "\n"


def parse(path):
    runs = []
    for s in open(path):
        if s.startswith("#") or not s.strip():
            continue
        k, *v = s.split()
        if k == "run":
            runs.append(dict(name=v[0], o=[], q=[], r={}, R={}))
            continue
        c = runs[-1]
        if k in ("n", "end"):
            c[k] = [int(n) for n in v]
        elif k[0] == "r":
            c["r"][int(k[1])] = (int(v[0], 16), bytes.fromhex(v[1]))
        elif k[0] == "R":
            c["R"][int(k[1])] = bytes.fromhex(v[0])
        elif k == "o":
            c["o"].append(([int(n, 16) for n in v[:4]], bytes.fromhex(v[4]), bytes.fromhex(v[5]), [int(n, 16) for n in v[6:]]))
        elif k == "q":
            c["q"].append([int(n, 16) for n in v])
        else:
            c[k] = [int(n, 16) for n in v]
    return runs


HEAD = """use Rattle.std.specs.Prelude.{{◌≡◌, refl, List, [], ◌∷◌, ℕ}}
use Rattle.{crate}.specs.Cases.{{Outcome, Part, Start, End, RunCase, failing_runs}}
use Rattle.{crate}.specs.Adapter.{{run}}
"""

RUN = """
abbrev case{i} : RunCase
case{i} =
    record {{
      steps = {n};
      start = record {{ x = {x}; sp = {sp}; nzcv = {f}; pc = {pc}; mem = {mem}; outcomes = {outs}; h-read = {hr}; h-write = {hw} }};
      end = record {{ status = {e}; x = {x1}; sp = {sp1}; nzcv = {f1}; pc = {pc1}; bytes = {bytes}; requests = {reqs}; left = {left}; count = {count} }}
    }}

agrees{i} : failing_runs run {i} (case{i} ∷ []) ≡ []
unfolding run
agrees{i} = refl
"""


def antt(i, c):
    from convert import items, nums

    outs = ["(record { answer = %d; brk = %d; ram = %s; map = %s; scratch = %s; link = %d; nzcv = %d })" % (h[0], h[1], nums(ram), nums(mp), nums(sc), h[2], h[3]) for h, ram, mp, sc in c["o"]]
    return RUN.format(
        i=i, n=c["n"][0], x=nums(c["x"]), sp=c["s"][0], f=c["s"][1], pc=c["s"][2], mem=items(["(record { base = %d; bytes = %s })" % (b, nums(m)) for _, (b, m) in sorted(c["r"].items())]),
        outs=items(outs), hr=c["h"][0], hw=c["h"][1], e=c["end"][0], x1=nums(c["X"]), sp1=c["S"][0], f1=c["S"][1], pc1=c["S"][2],
        bytes=items(["(" + nums(c["R"].get(k, m)) + ")" for k, (_, m) in sorted(c["r"].items())]), reqs=items(["(" + nums(q) + ")" for q in c["q"]]), left=c["end"][1], count=c["end"][2])


def check(args):
    p = argparse.ArgumentParser()
    p.add_argument("repo")
    p.add_argument("adapter")
    p.add_argument("deps")
    p.add_argument("runs")
    p.add_argument("--per", type=int, default=10)
    p.add_argument("--crates", type=int, default=2)
    p.add_argument("--keep")
    p.add_argument("--first", type=int)
    a = p.parse_args(args)
    import convert

    runs = parse(a.runs)[: a.first]
    root = os.path.abspath(a.keep or tempfile.mkdtemp(prefix="runs"))
    convert.copied(a.repo, root)
    names = ["runs%d" % k for k in range(a.crates)]
    with open(root + "/crates.txt", "w") as f:
        f.write(open(os.path.join(a.repo, "crates.txt")).read().rstrip("\n") + "\n")
        f.write("".join("%s: %s\n" % (n, a.deps.replace(",", " ")) for n in names))
    for k, n in enumerate(names):
        convert.crate(root, n, a.adapter, [])
        d = root + "/crates/" + n + "/specs/"
        mods = []
        for j in range(k * a.per, len(runs), a.per * len(names)):
            mods.append("From%d" % j)
            open(d + mods[-1] + ".antt", "w").write(HEAD.format(crate=n) + "".join(antt(i, runs[i]) for i in range(j, min(j + a.per, len(runs)))))
        open(d + "Lib.antt", "a").write("".join("pub mod %s\n" % m for m in mods))
    for dep in a.deps.split(","):
        proved, text = convert.checked(root, [dep])
        if not proved:
            sys.exit("the model is not proved:\n" + text[-3000:])
    t = time.time()
    proved, text = convert.checked(root, names)
    t = time.time() - t
    steps = sum(c["end"][2] for c in runs)
    if proved:
        print("%d runs (%d instructions) agree, %.1f s" % (len(runs), steps, t))
        if not a.keep:
            shutil.rmtree(root)
    else:
        open(root + "/output", "w").write(text)
        bad = sorted({int(n) for n in re.findall(r"error: `agrees(\d+)`", text)})
        print("%d runs (%d instructions), NOT proved, %.1f s; the output is %s/output; runs that differ: %s" % (len(runs), steps, t, root, [(i, runs[i]["name"]) for i in bad]))
    sys.exit(not proved)


if __name__ == "__main__":
    if sys.argv[1] == "make":
        make(sys.argv[2], int(sys.argv[3]), sys.argv[4], sys.argv[5], sys.argv[6])
    else:
        check(sys.argv[2:])
