"""Turns vectors of single A64 instructions into the rows of machine_runs.

    python3 tools/machine_rows.py tests/model-check crates/machine_runs/proofs

The first is the folder of the vectors, with `vec.py`, which reads them: vectors/instructions.txt from an A64 emulator, one instruction a
vector, and machine.txt, words.txt and grey.txt, calls and faults by document 01. Of each encoder those vectors are taken that show
most: operands, results and flags of each sign, register 31 in each field, each way of a branch. The calls of a guard's helper are GUARDS,
by document 02 (2026-06). Prints how many.
"""
import os
import re
import sys

A64 = os.path.join(os.path.dirname(os.path.abspath(__file__)), "../crates/a64/src")
FILES = {"Moves": "Moves", "Arith": "Sums, products and quotients", "Logic": "Bitwise operations, bytes exchanged, leading zeros",
         "Bitfield": "Fields and shifts", "Select": "Selections by a condition", "Memory": "Loads and stores",
         "Control": "Branches, `adr` and literals"}
MOST, MOST_CONDITIONS, EDGES = 10, 64, 4

HEAD = """-- %s: each row's step ends as it says.
use mathlib.Core.List.{List, [], ◌∷◌}
use mathlib.Core.Path.{◌≡◌, refl}
%suse Rattle.machine_runs.specs.Row.{%s, stepped, reached, expected}

abbrev rows : List Row
rows =
    %s

pub all_end : reached rows ≡ expected rows
unfolding stepped
all_end = refl
"""
REGIONS = "code stack processor context ram xip map table".split()
STATE = ["read", "write"] + REGIONS
ROW = "Row runs returns jumps faults calls asks reply versions same x sp nzcv pc bytes ◌&◌ no_encoder".split()

# Calls of the guard's helper: the register that holds its address, register 1, the answer with the upper half of register 0, the break
# word, register 30, flags, the number that gives the rest, and the versions afterwards: the context's and those of two guards.
HELPER = 0x600000020
GUARDS = (
    (9, 0x750000000, 1, 0, 0x2FFFFFFF84, 0, 11, (7, 7, 9)),
    (9, 0x760000000, 0, 1, 0x1122334455667788, 15, 12, (2**64 - 1, 0, 2**63)),
    (16, 0xFEDCBA9876543210, 0xFFFFFFFF00000000, 0xFFFFFFFF, 0, 4, 13, (0x0102030405060708, 0x1112131415161718, 0x2122232425262728)),
    (28, 0xFFFFFFFF, 0x80000000, 0, 1, 8, 14, (2**32, 2**32 + 1, 2**32 - 1)),
    (30, 0, 0x12345678FFFFFFFF, 0x80000000, 0x2FFFFFFF84, 2, 15, (0, 2**64 - 1, 2**64 - 2)),
)


def number(v):
    return str(v) if v < 10 else hex(v)


def features(c, base):
    """What a vector shows."""
    w, found = c.word, set()
    for p in (0, 5, 10, 16):
        found.add(("31", p, w >> p & 31 == 31))
    found.add(("apart", w & 31 != w >> 5 & 31 != w >> 16 & 31))
    for p in (0, 5, 16):
        if w >> p & 31 in c.x:
            v = c.x[w >> p & 31]
            low = v % 2**32
            found |= {("in", p, low >> 31, v >> 32 != 0), ("sign", p, v >> 63), ("amount", p, v % 64 // 32)}
            found |= {("edge", p, low, 0 in c.x1.values())} if low in (0, 2**31, 2**32 - 1) else set()
    for v in c.x1.values():
        found |= {("out", v >> 31 & 1), ("out", v == 0), ("wide", v >> 32 != 0, v >> 63)}
    found |= {("flags", c.f1), ("sp", c.sp1 is not None), ("leaps", c.pc1 is not None and (c.pc1 > c.pc) + 1)}
    found |= {("imm", p, w >> p & 1) for p in range(10, 24)}
    found |= {("region", r) for r, _ in c.m1}
    found |= {("bit", c.x1 != {}, c.f >> k & 1, k) for k in range(4)} if base == "Select" else set()
    if c.name == "b_cond":
        n, z, carry, v = (c.f >> k & 1 for k in (3, 2, 1, 0))
        found |= {("cond", w & 15, name, pair) for name, pair in (("zc", (z, carry)), ("z=", (z, n == v)), ("nv", (n, v)))}
    return found


def worth(found):
    """Zero, the sign bit alone and all ones count most, a single bit of the word least."""
    return sum({"edge": 9, "imm": 1}.get(f[0], 3) for f in found)


def shows(c):
    return bool(c.x1 or c.m1 or c.sp1 is not None or c.f1 is not None or c.pc1 is not None)


def chosen(cases, base):
    """The vectors that show most, those that change something first."""
    left, seen, out = list(cases), set(), []
    most = MOST_CONDITIONS if cases[0].name == "b_cond" else MOST
    while left and len(out) < most:
        best = max(left, key=lambda c: (shows(c) or len(out) >= 4, worth(features(c, base) - seen)))
        if len(out) >= 4 and not features(best, base) - seen:
            break
        seen |= features(best, base)
        left.remove(best)
        out.append(best)
    return sorted(out, key=cases.index)


def changes(x, sp, f, pc, m):
    out = ["x %d %s" % (k, number(v)) for k, v in sorted(x.items())]
    out += ["sp %s" % number(sp)] if sp is not None else []
    out += ["nzcv %d" % f] if f is not None else []
    out += ["pc %s" % number(pc)] if pc is not None else []
    out += ["bytes %s %d %d %s" % (REGIONS[r], o, len(b), number(int.from_bytes(b, "little"))) for (r, o), b in sorted(m.items())]
    text = " & ".join(out) or "same"
    return "(%s)" % text if " " in text else text


def laid(parts):
    """The parts in lines of at most 140 characters, with room for the list's own."""
    lines = [parts[0]]
    for p in parts[1:]:
        if len(lines[-1]) + len(p) < 134:
            lines[-1] += " " + p
        else:
            lines.append(p)
    return "\n    ".join(lines)


def row(c, vec):
    k, inside = divmod(c.pc - vec.PC0, 4)
    outside = inside or not 0 <= k < 16
    # where no word is fetched the code's bytes do not matter
    start = changes(c.x, c.sp if c.sp != vec.SP0 else None, c.f or None, c.pc if outside else None, {} if outside else c.m)
    place = ["%d 0x%08x" % (0 if outside else k, c.word), start]
    if c.e >= 10:
        return laid(["faults %d" % c.e] + place)
    if c.q:
        (q,) = c.q
        asked = "(%s %s)" % ("write" if q[0] else "read", " ".join(map(number, q[1:])))
        replies = ["reply %s %d" % (" ".join(map(number, o[:4])), o[4]) for o in c.o]
        left = "(%s ∷ [])" % replies[1] if replies[1:] else "[]"
        return laid(["calls"] + place + [asked, "(%s)" % replies[0], left])
    return laid([("runs", "returns", "jumps")[c.e]] + place + [changes(c.x1, c.sp1, c.f1, c.pc1, c.m1)])


def file(out, name, what, text):
    words = set(re.findall(r"\b[a-zA-Z_]+|&", re.sub(r"--.*", "", text))) | {"Row"}
    state = ", ".join(n for n in STATE if n in words)
    row = ", ".join(n for n in ROW if n.strip("◌") in words)
    with open(os.path.join(out, name + ".antt"), "w") as f:
        f.write(HEAD % (what, "use Rattle.machine.specs.State.{%s}\n" % state if state else "", row, text))


def written(out, name, what, groups, vec):
    """A file of groups of rows, each with its comment."""
    lines = []
    for title, cases in groups:
        lines.append("-- " + title)
        for c in cases:
            lines.append(("∷ " if len(lines) > 1 else "") + row(c, vec))
    file(out, name, what, "\n    ".join(lines + ["∷ []"]))
    return sum(len(cases) for _, cases in groups)


def guard_row(k, case):
    """The row of a call of the guard's helper, at place k of the code."""
    register, address, answer, brk, link, flags, seed, versions = case
    start = changes({1: address, register: HELPER}, None, None, None, {})
    reply = "(reply %s %d)" % (" ".join(map(number, (answer, brk, link, flags))), seed)
    given = "(versions %s)" % " ".join(map(number, versions))
    return laid(["asks %d 0x%08x" % (k, 0xD63F0000 | register << 5), start, number(address), reply, given])


def spread(cases, n, first):
    """n of the cases, evenly, from the first on."""
    return [cases[(k * len(cases) // n + first) % len(cases)] for k in range(n)] if len(cases) > n else cases


def main():
    folder, out = sys.argv[1:]
    sys.path.insert(0, folder)
    sys.dont_write_bytecode = True
    import vec
    read = {n: vec.read(os.path.join(folder, "vectors", n + ".txt")) for n in ("instructions", "machine", "words", "grey")}
    by_name = {}
    for c in read["instructions"]:
        by_name.setdefault(c.name, []).append(c)
    counts, encoders = {}, {}
    for name, what in FILES.items():
        source = open(os.path.join(A64, name.lower() + ".rt")).read()
        names = re.findall(r"^pub fn (\w+)", source, re.M) + (["ldr_lit_x"] if name == "Control" else [])
        groups = [(n, chosen(by_name[n], name)) for n in names]
        encoders.update({n: len(g) for n, g in groups})
        counts[name] = written(out, name, what, groups, vec)
    machine = {}
    for c in read["machine"]:
        kind = ("load" if c.x1 else "store") if c.name == "regions" and c.e == 0 else c.name
        indexed = c.word >> 24 & 63 == 0x38
        encoder = (c.word >> 22, indexed and c.word >> 12 & 1) if kind in ("load", "store", "access", "regions") else 0
        machine.setdefault((kind, encoder), []).append(c)
    of = lambda kind: [cs for (k, _), cs in machine.items() if k == kind]
    some = lambda kind: [c for n, cs in enumerate(of(kind)) for c in spread(cs, EDGES, n)]
    counts["Calls"] = written(out, "Calls", "Helper calls, and 20 where no outcome is left", [
        ("read", machine["call_read", 0]), ("write", machine["call_write", 0]), ("no outcome", machine["call_empty", 0])], vec)
    file(out, "Guards", "Calls of a guard's helper", "\n    ∷ ".join(guard_row(k, c) for k, c in enumerate(GUARDS)) + "\n    ∷ []")
    counts["Guards"] = len(GUARDS)
    counts["Regions"] = written(out, "Regions", "Accesses in each region; 19 outside, across an end, into code or flash", [
        ("no whole word of the code", machine["fetch", 0]), ("loads", some("load")), ("stores", some("store")),
        ("into code or flash", some("regions")), ("not wholly in one region", some("access"))], vec)
    refused = [("no instruction of an encoder's class", read["words"]), ("an instruction that no encoder has", read["grey"])]
    lines = []
    for title, cases in refused:
        lines += ["-- " + title] + [" ∷ ".join("0x%08x" % c.word for c in cases[k:k + 9]) + " ∷" for k in range(0, len(cases), 9)]
    file(out, "Words", "18, a word of no encoder", "no_encoder (\n    " + "\n    ".join(lines) + "\n    [])")
    counts["Words"] = sum(len(cases) for _, cases in refused)
    with open(os.path.join(out, "Lib.antt"), "w") as f:
        f.write("".join("pub mod %s\n" % n for n in counts))
    print(counts, "rows", sum(counts.values()))
    print(len(encoders), "encoders, at least", min(encoders.values()), "rows each,", sum(encoders.values()), "in all")


if __name__ == "__main__":
    main()
