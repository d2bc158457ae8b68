"""Turns runs of blocks into equations on the card's definition.

    python3 tools/runs_to_antt.py RUNS LISTING OUT [--per N] [--groups FILE]

RUNS is a file of runs in the format of its own README, with `readruns.py` beside it, or the folder of all such files. LISTING is a command
that prints a record's listing as document 01's blockwords does; it tells the order of a block's chain sites. OUT is the `proofs` folder of
card_runs, or of a copy; it gets a file for each N runs, with a row a run and one equation, and `Lib.antt`. FILE names the runs that are
wanted, by groups: a line `Name: what it holds` starts a file, the lines behind it name its runs. The crate's own files are those of
tools/card_runs.txt.
"""
import argparse
import os
import re
import shlex
import subprocess
import sys

OPS = "Add Sub RSub And AndNot Or Xor Mul Shl Shr Sar".split()
RMW = "RmwOr RmwAnd RmwXor RmwAdd RmwSub RmwMov".split()
CONDS = "Eq Ne LtU GtU LeU GeU LtS GtS LeS GeS".split()
RK = "RkReg RkImm RkBit".split()
PARTS = "PartByte PartHalf PartUpper".split()
CHOICES = "MinS MaxS MinU MaxU".split()
UN = "Not Neg Abs Rev Clz SatS SatU".split()
DIV = "QuoS QuoU RemS RemU".split()
AMOUNT = "ByReg ByInc".split()
WIDTHS = {1: "B8", 2: "B16", 4: "B32"}

# how each operand of a kind is written; a letter an operand: n number, b base, f flag, w width, i and inc together at i's place, and the
# selectors
FORMS = {0: "", 1: "nn", 2: "nn", 3: "nnn", 4: "nnn", 5: "nnn", 6: "nnno", 7: "nnno", 8: "nno", 9: "nno", 10: "nnorn", 11: "nnpf",
         12: "nnnc", 13: "nnu", 14: "nnnd", 15: "nnnn", 16: "nnn", 17: "nnnnf", 18: "nnnn", 19: "n", 20: "nn", 21: "nbnwf", 22: "nbnw",
         23: "nnnnwf", 24: "nnnnw", 25: "nnwfn", 26: "nnwn", 27: "nwmnn", 28: "", 29: "", 30: "nnqn", 31: "nnqn", 32: "nqnn", 33: "nrfnn",
         34: "n", 35: "n", 36: "", 37: "n", 38: "n", 39: "", 40: "nnfff", 41: "n", 42: "n", 43: "nbn", 44: "nbn",
         45: "nniwf ", 46: "nniw ", 47: "nnnwf", 48: "nnorn", 49: "nf"}
TABLES = {"o": OPS, "m": RMW, "q": CONDS, "r": RK, "p": PARTS, "c": CHOICES, "u": UN, "d": DIV}

# what the groups go through, to be unfolded: of the card, and of the block
WALKS = {"BlockMove": ("load_all store_all", "places"), "PushRets": ("push_all", "up_from"), "PopPc": ("pop_all", "up_from"),
         "LdPair": ("load_all", ""), "StPair": ("store_all", "")}


def flag(v):
    return "true" if v else "false"


def number(v):
    return str(v) if v < 10 else hex(v)


def operand(form, v):
    if form == "n":
        return number(v)
    if form == "f":
        return flag(v)
    if form == "w":
        return WIDTHS[v]
    if form == "b":
        return "Sp" if v == 16 else f"(Reg {v})"
    names = TABLES[form]
    return names[min(v, len(names) - 1)]


def amount(i, inc):
    return f"(ByReg {number(i)})" if i < 16 else f"(ByInc {number(inc)})"


def operation(o, names):
    form = FORMS[o.kind]
    written = (amount(v, o.operands[-1]) if f == "i" else operand(f, v) for f, v in zip(form, o.operands, strict=True) if f != " ")
    fast = " ".join([names[o.kind], *written])
    return f"op {f'({fast})' if form else fast} {number(o.length)} {flag(o.glue)}"


def listed(items):
    return "".join(f"{i} ∷ " for i in items) + "[]"


def arg(text):
    return f"({text})" if " " in text else text


def bytes_(b):
    pieces = [b[k:k + 60] for k in range(0, len(b), 60)]
    return " ++ ".join(f"hex {len(p)} 0x{p.hex()}" for p in pieces) or "[]"


def width(text):
    """The length of a text without the underscores of its names: where lines break does not hang on these."""
    return len(text.replace("_", ""))


def filled(parts):
    """The parts in lines of at most 140 characters; one that is too long is broken too."""
    parts = [q for p in parts for q in ([p] if width(p) < 135 else p.split(" "))]
    lines = [parts[0]]
    for p in parts[1:]:
        if width(lines[-1]) + width(p) < 134:
            lines[-1] += " " + p
        else:
            lines.append(p)
    return "\n    ".join(lines)


def request(q):
    if q[0] in ("read", "guard"):
        return " ".join([q[0], *map(number, q[1:])])
    _, address, value, width, index = q
    return "write " + " ".join(map(number, (address, width, index, value)))


def site(run, listing):
    """The number of the chain site that the run leaves by, as it is listed."""
    out = subprocess.run(shlex.split(listing), input=run.record, stdout=subprocess.PIPE, check=True).stdout.decode()
    places = [int(line.split()[1]) for line in out.splitlines() if line.startswith("site")]
    return places.index(run.site)


def leaving(run, listing):
    if run.left == "chain":
        return f"by_chain {site(run, listing)}"
    return {"return": "by_return", "table": "by_table"}[run.left]


def changes(s, e):
    """In what the end differs from the start."""
    out = [f"reg {k} {number(v)}" for k, (u, v) in enumerate(zip(s.regs, e.regs)) if u != v]
    out += [f"{n} {number(getattr(e, n))}" for n in CELLS if getattr(s, n) != getattr(e, n)]
    out += [f"{n} {number(v)}" for n, u, v in zip(VERSIONS, s.versions or (), e.versions or ()) if u != v]
    out += [f"{n} {arg(bytes_(getattr(e, n) or b''))}" for n in ("ram", "map") if (getattr(s, n) or b"") != (getattr(e, n) or b"")]
    return [f"({out[0]}"] + [f"& {c}" for c in out[1:-1]] + [f"& {out[-1]})"] if len(out) > 1 else [arg(out[0])]


def spread(items):
    """A list as an argument, an item a part."""
    items = list(items)
    return [f"({items[0]}"] + [f"∷ {i}" for i in items[1:]] + ["∷ [])"] if items else ["[]"]


def outcome(o):
    text = f"outcome {number(o.answer)} {number(o.brk)} {arg(bytes_(o.ram))} {arg(bytes_(o.map or b''))}"
    return f"leaving {' '.join(map(number, o.versions))} ({text})" if o.versions else text


def case(run, listing, names):
    b, s, e = run.block, run.start, run.end
    outcomes = map(outcome, run.outcomes)
    memory = " ".join(map(number, b.mem))
    ops = spread(operation(o, names) for o in b.ops)
    code = [f"(block (memory {memory} {flag(b.map)}) {number(b.pc0)}"] + ops[:-1] + [ops[-1] + ")"]
    if b.guard:
        code = [f"(guarded {number(b.guard[0])}"] + code[:-1] + [code[-1] + ")"]
    code = [f"runs {code[0]}"] + code[1:]
    low, high = ("0x" + "".join("%08x" % r for r in half) for half in (s.regs[:8], s.regs[8:]))
    cells = [number(getattr(s, n)) for n in CELLS]
    given = spread(outcomes)
    card = [f"(card (regs {low}", f"{high})"] + cells + [arg(bytes_(s.ram)), arg(bytes_(s.map or b""))] + given[:-1] + [given[-1] + ")"]
    if b.guard:
        card = ["(versions " + " ".join(map(number, (s.versions[0], b.guard[0], s.versions[1])))] + card[:-1] + [card[-1] + ")"]
    table = arg(listed(f"entry {number(i)} {number(g)}" for i, (g, _) in sorted(run.table.items())))
    end = [table, arg(leaving(run, listing))] + changes(s, e) + spread(map(request, run.requests))
    return "\n    ".join(filled(parts) for parts in (code + [arg(bytes_(s.xip)), number(s.limit)], card, end))


HEAD = """-- %s: each run reaches its end.
use mathlib.Core.Bool.{true, false}
use mathlib.Core.List.{List, [], ◌∷◌%s}
use mathlib.Core.Path.{◌≡◌, refl}
%s
use Rattle.card.specs.Word.{signed_of, sign_extend, leading_zeros}
use Rattle.card.specs.Memory.{read_le, write_le, load, direct, store}
use Rattle.card.specs.Step.{%s}
use Rattle.card.specs.Run.{ops_from, run}
use Rattle.card_runs.specs.Case.{Case, runs, reached, expected, block, memory, op, hex, regs, card}
%s

abbrev cases : List Case
cases =
    %s
    ∷ []

pub all_reach : reached cases ≡ expected cases
unfolding run ops_from op_step load direct store read_le write_le signed_of sign_extend leading_zeros%s
all_reach = refl
"""
CELLS = "sp rets hold brk pc done".split()
VERSIONS = "version guard_version".split()
CASE = "guarded outcome leaving versions entry by_return by_table by_chain reg".split() + CELLS + VERSIONS + ["ram", "map", "◌&◌"]


def walks(text):
    """What the groups in a file's text go through, of the card and of the block."""
    found = [WALKS[n] for n in WALKS if re.search(rf"\b{n}\b", text)]
    return [list(dict.fromkeys(" ".join(names).split())) for names in zip(*found)] or [[], []]


def uses(text, names):
    """The imports of a file's text, those that it needs."""
    found = set(re.findall(r"\b[A-Za-z0-9_]+|&|\+\+", text))
    kinds = [("Op", OPS, ""), ("RmwOp", RMW, "Rmw"), ("Cond", CONDS, ""), ("Base", ["Reg", "Sp"], ""), ("Amount", AMOUNT, "By"),
             ("Width", list(WIDTHS.values()), ""), ("Rk", RK, "Rk"), ("Part", PARTS, "Part"), ("Choice", CHOICES, ""), ("UnKind", UN, ""),
             ("DivKind", DIV, ""), ("Fast", names, "")]
    variants = {"B8": "Byte as B8", "B16": "Half as B16", "B32": "Word as B32"}
    lines = []
    for kind, all_names, prefix in kinds:
        own = [variants.get(n, f"{n[len(prefix):]} as {n}" if prefix else n) for n in all_names if n in found]
        for k in range(0, len(own), 8):
            lines.append(f"use Rattle.block.specs.declared.{kind}.TheVariants.{{{', '.join(own[k:k + 8])}}}")
    steps, registers = walks(text)
    lines += [f"use Rattle.block.specs.Block.{{{', '.join(registers)}}}"] if registers else []
    asked = [n for n in ("read", "write", "guard") if n in found]
    lines += [f"use Rattle.card.specs.Card.{{{', '.join(asked)}}}"] if asked else []
    own = [n for n in CASE if n.strip("◌") in found]
    cut = len(own) if width(", ".join(own)) < 95 else 12
    case = [f"use Rattle.card_runs.specs.Case.{{{', '.join(part)}}}" for part in (own[:cut], own[cut:]) if part]
    return "\n".join(lines), ", ".join(["op_step"] + steps), "\n".join(case)


def groups(path, runs):
    """The file's groups of runs: (name, what it holds, runs)."""
    found, by_name = [], {r.name: r for r in runs}
    with open(path) as f:
        for line in f:
            if ":" in line:
                name, text = line.split(":", 1)
                found.append((name, text.strip(), []))
            else:
                found[-1][2].extend(by_name[n] for n in line.split())
    return found


def main():
    p = argparse.ArgumentParser(description=__doc__, formatter_class=argparse.RawDescriptionHelpFormatter)
    p.add_argument("runs")
    p.add_argument("listing")
    p.add_argument("out")
    p.add_argument("--per", type=int, default=30)
    p.add_argument("--groups")
    a = p.parse_args()
    folder = a.runs if os.path.isdir(a.runs) else os.path.dirname(a.runs)
    sys.path.insert(0, os.path.abspath(folder))
    sys.dont_write_bytecode = True
    import readruns
    runs = readruns.read_to(folder, "2026-14") if folder == a.runs else list(readruns.read(a.runs))
    if a.groups:
        parts = groups(a.groups, runs)
    else:
        parts = [(f"Runs{k // a.per}", "Runs of blocks", runs[k:k + a.per]) for k in range(0, len(runs), a.per)]
    os.makedirs(a.out, exist_ok=True)
    for name, text, part in parts:
        with open(os.path.join(a.out, name + ".antt"), "w") as f:
            cases = [f"{'∷ ' if k else ''}{case(r, a.listing, readruns.ALL)}" for k, r in enumerate(part)]
            rows = "\n    ".join(f"-- {r.name}\n    {c}" for r, c in zip(part, cases))
            bare = re.sub("--.*", "", rows)
            unfolded = "".join(f" {n}" for names in walks(bare) for n in names)
            f.write(HEAD % ((text, ", ◌++◌" if "++" in rows else "") + uses(bare, readruns.ALL) + (rows, unfolded)))
    with open(os.path.join(a.out, "Lib.antt"), "w") as f:
        f.write("".join(f"pub mod {name}\n" for name, _, _ in parts))
    print(sum(len(part) for _, _, part in parts), "runs in", len(parts), "files")


if __name__ == "__main__":
    main()
