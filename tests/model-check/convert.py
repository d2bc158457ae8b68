#!/usr/bin/env python3
"""Check vectors against a model in antt.

    python3 convert.py REPO ADAPTER.antt DEPS VECTORS.txt.. [--per N] [--crates K] [--keep DIR] [--only NAME,..] [--first N]

REPO        a Rattle repository (crates.txt, crates/) that holds the model
ADAPTER     a file that declares `unfoldable pub run : ℕ → Start → End` (see Cases.antt.txt)
DEPS        the crates that the adapter names, with commas
--per       cases in one computed equation (100)
--crates    crates that the equations are spread over, checked side by side (2)
"""
import argparse
import os
import re
import shutil
import subprocess
import sys
import tempfile
import time

import vec

HERE = os.path.dirname(os.path.abspath(__file__))


def nums(v):
    return " ∷ ".join(["%d" % n if n < 1000 else "0x%x" % n for n in v] + ["[]"])


def items(v):
    return "(" + " ∷ ".join(v + ["[]"]) + ")" if v else "[]"


def hx(n):
    return "%d" % n if n < 1000 else "0x%x" % n


def regs(d):
    return items(["%d ≔ %s" % (i, hx(v)) for i, v in sorted(d.items())])


def puts(d):
    return items(["put %d %d %d %s" % (r, o, len(b), hx(int.from_bytes(b, "little"))) for (r, o), b in sorted(d.items())])


def case(c):
    off = c.pc - vec.REGIONS[vec.CODE][1]
    m = dict(c.m)
    if 0 <= off <= vec.REGIONS[vec.CODE][2] - 4 and off % 4 == 0:
        m[vec.CODE, off] = m.get((vec.CODE, off), c.word.to_bytes(4, "little"))
    fault = c.e >= 10
    pc1 = c.pc1 if c.pc1 is not None else c.pc if fault else c.pc + 4
    sp1 = c.sp1 if c.sp1 is not None else c.sp
    f1 = c.f1 if c.f1 is not None else c.f
    if c.e == 0 and not c.o and not c.q:
        return "plain %s %s %s %d %s %s %s %s %d %s %s" % (
            hx(c.word), hx(c.pc), hx(c.sp), c.f, regs(c.x), puts(m), hx(pc1), hx(sp1), f1, regs(c.x1), puts(c.m1))
    outs = []
    for a, b, link, f, seed in c.o:
        outs.append("(record { answer = %s; brk = %s; ram = %s; map = %s; scratch = %s; link = %s; nzcv = %d })" % (
            hx(a), hx(b), nums(vec.outcome_bytes(seed, vec.RAM)), nums(vec.outcome_bytes(seed, vec.MAP)), nums(vec.outcome_scratch(seed, a)), hx(link), f))
    return (
        "record { word = %s; pc = %s; sp = %s; nzcv = %d; x = %s; mem = %s; outcomes = %s; status = %d; pc' = %s; sp' = %s; nzcv' = %d; x' = %s; mem' = %s; requests = %s }"
        % (hx(c.word), hx(c.pc), hx(c.sp), c.f, regs(c.x), puts(m), items(outs), c.e, hx(pc1), hx(sp1), f1, regs(c.x1), puts(c.m1), items(["(" + nums(q) + ")" for q in c.q])))


COMMON = """-- The start that the cases share.
use Rattle.std.specs.Prelude.{{List, [], ◌∷◌, ℕ}}
use Rattle.{crate}.specs.Cases as C
use Rattle.{crate}.specs.Adapter.{{run}}

abbrev pub bases : List ℕ
bases = {bases}

abbrev pub x₀ : List ℕ
x₀ = {x}

abbrev pub mem₀ : List (List ℕ)
mem₀ = {mem}

-- the cases that do not agree, counted from i
abbrev pub failing : ℕ → List C.Case → List ℕ
failing = C.failing bases {read} {write} x₀ mem₀ run
"""

TABLE = """use Rattle.std.specs.Prelude.{{◌≡◌, refl, List, [], ◌∷◌, ℕ}}
use Rattle.{crate}.specs.Cases.{{Case, plain, ◌≔◌, put}}
use Rattle.{crate}.specs.Adapter.{{run}}
use Rattle.{crate}.specs.Common.{{failing}}

abbrev table : List Case
table =
    {rows}
    ∷ []

agrees : failing {first} table ≡ []
unfolding run
agrees = refl
"""


ONE = """
case{i} : failing {i} (({row}) ∷ []) ≡ []
unfolding run
case{i} = refl
"""


def crate(root, name, adapter, chunks, single=False):
    d = os.path.join(root, "crates", name)
    os.makedirs(d + "/src")
    os.makedirs(d + "/specs")
    with open(d + "/src/lib.rt", "w") as f:
        f.write("// Cases of the machine's steps: see specs/.\n#![tactic(auto)]\n")
    for n in ("Cases.antt", "Adapter.antt"):
        text = open(adapter if n == "Adapter.antt" else os.path.join(HERE, n + ".txt")).read()
        open(d + "/specs/" + n, "w").write(text.replace("Rattle.vectors.", "Rattle.%s." % name))
    with open(d + "/specs/Common.antt", "w") as f:
        f.write(COMMON.format(
            crate=name, bases=nums([r[1] for r in vec.REGIONS]), x=nums([vec.base_x(i) for i in range(31)]),
            mem=items(["(" + nums(vec.base_bytes(r)) + ")" for r in range(8)]), read=hx(vec.H_READ), write=hx(vec.H_WRITE)))
    mods = ["Cases", "Adapter", "Common"]
    for first, cs in chunks:
        m = "From%d" % first
        mods.append(m)
        with open("%s/specs/%s.antt" % (d, m), "w") as f:
            text = TABLE.format(crate=name, first=first, rows="\n    ∷ ".join(case(c) for c in cs))
            if single:
                text = text.split("abbrev table")[0] + "".join(ONE.format(i=first + k, row=case(c)) for k, c in enumerate(cs))
            f.write(text)
    open(d + "/specs/Lib.antt", "w").write("".join("pub mod %s\n" % m for m in mods))


def checked(root, names):
    """Checks crates side by side: whether all are proved, and what was said."""
    how = dict(stdout=subprocess.PIPE, stderr=subprocess.STDOUT, text=True)
    runs = [subprocess.Popen(["rt", "check"], cwd=os.path.join(root, "crates", n), **how) for n in names]
    said = [r.communicate()[0] for r in runs]
    return not any(r.returncode for r in runs), "".join(said)


def copied(repo, root):
    """The crates in a folder of their own, without what was made of them."""
    shutil.rmtree(root, ignore_errors=True)
    os.makedirs(root)
    shutil.copytree(os.path.join(repo, "crates"), root + "/crates", ignore=shutil.ignore_patterns("out"))


def main():
    p = argparse.ArgumentParser()
    p.add_argument("repo")
    p.add_argument("adapter")
    p.add_argument("deps")
    p.add_argument("vectors", nargs="+")
    p.add_argument("--per", type=int, default=100)
    p.add_argument("--crates", type=int, default=2)
    p.add_argument("--keep")
    p.add_argument("--only")
    p.add_argument("--first", type=int)
    a = p.parse_args()
    cases = [c for path in a.vectors for c in vec.read(path)]
    if a.only:
        cases = [c for c in cases if c.name in a.only.split(",")]
    cases = cases[: a.first] if a.first else cases
    root = os.path.abspath(a.keep or tempfile.mkdtemp(prefix="vectors"))
    copied(a.repo, root)
    chunks = [(i, cases[i : i + a.per]) for i in range(0, len(cases), a.per)]
    names = ["vectors%d" % k for k in range(min(a.crates, len(chunks)))]
    with open(root + "/crates.txt", "w") as f:
        f.write(open(os.path.join(a.repo, "crates.txt")).read().rstrip("\n") + "\n")
        for n in names:
            f.write("%s: %s\n" % (n, a.deps.replace(",", " ")))
    for k, n in enumerate(names):
        crate(root, n, a.adapter, chunks[k :: len(names)])
    # the model first, so that the time is the cases' own
    for dep in a.deps.split(","):
        proved, text = checked(root, [dep])
        if not proved:
            sys.exit("the model is not proved:\n" + text[-3000:])
    t = time.time()
    proved, text = checked(root, names)
    t = time.time() - t
    if proved:
        print("%d cases agree, %.1f s, %.0f a second" % (len(cases), t, len(cases) / t))
    else:
        failed = sorted({int(n) for n in re.findall(r"From(\d+)\.antt:\d+:\d+: error", text)})
        # once more, an equation a case
        crate(root, "singles", a.adapter, [(i, cases[i : i + a.per]) for i in failed], single=True)
        with open(root + "/crates.txt", "a") as f:
            f.write("singles: %s\n" % a.deps.replace(",", " "))
        text += checked(root, ["singles"])[1]
        open(root + "/output", "w").write(text)
        bad = sorted({int(n) for n in re.findall(r"error: `case(\d+)`", text)})
        print("%d cases, NOT proved, %.1f s; the output is %s/output; cases that differ: %d" % (len(cases), t, root, len(bad)))
        if "step limit" in text:
            print("  an equation stopped at the step limit: try a smaller --per")
        if not bad:
            print("\n".join("  " + m[:500] for m in re.findall(r"^.*error: .*$", text, re.M)[:8]))
        by = {}
        for i in bad:
            by[cases[i].name] = by.get(cases[i].name, 0) + 1
        print("  " + ", ".join("%s %d" % kv for kv in sorted(by.items())))
        for i in bad[:40]:
            print(("  %d: %s" % (i, cases[i].line()))[:240])
    if not a.keep and proved:
        shutil.rmtree(root)
    sys.exit(not proved)


if __name__ == "__main__":
    main()
