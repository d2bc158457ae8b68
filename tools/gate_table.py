#!/usr/bin/env python3
"""What the gate did, by crate, from what .ci/run printed: python3 tools/gate_table.py LOG

A row for each crate: how many functions its check proved, `kept` where an earlier run on the machine had proved the same files; how many
must-fail edits were refused, and how many were not, were bad or were not tried. rt tells no times; docs/GATE.md has the whole run's."""
import re
import sys

proofs, refused, others, crate = {}, {}, {}, None
for line in open(sys.argv[1], encoding="utf-8"):
    if m := re.match(r"== (\w+)$|rt: (\w+) is kept\b", line):
        crate = m[1] or m[2]
        proofs.setdefault(crate, "kept" if m[2] else "")
    elif m := re.match(r"logic=proved .*?\bfunctions=(\d+)", line):
        proofs[crate] = proofs[crate] or m[1]
    elif m := re.match(r"rt: must-fail (\w+)/[\w.-]+: (refused\b|BAD EDIT|NOT )", line):
        of = refused if m[2] == "refused" else others
        of[m[1]] = of.get(m[1], 0) + 1
print("| Crate | Functions | Edits refused | Not refused, bad, not tried |\n|---|---|---|---|")
for name in proofs:
    print(f"| {name} | {proofs[name]} | {refused.get(name, '')} | {others.get(name, '')} |")
functions = sum(int(n) for n in proofs.values() if n.isdigit())
print(f"| all {len(proofs)} | {functions} | {sum(refused.values())} | {sum(others.values())} |")
