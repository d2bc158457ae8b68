#!/usr/bin/env python3
"""Where src/ has forms that docs/DESIGN-PASS.md speaks of: tools/places.py [COMMIT] [--list POINT]

A line a kind of place: the point, the kind, how many places there are in crates/*/src/*.rt of the commit, or of the tree where none is
named. With --list POINT each place of that point, file and line first. Two kinds are found otherwise than by a pattern on a line:

  2 twins        functions of one crate with the same text but for types, cases, constants, numbers and the name of one function that is called
  5 facts        a `requires` that three or more functions of one crate have
  5 parameters   three or more neighbouring parameters, by name and type, that five or more functions have
"""
import re
import subprocess
import sys
from collections import defaultdict
from pathlib import Path


def run(*words):
    return subprocess.run(["git", *words], capture_output=True, text=True, check=True).stdout


def sources(commit):
    if commit:
        names = [n for n in run("ls-tree", "-r", "--name-only", commit, "crates").split("\n") if re.fullmatch(r"crates/\w+/src/.*\.rt", n)]
        return {n: run("show", f"{commit}:{n}") for n in names}
    return {str(p): p.read_text(encoding="utf-8") for p in sorted(Path().glob("crates/*/src/**/*.rt"))}


FN = re.compile(r'^[ \t]*(?:pub(?:\([^)]*\))? )?(?:extern "C" )?fn (\w+)(?:<[^\n({]*>)?\(', re.M)


def functions(text):
    """Name, line, parameters, clauses, body of each function with a body."""
    for m in FN.finditer(text):
        depth, i = 1, m.end()
        while depth:
            depth += {"(": 1, ")": -1}.get(text[i], 0)
            i += 1
        parameters = text[m.end():i - 1]
        start = re.compile(r"\{\n").search(text, i)
        brace = text.find("\n{\n", i - 1)
        same = re.match(r"[^\n;]*\{\n", text[i:])
        begin = i + same.end() if same and "ensures" not in same[0] else brace + 3
        if begin < 3 or not start:
            continue
        indent = re.match(r"[ \t]*", m[0])[0]
        end = text.find("\n" + indent + "}", begin - 1)
        yield m[1], text.count("\n", 0, m.start()) + 1, parameters, text[i:begin], text[begin:end]


def split(parameters):
    parts, depth, part = [], 0, ""
    for c in parameters:
        depth += {"(": 1, "[": 1, "<": 1, ")": -1, "]": -1, ">": -1}.get(c, 0)
        if c == "," and not depth:
            parts.append(part)
            part = ""
        else:
            part += c
    return [" ".join(p.split()) for p in parts + [part] if p.strip()]


def bare(text):
    text = re.sub(r"//[^\n]*", "", text)
    text = re.sub(r"\b(?:[A-Z]\w*::)*[A-Z]\w*\b|\b0x[0-9a-f_]+\b|\b[0-9][0-9_]*(?:u8|u16|u32|u64|usize)?\b", "#", text)
    return re.sub(r"\s+", " ", text)


LINES = {
    "1 own Option or Result": r"^\s*(?:Refused\(|Fault\(u32|Nothing,|Short\(|Ended[,(]|Long,)",
    "1 flag beside a value": r"^\s*pub (?:fit|long|answer): ",
    "1 number of a refusal": r"Refused\((?:\d+|UNKNOWN|calls::UNKNOWN)|Fault\(\d+\)|refused\((?:\d+|\w+), (?:\d+|at)\)|^\s*return (?:1|2|4|5|6|7|14|15|16);|NO_NUMBERS,",
    "1 number of a kind": r"\bkind: u8\b|-> u8\n?.*kind_of|^const (?:EQ|NE|HS|LO|HI|LS|GE|LT|GT|LE): u32",
    "3 index loop": r"^\s*while .*(?:<|0 <)",
    "3 counted turns": r"for _ in 0\.\.u64::MAX",
    "6 buffer and position": r"\bout: &mut \[u8\], at: usize",
    "6 arrays side by side": r"^\s*pub (?:guest|dirty|order|at|target|values): \[",
    "6 number of entries beside": r"^\s*pub (?:n|count|len): (?:u32|usize)",
    "7 chosen step": r"^enum Stop|^pub enum Fixed|\bstore: bool,$|^fn stops",
}


def places(texts):
    found = defaultdict(list)
    by_body, by_fact, by_parameters = defaultdict(list), defaultdict(list), defaultdict(set)
    for name, text in texts.items():
        crate = name.split("/")[1]
        for n, line in enumerate(text.split("\n"), 1):
            for kind, pattern in LINES.items():
                if re.search(pattern, line):
                    found[kind].append((name, n, line.strip()))
        for f, n, parameters, clauses, body in functions(text):
            alone = re.fullmatch(r"\s*match \*?\w+ \{\n((?:\s*[\w:]+(?:\([_ ,]*\)| \{ \.\. \})? => [\w:]+,\n)+)\s*\}", body)
            if alone and alone[1].count("=>") > 1:
                found["4 conversion by cases"].append((name, n, f))
            types = " ".join(p.split(": ", 1)[-1] for p in split(parameters))
            shape = bare(types) + "|" + re.sub(r"\b\w+(::\w+)*\(", "f(", bare(body), count=1)
            by_body[crate, shape].append((name, n, f))
            for fact in re.findall(r"requires \{ ([^\n]*) \}", clauses):
                by_fact[crate, fact].append((name, n, f))
            ps = split(parameters)
            for i in range(len(ps) - 2):
                by_parameters[", ".join(ps[i:i + 3])].add((name, n, f))
    for group in by_body.values():
        if len(group) > 1:
            found["2 twins"] += group
    for (crate, fact), group in by_fact.items():
        if len(group) > 2:
            found["5 facts"] += [(p, n, f"{f}: {fact}") for p, n, f in group]
    together = set()
    for ps, group in by_parameters.items():
        if len(group) > 4 and "self" not in ps:
            together |= group
    found["5 parameters"] = sorted(together)
    return found


def main():
    words = sys.argv[1:]
    point = words[words.index("--list") + 1] if "--list" in words else None
    commit = next((w for w in words if w != "--list" and w != point), None)
    found = places(sources(commit))
    kinds = [*LINES, "2 twins", "4 conversion by cases", "5 facts", "5 parameters"]
    for kind in sorted(kinds):
        if point is None:
            print(f"{kind}: {len(found[kind])}")
        elif kind.startswith(point):
            for path, line, what in found[kind]:
                print(f"{path}:{line}: {kind[2:]}: {what}")


main()
