#!/usr/bin/env python3
"""Spells this repository's definitions and lemmas as the library's: words in snake case, a dash between two names alone.

usage: tools/respell.py [FILE ..]       with no file: every .rt and .antt file below crates/

tools/respelled.tsv has a row for each name: what port.py left, a tab, what it is now. Whole names alone turn: in code everywhere but in
strings; in comments those in backticks, those that the file's own code has, and those that no prose has, as camelCase. It was run once, on
the tree that port.py had made, before `rt fmt`. Given a page of docs/ it turns the names in backticks.
"""
import re
import sys
from pathlib import Path

TOP = Path(__file__).resolve().parent.parent
ROWS = dict(line.split("\t") for line in (TOP / "tools/respelled.tsv").read_text().splitlines())
NAME = r"[^\s(){}\[\].;,@\"«»`]+"
COMMENT = {".antt": r"(?<![^\s(){}.;,@\"«»])--[^\n]*", ".rt": r"//[^\n]*"}


def turned(text):
    return re.sub(NAME, lambda m: ROWS.get(m[0], m[0]), text)


def spans(text):
    return re.sub(r"`[^`\n]*`", lambda m: turned(m[0]), text)


def comment(text, names):
    plain = lambda m: ROWS.get(m[0], m[0]) if m[0] in names or re.search(r"[a-z0-9][A-Z]", m[0]) else m[0]
    return re.sub(NAME, plain, spans(text))


def respelled(path):
    text = path.read_text()
    if path.suffix not in COMMENT:
        return spans(text)
    parts = re.split(rf"({COMMENT[path.suffix]}|\"(?:\\.|[^\"\\\n])*\")", text)
    names = set(re.findall(NAME, " ".join(parts[::2])))
    for i, part in enumerate(parts):
        parts[i] = turned(part) if i % 2 == 0 else part if part.startswith('"') else comment(part, names)
    return "".join(parts)


def main():
    paths = [Path(p) for p in sys.argv[1:]] or sorted(p for e in ("rt", "antt") for p in TOP.glob(f"crates/**/*.{e}") if "/out/" not in str(p))
    for path in paths:
        if (new := respelled(path)) != path.read_text():
            path.write_text(new)


if __name__ == "__main__":
    main()
