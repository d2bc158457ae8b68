"""docs/TRUSTED.md: what a reader must believe, by closure from the public contracts, with a checksum a file.

    tools/lint --trusted        # writes the list anew, below the document's own text

A row is a file with those of its definitions that a public contract leans on, their lines without comments, and the first twelve digits
of the SHA-256 of their text without comments and blanks, with the imports that they use, followed to where they are defined. So a comment,
a reformat or a new proof changes no sum, and another meaning does, a name that a file in between passes on otherwise too.
"""
import hashlib
import re

from antt import TOP

DOCUMENT = TOP / "docs/TRUSTED.md"
LIST = "## The list\n"

# The files whose public functions are the entries, and the files of statements that a reader asks for.
ENTRIES = ("translation/src/lib.rt", "compile/src/lib.rt", "record/src/lib.rt", "werfund/src/lib.rt", "werfund_c/src/lib.rt",
           "a64/src/", "floats/src/", "constants/src/", "chain/src/lib.rt", "blockwords/src/main.rt")
CLAIMS = (
    "/specs/Claims.antt",
    "demand/specs/Claim.antt",
    "demand/specs/Next.antt",
    "lowering/specs/Recency.antt",
    "lowering/specs/Commit.antt",
    "answers/specs/Sites.antt",
)

# The crates of each group; a crate in none of them stands in the last.
GROUPS = (
    ("The Arm manual and the encoders", "arm words chain constants floats a64"),
    ("The record", "block faults operands operation fields record"),
    ("The lowering", "code lowering"),
    ("The card", "card"),
    ("The machine", "machine"),
    ("Demand 3", "demand"),
    ("The answers", ""),
)


def entries(crates):
    """The public functions, by their signatures and contracts."""
    for place, file in crates.items():
        if place.startswith(ENTRIES):
            yield from (d for d in file.definitions.values() if re.match(r" *pub (extern \"C\" )?fn |fn put_translation", d.lines[0]))
        elif place.endswith(CLAIMS):
            yield from file.definitions.values()


def checksum(crates, file, definitions):
    names = set().union(*(d.names | d.cited for d in definitions))
    imports = sorted(f"{n}={'='.join(crates.way(file, n))}" for n in file.imports if n in names or "◌" in n)
    text = "".join(imports + file.marks + [line for d in definitions for line in d.lines])
    return hashlib.sha256(re.sub(r"\s", "", text).encode()).hexdigest()[:12]


def rows(crates):
    """The list's lines: by groups, a row a file; then the sums."""
    found, lines = {}, {"specs": 0, "src": 0}
    for d in crates.closure(entries(crates)):
        found.setdefault(d.file.place, []).append(d)
    group_of = {c: g for g, names in GROUPS for c in names.split()}
    for group, _ in GROUPS:
        yield from ("", f"### {group}", "", "| File | Definitions | Lines | Sum |", "|---|---|---|---|")
        for place in sorted(p for p in found if group_of.get(p.split("/")[0], GROUPS[-1][0]) == group):
            file, ds = crates[place], sorted(found[place], key=lambda d: d.line)
            others = [d for d in file.definitions.values() if d not in ds]
            listed = ", ".join(f"`{d.name}`" for d in (ds if len(ds) <= len(others) else others))
            names = listed if len(ds) <= len(others) else f"all {len(ds)}" if not others else f"{len(ds)}: all but {listed}"
            count = sum(len(d.lines) for d in ds)
            lines[place.split("/")[1]] += count
            yield f"| crates/{place} | {names} | {count} | {checksum(crates, file, ds)} |"
    yield from ("", f"In all {lines['specs']:,} lines of definitions in specs/, and {lines['src']:,} of contracts and types in src/.")


def write(crates):
    head = DOCUMENT.read_text().split(LIST)[0]
    DOCUMENT.write_text(head + LIST + "\n".join(rows(crates)) + "\n")


def findings(crates):
    """The rows that are not as in the document. Lines are told for the reader's sake, and not compared."""
    def row(line):
        cells = [c.strip() for c in line.split("|")]
        return (cells[1], cells[2], cells[4]) if len(cells) == 6 and cells[1].startswith("crates/") else None
    said = {row(line): i for i, line in enumerate(DOCUMENT.read_text().split("\n"), 1) if row(line)}
    now = {row(line) for line in rows(crates) if row(line)}
    for r in sorted(now ^ set(said)):
        text = "is no more what is believed" if r in said else "is believed, and not listed"
        yield f"docs/TRUSTED.md:{said.get(r, 1)}: {r[0]}, sum {r[2]}, {text}"
