"""Reads the site lines of listings in sequence, as a linking tool does, and sees that their positions rise (2026-05).

    python3 tools/sites.py ORACLE_DIR ORACLE [PROGRAM]

ORACLE_DIR is tests/oracle, ORACLE the program that its build.py makes, and PROGRAM crates/blockwords/out/blockwords, which `rt run` makes
there, or a command like it. The records are those of crates/blockcases/stdin, and those of ROWS; a block of two sites comes twice more,
with the address behind it as its jump's target, so that both sites have one target, and with the address two bytes before or behind that
one, where it jumped behind or before it. Of each that ORACLE accepts PROGRAM's listing is taken, and:

  - its last lines are those of the sites, at most two;
  - their positions rise, and at each stands the word that `link` replaces, a branch to the next word;
  - they are ORACLE's sites, sorted by position.

Prints the table of docs/vectors.md. The exit status is 1 where a listing differs, or where a row has no block of two sites whose targets
rise, none where they are equal, or none where they fall.
"""
import concurrent.futures
import shlex
import struct
import sys
from pathlib import Path

sys.dont_write_bytecode = True
import block_cases

# What draws the records, and the seed that stands for SEED.
ROWS = (
    ("blocks.py SEED 60000 --kinds 44 --damaged 0", "50501"),
    ("blocks.py SEED 20000 --request 2026-04 --damaged 0", "50502"),
    ("blocks.py SEED 8000 --damaged 0", "50503"),
    ("blocks.py SEED 10000 --kinds 44 --guards --damaged 0", "60612"),
    ("blocks.py SEED 10000 --kinds 49 --guards --damaged 0", "90914"),
)

UNLINKED = 0x14000001  # B to the next word


def accepted(oracle, records):
    """The records that the oracle accepts, each with its sites sorted by position."""
    answers = block_cases.answered(oracle, block_cases.drawn(oracle, records))
    return [(record, sorted(block_cases.listed(listing)[2])) for _, record, listing in answers if listing[0][0] == "words"]


def aimed(record, target):
    """A record whose last operation jumps to another target, its last operand."""
    return record[:-4] + struct.pack("<I", target % 2**32)


def turned(blocks):
    """Of each block of two sites, the address behind it being the first one's target: its records with other targets."""
    for record, sites in blocks:
        if len(sites) == 2:
            (_, behind), (_, target) = sites
            yield from (aimed(record, t) for t in (behind, behind - 2 if target > behind else behind + 2))


def different(program, record, sites):
    """What is wrong with the program's site lines, or None."""
    listing = block_cases.answer(program, record)
    if listing[0][0] != "words":
        return " ".join(listing[0])
    of_site = [line[0] == "site" for line in listing]
    if of_site != sorted(of_site):
        return "another line behind a site's"
    words, _, found = block_cases.listed(listing)
    positions = [at for at, _ in found]
    if any(p >= q for p, q in zip(positions, positions[1:])):
        return f"positions {positions}"
    if any(at >= len(words) or words[at] != UNLINKED for at in positions):
        return f"another word at one of {positions}"
    return None if found == sites else f"sites {found}, not {sites}"


def order(sites):
    """How the targets of two sites stand."""
    (_, first), (_, second) = sites
    return "rise" if first < second else "fall" if second < first else "equal"


def sets(folder):
    """Name, seed and records of each row of the table."""
    yield "the records of `blockcases`, each once", "", block_cases.frozen()
    for command, seed in ROWS:
        yield f"`{command}`", seed, block_cases.draw(folder, command.replace("SEED", seed))


def main():
    if len(sys.argv) < 3:
        sys.exit(__doc__)
    folder, oracle, *given = sys.argv[1:]
    program = shlex.split(given[0]) if given else [str(block_cases.TOP / "crates/blockwords/out/blockwords")]
    oracle = [str(Path(oracle).resolve())] + block_cases.OPTIONS
    total = wrong = empty = 0
    for name, seed, records in sets(Path(folder)):
        blocks = accepted(oracle, records)
        blocks += accepted(oracle, list(turned(blocks)))
        with concurrent.futures.ThreadPoolExecutor() as pool:
            found = list(pool.map(lambda b: different(program, *b), blocks))
        for (record, _), reason in zip(blocks, found):
            if reason:
                print(f"{record.hex()}: {reason}")
        orders = [order(sites) for _, sites in blocks if len(sites) == 2]
        cells = [len(blocks)] + [sum(len(sites) == k for _, sites in blocks) for k in range(3)]
        cells += [orders.count(o) for o in ("rise", "equal", "fall")]
        total, wrong = total + len(blocks), wrong + sum(reason is not None for reason in found)
        empty += 0 in cells[-3:]
        print(f"| {name} | {seed} | " + " | ".join(f"{c:,}" for c in cells) + " |", flush=True)
    print(f"{total:,} blocks; that differ: {wrong}; rows without one of the three orders: {empty}")
    sys.exit(1 if wrong or empty else 0)


if __name__ == "__main__":
    main()
