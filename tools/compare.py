"""Compares `blockcases` with the oracle on drawn records, far more than are frozen, and prints the table of docs/vectors.md.

    python3 tools/compare.py ORACLE_DIR ORACLE [PROGRAM]

ORACLE_DIR is tests/oracle, ORACLE the program that its build.py makes, and PROGRAM crates/blockcases/out/blockcases, which `rt run` makes
there, or one like it. For each of ROWS the records are drawn, their cases made as by tools/block_cases.py, and PROGRAM is run on them. The
exit status is 1 where it finds one that differs, or where a row has no case.
"""
import subprocess
import sys
import tempfile
from pathlib import Path

sys.dont_write_bytecode = True
import block_cases

TOP = Path(__file__).resolve().parent.parent

# How records become cases, what draws them, and the seeds that stand for SEED.
ROWS = (
    ("drawn", "blocks.py SEED 50000 --kinds 49 --guards --damaged 40", "90901 90902"),
    ("drawn", "blocks.py SEED 50000 --kinds 49 --guards --damaged 0", "90903 90904"),
    ("drawn", "blocks.py SEED 20000 --request 2026-09 --damaged 30", "90905"),
    ("drawn", "blocks.py SEED 30000 --request 2026-09 --damaged 100", "90906"),
    ("edge", "blocks.py SEED 1000 --request 2026-09 --damaged 0", "90907"),
    ("cut", "blocks.py SEED 30 --request 2026-09 --damaged 0", "90908"),
    ("drawn", "blocks.py SEED 50000 --kinds 44 --guards --damaged 40", "60601 60602"),
    ("drawn", "blocks.py SEED 50000 --kinds 44 --guards --damaged 0", "60603 60604"),
    ("drawn", "blocks.py SEED 20000 --request 2026-06 --damaged 30", "60605"),
    ("drawn", "blocks.py SEED 30000 --request 2026-06 --damaged 100", "60606"),
    ("edge", "blocks.py SEED 1000 --request 2026-06 --damaged 0", "60607"),
    ("cut", "blocks.py SEED 30 --request 2026-06 --damaged 0", "60608"),
    ("drawn", "blocks.py SEED 50000 --kinds 44 --damaged 40", "40401 40402"),
    ("drawn", "blocks.py SEED 20000 --request 2026-04 --damaged 30", "40403"),
    ("drawn", "blocks.py SEED 10000 --request 2026-04 --damaged 100", "40404"),
    ("edge", "blocks.py SEED 1000 --request 2026-04 --damaged 0", "40405"),
    ("cut", "blocks.py SEED 30 --request 2026-04 --damaged 0", "40406"),
    ("drawn", "layouts.py SEED 20000", "30301 30302"),
    ("edge", "layouts.py SEED 4000", "30303"),
    ("drawn", "blocks.py SEED 20000 --request 2026-03 --damaged 80", "30304"),
    ("drawn", "blocks.py SEED 50000 --kinds 44 --damaged 40", "10101 10102"),
    ("drawn", "blocks.py SEED 20000 --request 2026-01 --damaged 30", "10103"),
    ("drawn", "blocks.py SEED 20000 --request 2026-01 --damaged 100", "10104"),
    ("edge", "blocks.py SEED 1000 --request 2026-01 --damaged 0", "10105"),
    ("cut", "blocks.py SEED 30 --request 2026-01 --damaged 0", "10106"),
    ("drawn", "blocks.py SEED 60000 --damaged 40", "7101 7102"),
    ("drawn", "blocks.py SEED 50000 --damaged 40", "11101 11102 70701 70702 20202 20203"),
    ("drawn", "blocks.py SEED 40000 --damaged 70", "record-a"),
    ("drawn", "blocks.py SEED 20000 --damaged 30", "record-b"),
    ("drawn", "blocks.py SEED 20000 --damaged 100", "record-c"),
    ("drawn", "pressure.py SEED 20000", "7 11"),
    ("edge", "blocks.py SEED 1000 --damaged 0", "70703"),
    ("cut", "blocks.py SEED 30 --damaged 0", "edge"),
    ("drawn", "blocks.py SEED 1000", "speed"),
    ("drawn", "blocks.py SEED 1000 --kinds 44", "speed"),
    ("drawn", "blocks.py SEED 1000 --kinds 49", "speed"),
)


def compare(oracle, program, pairs):
    """The counts of the cases, and whether there is one, and the program has the same counts and none that differs."""
    with tempfile.TemporaryFile() as file:
        counts = block_cases.write(oracle, pairs, file)
        file.seek(0)
        said = subprocess.run([program], stdin=file, capture_output=True, text=True).stdout
    return counts, counts[0] > 0 and said == block_cases.told(counts)


def main():
    if len(sys.argv) < 3:
        sys.exit(__doc__)
    folder, oracle, *given = sys.argv[1:]
    program = str(Path(given[0]).resolve() if given else TOP / "crates/blockcases/out/blockcases")
    oracle = [str(Path(oracle).resolve())] + block_cases.OPTIONS
    total = different = 0
    for way, command, seeds in ROWS:
        drawn = [block_cases.draw(Path(folder), command.replace("SEED", seed)) for seed in seeds.split()]
        (n, refused, words), same = compare(oracle, program, [p for records in drawn for p in block_cases.WAYS[way](oracle, records)])
        total, different = total + n, different + (not same)
        cells = f"`{command}`", seeds.replace(" ", ", "), way, n, n - refused, refused, words
        print("| " + " | ".join(c if isinstance(c, str) else f"{c:,}" for c in cells) + " |" + ("" if same else " DIFFERENT"), flush=True)
    print(f"{total:,} cases; rows with a difference: {different}")
    sys.exit(1 if different else 0)


if __name__ == "__main__":
    main()
