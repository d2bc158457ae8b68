"""Compares the answers of two programs like `blockwords` to drawn records with map flag 0, byte for byte.

    python3 tools/flag0.py ORACLE_DIR OLD NEW

ORACLE_DIR is tests/oracle. The records are those of ROWS, with byte 42, the map flag, set to 0. Prints how many records each row has, how
many of them OLD accepts, its words, and how many answers differ. The exit status is 1 where one differs, or where a row has no block.
"""
import concurrent.futures
import subprocess
import sys
from pathlib import Path

sys.dont_write_bytecode = True
import block_cases
from untested import flagged

# What draws the records.
ROWS = (
    "blocks.py 40420 8000 --kinds 44 --damaged 0",
    "blocks.py 40421 8000 --request 2026-04 --damaged 0",
    "blocks.py 40422 2000 --request 2026-01 --damaged 0",
    "blocks.py 40423 2000 --request 2026-04 --damaged 100",
)


def answers(record, programs):
    return [subprocess.run([p], input=record, capture_output=True, check=True).stdout for p in programs]


def main():
    if len(sys.argv) != 4:
        sys.exit(__doc__)
    folder, *programs = (Path(a).resolve() for a in sys.argv[1:])
    total = different = empty = 0
    for command in ROWS:
        records = [flagged(record, 0) for record in block_cases.draw(folder, command)]
        with concurrent.futures.ThreadPoolExecutor() as pool:
            found = list(pool.map(lambda record: answers(record, programs), records))
        words = [int(old.split()[1]) for old, _ in found if old.startswith(b"words")]
        other = sum(old != new for old, new in found)
        total, different, empty = total + len(records), different + other, empty + (not words)
        print(f"{command}: {len(records):,} records, {len(words):,} accepted, {sum(words):,} words, {other} differ", flush=True)
    print(f"{total:,} records, {different} differ; rows without a block: {empty}")
    sys.exit(1 if different or empty else 0)


if __name__ == "__main__":
    main()
