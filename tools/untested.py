"""Takes the tests of 2026-04 out of a program's words, and compares what is left with the commit's own words.

    python3 tools/untested.py ORACLE_DIR ORACLE [PROGRAM]

ORACLE_DIR is tests/oracle, ORACLE the program that its build.py makes, and PROGRAM crates/blockwords/out/blockwords, which `rt run` makes
there, or a command like it. The records are those of crates/blockcases/stdin, and those of ROWS, each with the row's map flag. Of each whose
block has room, the pairs included, PROGRAM's listing is taken, and:

  - with map flag 1 there are as many pairs of words that test address bit 0 and then bit 1 as the record has word stores of its own, counted
    from its operations (WIDTHS, WORDS); with flag 0 there is no pair;
  - a pair stands where the odd halfword has its test, right before the first word of a store; both words of it go where the store's range
    test goes, its slow path, and nothing goes between them or right behind them;
  - with the pairs taken out, and each distance over them, the sites and the body moved, the listing is that of `compile` as it stands in
    the commit: ORACLE's without `--wordtest`.

Prints the table of docs/vectors.md. The exit status is 1 where a record differs, or where a row has no block, or with map flag 1 no tested
store.
"""
import bisect
import concurrent.futures
import shlex
import sys
from pathlib import Path

sys.dont_write_bytecode = True
import block_cases
from distances import at_distance, code_end, has, row, target

# What draws the records, the seed that stands for SEED, and the map flag that the records are given.
ROWS = (
    ("blocks.py SEED 26000 --kinds 44 --damaged 0", "40407", 1),
    ("blocks.py SEED 24000 --request 2026-04 --damaged 0", "40408", 1),
    ("blocks.py SEED 1500 --request 2026-01 --damaged 0", "40409", 1),
    ("pressure.py SEED 1000", "40410", 1),
    ("blocks.py SEED 10000 --request 2026-04 --damaged 0", "40411", 0),
    ("blocks.py SEED 10000 --kinds 44 --guards --damaged 0", "60611", 1),
    ("blocks.py SEED 10000 --kinds 49 --guards --damaged 0", "90911", 1),
    ("blocks.py SEED 10000 --request 2026-09 --damaged 0", "90912", 1),
    ("blocks.py SEED 5000 --request 2026-09 --damaged 0", "90913", 0),
)

FLAG = 42  # where the map flag stands in a record
WIDTHS = {22: 3, 24: 4, 26: 2, 27: 1, 46: 3}  # St, StIdx, StPost, Rmw, StPre: which operand is the width
WORDS = (28, 48)  # PushRet, MemA4: they store a word

# Mask and word without the distance or the number: the two tests, the first words of a store (RAM's base to W2 in one or two, the address
# less it to W3), and its range test.
BIT_0, BIT_1 = (0xFFF8001F, 0x37000000), (0xFFF8001F, 0x37080000)  # TBNZ W0, #0 and TBNZ W0, #1
BASE, UPPER = (0xBF80001F, 0x12800002), (0xFF80001F, 0x72800002)  # MOVN or MOVZ of W2, MOVK of W2
LESS, ABOVE = (0xFFFFFFFF, 0x4B020003), (0xFF00001F, 0x54000008)  # SUB W3, W0, W2 and B.HI


def flagged(record, flag):
    """A record with this map flag, or as it is where it ends before the flag."""
    return record[:FLAG] + bytes([flag]) + record[FLAG + 1 :] if len(record) > FLAG else record


def sets(folder):
    """Name, seed, map flag and records of each row of the table."""
    yield "the records of `blockcases`, each once", "", "0, 1", block_cases.frozen()
    for command, seed, flag in ROWS:
        drawn = block_cases.draw(folder, command.replace("SEED", seed))
        yield f"`{command}`", seed, flag, [flagged(record, flag) for record in drawn]


def tested_stores(record):
    """How many stores of an accepted block are tested: with a map, the word stores of its own."""
    found = 0
    for field in block_cases.operations(record):
        kind = field[3]
        found += kind in WORDS or kind in WIDTHS and field[6 + 4 * WIDTHS[kind]] == 4
    return found * record[FLAG]


def untested(words, body, sites):
    """Words, body and sites without the pairs, the number of these, and the position of one that is not as it should be, or None."""
    end = code_end(words)
    code = words[:end] + [0] * 3  # so that each pair has three words behind it
    pairs = [i for i in range(end - 1) if has(words[i], BIT_0) and has(words[i + 1], BIT_1)]
    goals = {i: target(i, w) for i, w in enumerate(words[:end]) if row(w)}

    def moved(position):
        return position - 2 * bisect.bisect_left(pairs, position)

    def astray(i):
        less = i + 4 if has(code[i + 3], UPPER) else i + 3
        slow = next((goals[k] for k in range(less, end) if has(words[k], ABOVE)), None)
        starts = has(code[i + 2], BASE) and has(code[less], LESS)
        return not starts or not goals[i] == goals[i + 1] == slow or not {i + 1, i + 2}.isdisjoint(goals.values())

    tests = {k for i in pairs for k in (i, i + 1)}
    left = [at_distance(w, row(w), moved(goals[i]) - moved(i)) if i in goals else w for i, w in enumerate(words) if i not in tests]
    sites = [(moved(at), to) for at, to in sites]
    return (left, 4 * moved(body // 4), sites), len(pairs), next(filter(astray, pairs), None)


def different(program, record, commit):
    """What is wrong with the program's words of a record that the commit accepts, or None; and the tested stores."""
    listing = block_cases.answer(program, record)
    if listing[0][0] != "words":
        return " ".join(listing[0]), 0
    left, tested, astray = untested(*block_cases.listed(listing))
    if tested != tested_stores(record):
        return f"{tested} stores are tested", tested
    if astray is not None:
        return f"the pair at word {astray}", tested
    return None if left == block_cases.listed(commit) else "other words", tested


def main():
    if len(sys.argv) < 3:
        sys.exit(__doc__)
    folder, oracle, *given = sys.argv[1:]
    program = shlex.split(given[0]) if given else [str(block_cases.TOP / "crates/blockwords/out/blockwords")]
    commit = [str(Path(oracle).resolve())] + [o for o in block_cases.OPTIONS if o != "--wordtest"]
    wrong = empty = 0
    for name, seed, flag, records in sets(Path(folder)):
        answers = block_cases.answered(commit, block_cases.drawn(commit, records))
        blocks = [(r, l) for lent, r, l in answers if l[0][0] == "words" and int(l[0][1]) + 2 * tested_stores(r) <= lent]
        with concurrent.futures.ThreadPoolExecutor() as pool:
            found = list(pool.map(lambda b: different(program, *b), blocks))
        for (record, _), (reason, _) in zip(blocks, found):
            if reason:
                print(f"{record.hex()}: {reason}")
        wrong += sum(reason is not None for reason, _ in found)
        words = sum(int(listing[0][1]) for _, listing in blocks)
        cells = len(blocks), sum(n > 0 for _, n in found), sum(n for _, n in found), words
        empty += not blocks or flag != 0 and not cells[2]
        print(f"| {name} | {seed} | {flag} | " + " | ".join(f"{c:,}" for c in cells) + " |", flush=True)
    print(f"records that differ: {wrong}; rows without a block or a tested store: {empty}")
    sys.exit(1 if wrong or empty else 0)


if __name__ == "__main__":
    main()
