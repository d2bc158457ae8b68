"""Records whose layout, field 01, is drawn at the edges of the faults 5, 14 and 15.

    python3 tools/layouts.py SEED COUNT > FILE

A record a line, in hexadecimal, as tools/block_cases.py takes it (`--drawn FILE`). A layout is a sound one with up to three slips: an
offset becomes a number of EDGES, or comes to lie near another place. In one of ten all five offsets are drawn from EDGES. A tenth of the
records has a RAM of three bytes too, which answers 6 unless the layout is refused first, and a third has an operation.

With the seeds 30301 and 30302, 20,000 records each, 8,552 are answered 5 (5,890 of them have an offset that is no multiple of 4, or an
overlap, too), 8,871 14 (6,497 with an overlap), 8,749 15 and 1,376 6; 12,452 are accepted. Among the 40,000 each number of EDGES stands
at each offset, and each two places lie at each distance, of regs and another from -64 to 64.
"""
import random
import sys
from pathlib import Path

sys.dont_write_bytecode = True
sys.path.insert(0, str(Path(__file__).resolve().parent.parent / "tests/oracle"))
from blocks import M32, Block
from record import END, SIZES

# The first offsets, those around the 64 bytes of regs, those around END - 64 and END, and some of those that only 32 bits hold.
EDGES = (range(5), range(56, 69), range(END - 68, END + 7), (1 << 31, *range(M32 - 3, M32 + 1)))
# How far two places are apart: up to 4 bytes, or 64 where one of them is regs, there most often where they begin and cease to overlap.
APART = range(-4, 5)
APART_OF_REGS = (range(-64, 65), range(-64, 65), range(-64, -59), APART, range(60, 65))
# Operations whose words have each of the offsets, that of hold by its glue: MovI, SpAdd, PushRet, Call, PopRet, PushRets.
OPERATIONS = ((1, 2, 0, [15, 1]), (19, 2, 0, [4]), (28, 2, 1, []), (35, 2, 0, [0x02000010]), (39, 2, 1, []), (41, 2, 0, [2]))


def aligned(draw, n):
    """Mostly the multiple of 4 at or below n: one offset that is none hides every overlap."""
    return n - n % 4 if draw.random() < 0.65 else n


def edge(draw):
    return aligned(draw, draw.choice(draw.choices(EDGES, (2, 2, 3, 1))[0]))


def near(draw, offsets, i, k):
    """Where place i lies at or beside place k."""
    apart = draw.choice(APART if i and k else draw.choice(APART_OF_REGS))
    return (offsets[k] + aligned(draw, apart)) & M32


def sound(draw):
    """The places in any order, side by side or apart, from 0 on or up to END."""
    gaps = [draw.choice((0, 0, 4, 60, 64, 4 * draw.randrange(200))) for _ in SIZES]
    at = draw.choice((0, END - sum(gaps) - sum(SIZES)))
    offsets = [0] * 5
    for gap, i in zip(gaps, draw.sample(range(5), 5)):
        offsets[i] = at + gap
        at += gap + SIZES[i]
    return offsets


def layout(draw):
    if draw.random() < 0.1:
        return [edge(draw) for _ in SIZES]
    offsets = sound(draw)
    for _ in range(draw.choice((0, 1, 1, 1, 2, 2, 3))):
        i, k = draw.sample(range(5), 2)
        offsets[i] = edge(draw) if draw.random() < 0.4 else near(draw, offsets, i, k)
    return offsets


def block(draw):
    memory = (0x01000000, 3 if draw.random() < 0.1 else 0x10000, 0x02000000, 0x100000)
    return Block(layout(draw), memory, ops=[draw.choice(OPERATIONS)] if draw.random() < 0.33 else [])


if __name__ == "__main__":
    draw = random.Random(sys.argv[1])
    for _ in range(int(sys.argv[2])):
        print(block(draw).record().hex())
