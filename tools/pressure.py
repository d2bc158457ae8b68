"""Records with many guest registers a block, so that most blocks give up slots of the register cache.

    python3 tools/pressure.py SEED COUNT > FILE

A record a line, in hexadecimal, as tools/block_cases.py takes it (`--drawn FILE`). A block has 12 to 32 operations that draw from eight
to sixteen guest registers, some of them more often than the others; most operations stay in the registers, some load or store. A block that
uses nine registers or more gives up a slot; with the seed 11 these are 16,081 of 20,000.
"""
import random
import struct
import sys


def field(tag, payload):
    return bytes([tag]) + struct.pack("<H", len(payload)) + payload


HEAD = (
    field(1, struct.pack("<5I", 0, 64, 68, 72, 76))
    + field(2, struct.pack("<4IB", 0x01000000, 0x10000, 0x02000000, 0x100000, 1))
    + field(3, struct.pack("<3Q", 0x1111, 0x2222, 0x3333))
    + field(4, struct.pack("<I", 0x02000000))
)

# kinds with their operands: r a register, o an offset, n a number of 32 bits, any other a number of so many cases or, behind =, that number
FORMS = {
    1: "r n",  # MovI
    2: "r r",  # Mov
    6: "r r r 11",  # Alu3
    10: "r r 11 2 r",  # A4
    12: "r r r 4",  # MinMax
    15: "r r r r",  # Mov2
    16: "r r n",  # Mov2I
    21: "r r o =4 =0",  # Ld
    22: "r r o =4",  # St
    23: "r r r =2 =4 =0",  # LdIdx
}
KINDS = (1, 2, 2, 6, 6, 6, 10, 12, 15, 15, 16, 21, 22, 23)


def block(draw):
    registers = draw.sample(range(16), draw.choice((8, 9, 9, 10, 11, 12, 16, 16)))
    often = draw.sample(registers, draw.randint(1, 4))

    def operand(form):
        if form == "r":
            return draw.choice(often if draw.random() < draw.choice((0.1, 0.4, 0.7)) else registers)
        if form == "o":
            return 4 * draw.randrange(9)
        if form == "n":
            return draw.getrandbits(32)
        return int(form[1:]) if form.startswith("=") else draw.randrange(int(form))

    operations = b""
    for _ in range(draw.choice((12, 20, 28, 32))):
        kind = draw.choice(KINDS)
        numbers = [operand(form) for form in FORMS[kind].split()]
        operations += field(5, bytes([kind, 2, 0]) + struct.pack("<%dI" % len(numbers), *numbers))
    return HEAD + operations


if __name__ == "__main__":
    draw = random.Random(sys.argv[1])
    for _ in range(int(sys.argv[2])):
        print(block(draw).hex())
