"""A block record: its fields, and its first fault, a second reading of documents 01 and 02 beside the proved one.

The table of kinds is that of tests/oracle/blocks.py. tools/test.sh compares it with the table that reading is proved of, and the faults
with what `blockwords` answers.
"""
import struct
import sys
from pathlib import Path
from typing import NamedTuple, Optional

sys.dont_write_bytecode = True
TOP = Path(__file__).resolve().parent.parent
sys.path.insert(0, str(TOP / "tests/oracle"))
from blocks import JUMPS, KINDS, LAST, Block, field, group_bytes, op_field

# A field's tag, its numbers in order, and how they stand in the payload.
FIELDS = {
    "layout": (1, ("regs", "sp", "rets", "pc", "hold"), "<5I"),
    "memory": (2, ("ram_base", "ram_len", "xip_base", "xip_len", "map"), "<4IB"),
    "addresses": (3, ("h_read", "h_write", "table"), "<3Q"),
    "start": (4, ("pc0",), "<I"),
    "guard": (6, ("at", "h_ram_ok"), "<2Q"),
}
HEADER = ("layout", "memory", "addresses", "start")
OPERATIONS = 32  # at most
# The bytes of regs, sp, rets, pc, hold, and where the last of them may end.
SIZES, END = (64, 4, 4, 4, 4), 16384


def size(name):
    """The length of a field's payload."""
    return struct.calcsize(FIELDS[name][2])


class Fault(NamedTuple):
    """A fault's number and place; which of its line's numbers it is, None where it is the line; and what was expected."""

    number: int
    place: int
    which: Optional[int]
    expected: str


def frame(s, at):
    """Tag and payload of the field at a byte, or None if it is cut."""
    if at + 3 > len(s):
        return None
    tag, length = struct.unpack_from("<BH", s, at)
    return (tag, s[at + 3 : at + 3 + length]) if at + 3 + length <= len(s) else None


def limits(of):
    """What an operand may be, in words."""
    if of == "width":
        return "1, 2 or 4"
    if of == "base":
        return "0 to 15, or 16 for sp"
    if of == "pre":
        return "0 to 15, or 16 to 255 for the increment"
    if of == "bit":
        return "0 or 1"
    return f"0 to {LAST[of]}" if LAST[of] <= 65535 else "any 32 bits"


def fits(of, x):
    return x in (1, 2, 4) if of == "width" else x <= LAST[of]


def in_flash(address):
    return 0x02000000 <= address <= 0x03FFFFFF


def faults(s):
    """The faults of a record, in the order of documents 01 and 02. What is behind the first may lean on its absence."""
    at, numbers = 0, {}
    for name in HEADER:
        yield from header_faults(s, at, name)
        numbers[name] = struct.unpack_from(FIELDS[name][2], s, at + 3)
        yield from CONTENTS[name](s, at, numbers)
        at += 3 + size(name)
    (start,) = numbers["start"]
    if not in_flash(start):
        yield from header_faults(s, at, "guard")
        at += 3 + size("guard")
    ram_base, ram_len, _, xip_len, _ = numbers["memory"]
    count, jumped, end, past = 0, False, start, None
    while at < len(s):
        yield from operation_faults(s, at, count, jumped, min(ram_len, xip_len))
        payload = frame(s, at)[1]
        count, jumped, end = count + 1, payload[0] in JUMPS, end + payload[1]
        if not past and not in_flash(start) and end > ram_base + ram_len:
            past = Fault(17, at, 0, "an operation that ends at RAM's end or before it")
        at += 3 + len(payload)
    if past:
        yield past


def header_faults(s, at, name):
    tag, payload = frame(s, at) or (None, b"")
    due = FIELDS[name][0]
    if tag is None:
        yield Fault(1, at, None, f"the field {name} with tag {due:02}, whole")
    if tag != due:
        yield Fault(2, at, None, f"the field {name} with tag {due:02}")
    if len(payload) != size(name):
        yield Fault(2, at, None, f"{size(name)} bytes in the field {name}")


def layout_faults(s, at, numbers):
    offsets, names = numbers["layout"], FIELDS["layout"][1]
    for i, (o, n) in enumerate(zip(offsets, SIZES)):
        if o + n - 4 >= END:
            yield Fault(5, at, i, f"{names[i]}{' plus 60' if n > 4 else ''} below {END}")
    for i, o in enumerate(offsets):
        if o % 4:
            yield Fault(14, at, i, f"for {names[i]} a multiple of 4")
    for j in range(5):
        for i in range(j):
            if offsets[i] < offsets[j] + SIZES[j] and offsets[j] < offsets[i] + SIZES[i]:
                yield Fault(15, at, j, f"{names[j]} apart from {names[i]}, where regs is 64 bytes and each other place 4")


def memory_faults(s, at, numbers):
    *regions, flag = numbers["memory"]
    for i, name in ((0, "ram"), (2, "xip")):
        base, length = regions[i : i + 2]
        if length < 4:
            yield Fault(6, at, i + 1, f"{name}_len of 4 or more")
        if base % 4:
            yield Fault(6, at, i, f"for {name}_base a multiple of 4")
        if base + length > 1 << 32:
            yield Fault(6, at, i + 1, f"{name}_base plus {name}_len of at most 2^32")
    if flag > 1:
        yield Fault(4, at, 4, "for map 0 or 1")


def start_faults(s, at, numbers):
    (start,), (ram_base, ram_len, *_) = numbers["start"], numbers["memory"]
    guarded = s[at + 7 : at + 8] == b"\6"
    if not in_flash(start) and not ram_base <= start < ram_base + ram_len:
        yield Fault(7, at, 0, "a start from 0x02000000 to 0x03ffffff, or inside RAM")
    if in_flash(start) and guarded:
        yield Fault(16, at, None, "no guard behind a start in flash's range, 0x02000000 to 0x03ffffff")
    if not in_flash(start) and not guarded:
        yield Fault(16, at, None, "a guard behind a start in RAM")


CONTENTS = {"layout": layout_faults, "memory": memory_faults, "addresses": lambda s, at, numbers: (), "start": start_faults}


def operation_faults(s, at, count, jumped, room):
    tag, payload = frame(s, at) or (None, b"")
    if tag is None:
        yield Fault(1, at, None, "an operation, tag 05, whole")
    if tag != 5:
        yield Fault(2, at, None, "an operation, tag 05")
    if count == OPERATIONS:
        yield Fault(8, at, None, f"at most {OPERATIONS} operations")
    if jumped:
        yield Fault(9, at, None, "no operation behind a jump")
    if len(payload) < 3:
        yield Fault(2, at, None, "a payload with kind, guest length and glue")
    kind, _, glue = payload[:3]
    if kind not in KINDS:
        yield Fault(3, at, None, f"a kind up to {max(KINDS)}")
    name, operands = KINDS[kind]
    if len(payload) != 3 + 4 * len(operands):
        yield Fault(2, at, None, f"{len(operands)} operands, {3 + 4 * len(operands)} bytes, of {name}")
    if glue > 1:
        yield Fault(4, at, 1, "for glue 0 or 1")
    values = struct.unpack_from(f"<{len(operands)}I", payload, 3)
    for i, ((operand, of), x) in enumerate(zip(operands, values)):
        if not fits(of, x):
            yield Fault(4, at, 2 + i, f"for {operand} {limits(of)}")
    if (moved := group_bytes(kind, values)) > room:
        yield Fault(4, at, None, f"RAM and XIP of {moved} bytes or more")


def fault(s):
    """The first fault of a record, None where it has none; 10, which the words lent decide, is left out."""
    return next(faults(s), None)
