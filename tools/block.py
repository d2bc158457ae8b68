#!/usr/bin/env python3
"""A block as text: block records (documents 01 and 02) written and read by hand. Python 3 and its standard library.

    tools/block.py make [--raw] TEXT [RECORD]      # text to record; - or nothing is standard input or output
    tools/block.py show RECORD                     # a record of any bytes to text
    tools/block.py kinds                           # the kinds, their operands and what these may be

A line is a field or an operation, in the record's order, with all of its numbers in document 01's order. # begins a comment.

    layout regs=0 sp=64 rets=68 pc=72 hold=76
    memory ram_base=0x01000000 ram_len=0x10000 xip_base=0x02000000 xip_len=0x100000 map=0
    addresses h_read=0 h_write=0 table=0
    start pc0=0x02000000
    guard at=0x5000 h_ram_ok=0x6000                # of a block in RAM alone
    Ld len=2 glue=1 d=3 b=16 off=-4 w=4 signed=0   # kind, guest length, glue (0 where it is not written), operands

A number is decimal or 0x; where any 32 bits are allowed -4 is 0xfffffffc. Of the fields the first four are, where they are not written, the
ones above: document 01's example. A block may so be its operations alone, or nothing.

A text that is wrong, or whose record has a fault (10, which the words lent decide, is left out), is an error: line, column, what was
expected, and nothing is written. With --raw each number that the format can hold passes, and faults can be made on purpose. Then there are
two more lines:

    50 len=2 glue=0 7 0x8                          # an operation by its kind's number, with operands as many as there are
    bytes 05 03 00 24                              # bytes as they are, or none

A text with a line `bytes` is taken as it stands: no field is filled in, and fields stand in any order, as often as they are written.

show writes every number, behind # the offset of the line's field in the record, which is the place of its faults, and what op, cond and the
selectors mean. What no line can say it writes as bytes, with what is amiss and where it stops. Of any bytes `make --raw` makes the same
bytes again, of a record that is accepted `make` does.
"""
import argparse
import functools
import itertools
import os
import re
import struct
import sys
from pathlib import Path
from typing import NamedTuple

sys.dont_write_bytecode = True
from record import FIELDS, HEADER, KINDS, TOP, Block, fault, field, frame, limits, op_field, size

DEFAULTS = dict(zip(HEADER, (Block().offs, (*Block().mem, Block().map), Block().addrs, (Block().pc0,))))
NUMBER = {name: kind for kind, (name, _) in KINDS.items()}
BITS = {"B": 8, "I": 32, "Q": 64}
MOST = (65535 - 3) // 4  # operands that a field's length can count


# ---- text to record


class Wrong(Exception):
    """A text's line and column, both from 1 on, what was expected there, and what was found."""

    def __init__(self, line, column, expected, found):
        super().__init__(f"line {line}, column {column}: expected {expected}, found {found}")
        self.line, self.column = line, column


class Item(NamedTuple):
    """A line: its first word, its bytes, its number in the text, and the columns of its first word and of its numbers."""

    name: str
    bytes: bytes
    line: int
    columns: list


def value(text):
    """A number, decimal or 0x, or None."""
    if m := re.fullmatch(r"(-?)(?:([0-9]+)|0[xX]([0-9a-fA-F]+))", text):
        digits = (m[2] or m[3]).lstrip("0")
        number = int(digits or "0", 10 if m[2] else 16) if len(digits) < 99 else 1 << 128
        return -number if m[1] else number
    return None


def quoted(word):
    """A word of a text in a message: what cannot be seen is escaped, and what is long is cut."""
    return repr(word if len(word) <= 40 else word[:40] + "..")


class Line:
    """A line's words, taken from the left."""

    def __init__(self, line, text):
        self.line, self.text = line, text.split("#")[0].rstrip()
        self.left = [(m.start() + 1, m[0]) for m in re.finditer(r"\S+", self.text)]
        self.columns = []

    def wrong(self, expected, column=None, found=None):
        """The error at the next word, or at a column with what is there."""
        at, word = self.left[0] if self.left else (len(self.text) + 1, None)
        there = found if found is not None else word
        return Wrong(self.line, column or at, expected, quoted(there) if there is not None else "the end of the line")

    def take(self):
        column, word = self.left.pop(0)
        self.columns.append(column)
        return word

    def number(self, bits, name=None, signed=False):
        """The next word as a number of so many bits, `name=..` where it has a name."""
        lead = f"{name}=" if name else ""
        if not self.left or not self.left[0][1].startswith(lead):
            raise self.wrong(f"{lead} and a number" if name else "a number, decimal or 0x")
        column, text = self.left[0][0] + len(lead), self.left[0][1][len(lead) :]
        x = value(text)
        if x is None:
            raise self.wrong("a number, decimal or 0x", column, text)
        if x < 0 and not signed:
            raise self.wrong("a number without a sign", column, text)
        if not -(1 << bits - 1) <= x < 1 << bits:
            raise self.wrong(f"a number of {bits} bits", column, text)
        self.take()
        self.columns[-1] = column
        return x % (1 << bits)

    def glue(self):
        """0 where it is not written; then its column is that of the kind."""
        if self.left and self.left[0][1].startswith("glue="):
            return self.number(8, "glue")
        self.columns.append(self.columns[0])
        return 0

    def end(self):
        if self.left:
            raise self.wrong("the end of the line")


def field_bytes(words, name):
    tag, names, form = FIELDS[name]
    letters = re.sub(r"(\d)(\w)", lambda m: int(m[1]) * m[2], form[1:])
    return field(tag, struct.pack(form, *(words.number(BITS[c], n) for n, c in zip(names, letters))))


def operation_bytes(words, name):
    length, glue = words.number(8, "len"), words.glue()
    if name in NUMBER:
        kind = NUMBER[name]
        values = [words.number(32, n, of in ("any", "off")) for n, of in KINDS[kind][1]]
    else:
        kind, values = value(name), []
        while words.left:
            if len(values) == MOST:
                raise words.wrong(f"at most {MOST} operands")
            values.append(words.number(32))
    return op_field(kind, length, glue, values)


def raw_bytes(words):
    found = b""
    while words.left:
        if not re.fullmatch(r"[0-9a-fA-F]{2}", words.left[0][1]):
            raise words.wrong("a byte, two hexadecimal digits")
        found += bytes.fromhex(words.take())
    return found


def item(words, raw, due):
    """A line, where `due` are the fields that may stand there."""
    name = words.left[0][1]
    kind = value(name) if raw else None
    if not (name in due or name in NUMBER or raw and name == "bytes" or kind is not None and 0 <= kind < 256):
        expected = [*due, *(["bytes", "a kind's name", "its number"] if raw else ["a kind's name"])]
        raise words.wrong(" or ".join([", ".join(expected[:-1]), expected[-1]]) if expected[1:] else expected[0])
    words.take()
    of = raw_bytes(words) if name == "bytes" else field_bytes(words, name) if name in FIELDS else operation_bytes(words, name)
    words.end()
    return Item(name, of, words.line, words.columns)


def items(text, raw):
    """The lines of a text, each checked by itself."""
    written = [line for line in (Line(i, said) for i, said in enumerate(text.split("\n"), 1)) if line.left]
    as_it_stands = raw and any(line.left[0][1] == "bytes" for line in written)
    found, due = [], list(FIELDS)
    for line in written:
        found.append(item(line, raw, due))
        if not as_it_stands:
            due = due[due.index(found[-1].name) + 1 :] if found[-1].name in due else []
    return found if as_it_stands else filled(found)


def filled(written):
    """With the fields that are not written, as document 01's example has them."""
    names = [i.name for i in written]
    for at, name in enumerate(HEADER):
        if name not in names:
            tag, numbers, form = FIELDS[name]
            line = written[at].line if at < len(written) else 1
            written.insert(at, Item(name, field(tag, struct.pack(form, *DEFAULTS[name])), line, [1] * (1 + len(numbers))))
    return written


def make(text, raw=False):
    """A text's record. `Wrong` if it has none, and without `raw` if the record has a fault."""
    written = items(text, raw)
    record = b"".join(i.bytes for i in written)
    if not raw and (found := fault(record)):
        places = itertools.accumulate((len(i.bytes) for i in written), initial=0)
        line = next(i for i, at in zip(written, places) if at == found.place)
        column = line.columns[0 if found.which is None else found.which + 1]
        there = Line(line.line, text.split("\n")[line.line - 1]).text[column - 1 :].split()[0]
        raise Wrong(line.line, column, f"{found.expected} (fault {found.number})", quoted(there))
    return record


# ---- record to text

# How numbers are written: guest addresses and lengths with eight digits, other numbers decimal below 4096, else with 0x.
WIDE = ("ram_base", "ram_len", "xip_base", "xip_len", "pc0", "target")
BYTES = 16  # in a line


def said(name, names, numbers):
    """A line of names and numbers; where there are fewer names, of numbers alone."""
    written = [f"{x:#010x}" if n in WIDE else f"{x}" if x < 4096 else f"{x:#x}" for n, x in itertools.zip_longest(names, numbers)]
    return " ".join([name, *(f"{n}={x}" if n else x for n, x in itertools.zip_longest(names, written))])


def field_text(name, payload):
    _, names, form = FIELDS[name]
    return said(name, names, struct.unpack(form, payload))


def operation_text(payload):
    """An operation's line, by its kind's number where it has not the kind's operands."""
    values = struct.unpack_from(f"<{len(payload) // 4}I", payload, 3)
    name, operands = KINDS.get(payload[0], ("", None))
    if operands is None or len(operands) != len(values):
        name, operands = str(payload[0]), ()
    return said(name, ("len", "glue", *(operand for operand, _ in operands)), (*payload[1:3], *values))


def meanings(payload):
    """What op, cond and the selectors of an operation's line mean."""
    kind, values = payload[0], struct.unpack_from(f"<{len(payload) // 4}I", payload, 3)
    name, operands = KINDS.get(kind, ("", ()))
    for (operand, of), x in zip(operands, values):
        if enum := ENUMS.get(f"{operand} of {name}", ENUMS.get(operand)) if of in ("op", "rmw", "cond", "sel") else None:
            yield f"{operand} {cases(enum)[min(x, len(cases(enum)) - 1)]}"


def lines(record):
    """The lines of a record: offset, text, and what is noted behind it. What no line can say is bytes, with what is amiss; a line of no
    bytes stands where a field is missing."""
    at, due, last = 0, list(HEADER), None
    while at < len(record) or due:
        tag, payload = frame(record, at) or (None, b"")
        name = next((n for n, (of, _, _) in FIELDS.items() if of == tag and len(payload) == size(n)), None)
        operation = tag == 5 and len(payload) % 4 == 3
        missing = due[: due.index(name)] if name in due else due if operation or at == len(record) else []
        if missing:
            yield at, "bytes", "no field with tag " + ", ".join(f"{FIELDS[n][0]:02}" for n in missing)
            due = due[len(missing) :]
        end = len(record) if tag is None else at + 3 + len(payload)
        if operation:
            yield at, operation_text(payload), ", ".join(meanings(payload))
        elif name and (due[:1] == [name] or (last, name) == ("start", "guard")):
            yield at, field_text(name, payload), ""
            due = due[1:]
        elif at < end:
            expected = FIELDS[due[0]][0] if due else 5
            yield from in_bytes(record, at, end, amiss(record, at, tag, payload, expected))
            due = [] if tag is None else due[tag == expected :]
        at, last = end, name


def amiss(record, at, tag, payload, due):
    """What is wrong with a field that is written as bytes."""
    if tag is None:
        return f"cut: {int.from_bytes(record[at + 1 : at + 3], 'little')} bytes of payload are due" if at + 3 <= len(record) else "cut"
    return f"tag {tag:02}, not {due:02}" if tag != due else f"{len(payload)} bytes of payload"


def in_bytes(record, at, end, note):
    """Bytes in lines, the note behind the first of them."""
    for i in range(at, end, BYTES):
        yield i, f"bytes {record[i : min(i + BYTES, end)].hex(' ')}", f"{note}; it stops at {end}" if i == at else ""


def show(record):
    """A record's text."""
    return "".join(f"{text:<63} # {at}{': ' if note else ''}{note}\n" for at, text, note in lines(record))


# ---- the command

# The enum of a checked block that an operand is, alone or in one kind.
ENUMS = {"op": "Op", "op of Rmw": "RmwOp", "cond": "Cond", "rk": "Rk", "mk": "Rk", "part": "Part"}
ENUMS |= {"kind": "Choice", "k of Un": "UnKind", "k of Div": "DivKind"}


@functools.cache
def cases(name):
    """The cases of an enum of a checked block, in order."""
    body = re.search(rf"pub enum {name} {{\n(.*?)\n}}", (TOP / "crates/block/src/lib.rt").read_text(), re.S)[1]
    return re.findall(r"^    (\w+)", body, re.M)


def kinds():
    """The table of kinds, and the selectors whose cases have names."""
    for kind, (name, operands) in KINDS.items():
        yield f"{kind:2} {name:<9} " + "; ".join(f"{operand}: {limits(of)}" for operand, of in operands)
    yield "\nWhat op, cond and the selectors mean; of rk, mk, part, kind and k a number above is the last one:"
    for operand, enum in ENUMS.items():
        yield f"   {operand}: " + ", ".join(f"{i} {case}" for i, case in enumerate(cases(enum)))


def read(path):
    return sys.stdin.buffer.read() if path == "-" else Path(path).read_bytes()


def done(act):
    """Does what a command does. What cannot be is said in a line; a reader that has seen enough may leave."""
    if None in (sys.stdin, sys.stdout):
        sys.exit("standard input or output is closed")
    try:
        act()
        sys.stdout.flush()
    except BrokenPipeError:
        os.dup2(os.open(os.devnull, os.O_WRONLY), sys.stdout.fileno())
    except OSError as error:
        sys.exit(f"{error.filename or 'standard output'}: {error.strerror}")
    except ValueError as error:
        sys.exit(str(error))
    except KeyboardInterrupt:
        sys.exit(130)


def made(a):
    """The command `make`: the record is whole before anything is written."""
    try:
        record = make(read(a.text).decode("utf-8-sig", "replace"), a.raw)
    except Wrong as wrong:
        sys.exit(f"{a.text}, {wrong}")
    if a.record == "-":
        sys.stdout.buffer.write(record)
    else:
        Path(a.record).write_bytes(record)


def main():
    arguments = argparse.ArgumentParser(description=__doc__, formatter_class=argparse.RawDescriptionHelpFormatter)
    commands = arguments.add_subparsers(required=True, metavar="make, show or kinds")
    of_make = commands.add_parser("make", help="text to record")
    of_make.add_argument("--raw", action="store_true", help="numbers and records with faults pass")
    of_make.add_argument("text", metavar="TEXT")
    of_make.add_argument("record", metavar="RECORD", nargs="?", default="-")
    of_make.set_defaults(act=made)
    of_show = commands.add_parser("show", help="record to text")
    of_show.add_argument("record", metavar="RECORD")
    of_show.set_defaults(act=lambda a: print(show(read(a.record)), end=""))
    commands.add_parser("kinds", help="the kinds and their operands").set_defaults(act=lambda a: print("\n".join(kinds())))
    a = arguments.parse_args()
    done(lambda: a.act(a))


if __name__ == "__main__":
    main()
