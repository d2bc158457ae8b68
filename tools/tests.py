"""What tools/test.sh checks of tools/block.py and tools/explain: python3 tools/tests.py NAME.

A check is a function below; it prints what was compared, and fails by an AssertionError. Records are the public ones of
tests/oracle/vectors, one of each kind, damaged ones that tests/oracle/blocks.py draws, and random bytes. `remake` is no check: it writes
examples/ anew.
"""
import functools
import os
import random
import re
import struct
import subprocess
import sys
import tempfile
from collections import Counter
from pathlib import Path
from xml.dom import minidom

sys.dont_write_bytecode = True
import block
import block_cases
import disassembly
import parts
from distances import at_distance, code_end, row
from record import FIELDS, KINDS, OPERATIONS, TOP, Block, fault, op_field

BLOCKWORDS = str(TOP / "crates/blockwords/out/blockwords")
EXAMPLES, PICTURE = TOP / "examples", "break_check"
LENGTH = 4096  # of the longest record that blockwords reads
DRAWN = ("blocks.py 2101 1500 --kinds 49 --guards --damaged 100", "blocks.py 2102 700 --request 2026-06 --damaged 100")


# ---- records


@functools.cache
def public():
    """The public records that blockwords reads."""
    files = sorted((TOP / "tests/oracle/vectors/public").glob("records*.txt"))
    found = {record: None for path in files for _, record in block_cases.public(path)}
    return [record for record in found if len(record) <= LENGTH]


def each_kind():
    """Each kind, alone and with a Nop behind it, in regions of 4, 8 and 64 bytes; where it is a group it moves all that it can."""
    most = {"width": 4, "mask": 65535, "nib": 15}
    for kind, (_, operands) in KINDS.items():
        field = op_field(kind, 2, 0, [most.get(of, 0) for _, of in operands])
        for length in (4, 8, 64):
            yield from (Block(mem=(0, length, 0, length)).record() + field + behind for behind in (b"", op_field(0, 2, 0, [])))


def damaged():
    """Each kind, damaged records, and random bytes."""
    draw = random.Random(2103)
    drawn = [record for command in DRAWN for record in block_cases.draw(TOP / "tests/oracle", command)]
    return [*each_kind(), *drawn, *(draw.randbytes(draw.randrange(200)) for _ in range(300))]


@functools.cache
def said(record):
    """What blockwords says of a record."""
    return parts.listing(BLOCKWORDS, record)


def accepted():
    """The public records that are accepted, with their blocks."""
    found = [(record, said(record)) for record in public()]
    return [(record, whole) for record, whole in found if isinstance(whole, parts.Listing)]


# ---- tools/block.py


def kinds():
    """The table of kinds: the operands' classes are those of the table that reading is proved of, their names a checked block's."""
    table = (TOP / "crates/operands/specs/Kinds.antt").read_text()
    rows = re.findall(r"(?:∷ |\n    )kind (\[\]|\(.*? ∷ \[\]\))\s*\(λ x\. (\w+)", table[table.index("pub kinds :") :])
    same = {"any": "any32", "off": "any32", "sel": "byte", "pre": "byte", "bit": "flag", "op": "alu_op", "rmw": "rmw_op"}
    assert len(rows) == len(KINDS)
    for (classes, name), (own, operands) in zip(rows, KINDS.values()):
        assert (name, re.findall(r"\w+", classes)) == (own, [same.get(of, of) for _, of in operands]), name
    fast = (TOP / "crates/block/src/lib.rt").read_text().split("pub enum Fast {\n")[1].split("\n}")[0]
    names = {m[1]: re.findall(r"(\w+):", m[2] or "") for m in re.finditer(r"^    (\w+)(?: \{(.*?)\})?,", fast, re.M | re.S)}
    for name, operands in KINDS.values():
        # LdPre's and StPre's i and inc are one operand of a checked block
        own = [n for n, _ in operands if not (name in ("LdPre", "StPre") and n == "inc")]
        assert [{"by": "i"}.get(n, n) for n in names[name]] == own, (name, names[name], own)
    print(f"{len(rows)} kinds")


def faults():
    """The first fault of a record, as tools/record.py finds it, is the one that blockwords answers, 10 left out. make has an error then and
    only then; it names the fault and stands in the line at its place, if all lines are fields and operations by name."""
    counts = Counter()
    for record in [*public(), *damaged()]:
        answer, found, text = said(record), fault(record), block.show(record)
        refused = None if isinstance(answer, parts.Listing) or answer[1] == "10" else tuple(map(int, answer[1:]))
        assert refused == (found and (found.number, found.place)), record.hex()
        counts[refused[0] if refused else "none"] += 1
        lines = text.splitlines()
        try:
            block.make(text)
            assert not refused, record.hex()
        except block.Wrong as wrong:
            assert refused, record.hex()
            if {line.split()[0] for line in lines} <= {*FIELDS, *block.NUMBER}:
                place = re.search(r"# (\d+)", lines[wrong.line - 1])[1]
                assert f"(fault {refused[0]})" in str(wrong) and int(place) == refused[1], (record.hex(), wrong)
    print(f"{counts.pop('none')} records without a fault; by fault: " + ", ".join(f"{n}: {counts[n]}" for n in sorted(counts)))


def round_trips():
    """Text to record to text is the identity on every public record that is accepted, and with --raw on records of any bytes. A text here
    is what `show` writes, so that it is enough that its record comes back."""
    for record, _ in accepted():
        assert block.make(block.show(record)) == record, record.hex()
    others = [*public(), *damaged()]
    for record in others:
        assert block.make(block.show(record), True) == record, record.hex()
    print(f"{len(accepted())} accepted records, {len(others)} of any bytes with --raw")


# A text, / between its lines, and where it is wrong: line, column, what is expected and what is found there.
ERRORS = r"""
MovI len=2 d=16 v=1 -> 1, 14: for d 0 to 15 (fault 4), found '16'
Nop len=2 / /   MovI len=2 d=1 -> 3, 17: v= and a number, found the end of the line
MovI len=2 v=1 d=1 -> 1, 12: d= and a number, found 'v=1'
MovI d=1 v=1 -> 1, 6: len= and a number, found 'd=1'
MovI len=2 d=1 v=1 # good / MovI len=2 d=1 v=1x -> 2, 18: a number, decimal or 0x, found '1x'
MovI len=2 d=1 v= -> 1, 18: a number, decimal or 0x, found ''
MovI len=2 d=1 v=0x100000000 -> 1, 18: a number of 32 bits, found '0x100000000'
MovI len=2 d=1 v=-2147483649 -> 1, 18: a number of 32 bits, found '-2147483649'
--raw -1 len=2 -> 1, 1: layout, memory, addresses, start, guard, bytes, a kind's name or its number, found '-1'
Nop len=2 / \x01 -> 2, 1: a kind's name, found '\x01'
--raw MovI len=2 d=1 v=4294967296 -> 1, 18: a number of 32 bits, found '4294967296'
MovI len=2 d=-1 v=1 -> 1, 14: a number without a sign, found '-1'
--raw MovI len=256 d=1 v=1 -> 1, 10: a number of 8 bits, found '256'
MovI len=2 d=1 v=1 w=4 -> 1, 20: the end of the line, found 'w=4'
Nop len=2 glue=2 -> 1, 16: for glue 0 or 1 (fault 4), found '2'
Ld len=2 d=0 b=17 off=0 w=4 signed=0 -> 1, 16: for b 0 to 15, or 16 for sp (fault 4), found '17'
Ld len=2 d=0 b=1 off=0 w=3 signed=0 -> 1, 26: for w 1, 2 or 4 (fault 4), found '3'
Mvo len=2 d=0 s=1 -> 1, 1: layout, memory, addresses, start, guard or a kind's name, found 'Mvo'
Nop len=2 / start pc0=0x02000000 -> 2, 1: a kind's name, found 'start'
start pc0=0x02000000 / layout regs=0 -> 2, 1: guard or a kind's name, found 'layout'
50 len=2 -> 1, 1: layout, memory, addresses, start, guard or a kind's name, found '50'
--raw Nop len=2 / 256 len=2 -> 2, 1: bytes, a kind's name or its number, found '256'
--raw bytes 05 3 -> 1, 10: a byte, two hexadecimal digits, found '3'
layout regs=0 sp=62 rets=68 pc=72 hold=76 -> 1, 18: for sp a multiple of 4 (fault 14), found '62'
layout regs=0 sp=60 rets=68 pc=72 hold=76 -> 1, 18: sp apart from regs, where regs is 64 bytes and each other place 4 (fault 15), found '60'
layout regs=16324 sp=0 rets=4 pc=8 hold=12 -> 1, 13: regs plus 60 below 16384 (fault 5), found '16324'
memory ram_base=0 ram_len=3 xip_base=0 xip_len=4 map=0 -> 1, 27: ram_len of 4 or more (fault 6), found '3'
start pc0=0x04000000 -> 1, 11: a start from 0x02000000 to 0x03ffffff, or inside RAM (fault 7), found '0x04000000'
start pc0=0x01000000 -> 1, 1: a guard behind a start in RAM (fault 16), found 'start'
/ guard at=0 h_ram_ok=0 -> 2, 1: no guard behind a start in flash's range, 0x02000000 to 0x03ffffff (fault 16), found 'guard'
Rts len=0 / Nop len=0 -> 2, 1: no operation behind a jump (fault 9), found 'Nop'
start pc0=0x0100fffe / guard at=0 h_ram_ok=0 / Nop len=3 -> 3, 9: an operation that ends at RAM's end or before it (fault 17), found '3'
memory ram_base=0 ram_len=4 xip_base=0 xip_len=8 map=0 / PopPc len=2 n=4 -> 2, 1: RAM and XIP of 8 bytes or more (fault 4), found 'PopPc'
"""
# A text, and what blockwords says of the record that it makes with --raw.
RAW = """
MovI len=2 d=16 v=1 -> refused 4 77
Nop len=2 glue=255 -> refused 4 77
50 len=2 glue=0 7 0x8 -> refused 3 77
1 len=2 glue=0 7 -> refused 2 77
layout regs=0 sp=62 rets=68 pc=72 hold=76 -> refused 14 0
start pc0=0x04000000 -> refused 7 70
guard at=0 h_ram_ok=0 -> refused 16 70
start pc0=0x01000000 -> refused 16 70
Rts len=2 / Nop len=2 -> refused 9 83
memory ram_base=0 ram_len=3 xip_base=0 xip_len=4 map=0 -> refused 6 23
bytes -> refused 1 0
layout regs=0 sp=64 rets=68 pc=72 hold=76 / bytes 02 -> refused 1 23
"""


def rows(table):
    """Text and what is due, of each line of a table."""
    for line in table.strip().split("\n"):
        text, due = line.split(" -> ")
        yield re.sub(r" ?/ ?", "\n", text), due


def errors():
    """An error names line, column and what was expected, and nothing is written; with --raw faults are made on purpose."""
    wrong = [*rows(ERRORS), ("Nop len=0\n" * 33, "33, 1: at most 32 operations (fault 8), found 'Nop'")]
    wrong += [("--raw 50 len=0" + " 1" * 16384, "1, 32776: at most 16383 operands, found '1'")]
    wrong += [("Nop len=" + "9" * 5000, f"1, 9: a number of 8 bits, found '{'9' * 40}..'")]
    raw = [*rows(RAW), ("Nop len=2\n" * 33, "refused 8 269")]
    with tempfile.TemporaryDirectory() as folder:
        file, record = Path(folder, "text"), Path(folder, "record")
        for text, due in wrong:
            file.write_text(text.removeprefix("--raw ").replace("\\x01", "\1"))
            record.write_bytes(b"as before")
            command = [TOP / "tools/block.py", "make", *["--raw"] * text.startswith("--raw "), file]
            line, column, expected = re.fullmatch(r"(\d+), (\d+): (.*)", due).groups()
            error = f"{file}, line {line}, column {column}: expected {expected}\n"
            for to in ([record], []):
                run = subprocess.run([*command, *to], capture_output=True, text=True)
                assert (run.returncode, run.stdout, run.stderr) == (1, "", error), (text[:80], run.stderr)
            assert record.read_bytes() == b"as before", text[:80]
    for text, due in raw:
        assert " ".join(said(block.make(text, True))) == due, text
    print(f"{len(wrong)} errors, {len(raw)} faults made with --raw")


def texts():
    """Texts of one record, and the text of damaged ones."""
    empty = (TOP / "crates/blockwords/stdin").read_bytes()
    one = block.make("MovI len=2 d=7 v=0xfffffffc")
    same = [(text, False, empty) for text in ("", "\n\n# nothing\n", "start pc0=33554432", "\tstart  pc0=0X2000000 # as ever\r\n")]
    same += [("layout regs=0 sp=0x40 rets=68 pc=72 hold=76", False, empty), ("MovI len=0x2 glue=0 d=7 v=-4", False, one)]
    same += [("1 len=2 7 4294967292", True, one), ("bytes 05 0B 00 01 02 00 07 00 00 00 fc ff ff ff", True, one[77:])]
    for text, raw, due in same:
        assert block.make(text, raw) == due, text
    shown = [
        (empty[:50], "bytes 03 18 00 00 00 00 00", "# 43: cut: 24 bytes of payload are due; it stops at 50"),
        (empty[:45], "bytes 03 18", "# 43: cut; it stops at 45"),
        (empty[:43], "bytes", "# 43: no field with tag 03, 04"),
        (empty[:23] + empty[43:], "bytes", "# 23: no field with tag 02"),
        (empty[:23] + empty[43:], "start pc0=0x02000000", "# 50"),
        (b"\7\1\0\1" + empty, "bytes 07 01 00 01", "# 0: tag 07, not 01; it stops at 4"),
        (empty + b"\5\2\0\1\2", "bytes 05 02 00 01 02", "# 77: 2 bytes of payload; it stops at 82"),
        (empty + b"\7\15\0" + bytes(13) + b"\5", "bytes 05", "# 93: cut; it stops at 94"),
        (block.make("Alu3 len=2 d=1 a=2 b=3 op=8"), "Alu3 len=2 glue=0 d=1 a=2 b=3 op=8", "# 77: op Shl"),
        (block.make("Div len=2 d=1 a=2 b=3 k=255"), "Div len=2 glue=0 d=1 a=2 b=3 k=255", "# 77: k RemU"),
    ]
    for record, text, behind in shown:
        assert f"{text:<63} {behind}" in block.show(record).splitlines(), block.show(record)
    print(f"{len(same)} made, {len(shown)} shown")


# ---- tools/explain


def disassemblers():
    """The words of all accepted blocks have a mnemonic, the same by each disassembler that is there."""
    words = sorted({word for _, whole in accepted() for word in whole.words[: code_end(whole.words)]})
    there = [program for program in disassembly.PROGRAMS if disassembly.program(program)]
    found = [disassembly.mnemonics(words, program) for program in there]
    for each in found:
        assert each == found[0], [pair for pair in zip(each, found[0]) if pair[0] != pair[1]][:9]
    assert not [said for said in found[0] if re.match(r"\.|<|udf", said)]
    print(f"{len(words)} words, by {' and '.join(there)}{'' if there[1:] else ' alone, so that none are compared'}")


def without_distance(word):
    return at_distance(word, row(word), 0) if row(word) else word


def parts_hold(record, whole, found):
    """The parts stand one behind the other and are all of the block. What stands before an operation are the words of the block that ends
    there, but for distances and the count of the limit test; where the chain begins another operation would. Where blockwords has no room
    to tell, and there alone, operations are told together. Gives the operations that are told apart, and the chains that were asked."""
    assert [0, *(part.end for part in found)] == [*(part.start for part in found), len(whole.words)], record.hex()
    fields, at = list(block_cases.operations(record)), block_cases.first(record)
    told = [part for part in found if part.operations]
    assert [i for part in told for i in part.operations] == list(range(len(fields)))
    if len(whole.words) + parts.MORE > block_cases.LENT:
        return 0, 0
    assert len(told) == len(fields), record.hex()
    for field, part in zip(fields, told):
        before = said(record[:at]).words[: part.start]
        for i, (one, two) in enumerate(zip(before, whole.words)):
            assert without_distance(one) == without_distance(two) or i == whole.body // 4, (record.hex(), i)
        at += len(field)
    chain = [part.start for part in found if part.name == "chain" and len(fields) < OPERATIONS]
    assert [parts.beginning(BLOCKWORDS, record) for _ in chain] == chain, record.hex()
    return len(fields), len(chain)


def notes_hold(record, told):
    """Each word that uses the processor record or the context has the place noted, each word that loads a literal an address."""
    regs, *others = struct.unpack_from("<5I", record, 3)
    places = {"19": {*others, *range(regs, regs + 64, 4)}, "20": {24, 32, 40}}
    for m in told:
        if use := re.search(r"\[x(19|20)(?:, #(\w+))?\]", m[4]):
            assert int(use[2] or "0", 0) in places[use[1]] and m[5], (record.hex(), m[0])
        if m[4].startswith("ldr x") and " word " in m[4]:
            assert re.fullmatch(r"0x[0-9a-f]+, (guard|h_ram_ok|h_read or h_write|h_read|h_write|table)", m[5]), (record.hex(), m[0])


def words_told(record, whole, lines):
    """Each word in order with its byte, its hexadecimal and a mnemonic, each site, the body once, and the notes."""
    told = [m for m in (re.match(r" *(\d+) +(\d+)  ([0-9a-f]{8})  (\S.*?)(?:   *(.*))?$", line) for line in lines) if m]
    assert [(int(m[1]), int(m[2]), int(m[3], 16)) for m in told] == [(i, 4 * i, word) for i, word in enumerate(whole.words)], record.hex()
    sites = [(int(m[1]), int(m[5].split()[-1], 16)) for m in told if m[5] and m[5].startswith("chain site")]
    assert sites == whole.sites and lines.count("limit test: the body") == 1, record.hex()
    notes_hold(record, told)


def blocks():
    """Every public record that is accepted is explained."""
    explain, objdump, operations, chains = load_explain(), disassembly.program(), 0, 0
    for record, whole in accepted():
        found = parts.parts(BLOCKWORDS, record, whole)
        more = parts_hold(record, whole, found)
        operations, chains = operations + more[0], chains + more[1]
        words_told(record, whole, list(explain.accepted(record, whole, found, objdump)))
    words = sum(len(whole.words) for _, whole in accepted())
    print(f"{len(accepted())} blocks, {words} words; {operations} operations told apart, {chains} chains")


def refusals():
    """Every public record that is refused is explained: what was expected is told, and one field is marked, that at the place."""
    explain, count = load_explain(), 0
    for record in public():
        if isinstance(said(record), parts.Listing):
            continue
        number, place = map(int, said(record)[1:])
        _, second, *rest = explain.refusal(record, number, place)
        assert second.startswith("expected ") and [line[:6] for line in rest if line[:1] == ">"] == [f">{place:5}"], (record.hex(), rest)
        count += 1
    print(f"{count} records")


def load_explain():
    """tools/explain as a module."""
    import importlib.machinery
    import importlib.util

    loader = importlib.machinery.SourceFileLoader("explain", str(TOP / "tools/explain"))
    module = importlib.util.module_from_spec(importlib.util.spec_from_loader("explain", loader))
    loader.exec_module(module)
    return module


def output(*command, **more):
    """What a command prints; it must succeed."""
    return subprocess.run(command, capture_output=True, text=True, check=True, cwd=TOP, **more).stdout


def example_files():
    """Of each block of examples/ what belongs beside it: path and contents, by each disassembler that is there."""
    for path in sorted(EXAMPLES.glob("*.block")):
        with tempfile.NamedTemporaryFile() as file:
            record = block.make(path.read_text(), path.stem == "refused")
            Path(file.name).write_bytes(record)
            yield path.with_suffix(".listing"), subprocess.run(BLOCKWORDS, input=record, capture_output=True, check=True).stdout.decode()
            for program in filter(disassembly.program, disassembly.PROGRAMS):
                yield path.with_suffix(".explained"), output("tools/explain", "--objdump", program, file.name)
            if path.stem == PICTURE:
                yield path.with_suffix(".svg"), output("tools/explain", "--picture", file.name)


def examples():
    """Of each block of examples/ the listing is that of blockwords, the explanation that of tools/explain; and the picture."""
    due = list(example_files())
    for path, contents in due:
        assert path.read_text() == contents, path.name
        assert path.suffix != ".svg" or minidom.parseString(contents)
    there = {path for path in EXAMPLES.iterdir() if path.suffix not in (".block", ".md")}
    assert there == {path for path, _ in due} and len(list(EXAMPLES.glob("*.block"))) == 6
    print(", ".join(sorted(path.stem for path in EXAMPLES.glob("*.block"))))


def remake():
    """Writes what examples() compares."""
    for path, contents in example_files():
        path.write_text(contents)


def readme():
    """The lines of README.md that show the way run as they stand: a block is written, made, translated, explained, shown."""
    section = (TOP / "README.md").read_text().split("## A block by hand\n")[1].split("\n## ")[0]
    lines = re.findall(r"^    (.*?)(?: +#.*)?$", section, re.M)
    _, _, _, listing, explained, shown = [output("bash", "-euc", line) for line in lines]
    assert listing.startswith("words ") and explained.startswith("accepted: ") and shown.startswith("layout "), lines
    print(f"{len(lines)} lines")


def missing():
    """What is not there is said, with what has it."""
    record = TOP / "crates/blockwords/stdin"
    run = functools.partial(subprocess.run, capture_output=True, text=True)
    with tempfile.TemporaryDirectory() as folder:
        os.symlink(sys.executable, Path(folder, "python3"))
        alone = run([TOP / "tools/explain", record], env={"PATH": folder})
    assert alone.returncode == 1 and all(f"{p} (package {of})" in alone.stderr for p, of in disassembly.PROGRAMS.items()), alone.stderr
    nowhere = run([TOP / "tools/explain", "--blockwords", "nowhere", record])
    assert nowhere.returncode == 1 and "`rt run` in crates/blockwords" in nowhere.stderr
    long = run([TOP / "tools/explain", "-"], input="5" * (LENGTH + 1))
    assert long.returncode == 1 and "4,096" in long.stderr, long
    other = [(["--blockwords", p], "does not answer as blockwords does") for p in ("/bin/true", "/bin/false", "/bin/cat", "/bin/echo")]
    other += [(["--objdump", "/bin/true"], "does not disassemble A64")]
    for options, due in other:
        wrong = run([TOP / "tools/explain", *options, record])
        assert wrong.returncode == 1 and wrong.stderr == f"{options[1]} {due}\n", wrong
    text = run([TOP / "tools/explain", EXAMPLES / "ram_end.block"])
    assert "tools/block.py make makes a record of one" in text.stdout, text
    with tempfile.NamedTemporaryFile() as file:
        Path(file.name).write_bytes(b"")
        drawn = run([TOP / "tools/explain", "--picture", file.name])
    assert drawn.returncode == 1 and not drawn.stdout and drawn.stderr.startswith("refused: fault 1 at byte 0"), drawn
    for tool in (["block.py", "show"], ["block.py", "make"], ["explain"]):
        lost = run([TOP / "tools" / tool[0], *tool[1:], "nowhere"])
        assert (lost.returncode, lost.stderr) == (1, "nowhere: No such file or directory\n"), lost
    full = run(f"{TOP / 'tools/block.py'} show {record} > /dev/full", shell=True)
    assert full.returncode == 1 and full.stderr == "standard output: No space left on device\n", full
    print("disassembler, blockwords, a long record, no record, other programs, a text for a record, a picture of a refusal, a full disk")


if __name__ == "__main__":
    globals()[sys.argv[1]]()
