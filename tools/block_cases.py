"""Cases for the program blockcases: records with the oracle's answers, every word of them.

    python3 tools/block_cases.py ORACLE OUT [--public RECORDS_TXT] [--drawn FILE].. [--edge FILE].. [--cut FILE]..

RECORDS_TXT is the oracle's vectors/public/records.txt, which has the numbers of lent words. A FILE has a record a line in hexadecimal, as
blocks.py prints it, and 16,384 words are lent. With --edge each record that has no fault comes twice: with as many words lent as it needs,
and with one less. With --cut it comes cut at each of its first 400 bytes, and with each of these set to 0, 1, 5, 16, 255 and to its
neighbour. The answers are ORACLE's, with OPTIONS, and how many words a block takes is ORACLE's too, by --sizes.

OUT is a run of cases. A case is numbers of 32 bits, little-endian, and the record's bytes:

    the bytes of the case behind this number
    words lent
    the fault's number and place, 0 and 0 where the record is accepted; words, body offset, sites; position and target of each of two sites,
    0 and 0 where there is none
    whatever is lent: the fault's number and place, 0 and 0 where there is none but 10; the words that the block takes
    the record's length, and its bytes
    the words

Records of more than 4,096 bytes, which only `blockwords` looks at, are left out.
"""
import argparse
import struct
import subprocess
import sys
from pathlib import Path

TOP = Path(__file__).resolve().parent.parent
LENT = 16384
AT_ONCE = 1000  # cases

# The oracle's options with the change requests that have landed (tests/oracle/README.md); a request that has one of its own adds it.
OPTIONS = ["--kinds", "49", "--split5", "--wordtest", "--guards"]


def public(path):
    """Lent words and record of each case of records.txt."""
    for line in Path(path).read_text().splitlines():
        if line.startswith("> "):
            _, _, lent, record = line.split()
            yield int(lent), bytes.fromhex(record.strip("-"))


def read(path):
    """The records of a file."""
    return [bytes.fromhex(line) for line in open(path).read().splitlines()]


def draw(folder, command):
    """The records that `blocks.py ..`, of the oracle's folder, or a tool beside this one prints."""
    tool, *words = command.split()
    beside = Path(__file__).parent / tool
    command = [sys.executable, str(beside if beside.is_file() else folder / tool)] + words
    return [bytes.fromhex(line) for line in subprocess.run(command, capture_output=True, text=True, check=True).stdout.splitlines()]


def asked(command, records):
    """What the oracle prints of records."""
    lines = "".join(r.hex() + "\n" for r in records)
    return subprocess.run(command, input=lines, capture_output=True, text=True, check=True).stdout


def answered(oracle, pairs):
    """Lent words, record, and the oracle's listing, of pairs of the first two. `oracle` is a command with its options."""
    pairs, found = list(pairs), {}
    for lent in sorted({lent for lent, _ in pairs}):
        records = list({r: 0 for n, r in pairs if n == lent})
        listings = asked(oracle + ["--hex", "--lent", str(lent)], records).split(".\n")[:-1]
        assert len(listings) == len(records)
        found.update(((lent, r), [l.split() for l in text.splitlines()]) for r, text in zip(records, listings))
    return [(lent, r, found[lent, r]) for lent, r in pairs]


def needs(oracle, records):
    """Of each record, whatever is lent: the fault's number and place, and the words that the block takes; and the literals of its pool."""
    answers = [line.split() for line in asked(oracle + ["--sizes"], records).splitlines()]
    assert len(answers) == len(records)
    return [((int(a[1]), int(a[2]), 0), 0) if a[0] == "refused" else ((0, 0, int(a[0])), int(a[3])) for a in answers]


def drawn(oracle, records):
    """The records, with the words that are lent."""
    return [(LENT, record) for record in records]


def edge(oracle, records):
    """Those of the records that have no fault, with as many words lent as they need, and with one less."""
    for record, ((fault, _, words), _) in zip(records, needs(oracle, records)):
        if not fault:
            yield from ((words - k, record) for k in (0, 1))


def cut(oracle, records):
    """Records cut at each of their first 400 bytes, and with each of these set to other numbers."""
    for record in records:
        for i, byte in enumerate(record[:400]):
            yield LENT, record[:i]
            yield from ((LENT, record[:i] + bytes([v]) + record[i + 1 :]) for v in (0, 1, 5, 16, 255, byte ^ 1))


def cases(oracle, pairs):
    """Cases of pairs of lent words and a record: lent, record, listing, need, literals. None of a record that is too long."""
    found = [c for c in answered(oracle, pairs) if c[2][0] != ["long"]]
    return [(*c, *n) for c, n in zip(found, needs(oracle, [c[1] for c in found]))]


def listed(listing):
    """Words, body and sites of a block's listing, the sites in the order of their lines."""
    words = [int(w, 16) for line in listing[1:] if line[0] != "site" for w in line]
    sites = [(int(line[1]), int(line[2], 16)) for line in listing if line[0] == "site"]
    assert len(words) == int(listing[0][1]) and len(sites) <= 2
    return words, int(listing[0][3]), sites


def case(lent, record, listing, need):
    """A case's bytes."""
    head = listing[0]
    fault, words, body, sites = (0, 0), [], 0, []
    if head[0] == "refused":
        fault = int(head[1]), int(head[2])
    else:
        words, body, sites = listed(listing)
    if fault[0] == 10:
        assert need[:2] == (0, 0) and lent < need[2]
    else:
        assert need == (*fault, len(words))
    two = [n for site in (sites + [(0, 0)] * 2)[:2] for n in site]
    rest = struct.pack("<14I", lent, *fault, len(words), body, len(sites), *two, *need, len(record))
    rest += record + struct.pack(f"<{len(words)}I", *words)
    return struct.pack("<I", len(rest)) + rest


def in_ram(record):
    """Whether a record that is accepted is a RAM block's: field 06 is next behind field 04."""
    return record[77:78] == b"\6"


def first(record):
    """Where the operations of a record that is accepted start."""
    return 96 if in_ram(record) else 77


def operations(record):
    """The operations' fields of a record that is accepted."""
    at = first(record)
    while at < len(record):
        end = at + 3 + record[at + 1] + 256 * record[at + 2]
        yield record[at:end]
        at = end


def records(path):
    """Record and number of words of each case of a file."""
    data, at = Path(path).read_bytes(), 0
    while at < len(data):
        size, _, _, _, words, *_, length = struct.unpack_from("<15I", data, at)
        yield data[at + 60 : at + 60 + length], words
        at += 4 + size


def frozen():
    """The records of the frozen cases, each once."""
    return list({record: None for record, _ in records(TOP / "crates/blockcases/stdin")})


def answer(program, record):
    """The lines of what a program like `blockwords` answers to a record."""
    said = subprocess.run(program, input=record, capture_output=True, check=True).stdout.decode()
    return [line.split() for line in said.splitlines()]


def counts(found):
    """How many cases there are, how many are refused, and the words of the others."""
    refused = sum(c[2][0][0] == "refused" for c in found)
    return len(found), refused, sum(int(c[2][0][1]) for c in found if c[2][0][0] == "words")


def told(counts):
    """What the program writes where none differs."""
    return "cases {}\nrefused {}\nwords {}\ndifferent 0\n".format(*counts)


def write(oracle, pairs, file):
    """Writes the cases of the pairs, and gives their counts."""
    total = [0, 0, 0]
    for i in range(0, len(pairs), AT_ONCE):
        found = cases(oracle, pairs[i : i + AT_ONCE])
        file.write(b"".join(case(*c[:4]) for c in found))
        total = [x + y for x, y in zip(total, counts(found))]
    return total


# How records become pairs of lent words and a record.
WAYS = {"drawn": drawn, "edge": edge, "cut": cut}


def main():
    arguments = argparse.ArgumentParser()
    arguments.add_argument("oracle")
    arguments.add_argument("out")
    arguments.add_argument("--public")
    for way in WAYS:
        arguments.add_argument("--" + way, action="append", default=[])
    a = arguments.parse_args()
    oracle = [a.oracle] + OPTIONS
    pairs = list(public(a.public)) if a.public else []
    for way, of in WAYS.items():
        for path in getattr(a, way):
            pairs += of(oracle, read(path))
    with open(a.out, "wb") as f:
        print(told(write(oracle, pairs, f)), end="")


if __name__ == "__main__":
    main()
