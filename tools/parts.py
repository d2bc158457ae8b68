"""The parts of a block's words: which operation each word belongs to, as far as listings tell.

A block is, one behind the other: the opening words; from the body on the limit test; in RAM the guard; the operations in order, each with
its break check if it uses the bus; the chain behind them, unless the last of them jumps; the common exit; a nop, if the pool would not be
aligned without; the literal pool (`block_lines`, `block_steps` in crates/lowering/specs). Where each begins is told by listings of
`blockwords` alone:

- The limit test's branch, its third word, leads to what is behind it, and so does the guard's, its fifth.
- The pool begins where the first of the loads from it leads.
- An operation begins where another one would, that stands in its place. Two blocks with the operations before it and then `SpAdd v=1`, in
  the other `SpAdd v=2`, differ in one word, the second of SpAdd's three. Such a block has at most MORE words more than the record's own:
  SpAdd's, and one for the nop or for a pc that takes two. Where `blockwords` has no room for these the beginning is not told.
- The chain begins with what its flush stores, before the word that counts, right before the site. An operation does not end so: its last
  word moves into a slot, stores no slot, or, if it uses the bus, is a branch to the exit.
"""
import subprocess
from typing import NamedTuple

import block_cases
from distances import code_end, target
from record import JUMPS, op_field

# The host registers that hold guest registers, in pool order, and the one that points to the processor record.
SLOTS = (5, 6, 7, 8, 14, 15, 16, 17)
CPU = 19
EXIT = 7  # words
NOP = 0xD503201F
MORE = 4  # words


class Part(NamedTuple):
    """The words from `start` up to `end`: what they are, and the positions of the operations that they belong to."""

    start: int
    end: int
    name: str
    operations: tuple = ()


class Listing(NamedTuple):
    """An accepted block: its words, the body's offset in bytes, and position and target of each site."""

    words: list
    body: int
    sites: list


def listing(program, record):
    """What the program says of a record: a listing, or the words of its one line. `ValueError` if it does not speak as blockwords does."""
    try:
        said = block_cases.answer(program, record)
        if said[0][0] == "words":
            return Listing(*block_cases.listed(said))
        if said == [["long"]] or said[0][0] == "refused" and len(said[0]) == 3 and all(n.isdecimal() for n in said[0][1:]):
            return said[0]
    except (subprocess.SubprocessError, ValueError, IndexError, AssertionError):
        pass
    raise ValueError(f"{program} does not answer as blockwords does")


def stores_slot(word):
    """STR (immediate) of 32 bits, of a slot, into the processor record."""
    return word & 0xFFC003E0 == 0xB9000000 | CPU << 5 and word & 31 in SLOTS


def beginning(program, before):
    """Where an operation begins that stands behind these bytes of a record, or None."""
    one, two = (listing(program, before + op_field(19, 0, 0, [v])) for v in (1, 2))
    if not isinstance(one, Listing) or not isinstance(two, Listing):
        return None
    (at,) = [i for i, (x, y) in enumerate(zip(one.words, two.words)) if x != y]
    return at - 1


def chain(words, sites):
    """Where the chain behind the last operation begins."""
    at = sites[0][0] - 1
    while stores_slot(words[at - 1]):
        at -= 1
    return at


def parts(program, record, whole):
    """The parts of an accepted record's block, in order."""
    words, _, sites = whole
    fields = list(block_cases.operations(record))
    body, end, jumps = whole.body // 4, code_end(words), bool(fields) and fields[-1][3] in JUMPS
    nop = int(end < len(words) and words[end - 1] == NOP)
    leave = end - nop - EXIT
    behind = leave if jumps else chain(words, sites)
    limit = target(body + 2, words[body + 2])
    found = [Part(0, body, "opening words"), Part(body, limit, "limit test")]
    if block_cases.in_ram(record):
        found.append(Part(limit, target(limit + 4, words[limit + 4]), "guard"))
    at, ends, waiting = block_cases.first(record), [], ()
    for field in fields[:-1]:
        at += len(field)
        ends.append(beginning(program, record[:at]))
    for i, stop in enumerate([*ends, behind][: len(fields)]):
        waiting += (i,)
        if stop is not None:
            found.append(Part(found[-1].end, stop, "operation" if len(waiting) == 1 else "operations", waiting))
            waiting = ()
    last = (("chain", leave - behind), ("exit", EXIT), ("nop", nop), ("literal pool", len(words) - end))
    for name, count in last:
        if count:
            found.append(Part(found[-1].end, found[-1].end + count, name))
    return found
