"""Distances in A64 words: which instructions have one, where it leads, and where a block's literal pool begins."""

# The instructions with a distance in words by the Arm manual: mask, opcode, and the bits of the distance.
DISTANCES = (
    (0xFC000000, 0x14000000, 0x03FFFFFF),  # B
    (0xFF000010, 0x54000000, 0x00FFFFE0),  # B.cond
    (0x7E000000, 0x34000000, 0x00FFFFE0),  # CBZ, CBNZ
    (0x7E000000, 0x36000000, 0x0007FFE0),  # TBZ, TBNZ
    (0xFF000000, 0x10000000, 0x00FFFFE0),  # ADR of a multiple of 4
    (0xFF000000, 0x58000000, 0x00FFFFE0),  # LDR (literal)
)
LITERAL = DISTANCES[-1]


def has(word, of):
    return word & of[0] == of[1]


def row(word):
    """The row of DISTANCES that a word has, if any."""
    return next((of for of in DISTANCES if has(word, of)), None)


def distance(word, of):
    _, _, bits = of
    low = bits & -bits
    d, most = (word & bits) // low, bits // low
    return d if d <= most // 2 else d - most - 1


def at_distance(word, of, d):
    """The word with another distance."""
    _, _, bits = of
    return word & ~bits | d * (bits & -bits) & bits


def target(at, word):
    """The position that the word at a position leads to or loads from, or None."""
    of = row(word)
    return None if of is None else at + distance(word, of)


def code_end(words):
    """Where the pool begins, at the first word that a literal is loaded from: the words before it are instructions."""
    end, at = len(words), 0
    while at < end:
        if has(words[at], LITERAL):
            end = min(end, target(at, words[at]))
        at += 1
    return end
