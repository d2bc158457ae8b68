"""A block as a picture: the record's fields on the left, the block's words on the right, and between them which operation became which
words. SVG, the same for the same record.
"""
from typing import NamedTuple
from xml.sax.saxutils import escape

WIDTH, HEAD, MARGIN = 1060, 60, 16
RECORD, WORDS = (16, 596), (680, 1044)  # left and right end of the two columns
LINE = 18  # the least height of a box, which its text needs
BYTE, WORD = 1.2, 7.0  # the height of a byte of the record and of a word, where that is more
MOST = 1400  # the height of all words, where they would be more
TICK = 4  # the least height of a word that has a tick of its own
GREY, RED = "#ececec", "#b00000"
COLOURS = ("#cfe2f3", "#d9ead3", "#fff2cc", "#f4cccc", "#d9d2e9", "#fce5cd", "#d0e0e3", "#ead1dc")


class Box(NamedTuple):
    """A field or a part: its first byte or word, how many it has, its text, and its operations by position."""

    first: int
    size: int
    text: str
    operations: tuple


def text(x, y, said, anchor="start", ink="black"):
    return f'<text x="{x:g}" y="{y:g}" text-anchor="{anchor}" fill="{ink}">{escape(said)}</text>'


def line(x, to, y, ink):
    return f'<line x1="{x:g}" y1="{y:g}" x2="{to:g}" y2="{y:g}" stroke="{ink}"/>'


def stacked(boxes, unit):
    """Top and bottom of each box, one below the other."""
    at, found = HEAD, []
    for box in boxes:
        found.append((at, at + max(LINE, box.size * unit)))
        at = found[-1][1]
    return found


def colour(box):
    return COLOURS[box.operations[0] % len(COLOURS)] if box.operations else GREY


def drawn(column, box, rows, numbers):
    """A box with its numbers and its text."""
    (x, right), (top, bottom) = column, rows
    yield f'<rect x="{x}" y="{top:g}" width="{right - x}" height="{bottom - top:g}" fill="{colour(box)}" stroke="#555"/>'
    for i, n in enumerate(numbers):
        yield text(x + 46 * (i + 1), top + 13, str(n), "end")
    yield text(x + 46 * len(numbers) + 10, top + 13, box.text)


def picture(fields, parts, body, sites):
    """The picture of boxes: the record's fields, and the parts of its words. The body's position; position and target of each site."""
    count = sum(part.size for part in parts)
    unit = min(WORD, MOST / count)
    left, right = stacked(fields, BYTE), stacked(parts, unit)
    height = max(left[-1][1], right[-1][1]) + MARGIN
    size = f'width="{WIDTH}" height="{height:g}"'
    yield f'<svg xmlns="http://www.w3.org/2000/svg" {size} viewBox="0 0 {WIDTH} {height:g}" font-family="monospace" font-size="12">'
    yield f'<rect {size} fill="white"/>'
    yield text(RECORD[0], 22, f"the record: {sum(field.size for field in fields)} bytes")
    yield text(WORDS[0], 22, f"the block: {count} words, {4 * count} bytes")
    yield text(RECORD[0] + 46, 48, "byte", "end")
    yield from (text(WORDS[0] + 46 * (i + 1), 48, said, "end") for i, said in enumerate(("word", "byte")))
    for field, (top, bottom) in zip(fields, left):
        for part, (to, end) in zip(parts, right):
            if set(field.operations) & set(part.operations):
                points = f"{RECORD[1]},{top:g} {WORDS[0]},{to:g} {WORDS[0]},{end:g} {RECORD[1]},{bottom:g}"
                yield f'<polygon points="{points}" fill="{colour(field)}" opacity="0.6"/>'
    for field, rows in zip(fields, left):
        yield from drawn(RECORD, field, rows, [field.first])
    for part, rows in zip(parts, right):
        yield from drawn(WORDS, part, rows, [part.first, 4 * part.first])
        step = (rows[1] - rows[0]) / max(part.size, 1)
        if step >= TICK:
            yield from (line(WORDS[0], WORDS[0] + 5, rows[0] + i * step, "#555") for i in range(1, part.size))
        if part.first == body and part.size:
            yield text(WORDS[1] - 6, rows[0] + 13, "body", "end", RED)
        for at, target in sites:
            if part.first <= at < part.first + part.size:
                y = rows[0] + (at - part.first + 0.5) * step
                yield line(WORDS[0] - 8, WORDS[0] + 12, y, RED)
                yield text(WORDS[1] - 6, min(max(y + 4, rows[0] + 13), rows[1] - 4), f"site {at}, to {target:#010x}", "end", RED)
    yield "</svg>"
