"""A64 words as mnemonics, by aarch64-linux-gnu-objdump or llvm-objdump, whichever is there; the same text by both.

Both write the manual's preferred mnemonic. They differ in how they write numbers, targets and the conditions HS and LO (CS and CC), so
these are written anew: a number below 4096 decimal, others with 0x; a target as the position of its word, `word 21`.
"""
import re
import shutil
import struct
import subprocess
import tempfile

from distances import target

# In the order in which they are looked for, each with Debian's package.
PROGRAMS = {"aarch64-linux-gnu-objdump": "binutils-aarch64-linux-gnu", "llvm-objdump": "llvm"}

def moved(first, second):
    """The number that two words move to a register of 32 bits, MOVZ and then MOVK of its upper half; else nothing."""
    if first & 0xFFE0001F == 0x52800000 | second & 31 and second & 0xFFE00000 == 0x72A00000:
        return f"{(second >> 5 & 0xFFFF) << 16 | first >> 5 & 0xFFFF:#x}"
    return ""


def program(asked=None):
    """The program that is asked for, or the first that is there, or None."""
    return next((p for p in ([asked] if asked else PROGRAMS) if shutil.which(p)), None)


def elf(words):
    """An AArch64 object file whose text is the words: the head, three sections' headers, the text, the sections' names."""
    text, names = struct.pack(f"<{len(words)}I", *words), b"\0.text\0.shstrtab\0"
    first = 64 + 3 * 64
    section = lambda name, of, flags, place, size, align: struct.pack("<2I4Q2I2Q", name, of, flags, 0, place, size, 0, 0, align, 0)
    head = b"\x7fELF\2\1\1" + bytes(9) + struct.pack("<2HI3QI6H", 1, 183, 1, 0, 0, 64, 0, 64, 0, 0, 64, 3, 2)
    sections = section(0, 0, 0, 0, 0, 0) + section(1, 1, 6, first, len(text), 4) + section(7, 3, 0, first + len(text), len(names), 1)
    return head + sections + text + names


def number(text, bits):
    """A number as it is written here; of a move to a register of so many bits without a sign."""
    x = int(text, 0) % (1 << bits) if bits else int(text, 0)
    return f"#{x}" if abs(x) < 4096 else f"#{x:#x}"


def told(at, said):
    """Where the last operand of a mnemonic leads, as a word's position: `#` and a distance in bytes, or an address of 64 bits."""
    m = re.search(r"(?:#(-?\w+)|(?:0x)?([0-9a-f]+))(?: <.*>)?$", said)
    address = 4 * at + int(m[1], 0) if m[1] else int(m[2], 16)
    return said[: m.start()], (address + (1 << 63)) % (1 << 64) - (1 << 63) >> 2


def written(at, word, said):
    """A mnemonic with its operands, as it is written here. `ValueError` if it leads elsewhere than the word does."""
    said = re.sub(r"\s+", " ", said.split("//")[0]).strip()
    said = re.sub(r"(?<=b\.|, )(cs|cc)\b", lambda m: {"cs": "hs", "cc": "lo"}[m[1]], said)
    if (to := target(at, word)) is not None:
        lead, position = told(at, said)
        if position != to:
            raise ValueError(f"{said} at word {at} leads to word {position}, and {word:08x} to word {to}")
        return f"{lead}word {to}"
    bits = {"mov w": 32, "mov x": 64}.get(said[:5])
    return re.sub(r"#(-?(?:0x[0-9a-f]+|\d+))", lambda m: number(m[1], bits), said)


def mnemonics(words, objdump):
    """The mnemonics of words that stand one behind the other. `ValueError` if the program does not tell them."""
    with tempfile.NamedTemporaryFile(suffix=".o") as file:
        file.write(elf(words))
        file.flush()
        lines = subprocess.run([objdump, "-d", "-z", file.name], capture_output=True, text=True).stdout.splitlines()
    row = re.compile(r"\s*([0-9a-f]+):\s+(?:[0-9a-f]{8}|[0-9a-f]{2}(?: [0-9a-f]{2}){3})\s+(\S.*)")
    found = [m for m in map(row.match, lines) if m]
    if [int(m[1], 16) for m in found] != list(range(0, 4 * len(words), 4)):
        raise ValueError(f"{objdump} does not disassemble A64")
    return [written(i, word, m[2]) for i, (word, m) in enumerate(zip(words, found))]
