"""Records with the words of their blocks, for tools/walk_stops.c.

    python3 tools/block_words.py ORACLE FILE.. > BLOCKS

A FILE has a record a line in hexadecimal, as blocks.py prints it. For each that ORACLE accepts, with more words lent than any block takes,
a line: the record, and the words, a space between each.
"""
import sys

sys.dont_write_bytecode = True
import block_cases

LENT = 32768


def main():
    oracle, *files = sys.argv[1:]
    pairs = [(LENT, record) for path in files for record in block_cases.read(path)]
    for _, record, listing in block_cases.answered([oracle] + block_cases.OPTIONS, pairs):
        if listing[0][0] == "words":
            print(record.hex(), *(w for line in listing[1:] if line[0] != "site" for w in line))


main()
