"""Turns records with their listings into equations on the definitions of reading and lowering.

    python3 tools/words_to_antt.py RECORDS OUT [--most WORDS] [--commit LISTING] [--refused]

RECORDS is a file of records in the format of the oracle's vectors: a case begins with `> name words-lent record` (hexadecimal), and the
lines up to the next `>` are its listing. OUT is the `proofs` folder of a crate that depends on record, lowering, code, block and arm; it
gets `Words.antt` and `Lib.antt`. For each accepted record, of at most WORDS words, four equations say that the definitions give these
very words and these very sites in this order, that the patches are where a word of the listing before the pool has a distance, by its
opcode, and that behind half of them the words are the listing's with the distances of the others 0. LISTING is a command that prints a
record's listing as the commit has it, without the tests of 2026-04: with it a fifth equation says that `commit_words` are its words. With
--refused there is also an equation for each record that is refused, but for 10: that reading answers this number at this place. Each holds
by computation, so that `rt check` of the crate compares every word.
"""
import argparse
import os
import shlex
import subprocess
import sys

sys.dont_write_bytecode = True
from distances import at_distance, row

UNFOLDED = {
    "block.specs.Block": "places up_from",
    "record.specs.Record": "reading num16 num32 num64 field_fault layout_fault region_fault memory_fault start_fault contents_fault "
                           "operation_of operation_fault operations header refused_or layout_field memory_field addresses_field "
                           "start_field guard_field in_ram within_ram",
    "lowering.specs.Compile": "block_words block_lines block_code sites starts",
    "lowering.specs.Commit": "commit_words commit_lines commit_code",
    "lowering.specs.Fragments": "add_imm brk_first even loads try_region extended align_test map_test stores call exit_imm chain ind hold "
                                "check_brk fork limit guard load store step_code step_cache steps_code opening closing",
    "lowering.specs.Cache": "position latest oldest chosen spill slot_for seated ld_reg st_reg stored flush_from flush reload_from reload",
    "lowering.specs.Instrs": "mov32",
    "lowering.specs.Steps": "move_words push_all pop_all lowered op_steps ops_steps block_steps",
    "code.specs.Items": "index add halves pad_of base_of",
    "code.specs.Tree": "words lines instrs whole_lines pool_in find_in lines_words",
    "code.specs.Walk": "lines_at patches_of unpatched_words completed_at walked_words",
}

# The common exit, behind which the pool begins.
CLOSING = "a94573fb a9446bf9 a94363f7 a9425bf5 a94153f3 a8c67bfd d65f03c0".split()

HEAD = """-- Each record gives these words, these sites and this walk over the patches, by computation.
use mathlib.Core.Path.{◌≡◌, refl}
use mathlib.Core.List.{List, [], ◌∷◌}
use Prim.Native.Nat.{ℕ, zero, suc, ◌/◌, ◌%◌, ◌^◌}
use Rattle.lowering.specs.declared.Site.{Site}
"""

HEX = """
-- n bytes as one hexadecimal number, the first byte highest
abbrev hex : ℕ → ℕ → List ℕ
hex zero x = []
hex (suc n) x = x / 256 ^ n % 256 ∷ hex n x

abbrev site : (at target : ℕ) → Site
site p t = record { at = p; target = t }
"""


def words_of(listing):
    """The words of a listing, as a list of its lines."""
    words = [w for line in listing[1:] if line[0] != "site" for w in line]
    assert len(words) == int(listing[0][1])
    return words


def listings(path):
    """Name, record and listing of each case."""
    found = []
    for line in open(path):
        if line.startswith("> "):
            _, name, _, record = line.split()
            found.append((name, record, []))
        else:
            found[-1][2].append(line.split())
    return found


def cases(path):
    """Name, record, words and sites of each accepted record."""
    for name, record, listing in listings(path):
        if listing and listing[0][0] == "words":
            sites = [(int(line[1]), line[2]) for line in listing if line[0] == "site"]
            yield name, record, words_of(listing), sites


def patches(words):
    """The positions of the words with a distance, each with its word without the distance."""
    (end,) = [i for i in range(len(words)) if words[i : i + len(CLOSING)] == CLOSING]
    found = {}
    for i, word in enumerate(words[:end]):
        w = int(word, 16)
        if of := row(w):
            found[i] = f"{at_distance(w, of, 0):08x}"
    return found


def refusals(path):
    """Name, record, number and place of each record that reading refuses."""
    for name, record, listing in listings(path):
        if listing and listing[0][0] == "refused" and listing[0][1] != "10":
            yield name, record.strip("-"), *listing[0][1:]


def listed(items):
    return "".join(f"{i} ∷ " for i in items) + "[]"


def refused(n, name, record, number, place):
    """The equation on a refusal."""
    return f"""
-- {name}
answer{n} : (reading (hex {len(record) // 2} 0x{record or "0"})).answer ≡ Refused {number} {place}
unfolding {UNFOLDED["block.specs.Block"]} {UNFOLDED["record.specs.Record"]}
answer{n} = refl
"""


def equations(n, case, commit):
    name, record, words, sites = case
    unfolding = "unfolding " + " ".join(UNFOLDED.values())
    block = f"(reading (hex {len(record) // 2} 0x{record})).block"
    found = patches(words)
    half = len(found) // 2
    later = set(list(found)[half:])
    walked = [found[i] if i in later else w for i, w in enumerate(words)]
    return f"""
-- {name}
words{n} : block_words {block} ≡ {listed("0x" + w for w in words)}
{unfolding}
words{n} = refl

sites{n} : sites {block} ≡ {listed(f"site {p} 0x{t}" for p, t in sites)}
{unfolding}
sites{n} = refl

patches{n} : patches_of (block_lines {block}) ≡ {listed(found)}
{unfolding}
patches{n} = refl

walked{n} : walked_words {half} (block_lines {block}) ≡ {listed("0x" + w for w in walked)}
{unfolding}
walked{n} = refl
""" + (committed(n, record, block, unfolding, commit) if commit else "")


def committed(n, record, block, unfolding, commit):
    """The equation on the commit's words."""
    out = subprocess.run(shlex.split(commit), input=bytes.fromhex(record), stdout=subprocess.PIPE, check=True).stdout.decode()
    words = words_of([line.split() for line in out.splitlines()])
    return f"""
commit{n} : commit_words {block} ≡ {listed("0x" + w for w in words)}
{unfolding}
commit{n} = refl
"""


def main():
    p = argparse.ArgumentParser()
    p.add_argument("records")
    p.add_argument("out")
    p.add_argument("--most", type=int, default=1 << 30)
    p.add_argument("--commit", metavar="LISTING", help="a command that prints a record's listing without the tests of 2026-04")
    p.add_argument("--refused", action="store_true")
    a = p.parse_args()
    if not a.commit:
        del UNFOLDED["lowering.specs.Commit"]
    taken = [c for c in cases(a.records) if len(c[2]) <= a.most]
    uses = "".join(f"use Rattle.{module}.{{{', '.join(names.split())}}}\n" for module, names in UNFOLDED.items())
    lost = list(refusals(a.records)) if a.refused else []
    uses += "use Rattle.record.specs.Record.{Refused}\n" if lost else ""
    os.makedirs(a.out, exist_ok=True)
    with open(os.path.join(a.out, "Words.antt"), "w") as f:
        f.write(HEAD + uses + HEX + "".join(equations(n, c, a.commit) for n, c in enumerate(taken)))
        f.write("".join(refused(n, *c) for n, c in enumerate(lost)))
    with open(os.path.join(a.out, "Lib.antt"), "w") as f:
        f.write("pub mod Words\n")
    words, distances = (sum(map(len, found)) for found in ([c[2] for c in taken], [patches(c[2]) for c in taken]))
    print(f"{len(taken)} records, {words} words, {distances} patches; {len(lost)} refused")


if __name__ == "__main__":
    main()
