"""Speed and stack of `translate` and `words_needed` beside the commit's `compile`, in one run on one machine: the tables of docs/SPEED.md.

    python3 host/speed.py tests/oracle ORACLE

tests/oracle draws the records, and ORACLE is the program that its build.py makes (docs/vectors.md), with the options of
tools/block_cases.py. Needs rt, gcc, objdump and valgrind. Prints Markdown.

Instructions are callgrind's, of `werfund_translate` and `werfund_words_needed` in the static library and of `main::jit::compile` in the oracle
with all that they call, on the same records. Times are of a call in a loop, the least of 15 runs that all measurements make by turns. The parts
of `translate` are told apart from outside, so that no function has to stay one in the compiled code:

    read     the records with a byte behind them, at which reading ends with fault 1; nothing is lent
    lower    the records with nothing lent, which ends with fault 10 behind the lowering, less read; no word is stored there
    finish   the rest: the pool, the distances, the answer, and the stores of the words
"""
import os
import re
import subprocess
import sys
import tempfile

sys.dont_write_bytecode = True
TOP = os.path.dirname(os.path.dirname(os.path.abspath(__file__)))
sys.path.insert(0, os.path.join(TOP, "tools"))
from block_cases import OPTIONS, first, in_ram, operations, records as case_records

LIBRARY = os.path.join(TOP, "target/staticlib/libwerfund.a")
SPEED = os.path.join(TOP, "target/host/speed")
LENT = 32768  # more than any block takes
BASE = 39  # the last kind of document 01


def run(command, lines=()):
    text = "".join(line + "\n" for line in lines)
    return subprocess.run(command, input=text, capture_output=True, text=True, check=True, cwd=TOP)


# ---- records


def cut(records, n):
    """The records, cut behind so many operations, a line each."""
    return [(r[: first(r)] + b"".join(list(operations(r))[:n])).hex() for r in records]


def longest(last):
    """Of the frozen cases whose kinds are at most `last`, the record whose block has most words, and their number."""
    best = 0, b""
    for record, words in case_records(os.path.join(TOP, "crates/blockcases/stdin")):
        if best[0] < words and all(f[3] <= last for f in operations(record)):
            best = words, record
    return best[1], best[0]


# ---- measures


def instructions(function, command, lines):
    """Instructions of a function with all that it calls, for each record."""
    with tempfile.NamedTemporaryFile() as out:
        grind = ["valgrind", "--tool=callgrind", "--callgrind-out-file=" + out.name, "--toggle-collect=" + function]
        said = run(grind + command, lines).stderr
    return int(re.search(r"Collected : (\d+)", said).group(1)) / len(lines)


def ours(lines, lent=LENT):
    return instructions("werfund_translate", [SPEED, "1", str(lent)], lines)


def our_count(lines):
    return instructions("werfund_words_needed", [SPEED, "1", "needed"], lines)


def our_time(lines, rounds, lent=LENT):
    """A measurement of times: command, input, and where the nanoseconds stand in what it prints."""
    return [SPEED, str(rounds), str(lent)], lines, r" ([\d.]+)\n"


def least(measurements, runs=15):
    """The least time of each measurement, made by turns, so that what disturbs the machine disturbs all."""
    found = [[] for _ in measurements]
    for _ in range(runs):
        for (command, lines, pattern), times in zip(measurements, found):
            times.append(float(re.search(pattern, run(command, lines).stdout).group(1)))
    return [min(times) for times in found]


def apart(read, lowered, whole):
    """Read, lower, finish and the whole."""
    return read, lowered - read, whole - lowered, whole


# ---- the stack


def functions():
    """The instructions of the library's functions: address, name and operand of each, and the function that it calls."""
    found, code = {}, None
    for line in run(["objdump", "-dr", "--no-show-raw-insn", LIBRARY]).stdout.splitlines():
        start = re.match(r"[0-9a-f]+ <(.*)>:$", line)
        step = re.match(r" *([0-9a-f]+):\t(?:notrack |bnd )?(\S+) *(.*)$", line)
        goal = re.match(r"\t*\s*[0-9a-f]+: R_X86_64_PLT32\s+(?:\.text\.)?(.*?)[-+]0x", line)
        if start:
            code = found.setdefault(start.group(1), [])
        elif goal:
            code[-1][3] = goal.group(1)
        elif step and not step.group(2).startswith("R_X86_64"):
            code.append([int(step.group(1), 16), step.group(2), step.group(3), None])
    for code in found.values():
        for a, b, c in zip(code, code[1:], code[2:]):
            # a large frame is made a page at a time, down to %r11
            if a[1:3] == ["mov", "%rsp,%r11"] and b[2].endswith(",%r11") and c[1:3] == ["sub", "$0x1000,%rsp"]:
                c[2] = b[2].replace("%r11", "%rsp")
    return found


def moved(name, operand):
    """By how much an instruction moves the stack pointer down."""
    by = re.match(r"\$(-?0x[0-9a-f]+),%rsp$", operand)
    if name == "push":
        return 8
    if name == "pop":
        return -8
    if name in ("sub", "add") and by:
        return int(by.group(1), 16) * (1 if name == "sub" else -1)
    assert not re.search(r",%rsp$", operand) or name in ("cmp", "test"), (name, operand)
    return 0


def depths(code):
    """How far the stack is down at each instruction, its caller's return address included: along every jump, and behind a jump by a table as at it."""
    at = {c[0]: i for i, c in enumerate(code)}
    deep, tables, todo = {}, 8, [(0, 8)]
    while True:
        while todo:
            i, d = todo.pop()
            if i >= len(code) or i in deep:
                continue
            deep[i] = d
            _, name, operand, goal = code[i]
            d += moved(name, operand)
            if name.startswith("j") and not goal:
                if operand.startswith("*"):
                    tables = max(tables, d)
                else:
                    todo.append((at[int(operand.split()[0], 16)], d))
            if name not in ("ret", "jmp", "ud2"):
                todo.append((i + 1, d))
        rest = [i for i in range(len(code)) if i not in deep]
        if not rest:
            return deep
        todo.append((rest[0], tables))


def stack():
    """Each function's largest depth, and how deep the stack is with what it calls."""
    own, calls = {}, {}
    for name, code in functions().items():
        deep = depths(code)
        own[name] = max(deep.values())
        calls[name] = [(deep[i], c[3]) for i, c in enumerate(code) if c[3]]
    whole = {}

    def of(name):
        if name not in own:
            return 8, [name]  # of the C library: the return address alone is counted
        if name not in whole:
            whole[name] = max([(own[name], [name])] + [(d + of(g)[0], [name] + of(g)[1]) for d, g in calls[name]])
        return whole[name]

    return own, of


# ---- the tables


def machine():
    cpu = re.search(r"model name\s*: (.*)", open("/proc/cpuinfo").read())
    versions = [run([tool, "--version"]).stdout.splitlines()[0] for tool in ("gcc", "valgrind")]
    return ", ".join([cpu.group(1) if cpu else "unknown processor"] + versions)


def row(*cells):
    print("| " + " | ".join(c if isinstance(c, str) else f"{c:,.0f}" for c in cells) + " |", flush=True)


def growth(records, rust):
    """A row for so many operations of the records, with what one more costs."""
    row("Operations", "Words", "`translate`, instructions", "for an operation more", "Rust, instructions", "for an operation more")
    row("---:", "---:", "---:", "---:", "---:", "---:")
    before = None
    for n in (1, 2, 4, 8, 16, 32):
        lines = cut(records, n)
        words = int(run([SPEED, "1", str(LENT)], lines).stdout.split()[2]) / len(lines)
        now = (n, ours(lines), rust(lines))
        more = [(now[k] - before[k]) / (n - before[0]) if before else "" for k in (1, 2)]
        row(n, words, now[1], more[0], now[2], more[1])
        before = now


def main():
    if len(sys.argv) != 3:
        sys.exit(__doc__)
    directory, oracle = (os.path.abspath(a) for a in sys.argv[1:])
    os.makedirs(os.path.dirname(SPEED), exist_ok=True)
    run(["host/build.sh"])
    run(["gcc", "-std=c99", "-O2", "-Wl,-z,now", "host/speed.c", LIBRARY, "-o", SPEED])

    def rust(lines, function="main::jit::compile"):
        return instructions(function, [oracle, *OPTIONS, "--hex"], lines)

    def rust_time(lines, rounds):
        return [oracle, *OPTIONS, "--time", str(rounds)], lines, r"(\d+) ns per compile"

    def drawn(*options):
        return run([sys.executable, os.path.join(directory, "blocks.py"), "speed", "1000", *options]).stdout.split()

    last = int(OPTIONS[OPTIONS.index("--kinds") + 1])
    base, every, guarded = drawn(), drawn("--kinds", str(last)), drawn("--kinds", str(last), "--guards")
    empty = open(os.path.join(TOP, "crates/blockwords/stdin"), "rb").read()
    (long_base, words_base), (long, words) = longest(BASE), longest(last)
    sets = (
        (f"1,000 drawn, kinds 0 to {BASE}", base, 50),
        (f"1,000 drawn, kinds 0 to {last}", every, 50),
        (f"1,000 drawn, kinds 0 to {last}, {sum(map(in_ram, map(bytes.fromhex, guarded)))} of them in RAM", guarded, 50),
        ("the empty block, 35 words", [empty.hex()] * 100, 5000),
        (f"the longest block, {words:,} words", [long.hex()] * 100, 10),
        (f"the longest of kinds 0 to {BASE}, {words_base:,} words", [long_base.hex()] * 100, 50),
    )
    parted = [(name, lines, [line + "05" for line in lines], rounds) for name, lines, rounds in sets[:2]]
    times = least(
        [our_time(lines, rounds) for _, lines, rounds in sets]
        + [rust_time(lines, rounds) for _, lines, rounds in sets]
        + [our_time(lines, rounds, "needed") for _, lines, rounds in sets]
        + [our_time(part, rounds, 0) for _, lines, behind, rounds in parted for part in (behind, lines)]
    )
    spent, rust_spent, counted, parts = (times[k * len(sets) : (k + 1) * len(sets)] for k in range(4))

    print(f"{machine()}\n")
    print("Instructions and nanoseconds a record:\n")
    row("Records", "`translate`, instructions", "Rust, instructions", "`translate`, ns", "Rust, ns")
    row("---", "---:", "---:", "---:", "---:")
    translated = [ours(lines) for _, lines, _ in sets]
    compiled = [rust(lines) for _, lines, _ in sets]
    for k, (name, _, _) in enumerate(sets):
        row(name, translated[k], compiled[k], spent[k], rust_spent[k])

    print("\nThe words counted, before any are lent:\n")
    row("Records", "`words_needed`, instructions", "`translate`, instructions", "`words_needed`, ns", "`translate`, ns")
    row("---", "---:", "---:", "---:", "---:")
    for k, (name, lines, _) in enumerate(sets):
        row(name, our_count(lines), translated[k], counted[k], spent[k])

    for k, (name, lines, behind, _) in enumerate(parted):
        print(f"\nThe parts, {name}:\n")
        counts = apart(ours(behind, 0), ours(lines, 0), translated[k])
        ns = apart(parts[2 * k], parts[2 * k + 1], spent[k])
        read, finish = (rust(lines, f) for f in ("main::record::read", "main::jit_a64::Asm::finish"))
        others = f"{read:,.0f}, of the oracle's own reader", compiled[k] - finish, finish, f"{compiled[k]:,.0f}, without read"
        row("Part", "`translate`, instructions", "`translate`, ns", "Rust, instructions")
        row("---", "---:", "---:", "---:")
        for cells in zip(("read", "lower", "finish", "whole"), counts, ns, others):
            row(*cells)

    full = [r for r in map(bytes.fromhex, every) if len(list(operations(r))) == 32]
    print(f"\nGrowth, on the {len(full)} drawn records of 32 operations, cut behind so many:\n")
    growth(full, rust)
    print("\nGrowth, on the longest block, cut behind so many:\n")
    growth([long], rust)

    print("\nStack, in bytes:\n")
    own, of = stack()
    row("Function", "its frame", "with what it calls")
    row("---", "---:", "---:")
    for name in sorted(own, key=own.get, reverse=True)[:4]:
        row(f"`{name}`", own[name], of(name)[0])
    deep, path = of("werfund_translate")
    others = "; ".join(f"`{name}`: {of(name)[0]:,}" for name in ("werfund_words_needed", "werfund_link"))
    print(f"\nThe deepest: {deep:,} bytes, by " + ", ".join(f"`{p}`" for p in path) + f"; {others}.")


if __name__ == "__main__":
    main()
