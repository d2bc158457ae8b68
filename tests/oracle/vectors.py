"""Frozen vectors.

    python3 vectors.py make ORACLE SEED COUNT DIR [--examples] [--kinds 39|44|49]
    python3 vectors.py make-request ORACLE 2026-NN SEED COUNT FILE [--examples] [--again EARLIER_FILE]..
    python3 vectors.py check FILE [--lent] [--order] COMMAND..
    python3 vectors.py check-to 2026-NN DIR [--lent] [--order] COMMAND..
    python3 vectors.py check-enc FILE COMMAND..

make writes DIR/records.txt and DIR/encoders.txt. With --examples the named cases of document 01
stand first. check runs COMMAND once for each record (standard input, as `blockwords`) and compares
its output; the order of site lines counts only with --order. Cases lending other than 16,384 words are left out
unless --lent is given: then `--lent N` is added to COMMAND. With --order the site lines must stand in the file's order,
that of rising word positions (2026-05). check-enc feeds COMMAND all encoder
lines at once (as `oracle --enc`).

make-request writes the records of a change request (request_cases.py), with the answers when it has landed: first the cases of
the EARLIER_FILEs whose answer is another now, under their names, then with --examples the request's named cases, then
drawn and damaged ones, COUNT of the last three together. check-to takes DIR's records.txt and its records-2026-NN.txt up to that
request, in order; of cases with one record and as many words lent the last one counts.

records.txt: a case begins with `> name words-lent record` (the record in hexadecimal, `-` if
empty); the lines up to the next `>` are the expected output, exactly.
encoders.txt: `name number.. = words` or `= refused N 0`; a label is given as its distance in words
from the instruction; conditions by their number 0 to 14. Two names are not encoders: `link site
body` and `gen_add_imm dst src imm` (`Gen::add_imm`).
"""
import random
import struct
import subprocess
import sys
from pathlib import Path

import request_cases
from blocks import EDGES, KINDS, LANDED, LAST, LENT, M32, Block, Draw, field, op_field


def examples(last_kind):
    """(name, lent, record) of document 01's cases and their neighbours."""
    e = []
    add = lambda name, rec, lent=LENT: e.append((name, lent, rec))
    base = Block()
    f = base.fields()
    head = b"".join(f)
    op = lambda kind, *v, glue=0, glen=2: op_field(kind, glen, glue, v)
    add("empty-block", head)
    add("1-empty-record", b"")
    for i in (1, 2, 3, 22, 23, 24, 25, 26, 43, 70, 76):
        add(f"1-cut-{i}", head[:i])
    for i in range(1, 4):
        add(f"1-end-after-{i}", b"".join(f[:i]))
    add("1-cut-operation", head + op(36)[:-1])
    add("1-stray-byte", head + b"\5")
    add("1-before-2-tag", head + b"\7\1\0")
    add("2-first-tag-02", field(2, f[0][3:]) + b"".join(f[1:]))
    add("2-tag-02-alone", field(2, f[0][3:]))
    add("2-length-19", field(1, f[0][3:22]) + b"".join(f[1:]))
    add("2-field-twice", f[0] + f[0] + b"".join(f[1:]))
    add("2-tag-06", head + field(6, bytes(16)))
    add("2-tag-00", head + field(0, bytes(3)))
    add("2-payload-2", head + field(5, bytes(2)))
    add("2-payload-0", head + field(5, b""))
    add("2-before-3", head + field(5, b"\x28\2"))
    add("3-before-2", head + field(5, bytes([last_kind + 1, 2, 0, 9])))
    add("2-before-4", head + field(5, bytes([0, 2, 2, 9])))
    add("3-kind-above", head + op(last_kind + 1))
    add("3-kind-255", head + op(255))
    add("3-before-4", head + op(last_kind + 1, glue=2))
    add("4-MovI-d-16", head + op(1, 16, 0))
    add("4-glue-2", head + op(0, glue=2))
    add("4-map-2", b"".join([f[0], field(2, f[1][3:19] + b"\2"), f[2], f[3]]))
    add("8-33-nops", head + op(0) * 33)
    add("32-nops", head + op(0) * 32)
    add("8-before-9", head + op(0) * 31 + op(36) + op(0))
    add("8-before-3", head + op(0) * 32 + op(200))
    add("2-before-8", head + op(0) * 32 + field(4, bytes(3)))
    add("9-rts-nop", head + op(36) + op(0))
    add("9-before-2", head + op(36) + field(5, b""))
    add("9-before-3", head + op(36) + op(40))
    for name, offs in (("sp-62", (0, 62, 68, 72, 76)), ("regs-16324", (16324, 0, 4, 8, 12)), ("regs-16321", (16321, 0, 4, 8, 12)), ("hold-16384", (0, 64, 68, 72, 16384)),
                       ("sp-60", (0, 60, 68, 72, 76)), ("same", (0, 64, 64, 72, 76)), ("regs-max", (M32, 64, 68, 72, 76)), ("regs-1", (1, 68, 72, 76, 80))):
        add("5-" + name, Block(offs=offs).record())
    for name, offs in (("regs-16320", (16320, 0, 4, 8, 12)), ("turned", (16, 12, 8, 4, 0)), ("apart", (64, 0, 16380, 60, 128))):
        add("layout-" + name, Block(offs=offs, ops=[(1, 2, 0, [15, 1]), (36, 2, 0, [])]).record())
    for name, mem in (("ram-3", (0x01000000, 3, 0, 4)), ("xip-3", (0x01000000, 4, 0, 3)), ("ram-0", (0, 0, 0, 4)), ("ram-base-2", (2, 4, 0, 4)), ("xip-base-1", (0, 4, 1, 4)),
                      ("ram-over", (0xFFFFFFFC, 5, 0, 4)), ("xip-over", (0, 4, 0x80000000, 0x80000001)), ("ram-max", (4, M32, 0, 4))):
        add("6-" + name, Block(mem=mem).record())
    add("6-before-4", Block(mem=(0, 3, 0, 4), map=2).record())
    add("5-before-6", Block(offs=(2, 64, 68, 72, 76), mem=(0, 3, 0, 4)).record())
    ld = [(21, 2, 0, [1, 2, 0, w, 1]) for w in (1, 2, 4)] + [(22, 2, 0, [1, 2, 0, w]) for w in (1, 2, 4)]
    for name, mem in (("ends-at-top", (0xFFFFFFFC, 4, 0xFFFF0000, 0x10000)), ("whole-space", (0, M32, 0, M32)), ("length-5", (0, 5, 8, 7)), ("overlap", (0x02000000, 0x100, 0x02000000, 0x100))):
        for flag in (0, 1):
            add(f"region-{name}-map-{flag}", Block(mem=mem, map=flag, ops=ld).record())
    for pc in (0x04000000, 0x01FFFFFF, 0, M32):
        add(f"7-{pc:08x}", Block(pc0=pc).record())
    for pc in (0x02000001, 0x03FFFFFF):
        add(f"block-at-{pc:08x}", Block(pc0=pc).record())
    add("10-34-lent", head, 34)
    add("35-lent", head, 35)
    add("10-none-lent", head, 0)
    add("9-before-10", head + op(36) + op(0), 0)
    if last_kind == 39:  # the longest block
        W = 0x12345678
        longest = Block(mem=(W, W, 0x23456788, W), map=1, addrs=(1, 2, 3), pc0=0x02001235,
                        ops=[(25, 3, 1, [2 * i, 2 * i + 1, 2, 1, W]) for i in range(4)] + [(27, 3, 1, [7, 2, 3, W, W])] * 28)
        add("longest", longest.record())
    add("one-literal-twice", Block(addrs=(7, 7, 7), ops=[(27, 2, 0, [1, 4, 0, 0, 0]), (39, 2, 1, [])]).record())
    for n in range(7, 12):  # the ninth register takes a slot
        add(f"pressure-{n}", Block(ops=[(1, 2, 0, [i, i]) for i in range(n)] + [(2, 2, 0, [0, 15]), (2, 2, 0, [1, 0])]).record())
    add("length-4096", head + bytes(4096 - len(head)))
    add("length-4097", head + bytes(4097 - len(head)))
    for v in (0, 1, 4095, 4096, 0xFFFFF001, 0xFFFFF000, 0xFFFF0000, 0x10000, M32, 0x12345):
        add(f"AddRI-{v:x}", Block(ops=[(3, 2, 0, [1, 1, v]), (19, 2, 0, [v]), (1, 2, 0, [2, v])]).record())
    # each operand of each kind at its bound and one above
    for kind in range(last_kind + 1):
        name, spec = KINDS[kind]
        for i, (n, t) in enumerate(spec):
            last = 4 if t == "width" else LAST[t]
            for v in sorted({last, min(last + 1, M32)} | ({0, 3} if t == "width" else set())):
                x = [1] * len(spec)
                x[i] = v
                add(f"{name}-{n}-{v:x}", Block(ops=[(kind, 2, 0, x)]).record())
    return e


def draws(seed, count, last_kind):
    d = Draw("vectors " + seed)
    for i in range(count):
        if d.random() < 0.4:
            yield f"damaged-{i}", LENT, d.damaged(last_kind)
        else:
            lent = LENT if d.random() < 0.96 else d.choice([0, 1, 34, 35, 36, 40, 60, 100, 200])
            yield f"drawn-{i}", lent, d.block(last_kind).record()


def encoder_lines(oracle, seed, per):
    """Lines of encoder calls: every encoder with edge and random numbers."""
    r = random.Random("encoders " + seed)
    out = subprocess.run([oracle, "--encs"], capture_output=True, text=True, check=True).stdout
    lines = ["ret"]
    pick = {
        "imm16": lambda: r.choice([0, 1, 0x8000, 0xFFFF, 0x10000, 0x12345, r.getrandbits(16)]),
        "shift": lambda: r.choice([0, 16, 32, 48, 64, 8, r.randint(0, 40)]),
        "imm": lambda: r.choice(EDGES + [r.getrandbits(32), r.getrandbits(12)]),
        "opc": lambda: r.choice([0x1E202800, 0x1E203800, 0x1E200800, 0x1E201800, 0x1E207800, 0x1E206800, 0, 0x1E202000]),
        "sh": lambda: r.choice([0, 1, 15, 31, 32, 63, 64, r.randint(0, 63)]),
        "ones": lambda: r.choice([0, 1, 8, 31, 32, r.randint(1, 31)]),
        "lsb": lambda: r.choice([0, 1, 16, 31, 32, r.randint(0, 31)]),
        "width": lambda: r.choice([0, 1, 8, 16, 32, 33, r.randint(1, 32)]),
        "off": lambda: r.choice([0, 4, 8, 2, 1, -8, -96, 96, 504, 512, -512, -520, 4095, 4096, 8190, 8192, 16380, 16384, 32760, 32768, 8 * r.randint(0, 60)]),
        "bit": lambda: r.choice([0, 1, 31, 32, 63, 64, r.randint(0, 63)]),
    }
    dist = {"b": 1 << 25, "tbz": 1 << 13, "tbnz": 1 << 13}
    for l in out.splitlines():
        name, *params = l.split()
        for _ in range(per):
            v = []
            for p in params:
                n, t = p.split(":")
                if t == "Reg":
                    v.append(r.choice([0, 1, 9, 19, 30, 31, r.randint(0, 31), r.randint(0, 31), r.choice([31, 32, 33, 1 << 31])]))
                elif t == "Cond":
                    v.append(r.randint(0, 14))
                elif t == "Label":
                    top = dist.get(name, 1 << 18)
                    v.append(r.choice([0, 1, -1, top - 1, top, -top, -top - 1, r.randint(-top, top - 1)]))
                elif t == "u64":
                    v.append(r.choice([0, 1, M32, 1 << 32, 0xFFFF0000FFFF0000, (1 << 64) - 1, r.getrandbits(64)]))
                else:
                    x = pick[n]()
                    v.append(abs(x) if t == "u32" else x)
            lines.append(" ".join([name] + [hex(x) if x > 9 else str(x) for x in v]))
    for _ in range(4 * per):
        site = r.choice([0, 4, 1 << 40, -(1 << 63), (1 << 63) - 4, r.getrandbits(40) & ~3])
        d = r.choice([4, -4, 0, 4 * ((1 << 25) - 1), 1 << 27, -(1 << 27), -(1 << 27) - 4, 4 * r.randint(-(1 << 25), (1 << 25) - 1)])
        body = r.choice([site + d, site + d, site + d, site + d + 2, r.getrandbits(63)])
        site += r.choice([0, 0, 0, 0, 0, 0, 2])
        if -(1 << 63) <= site < 1 << 63 and -(1 << 63) <= body < 1 << 63:
            lines.append(f"link {site} {body}")
        lines.append(f"gen_add_imm {r.randint(0, 31)} {r.randint(0, 31)} {hex(r.choice(EDGES + [r.getrandbits(32)]))}")
    return lines


def answers(oracle, options, cases):
    """The oracle's output for (name, lent, record) cases."""
    got = {}
    for lent in {c[1] for c in cases}:
        part = [c for c in cases if c[1] == lent]
        out = subprocess.run([oracle, "--hex", *options, "--lent", str(lent)], input="".join(c[2].hex() + "\n" for c in part), capture_output=True, text=True, check=True).stdout
        for c, text in zip(part, out.split(".\n")):
            got[c[0]] = text
    return got


def make(oracle, seed, count, out, with_examples, kinds):
    cases = examples(kinds) if with_examples else []
    cases += draws(seed, max(count - len(cases), 0), kinds)
    got = answers(oracle, ["--kinds", str(kinds)], cases)
    out.mkdir(parents=True, exist_ok=True)
    write(out / "records.txt", cases, got)
    lines = encoder_lines(oracle, seed, 12)
    text = subprocess.run([oracle, "--enc"], input="\n".join(lines) + "\n", capture_output=True, text=True, check=True).stdout
    with open(out / "encoders.txt", "w") as f:
        for l, a in zip(lines, text.split("\n")):
            assert a != "bad line" and not a.startswith("no such"), l
            f.write(f"{l} = {a}".rstrip() + "\n")
    print(len(cases), "records", told(got), len(lines), "encoder lines")


def write(path, cases, got):
    with open(path, "w") as f:
        for name, lent, rec in cases:
            f.write(f"> {name} {lent} {rec.hex() or '-'}\n{got[name]}")


def told(got):
    """How many answers of each kind there are."""
    kindsof = {}
    for t in got.values():
        k = " ".join(t.split()[:2]) if t.startswith("refused") else t.split()[0]
        kindsof[k] = kindsof.get(k, 0) + 1
    return dict(sorted(kindsof.items()))


def make_request(oracle, request, seed, count, out, with_examples, earlier):
    """The file of a change request: cases whose answer it changes, its own named cases, drawn ones."""
    before = {}
    for f in earlier:
        for name, lent, rec, text in read(f):
            before[lent, rec] = name, text
    old = [(name, lent, rec) for (lent, rec), (name, _) in before.items()]
    assert len({c[0] for c in old}) == len(old), "names of earlier files"
    now = answers(oracle, LANDED[request], old)
    again = [c for c in old if now[c[0]] != before[c[1], c[2]][1]]
    own, seen = [], set(before)
    for c in request_cases.examples(request) if with_examples else []:
        if (c[1], c[2]) not in seen:
            seen.add((c[1], c[2]))
            own.append(c)
    d = Draw(f"vectors {request} {seed}")
    number, i = request[-2:], 0
    while len(own) < count:
        damaged = d.random() < {"2026-03": 0.8, "2026-06": 0.5}.get(request, 0.35)
        rec = d.request_damaged(request) if damaged else d.request_block(request).record()
        lent = LENT if damaged or d.random() < 0.96 else d.choice([0, 1, 34, 35, 36, 40, 60, 100, 200])
        if (lent, rec) not in seen:
            seen.add((lent, rec))
            own.append((f"{'damaged' if damaged else 'drawn'}-{number}-{i}", lent, rec))
        i += 1
    cases = again + own
    assert len({c[0] for c in cases}) == len(cases), "names"
    got = answers(oracle, LANDED[request], cases)
    write(out, cases, got)
    print(len(again), "earlier cases with another answer,", len(cases) - len(again), "of the request;", told(got))


def read(path):
    name = None
    for l in Path(path).read_text().splitlines(True):
        if l.startswith("> "):
            if name:
                yield name, lent, rec, text
            _, name, lent, rec = l.split()
            lent, rec, text = int(lent), bytes.fromhex("" if rec == "-" else rec), ""
        else:
            text += l
    if name:
        yield name, lent, rec, text


def read_to(folder, request):
    """The cases of a folder's files up to a change request, as they are when it has landed."""
    found = {}
    for f in [Path(folder) / "records.txt"] + sorted(f for f in Path(folder).glob("records-2026-*.txt") if f.stem[8:] <= request):
        for case in read(f):
            found[case[1], case[2]] = case
    return found.values()


def options(rest):
    """--lent and --order, and what stands behind them."""
    given = [o for o in rest[:2] if o in ("--lent", "--order")]
    return "--lent" in given, "--order" in given, rest[len(given):]


def norm(text):
    """Site lines in one order."""
    l = text.splitlines()
    return [x for x in l if not x.startswith("site")] + sorted(x for x in l if x.startswith("site"))


def check(cases, with_lent, order, command):
    n = bad = left = 0
    same = str.splitlines if order else norm
    for name, lent, rec, want in cases:
        if lent != LENT and not with_lent:
            left += 1
            continue
        n += 1
        got = subprocess.run(command + (["--lent", str(lent)] if with_lent else []), input=rec, capture_output=True).stdout.decode()
        if same(got) != same(want) or not got.endswith("\n"):
            bad += 1
            print("DIFFERENCE", name, rec.hex(), "\n  got ", got.splitlines()[:1], "\n  want", want.splitlines()[:1])
    print(f"{n} records, {bad} differ, {left} left out")
    return bad == 0


def check_enc(path, command):
    lines = [l.split(" =") for l in Path(path).read_text().splitlines()]
    out = subprocess.run(command, input="".join(l[0] + "\n" for l in lines), capture_output=True, text=True).stdout.split("\n")
    bad = [(l, g) for l, g in zip(lines, out) if l[1].strip() != g.strip()] if len(out) > len(lines) else ["output too short"]
    for b in bad[:20]:
        print("DIFFERENCE", b)
    print(f"{len(lines)} lines, {len(bad)} differ")
    return not bad


def main():
    a = sys.argv[1:]
    kinds = int(a[a.index("--kinds") + 1]) if "--kinds" in a else 39
    if a[:1] == ["make"] and len(a) >= 5:
        make(a[1], a[2], int(a[3]), Path(a[4]), "--examples" in a, kinds)
    elif a[:1] == ["make-request"] and len(a) >= 6:
        make_request(a[1], a[2], a[3], int(a[4]), Path(a[5]), "--examples" in a, [a[i + 1] for i in range(6, len(a) - 1) if a[i] == "--again"])
    elif a[:1] == ["check"] and len(a) >= 3:
        sys.exit(0 if check(read(a[1]), *options(a[2:])) else 1)
    elif a[:1] == ["check-to"] and len(a) >= 4:
        sys.exit(0 if check(read_to(a[2], a[1]), *options(a[3:])) else 1)
    elif a[:1] == ["check-enc"] and len(a) >= 3:
        sys.exit(0 if check_enc(a[1], a[2:]) else 1)
    else:
        sys.exit(__doc__)


if __name__ == "__main__":
    main()
