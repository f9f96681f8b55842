#!/usr/bin/env python3
"""Runs a program on damaged copies of a block file of either version and compares every byte it writes with what block_cases.py gives.

    tools/block_damage.py PROGRAM FILE COUNT [seed=NUMBER] [done=DONE] [oracle=ORACLE]   PROGRAM is blocks, salvage or totals

A copy has the first number, now and then another, and a few records of FILE, some with another number in the head or a coefficient out
of range; then it is cut, or bytes are changed, put in or left out.

For blocks and totals it has to be known what becomes of an accepted record. DONE, what blocks has to write of FILE, tells it of those
that are not changed; a copy with another is passed over. Of the mark it tells nothing, so that line of totals is not compared. With
ORACLE, the program that tools/oracle/build makes, what the Rust gives is wanted instead, and none is passed over.
"""
import os, random, subprocess, sys
from functools import partial
import block_cases as cases

RUST = {"blocks": "blocks-done", "totals": "totals"}


def read(path):
    """the version and the records of a file"""
    with open(path, "rb") as f:
        bs = cases.bytes_of(f)
        version = cases.read_version(bs)
        return version, list(cases.records(bs, version))


def damage(b):
    b = bytearray(b)
    kind = random.random()
    if kind < 0.3:
        return bytes(b[:random.randrange(len(b) + 1)])
    for _ in range(random.choice([0, 1, 1, 1, 2])):
        at = random.randrange(len(b))
        kind = random.randrange(5)
        if kind == 0:
            b[at] = random.getrandbits(8)
        elif kind == 1:
            b[at] ^= 1 << random.randrange(8)
        elif kind == 2:
            b[at:at] = bytes([random.getrandbits(8)])
        elif kind == 3 and len(b) > 1:
            del b[at]
        else:
            b[at:at + 1] = bytes([random.choice([0x80, 0xFF])] * random.randrange(1, 6) + [random.choice([0, 1, 15, 16])])
    return bytes(b)


def beside(r):
    """the record, or one beside it"""
    kind = random.random()
    if kind < 0.8:
        return r
    if kind < 0.9:
        return cases.one_of(r, random.randrange(5), random.choice([0, 1, 4, 5, 8, 9, 16, 17, 32, 33, 2147483647, 2147483648]))
    m, cs = cases.ROW.get(r[3], 32768), r[5]
    return cases.changed(r, cs=cases.one_of(cs, random.randrange(len(cs)), random.choice([m, -m - 1, cases.HIGHEST, cases.LOWEST])))


def by_reader(program, done):
    """what the program has to write of a copy, by block_cases.py; done: known records"""
    def act(version, r):
        cases.refuse(r)
        return done[version, r]

    job = {
        "blocks": partial(cases.Blocks, act),
        "salvage": cases.Salvage,
        "totals": partial(cases.Totals, act, lambda version, r: False),
    }[program]
    return partial(cases.ran, job)


def by_oracle(oracle, program):
    def ran(b):
        rust = subprocess.run([oracle, RUST[program]], input=b, capture_output=True)
        return rust.stdout, rust.stderr

    return ran


def without_mark(written):
    out, err = written
    return b"".join(line for line in out.splitlines(True) if not line.startswith(b"marked ")), err


def ending(program, written):
    """the number of the refusal, or done"""
    out, err = written
    last = (out if program == "totals" else err).splitlines()[-1:]
    return last[0].split()[-1].decode() if last and last[0].startswith(b"refused") else "done"


def main():
    words = sys.argv[1:]
    options = dict(word.partition("=")[::2] for word in words[3:])
    if len(words) < 3 or words[0] not in ("blocks", "salvage", "totals") or not options.keys() <= {"seed", "done", "oracle"}:
        print(__doc__)
        return 2
    program, path, count = words[:3]
    own, before = read(path)
    random.seed(int(options.get("seed", 1)))
    compared = lambda written: written
    if "oracle" in options and program in RUST:
        wanted = by_oracle(options["oracle"], program)
    else:
        after = read(options["done"])[1] if "done" in options else []
        wanted = by_reader(program, {(own, r): d for r, d in zip(before, after)})
        if program == "totals":
            compared = without_mark

    starter = os.path.join(os.path.dirname(os.path.abspath(__file__)), "run")
    counts, wrong, passed = {}, 0, 0
    for n in range(int(count)):
        first = own if random.random() < 0.9 else random.choice([0, 1, 2, 3, 128])
        taken = [random.choice(before) for _ in range(random.choice([0, 1, 2, 3, 8]))]
        b = damage(cases.number(first) + cases.joined(map(beside, taken)))
        try:
            right = wanted(b)
        except KeyError:
            passed += 1
            continue
        ran = subprocess.run([starter, program], input=b, capture_output=True)
        got = ran.stdout, ran.stderr
        if compared(got) != compared(right):
            wrong += 1
            print("differs:", b.hex()[:200], ending(program, right), ending(program, got))
        key = ending(program, right)
        counts[key] = counts.get(key, 0) + 1
    print(sum(counts.values()), "run,", wrong, "differ,", passed, "passed over;", counts)
    return 1 if wrong else 0


if __name__ == "__main__":
    sys.exit(main())
