#!/usr/bin/env python3
"""Makes the files of crates/block_cases: short block files, and what the programs have to write of them.

    tools/block_cases.py CRATE [FILE DONE]   writes CRATE/stdin and CRATE/stdout

In stdin each file stands after a byte for its job, which is its place in JOBS, its length and that of what is known of it, two bytes
each, low byte first. In stdout is what the job writes of it: to standard output, in hexadecimal, a blank, and to standard error, or the
line "done" if that is nothing. What salvage writes is a file again, and what blocks makes of that follows in the same way.

FILE is a block file and DONE what the Rust makes of it. They follow in parts that are block files, as job 4, which is the first in larger
pieces; what becomes of a part is known, and in stdout stands "known" for it. Without FILE and DONE those that stand in CRATE stay.

The reader and the programs are written from E1, E7, E11 and E14 by themselves. What a call does is known only of identity, of the
shortcut, of document 01's known results and of blocks without coefficients, so accepted records are among those.

A record is (w, h, type, depth, announced, coefficients, pixels), as it stands in its file. In version 1 eob is announced, and all
coefficients follow, column by column; in version 2 r, and rows 0 to r-1, row by row.
"""
import sys
from collections import Counter
from functools import partial
from itertools import chain

SIZES = {(4, 4), (4, 8), (8, 4), (4, 16), (8, 8), (8, 16), (16, 4), (16, 8), (16, 32), (32, 16), (8, 32), (16, 16), (32, 8), (32, 32)}
ADST = (1, 2, 3, 4, 5, 6, 7, 8, 12, 13, 14, 15)
ROW = {8: 32768, 10: 131072, 12: 524288}
COLUMN = {8: 32768, 10: 32768, 12: 131072}
MOST = {8: 255, 10: 1023, 12: 4095}
SHIFT = {16: 0, 32: 0, 64: 1, 128: 1, 256: 2, 512: 1, 1024: 2}  # by w·h


class Refused(Exception):
    def line(self, i):
        return "refused %d %d" % (i, self.args[0])


def number(v):
    out = []
    while v > 127:
        out.append(v % 128 + 128)
        v //= 128
    return bytes(out + [v])


def coefficient(v):
    return number(2 * v if v >= 0 else -2 * v - 1)


def record(r):
    *head, cs, ps = r
    return b"".join([number(x) for x in head] + [coefficient(c) for c in cs] + [number(p) for p in ps])


def joined(rs):
    return b"".join(map(record, rs))


def changed(r, **fields):
    names = ("w", "h", "txtp", "depth", "announced", "cs", "ps")
    return tuple(fields.get(n, v) for n, v in zip(names, r))


def one_of(values, at, v):
    return tuple(values[:at]) + (v,) + tuple(values[at + 1:])


def clip(v, low, high):
    return max(low, min(v, high))


# ---- the reader: of an iterator over the bytes of a file, so that none but a record's have to be held

def bytes_of(stream):
    return chain.from_iterable(iter(lambda: stream.read(65536), b""))


def read_number(bs):
    v = 0
    for group in range(5):
        x = next(bs, None)
        if x is None:
            raise Refused(15)
        if group == 4 and x >= 16:
            raise Refused(16)
        v += (x % 128) << (7 * group)
        if x < 128:
            if x == 0 and group > 0:
                raise Refused(17)
            return v
    raise Refused(16)


def read_version(bs):
    version = read_number(bs)
    if version not in (1, 2):
        raise Refused(18)
    return version


def read_record(bs, version):
    w, h = read_number(bs), read_number(bs)
    if (w, h) not in SIZES:
        raise Refused(1)
    txtp, depth, announced = read_number(bs), read_number(bs), read_number(bs)
    if version == 1 and announced > 2147483647:
        raise Refused(16)
    if version == 2 and not 1 <= announced <= h:
        raise Refused(5)
    cs, ps = [], []
    for _ in range(w * (h if version == 1 else announced)):
        v = read_number(bs)
        cs.append(v // 2 if v % 2 == 0 else -(v // 2) - 1)
    for _ in range(w * h):
        v = read_number(bs)
        if v > 65535:
            raise Refused(19)
        ps.append(v)
    return w, h, txtp, depth, announced, tuple(cs), tuple(ps)


def records(bs, version, most=None):
    """a record after so many is refused as soon as it begins"""
    for i, b in enumerate(bs, 1):
        if most is not None and i > most:
            raise Refused(22)
        yield read_record(chain((b,), bs), version)


# ---- the checks of a record that has been read, and what E14 makes of it

def has_plan(r):
    w, h, txtp, *_ = r
    small = w * h <= 128 or (w, h) == (16, 16)
    return txtp in (0, 9) or (txtp in (10, 11) and small) or (txtp in (*ADST, 16) and (w, h) == (4, 4))


def refuse(r):
    """document 01's numbers and E6's"""
    _, _, _, depth, _, cs, ps = r
    if not has_plan(r):
        raise Refused(2)
    if depth not in ROW:
        raise Refused(3)
    if any(not -ROW[depth] <= c < ROW[depth] for c in cs):
        raise Refused(9)
    if any(p > MOST[depth] for p in ps):
        raise Refused(21)


def mended(r):
    """with all coefficients in range, if it meets no number before 9"""
    _, _, _, depth, _, cs, _ = r
    if not has_plan(r) or depth not in ROW:
        return r
    return changed(r, cs=tuple(clip(c, -ROW[depth], ROW[depth] - 1) for c in cs))


# ---- the programs: what each writes of the first number, of a record, and at the end, where a refusal is its line or nothing

class Blocks:
    """act(version, record) is what becomes of a record; out and err are functions that take bytes"""
    most = None

    def __init__(self, act, out, err):
        self.act, self.out, self.err = act, out, err

    def first(self, version):
        self.out(number(version))

    def record(self, version, i, r):
        self.out(record(self.act(version, r)))

    def end(self, refusal):
        self.err(refusal)


class Salvage(Blocks):
    def __init__(self, out, err):
        super().__init__(lambda version, r: mended(r), out, err)

    def record(self, version, i, r):
        super().record(version, i, r)
        for place, (old, new) in enumerate(zip(r[5], mended(r)[5])):
            if old != new:
                self.err(b"%d %d %d %d\n" % (i, place, old, new))


class Totals(Blocks):
    """has_mark(version, record) is the mark of a record that act takes"""

    def __init__(self, act, has_mark, out, err, most=4294967295):
        super().__init__(act, out, err)
        self.has_mark, self.most = has_mark, most
        self.marks, self.moves, self.met = [], [], Counter()

    def first(self, version):
        pass

    def record(self, version, i, r):
        self.moves += (abs(a - b) for a, b in zip(self.act(version, r)[6], r[6]))
        self.marks.append(self.has_mark(version, r))
        self.met[r[:3]] += 1

    def end(self, refusal):
        self.out(refusal or self.report())

    def report(self):
        totals = len(self.marks), sum(self.marks), sum(self.moves), max(self.moves, default=0)
        met = (b"%d %d %d %d\n" % (*shape, n) for shape, n in sorted(self.met.items()))
        return b"records %d\nmarked %d\nchange %d\nlargest %d\n" % totals + b"".join(met)


def run(bs, program):
    """answers the refusal"""
    i, refusal = 0, b""
    try:
        version = read_version(bs)
        program.first(version)
        i = 1
        for r in records(bs, version, program.most):
            program.record(version, i, r)
            i += 1
    except Refused as k:
        refusal = k.line(i).encode() + b"\n"
    program.end(refusal)
    return refusal


def ran(job, f):
    """what a job writes of a file: to standard output, to standard error"""
    out, err = bytearray(), bytearray()
    run(iter(f), job(out.extend, err.extend))
    return bytes(out), bytes(err)


# ---- a record of one version as one of the other

class Untold(Refused):
    def line(self, i):
        return "record %d cannot be written as version 2: eob 0 with coefficients after the first" % i


def as_version_1(r):
    """with eob 1, which takes the long way as the live-row call does"""
    w, h, txtp, depth, live, cs, ps = r
    return w, h, txtp, depth, 1, tuple(cs[y * w + x] if y < live else 0 for x in range(w) for y in range(h)), ps


def as_version_2(r):
    """with the least r; eob is forgotten, so a record whose eob keeps coefficients from being used cannot be told"""
    w, h, txtp, depth, eob, cs, ps = r
    if txtp == 0 and eob == 0 and any(cs[1:]):
        raise Untold
    live = max([1] + [at % h + 1 for at, c in enumerate(cs) if c])
    return w, h, txtp, depth, live, tuple(cs[y + x * h] for y in range(live) for x in range(w)), ps


# ---- what document 01 tells of a block: two rules, and its known results

IDENTITY = {
    4: lambda v: v + (1697 * v + 2048 >> 12),
    8: lambda v: 2 * v,
    16: lambda v: 2 * v + (1697 * v + 1024 >> 11),
    32: lambda v: 4 * v,
}


def step_2(w, h, v):
    return 181 * v + 128 >> 8 if w == 2 * h or h == 2 * w else v


def step_4(w, h, v):
    shift = SHIFT[w * h]
    return v + (1 << shift >> 1) >> shift


def step_6(r, residual):
    return tuple(clip(p + v, 0, MOST[r[3]]) for p, v in zip(r[6], residual))


def by_identity(version, r):
    """IDTX: a coefficient is for the pixel of its row and column"""
    w, h, _, depth, _, cs, _ = r if version == 1 else as_version_1(r)

    def residual(v):
        v = step_4(w, h, IDENTITY[w](step_2(w, h, v)))
        return IDENTITY[h](clip(v, -COLUMN[depth], COLUMN[depth] - 1)) + 8 >> 4

    return changed(r, cs=(0,) * len(r[5]), ps=step_6(r, (residual(cs[y + x * h]) for y in range(h) for x in range(w))))


def by_shortcut(r):
    """DCT_DCT with eob 0: the first coefficient is for all pixels"""
    w, h, _, _, _, cs, ps = r
    d = step_4(w, h, 181 * step_2(w, h, cs[0]) + 128 >> 8)
    return changed(r, cs=(0,) + cs[1:], ps=step_6(r, [181 * d + 2176 >> 12] * len(ps)))


def by_rule(version, r):
    if r[2] == 9:
        return by_identity(version, r)
    if version == 1 and r[2] == r[4] == 0:
        return by_shortcut(r)
    return None


KNOWN = {}
MARKED = {1: [], 2: []}


def know(version, r, after):
    """that r gets these pixels; all coefficients become 0"""
    *head, cs, _ = r
    KNOWN[version, r] = (*head, (0,) * len(cs), tuple(after))
    assert by_rule(version, r) in (None, KNOWN[version, r])
    return r


def known(w, h, txtp, depth, eob, first, before, after):
    """a block with one coefficient, or none"""
    return know(1, (w, h, txtp, depth, eob, (first,) + (0,) * (w * h - 1), tuple(before)), after)


def live(r, n):
    """such a block in version 2 with n live rows, which gets the same pixels"""
    w, h, txtp, depth, _, cs, ps = r
    return know(2, (w, h, txtp, depth, n, cs[:w * n], ps), KNOWN[1, r][6])


def rows(w, h, f):
    return [f(y, x) for y in range(h) for x in range(w)]


def flat(w, h, v):
    return [v] * (w * h)


dct = known(4, 4, 0, 8, 0, 64, flat(4, 4, 100), flat(4, 4, 102))
idtx = known(4, 4, 9, 8, 1, 64, flat(4, 4, 100), rows(4, 4, lambda y, x: 108 if x == y == 0 else 100))
h_dct = known(4, 4, 11, 8, 1, 64, flat(4, 4, 100), rows(4, 4, lambda y, x: 104 if y == 0 else 100))
v_dct = known(4, 4, 10, 8, 1, 64, flat(4, 4, 100), rows(4, 4, lambda y, x: 104 if x == 0 else 100))
wht = known(4, 4, 16, 8, 0, 8, flat(4, 4, 100), rows(4, 4, lambda y, x: 101 if y == 0 else 100))
eight = known(8, 8, 0, 8, 1, 1000, rows(8, 8, lambda y, x: 250 if x == 7 else 100), rows(8, 8, lambda y, x: 255 if x == 7 else 116))
narrow = known(4, 8, 0, 8, 0, 200, flat(4, 8, 100), flat(4, 8, 104))
tall = known(4, 16, 0, 8, 0, 200, flat(4, 16, 100), flat(4, 16, 103))
FIRST = [dct, idtx, h_dct, v_dct, wht, eight, narrow, tall]
shortcut, high = (known(4, 4, 0, 10, eob, 131071, flat(4, 4, 0), flat(4, 4, 1023)) for eob in (0, 1))
DONE = {1: [*FIRST, shortcut, high], 2: [live(r, n) for r in [*FIRST, high] for n in (1, r[1] // 2, r[1])]}
# identity moves nothing: the coefficient of row y, column x is for the pixel there, which tells the two orders apart
for y, x in ((0, 1), (1, 0), (2, 3)):
    after = one_of(flat(4, 4, 100), 4 * y + x, 108)
    DONE[1].append(know(1, changed(idtx, cs=one_of((0,) * 16, y + 4 * x, 64)), after))
    for n in (y + 1, 4):
        DONE[2].append(know(2, changed(idtx, announced=n, cs=one_of((0,) * 4 * n, 4 * y + x, 64)), after))

EMPTY = {1: []}
for size in sorted(SIZES):
    for depth in ROW:
        w, h = size
        p = [max(0, MOST[depth] - 37 * i) for i in range(w * h)]
        if w * h <= 128:
            EMPTY[1].append(known(w, h, 9, depth, 2147483647, 0, p, p))
for t in ADST:
    p = [17 * i for i in range(16)]
    EMPTY[1].append(known(4, 4, t, 8, t % 2, 0, p, p))
EMPTY[2] = [live(r, (1, r[1] - 1, r[1])[i % 3]) for i, r in enumerate(EMPTY[1])]
WHITE = [known(4, 4, 9, depth, 1, 0, flat(4, 4, most), flat(4, 4, most)) for depth, most in MOST.items()]

# DCT4 of 32767, 32767, 0, 0 gives 32767, 32767, 10631, -7104 and the mark: in row 0 of H_DCT; in column 0 of V_DCT, where the row pass
# gives more, and the clip between the passes 32767 again
ENDS = (255, 255, 255, 0)
for txtp, second, after in ((11, 4, lambda y, x: 100 if y else ENDS[x]), (10, 1, lambda y, x: 100 if x else ENDS[y])):
    r = changed(idtx, txtp=txtp, cs=tuple(32767 if at in (0, second) else 0 for at in range(16)))
    for version, r in ((1, r), (2, as_version_2(r))):
        MARKED[version].append(know(version, r, rows(4, 4, after)))


def do(version, r):
    refuse(r)
    return by_rule(version, r) or KNOWN[version, r]


def has_mark(version, r):
    return r in MARKED[version]


JOBS = [partial(Blocks, do), Salvage, partial(Totals, do, has_mark), partial(Totals, do, has_mark, most=2)]


# ---- the files

LOWEST, HIGHEST = -2147483648, 2147483647


def cases():
    """each job's place in JOBS, with a file for it"""
    for job, after_first in enumerate((for_blocks, for_salvage, for_totals, for_two)):
        yield job, b""
        for first in (0, 2, 3, 127, 128, 4294967295):
            yield job, number(first)
            yield job, number(first) + record(dct)
        for spelling in ("81 00", "82 00", "80 80 80 80 00", "80 80 80 80 10", "80 80 80 80 80", "ff ff ff ff 8f 00", "81", "82"):
            yield job, bytes.fromhex(spelling)
        yield job, b"\x80\x80\x80\x80"
        yield job, number(1)
        for version in (1, 2):
            for rest in after_first(version):
                yield job, number(version) + rest


def told(version, r):
    """a known block as it stands in that version; in version 2 with two live rows"""
    return r if version == 1 else live(r, 2)


def put(version, *known):
    return joined(told(version, r) for r in known)


def for_blocks(version):
    for r in DONE[version] + EMPTY[version]:
        yield record(r)
    yield joined(DONE[version])
    for white in WHITE:
        yield put(version, white)
    yield put(version, dct, *WHITE, wht)
    for bad in refused(version):
        yield bad
        yield put(version, dct) + bad
        yield put(version, idtx, narrow) + bad + put(version, dct)
    head = number(4) + number(4) + number(0) + number(8)
    for cut in (number(4), head, head + b"\x81", head + b"\x80\x80\x80\x80"):
        yield cut
        yield put(version, dct) + cut
    whole = put(version, h_dct, wht)
    for end in range(1, len(whole)):
        yield whole[:end]
    if version == 2:
        for w, h in sorted(SIZES):
            for r in (h, h + 1):
                yield record((w, h, 0, 8, r, (), ()))                  # 15, 5


def refused(version, block=dct):
    """what is refused after that block's head, coefficients or pixels were changed"""
    base, slim = told(version, block), told(version, narrow)
    *_, cs, ps = base
    size = number(4) + number(4)
    yield number(4) + number(32) + record(base)[2:]                    # 1
    yield number(32) + number(4) + record(base)[2:]
    yield number(64) + number(64) + record(base)[2:]
    yield number(4294967295) + number(4) + record(base)[2:]
    yield number(4) + number(5)
    yield b"\x84\x00" + record(base)[1:]                               # 17
    yield size + b"\x80\x00" + record(base)[3:]
    yield number(4) + b"\xff\xff\xff\xff\x10" + record(base)[2:]       # 16
    yield size + b"\x80\x80\x80\x80\x80\x00" + record(base)[3:]
    yield record(changed(base, announced=2147483648))                  # 16, in version 2 it is 5
    yield record(changed(base, announced=4294967295))
    if version == 2:
        yield from bad_rows(base)
    for at in (0, len(cs) // 2 - 1, len(cs) - 1):
        for v in (32768, -32769, 2147483647, -2147483648):
            yield record(changed(base, cs=one_of(cs, at, v)))          # 9
    for at in (0, 7, 15):
        yield record(changed(base, ps=one_of(ps, at, 65536)))          # 19
        yield record(changed(base, ps=one_of(ps, at, 4294967295)))
    yield record(changed(base, depth=10, cs=one_of(cs, 3, 131072)))
    yield record(changed(base, depth=12, cs=one_of(cs, 3, -524289)))
    for t in (17, 4294967295):
        yield record(changed(base, txtp=t))                            # 2
    for t in (1, 8, 12, 15, 16):
        yield record(changed(slim, txtp=t))
    for d in (0, 9, 16, 4294967295):
        yield record(changed(base, depth=d))                           # 3
    for white in (told(version, r) for r in WHITE):
        most = MOST[white[3]]
        for at in (0, 7, 15):
            yield record(changed(white, ps=one_of(white[6], at, most + 1)))  # 21
        yield record(changed(white, ps=one_of(white[6], 15, 65535)))
    for r in (told(version, r) for r in FIRST):
        yield record(changed(r, ps=one_of(r[6], len(r[6]) - 1, 256)))
    for announced in (0, 1) if version == 1 else (2,):                 # document 01's depth 10 example
        yield record(changed(base, depth=10, announced=announced, cs=one_of(cs, 0, -131072), ps=one_of(ps, 0, 2000)))
    # the first that applies: 19 before 2, 2 before 3, 3 before 9, each and 15 before 21
    yield record(changed(base, txtp=17, ps=one_of(ps, 0, 70000)))
    yield record(changed(base, txtp=17, depth=9))
    yield record(changed(base, depth=9, cs=one_of(cs, 0, 32768)))
    bright = changed(base, ps=one_of(ps, 0, 256))
    yield record(changed(bright, ps=one_of(bright[6], 9, 65536)))
    yield record(changed(bright, txtp=17))
    yield record(changed(bright, depth=9))
    yield record(changed(bright, cs=one_of(cs, len(cs) - 1, 32768)))
    yield record(bright)[:-1]


def bad_rows(base):
    """5, as soon as r is read: before what follows it, and before 2 and 3"""
    for r in (0, 5, 2147483647):
        yield record(changed(base, announced=r))
    for txtp, depth, r in ((0, 8, 0), (0, 8, 5), (17, 8, 5), (0, 9, 0), (17, 9, 5)):
        yield record((4, 4, txtp, depth, r, (), ()))
    yield record(base)[:4] + b"\x82\x00" + record(base)[5:]            # 17
    yield record(base)[:4] + b"\x80\x80\x80\x80\x00"
    yield record(base)[:4] + b"\x82\x80\x80\x80\x10"                   # 16
    yield record(base)[:4] + b"\x82\x80\x80\x80\x80\x00"


def grey(version, w, h, announced, cs=(), txtp=9, depth=8):
    """pixels of 100, and the coefficients 0 but for some, told by their place; those below 0 count from the end"""
    n = w * (h if version == 1 else announced)
    cs = {at % n: v for at, v in dict(cs).items()}
    return w, h, txtp, depth, announced, tuple(cs.get(at, 0) for at in range(n)), (100,) * (w * h)


def sizes_told(version):
    """in version 1 a large block takes much room"""
    return [(w, h) for w, h in sorted(SIZES) if version == 2 or w * h <= 128]


def cut(one, two):
    """the first cut everywhere, the second here and there"""
    for end in chain(range(1, len(one)), range(len(one) + 1, len(one + two), 7)):
        yield (one + two)[:end]


def some_after(one, bads):
    for i, bad in enumerate(bads):
        yield one + bad if i % 3 == 0 else bad


def for_salvage(version):
    block = partial(grey, version)
    two = record(block(4, 4, 2, {1: HIGHEST, -1: LOWEST}))
    every = block(4, 4, 4, enumerate((LOWEST, HIGHEST) * 8))
    # both sides of both ends
    for depth, m in ROW.items():
        edges = (-m - 1, -m, m - 1, m, LOWEST, HIGHEST)
        each = [block(4, 4, 2, {at: v}, depth=depth) for at, v in enumerate(edges)]
        yield from map(record, each)
        yield joined(each)
        yield record(block(4, 4, 3, enumerate(edges * 2), depth=depth))
        yield record(changed(every, depth=depth))
        # also refused by 21: mended all the same
        yield two + record(changed(every, depth=depth, ps=one_of(every[6], 5, MOST[depth] + 1)))
    # places in the file's order: the last of each row, in version 1 of each column
    for w, h in ((4, 8), (8, 4), (16, 4)):
        side = h if version == 1 else w
        for announced in (1, h // 2 + 1, h):
            n = w * (h if version == 1 else announced)
            yield record(block(w, h, announced, {at: HIGHEST for at in range(side - 1, n, side)}))
    yield joined(block(w, h, 1, {0: LOWEST, -1: HIGHEST}) for w, h in sizes_told(version))
    if version == 1:
        for at in (0, 5):
            yield record(changed(shortcut, cs=one_of(shortcut[5], at, 131072)))
    # 2 and 3: as it stands, without a line
    for fields in ({"txtp": 17}, {"txtp": 4294967295}, {"depth": 0}, {"depth": 9}, {"depth": 4294967295}, {"txtp": 17, "depth": 9}):
        yield record(changed(every, **fields)) + two
    # which types a size has: after a block that blocks refuses, since nothing is known of what it makes of these
    odd = record(changed(every, txtp=17))
    yield odd + joined(block(4, 4, 1, {0: LOWEST}, txtp=t) for t in range(18))
    yield odd + joined(block(4, 8, 1, {0: LOWEST}, txtp=t) for t in (0, 1, 8, 9, 10, 11, 12, 15, 16))
    yield odd + joined(block(w, h, 1, {0: LOWEST}, txtp=10) for w, h in ((16, 8), (16, 16), (32, 8)))
    # a record that is refused while it is read has no line
    for at in (0, 15):
        yield two + record(changed(every, ps=one_of(every[6], at, 65536)))
    yield from cut(two, two)
    yield two + record(every)
    yield ran(Salvage, number(version) + two + record(every))[0][1:]
    yield from some_after(two, refused(version, dct if version == 1 else idtx))


def for_totals(version):
    block = partial(grey, version)
    for r in FIRST:
        yield put(version, r)
    for r in MARKED[version]:
        yield record(r)
    yield joined(DONE[version])
    some, more = put(version, dct, wht, narrow), joined(MARKED[version]) + put(version, idtx, dct)
    for rest in (some, more, some + more, more + some):
        yield rest
    types = [r for r in EMPTY[version] if r[:2] == (4, 4)] + [told(version, r) for r in (dct, h_dct, v_dct, wht)]
    sizes = [block(w, h, 1, {0: 500, -1: -700}) for w, h in sizes_told(version)]
    for order in (types, types[::-1], sizes[::-1], sizes[3:6] + sizes[:5]):
        yield joined(order)
    # the greatest distance, up and down, in the first, a middle and the last record
    far = [changed(block(4, 4, 1, {0: ROW[d] - 1, 1: -ROW[d]}, depth=d), ps=(0, MOST[d]) + (7,) * 14) for d in MOST]
    near = told(version, dct)
    for order in (*([near, one, near] for one in far), far, far[::-1]):
        yield joined(order)
    yield from some_after(put(version, dct), refused(version))
    yield from cut(put(version, h_dct), put(version, wht))


def for_two(version):
    one, two, three = (put(version, r) for r in (dct, narrow, idtx))
    for rest in (one, one + two, one + two + three, one + two + three + one):
        yield rest
    for end in (1, 2, 5, len(three) - 1):
        yield one + two + three[:end]
    for byte in (0, 128, 255):
        yield one + two + bytes([byte])
    for end in (1, 5, len(two) - 1):
        yield one + two[:end]
    for bad in list(refused(version))[::8]:
        yield one + bad
        yield one + two + bad


def paragraph(out, err):
    return "%s %s" % (out.hex(), err.decode() or "done\n")


def entry(job, f, known=b""):
    return bytes([job, len(f) % 256, len(f) // 256, len(known) % 256, len(known) // 256]) + f + known


LONG = len(JOBS)
ROOM = 16384 - 10265  # what the program's output may hold before a step


def parts(f, done):
    """a block file and what becomes of it, cut into block files"""
    before, after = iter(f), iter(done)
    version = read_version(before)
    assert read_version(after) == version
    held, out = number(version), number(version)
    for r, s in zip(records(before, version), records(after, version), strict=True):
        if len(out + record(s)) > ROOM or len(held + record(r)) > 16384:
            yield held, out
            held, out = number(version), number(version)
        held, out = held + record(r), out + record(s)
    yield held, out


def standing(crate):
    """the parts that the crate has"""
    with open(crate + "/stdin", "rb") as stdin:
        while head := stdin.read(5):
            f, known = (stdin.read(head[at] + 256 * head[at + 1]) for at in (1, 3))
            if head[0] == LONG:
                yield f, known


def main():
    words = sys.argv[1:]
    if len(words) not in (1, 3):
        print(__doc__)
        return 2
    long = list(parts(*(open(name, "rb").read() for name in words[1:])) if words[1:] else standing(words[0]))
    stdin, stdout = b"", ""
    for job, f in cases():
        stdin += entry(job, f)
        out, err = ran(JOBS[job], f)
        stdout += paragraph(out, err)
        if JOBS[job] is Salvage:
            stdout += paragraph(*ran(JOBS[0], out))
    for f, done in long:
        stdin += entry(LONG, f, done)
        stdout += "known done\n"
    open(words[0] + "/stdin", "wb").write(stdin)
    open(words[0] + "/stdout", "w").write(stdout)
    return 0


if __name__ == "__main__":
    sys.exit(main())
