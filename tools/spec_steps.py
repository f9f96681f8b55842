#!/usr/bin/env python3
"""The steps of section 7.13 of the AV1 specification over whole numbers of any size, for E8's engine to be compared with.

No range, no clip within a pass, no table of 33, no code of the library; written from the same notes on section 7.13 as the crates.

    spec_steps.py known                    the lines that crates/known writes of the second engine
    spec_steps.py compare LIB [FILE [N]]   both engines of a shared library on the blocks of FILE, and on N generated ones;
                                           the second with a part of each visible too, and with a pixel above the maximum

The library is made of the archive: cc -shared -o LIB -Wl,--whole-archive target/staticlib/libsgrifomel.a -Wl,--no-whole-archive
"""
import ctypes, math, random, sys

COS128 = [math.floor(4096 * math.cos(math.pi * i / 128) + 0.5) for i in range(65)]


def round2(x, n):
    return x if n == 0 else (x + (1 << n - 1)) >> n


def cos128(angle):
    a = angle % 256
    if a <= 64:
        return COS128[a]
    if a <= 128:
        return -COS128[128 - a]
    if a <= 192:
        return -COS128[a - 128]
    return COS128[256 - a]


def sin128(angle):
    return cos128(angle - 64)


def brev(bits, x):
    return sum((x >> i & 1) << bits - 1 - i for i in range(bits))


def inverse_dct(T, n):
    def B(a, b, angle, flip):
        x = T[a] * cos128(angle) - T[b] * sin128(angle)
        y = T[a] * sin128(angle) + T[b] * cos128(angle)
        T[a], T[b] = round2(x, 12), round2(y, 12)
        if flip:
            T[a], T[b] = T[b], T[a]

    def H(a, b, flip):
        if flip:
            a, b = b, a
        T[a], T[b] = T[a] + T[b], T[a] - T[b]

    copy = T[:]
    for i in range(1 << n):
        T[i] = copy[brev(n, i)]
    if n >= 5:
        for i in range(8):
            B(16 + i, 31 - i, 6 + (brev(3, 7 - i) << 3), 0)
    if n >= 4:
        for i in range(4):
            B(8 + i, 15 - i, 12 + (brev(2, 3 - i) << 4), 0)
    if n >= 5:
        for i in range(8):
            H(16 + i * 2, 17 + i * 2, i & 1)
    if n >= 3:
        for i in range(2):
            B(4 + i, 7 - i, 56 - 32 * i, 0)
    if n >= 4:
        for i in range(4):
            H(8 + i * 2, 9 + i * 2, i & 1)
    if n >= 5:
        for i in range(2):
            for j in range(2):
                B(30 - 4 * i - j, 17 + 4 * i + j, 24 + (j << 6) + ((1 - i) << 5), 1)
    for i in range(2):
        B(2 * i, 2 * i + 1, 32 + 16 * i, 1 - i)
    if n >= 3:
        for i in range(2):
            H(4 + 2 * i, 5 + 2 * i, i)
    if n >= 4:
        for i in range(2):
            B(14 - i, 9 + i, 48 + 64 * i, 1)
    if n >= 5:
        for i in range(4):
            for j in range(2):
                H(16 + 4 * i + j, 19 + 4 * i - j, i & 1)
    for i in range(2):
        H(i, 3 - i, 0)
    if n >= 3:
        B(6, 5, 32, 1)
    if n >= 4:
        for i in range(2):
            for j in range(2):
                H(8 + 4 * i + j, 11 + 4 * i - j, i)
    if n >= 5:
        for i in range(4):
            B(29 - i, 18 + i, 48 + (i >> 1) * 64, 1)
    if n >= 3:
        for i in range(4):
            H(i, 7 - i, 0)
    if n >= 4:
        for i in range(2):
            B(13 - i, 10 + i, 32, 1)
    if n >= 5:
        for i in range(2):
            for j in range(4):
                H(16 + i * 8 + j, 23 + i * 8 - j, i)
    if n >= 4:
        for i in range(8):
            H(i, 15 - i, 0)
    if n >= 5:
        for i in range(4):
            B(27 - i, 20 + i, 32, 1)
    if n >= 5:
        for i in range(16):
            H(i, 31 - i, 0)


def inverse_wht(T, shift):
    a, c, d, b = (v >> shift for v in T[:4])
    a += c
    d -= b
    e = (a - d) >> 1
    b = e - b
    c = e - c
    a -= b
    d += c
    T[:4] = [a, b, c, d]


def inverse_identity(T, n):
    for i in range(1 << n):
        T[i] = {2: round2(T[i] * 5793, 12), 3: T[i] * 2, 4: round2(T[i] * 11586, 12), 5: T[i] * 4}[n]


# rows, columns
KINDS = {0: ("dct", "dct"), 9: ("id", "id"), 10: ("id", "dct"), 11: ("dct", "id"), 16: ("wht", "wht")}
SHIFT = {(4, 4): 0, (4, 8): 0, (8, 4): 0, (4, 16): 1, (8, 8): 1, (8, 16): 1, (16, 4): 1, (16, 8): 1, (16, 32): 1, (32, 16): 1,
         (8, 32): 2, (16, 16): 2, (32, 8): 2, (32, 32): 2}


def transform(T, kind, n, shift):
    if kind == "dct":
        inverse_dct(T, n)
    elif kind == "id":
        inverse_identity(T, n)
    else:
        inverse_wht(T, shift)


def residual(w, h, kinds, depth, coefs, live):
    """Section 7.13.3. Coefficient of row y, column x at y + x * h; rows from `live` on are zero."""
    lossless = kinds[0] == "wht"
    held = max(depth + 6, 16)
    R = [[0] * w for _ in range(h)]
    for y in range(live):
        T = [coefs[y + x * h] for x in range(w)]
        if abs(w.bit_length() - h.bit_length()) == 1:
            T = [round2(v * 2896, 12) for v in T]
        transform(T, kinds[0], w.bit_length() - 1, 2)
        if not lossless:
            T = [max(-(1 << held - 1), min((1 << held - 1) - 1, round2(v, SHIFT[w, h]))) for v in T]
        R[y] = T
    for x in range(w):
        T = [R[y][x] for y in range(h)]
        transform(T, kinds[1], h.bit_length() - 1, 0)
        for y in range(h):
            R[y][x] = T[y] if lossless else round2(T[y], 4)
    return R


def shortcut(w, h, v):
    """Document 01's, which the second engine takes too."""
    if 2 * w == h or 2 * h == w:
        v = 181 * v + 128 >> 8
    v = 181 * v + 128 >> 8
    v = round2(v, SHIFT[w, h])
    return 181 * v + 2176 >> 12


def expected(w, h, kind, depth, eob, coefs, pixels, live=None):
    top = (1 << depth) - 1
    if live is None and eob == 0 and kind == 0:
        v = shortcut(w, h, coefs[0])
        return [max(0, min(top, p + v)) for p in pixels], [0] + coefs[1:]
    R = residual(w, h, KINDS[kind], depth, coefs, h if live is None else live)
    return [max(0, min(top, pixels[y * w + x] + R[y][x])) for y in range(h) for x in range(w)], [0] * (w * h)


# ---- the lines of crates/known

def sparse(n, **places):
    c = [0] * n
    for k, v in places.items():
        c[int(k[1:])] = v
    return c


def samples():
    ends = [32767] * 16
    for i, v in ((1, -32768), (6, -32768), (11, -32768), (12, 0)):
        ends[i] = v
    for eob, kind in ((0, 0), (1, 0), (1, 9), (1, 10), (1, 11), (1, 16), (1, 1)):
        yield 4, 4, kind, 8, eob, ends, 100, None
    yield 8, 8, 0, 8, 1, sparse(64, i8=32767, i24=32767, i33=-32768), 100, None
    yield 4, 8, 0, 10, 1, [-131072 if i in (3, 20) else 131071 for i in range(32)], 512, None
    m = 524288
    yield 32, 8, 0, 12, 1, sparse(256, i8=m - 1, i24=-m, i72=m - 1, i120=m - 1, i248=-m), 2048, 1
    yield 8, 32, 0, 12, 1, sparse(256, i1=m - 1, i3=-m, i15=m - 1, i31=-m), 2048, None
    yield 16, 16, 0, 12, 1, sparse(256, i0=m - 1, i1=-m, i17=m - 1, i19=m - 1, i21=-m), 2048, None


def known():
    def block(pixels, coefs):
        return "pixels %s coefficients %s" % (" ".join(map(str, pixels)), " ".join(map(str, coefs)))

    for w, h, kind, depth, eob, coefs, pixel, live in samples():
        pixels = [pixel] * (w * h)
        last = "eob %d" % eob if live is None else "r %d" % live
        done = (pixels, coefs) if kind not in KINDS else expected(w, h, kind, depth, eob, coefs, pixels, live)
        number = 0 if kind in KINDS else 2
        print("spec %dx%d type %d depth %d offset 0 stride %d %s %s: %d 0 no %s"
              % (w, h, kind, depth, 2 * w, last, block(pixels, coefs), number, block(*done)))


# ---- the library's two engines beside these steps

class Library:
    def __init__(self, path):
        self.lib = ctypes.CDLL(path)

    def call(self, name, w, h, kind, depth, last, coefs, pixels, view=None):
        """The view is the number of visible columns and rows; None is all."""
        f = getattr(self.lib, name)
        f.restype = ctypes.c_uint64
        c, p = (ctypes.c_int32 * len(coefs))(*coefs), (ctypes.c_uint16 * len(pixels))(*pixels)
        z = ctypes.c_size_t
        last = z(last) if name.endswith("live") else ctypes.c_int32(last)
        columns, rows = view or (w, h)
        plane = p, z(len(pixels)), ctypes.c_uint32(0), ctypes.c_int32(2 * w), z(columns), z(rows)
        a = f(*plane, c, z(len(coefs)), last, z(w), z(h), z(kind), z(depth))
        return a, list(p), list(c)


def generated(rng):
    w, h = rng.choice(sorted(SHIFT))
    kinds = [0, 9] + ([10, 11] if w * h <= 128 or (w, h) == (16, 16) else []) + ([16] if (w, h) == (4, 4) else [])
    kind, depth = rng.choice(kinds), rng.choice((8, 10, 12))
    m = 1 << depth + 7
    style, share = rng.randrange(4), rng.choice((0.03, 0.3, 1.0))
    one = {
        0: lambda: rng.choice((-m, m - 1)),
        1: lambda: rng.randrange(-m, m),
        2: lambda: rng.randrange(-200, 201),
        3: lambda: rng.randrange(-m // 8, m // 8),
    }[style]
    coefs = [one() if rng.random() < share else 0 for _ in range(w * h)]
    return w, h, kind, depth, rng.randrange(3), coefs, [rng.randrange(1 << depth) for _ in range(w * h)]


def read_back(w, pixels, done, view):
    """Of the pixels those that are visible as they are in `done`."""
    return [done[i] if i % w < view[0] and i // w < view[1] else p for i, p in enumerate(pixels)]


def compare_cropped(lib, rng, name, call, whole):
    """The call with a part visible does that part of the whole outcome, and nothing else.

    A pixel above the maximum is refused by 21 with its place where it is visible, and stays where it is not.
    """
    *asked, pixels = call
    w, h, _, depth, _, before = asked
    view = rng.randrange(w) + 1, rng.randrange(h) + 1
    answer, done, coefs = whole
    assert lib.call(name, *call, view) == (answer, read_back(w, pixels, done, view), coefs), (name, call, view)
    at = rng.randrange(w * h)
    bright = pixels[:at] + [rng.choice((1 << depth, 65535))] + pixels[at + 1:]
    visible = at % w < view[0] and at // w < view[1]
    wanted = (21 + (at << 16), bright, before) if visible else (answer, read_back(w, bright, done, view), coefs)
    assert lib.call(name, *asked, bright, view) == wanted, (name, asked, bright, view)


def compare(lib, rng, blocks):
    seen = dict(blocks=0, marked=0, differ=0, refused=0)
    for w, h, kind, depth, eob, coefs, pixels in blocks:
        first = lib.call("sgrifomel_inv_txfm_add", w, h, kind, depth, eob, coefs, pixels)
        spec = lib.call("sgrifomel_spec_inv_txfm_add", w, h, kind, depth, eob, coefs, pixels)
        seen["blocks"] += 1
        if kind not in KINDS:
            assert spec == (2, list(pixels), list(coefs)), "an ADST is refused by 2"
            seen["refused"] += 1
            continue
        assert first[0] in (0, 256) and spec == (0, *expected(w, h, kind, depth, eob, coefs, pixels)), (w, h, kind, depth, eob)
        live = max([1] + [i % h + 1 for i in range(w * h) if coefs[i]])
        by_rows = 0, *expected(w, h, kind, depth, 1, coefs, pixels, live)
        assert lib.call("sgrifomel_spec_inv_txfm_add_live", w, h, kind, depth, live, coefs, pixels) == by_rows
        compare_cropped(lib, rng, "sgrifomel_spec_inv_txfm_add", (w, h, kind, depth, eob, coefs, pixels), spec)
        compare_cropped(lib, rng, "sgrifomel_spec_inv_txfm_add_live", (w, h, kind, depth, live, coefs, pixels), by_rows)
        seen["marked"] += first[0] >> 8
        if first[0] == 256:
            seen["differ"] += first[1:] != spec[1:]
        else:
            assert first == spec, "unmarked, and yet not the same"
    return seen


def blocks_of(path):
    from block_cases import as_version_1, bytes_of, read_version, records
    with open(path, "rb") as f:
        bs = bytes_of(f)
        version = read_version(bs)
        for r in records(bs, version):
            *head, coefs, pixels = r if version == 1 else as_version_1(r)
            yield *head, list(coefs), list(pixels)


def main():
    if sys.argv[1:] == ["known"]:
        known()
        return 0
    if len(sys.argv) < 3 or sys.argv[1] != "compare":
        print(__doc__)
        return 2
    lib, rng = Library(sys.argv[2]), random.Random(8)
    if len(sys.argv) > 3:
        print(sys.argv[3], compare(lib, rng, blocks_of(sys.argv[3])))
    count = int(sys.argv[4]) if len(sys.argv) > 4 else 3000
    print("generated", compare(lib, rng, (generated(rng) for _ in range(count))))
    return 0


if __name__ == "__main__":
    sys.exit(main())
