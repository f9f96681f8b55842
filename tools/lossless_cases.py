#!/usr/bin/env python3
"""Makes the lines of crates/known about the lossless writer: residuals, and what the program has to write of them.

    tools/lossless_cases.py   makes these lines of stdin and stdout anew; the others stay

Written from E10 by itself. That a prediction p becomes p + r is stated, not computed by a transform. The coefficients are found by
solving the steps of the specification's inverse Walsh-Hadamard transform backwards, and tried by running these steps forwards.
"""
import pathlib
import random

MOST = {8: 255, 10: 1023, 12: 4095}
ROW = {8: 32768, 10: 131072, 12: 524288}
LEFT = 77  # what stands in the coefficient buffer before


def inverse4(t):
    a, c, d, b = t
    a += c
    d -= b
    e = (a - d) >> 1
    b = e - b
    c = e - c
    a -= b
    d += c
    return [a, b, c, d]


def forward4(t):
    a, b, c, d = t
    d -= c
    a += b
    e = (a - d) >> 1
    c = e - c
    b = e - b
    d += b
    a -= c
    return [a, c, d, b]


def columns(pass4, block):
    out = [[0] * 4 for _ in range(4)]
    for x in range(4):
        for y, v in enumerate(pass4([block[y][x] for y in range(4)])):
            out[y][x] = v
    return out


def rows(pass4, block):
    return [pass4(row) for row in block]


def inverse(coefficients):
    """The residual, row by row, of sixteen coefficients in buffer order."""
    block = columns(inverse4, rows(inverse4, [[coefficients[y + x * 4] >> 2 for x in range(4)] for y in range(4)]))
    return [block[y][x] for y in range(4) for x in range(4)]


def coefficients(residual, depth):
    block = rows(forward4, columns(forward4, [residual[4 * y:4 * y + 4] for y in range(4)]))
    out = [4 * block[i % 4][i // 4] for i in range(16)]
    assert inverse(out) == residual[:16]
    assert all(v % 4 == 0 and -ROW[depth] <= v < ROW[depth] for v in out)
    return out


def refusal(residual, lent, room, depth):
    if depth not in MOST:
        return 3, 0
    if lent < 16 or room < 16:
        return 6, 0
    for i in range(16):
        if abs(residual[i]) > MOST[depth]:
            return 23, i
    return 0, 0


def asked(case):
    depth, lent, room, eob, residual, pixels = case
    return f"lossless {depth} residual{told(residual[:lent])} coefficients {room} eob {eob} pixels{told(pixels)}"


def line(case):
    depth, lent, room, eob, residual, pixels = case
    number, place = refusal(residual, lent, room, depth)
    made = coefficients(residual[:16], depth) if number == 0 else []
    after = made + [LEFT] * (room - len(made))
    text = f"{asked(case)}: {number} {place} no coefficients{told(after)}"
    if number == 0:
        done = [p + r for p, r in zip(pixels, residual)]
        assert all(0 <= v <= MOST[depth] for v in done)
        rest = [0] * 16 + after[16:]
        text += f": 0 0 no pixels{told(done)} coefficients{told(rest)}"
    return text


def told(numbers):
    return "".join(f" {v}" for v in numbers)


def predictions(rng, residual, depth):
    """Pixels p with 0 <= p + r <= maximum; now and then at one end of that."""
    out = []
    most = MOST.get(depth, 255)
    for r in residual[:16]:
        low, high = max(0, -r), min(most, most - r)
        if low > high:
            out.append(0)
        else:
            out.append(rng.choice((low, high, rng.randint(low, high), rng.randint(low, high))))
    return out


def round_trips(rng, depth):
    most = MOST[depth]
    yield [0] * 16
    for v in (1, -1, most, -most, most - 1, 1 - most):
        yield [v] * 16
    for i in range(16):
        for v in (1, most, -most):
            yield [0] * i + [v] + [0] * (15 - i)
    for v in (most, -most):
        yield [v if (i // 4 + i % 4) % 2 == 0 else -v for i in range(16)]
        for k in range(4):
            yield [v if i // 4 == k else -v for i in range(16)]
            yield [v if i % 4 == k else -v for i in range(16)]
    for _ in range(40):
        yield [rng.choice((most, -most)) for _ in range(16)]
        yield [rng.choice((most, 0, -most)) for _ in range(16)]
        yield [rng.randint(-most, most) for _ in range(16)]
        yield [rng.randint(-3, 3) for _ in range(16)]


def cases():
    rng = random.Random(10)

    def case(depth, residual, lent=16, room=16, eob=None):
        residual = residual + [0] * (20 - len(residual))
        if eob is None:
            eob = rng.choice((0, 1, 15, 2147483647))
        return depth, lent, room, eob, residual, predictions(rng, residual, depth)

    for depth in MOST:
        for residual in round_trips(rng, depth):
            yield case(depth, residual)
    plain = list(range(-8, 8))
    # each refusal beside what is taken: 3, and before 6 and 23
    for depth in (0, 7, 8, 9, 10, 11, 12, 13, 16, 4294967295):
        yield case(depth, plain)
        yield case(depth, [5000] + plain[1:])
        yield case(depth, plain, lent=15, room=15)
    # 6, and before 23; longer buffers are taken
    for depth in MOST:
        for lent in (0, 15, 16, 17, 20):
            for room in (0, 15, 16, 17, 20):
                yield case(depth, plain, lent=lent, room=room)
                yield case(depth, [5000] + plain[1:], lent=lent, room=room)
    # 23: one past either end at every place, the first of two, and nothing past the sixteenth is looked at
    for depth, most in MOST.items():
        for i in range(16):
            for v in (most, most + 1, -most, -most - 1):
                yield case(depth, plain[:i] + [v] + plain[i + 1:])
            for v in (2147483647, -2147483648):
                yield case(depth, plain[:i] + [v] + [most + 1] * (15 - i))
        for v in (most + 1, -most - 1, 2147483647, -2147483648):
            yield case(depth, plain + [v] * 4, lent=20, room=20)


def renew(path, lines):
    kept = [text for text in path.read_text().splitlines() if not text.startswith("lossless ")]
    path.write_text("".join(f"{text}\n" for text in kept + lines))


def main():
    crate = pathlib.Path(__file__).parent.parent / "crates/known"
    made = list(cases())
    renew(crate / "stdin", [asked(c) for c in made])
    renew(crate / "stdout", [line(c) for c in made])
    print(f"{len(made)} cases, {sum(refusal(c[4], c[1], c[2], c[0])[0] == 0 for c in made)} of them round trips")


main()
