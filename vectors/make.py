#!/usr/bin/env python3
"""Writes the vectors of crates/numbers_test: its `stdin`, a line for each value, and its `stdout`, what a run must print.

    python3 vectors/make.py

Every result is worked out from exact fractions (Python's `fractions`) and rounded by `rounded` below, half to even, so that
neither the engine's code nor a machine's float unit has a part in it. Where a machine's floats can say the result too,
they are asked, and have to agree. A line is: what is done, then two arguments and the result, each as 16 hexadecimal digits.
A float is its bit pattern; a step that is not finite is the pattern of an infinity, which no finite result has; hundredths
are their count, 2 ^ 63 more with a minus, or 16 times f for a star.
"""
import random
import struct
from fractions import Fraction
from pathlib import Path

CRATE = Path(__file__).resolve().parent.parent / "crates" / "numbers_test"
TOP = 1 << 63
INFINITY = 0x7FF << 52
STAR = (1 << 64) - 1
NAN = INFINITY + (1 << 51)


def exact(n):
    """The value of a finite pattern."""
    field, digits = n % TOP >> 52, n % (1 << 52)
    size = Fraction(digits + (1 << 52 if field else 0)) * Fraction(2) ** (max(field, 1) - 1075)
    return -size if n >= TOP else size


def finite(n):
    return n % TOP < INFINITY


def rounded(x, minus):
    """The pattern nearest to x, half to even; a zero has the sign that is handed in."""
    if x == 0:
        return TOP if minus else 0
    sign, x = (TOP, -x) if x < 0 else (0, x)
    e = x.numerator.bit_length() - x.denominator.bit_length()
    while Fraction(2) ** e > x:
        e -= 1
    while Fraction(2) ** (e + 1) <= x:
        e += 1
    unit = Fraction(2) ** (max(e, -1022) - 52)
    q, rest = divmod(x, unit)
    if rest * 2 > unit or rest * 2 == unit and q % 2 == 1:
        q += 1
    x = q * unit
    if x >= Fraction(2) ** 1024:
        return sign + INFINITY
    e = max(e, -1022)
    if x >= Fraction(2) ** (e + 1):
        e += 1
        q //= 2
    return sign + (q if q < 1 << 52 else (e + 1023 << 52) + q - (1 << 52))


def value(n):
    return struct.unpack("<d", struct.pack("<Q", n))[0]


def bits(x):
    return struct.unpack("<Q", struct.pack("<d", x))[0]


def step(n):
    return n if finite(n) else INFINITY


def total(a, b):
    """a + b of finite patterns; a sum that is zero is -0.0 only of two negative zeros."""
    return rounded(exact(a) + exact(b), a == b == TOP)


def times(a, b):
    return rounded(exact(a) * exact(b), (a >= TOP) != (b >= TOP))


def divided(a, b):
    if exact(b) == 0:
        return INFINITY
    return rounded(exact(a) / exact(b), (a >= TOP) != (b >= TOP))


def machine(kind, a, b):
    x, y = value(a), value(b)
    if kind == "/" and y == 0:
        return INFINITY
    return step(bits({"+": x + y, "-": x - y, "*": x * y, "/": x / y if y else 0.0}[kind]))


def power(a, n):
    """01's own rule, over finite steps."""
    r, x = bits(1.0), a
    for place in range(n.bit_length()):
        if n >> place & 1:
            r = times(r, x)
            if not finite(r):
                return INFINITY
        if n >> place + 1:
            x = times(x, x)
            if not finite(x):
                return INFINITY
    return r


def cut(a):
    """Toward zero, held to an i32, as its 32 bits."""
    x = exact(a)
    whole = abs(x.numerator) // x.denominator
    return max(-(1 << 31), min((1 << 31) - 1, -whole if x < 0 else whole)) % (1 << 32)


def hundredths(a):
    """The nearest hundredth of the exact value, halves away from zero; a star from 10^12 up, rounded."""
    x = exact(a)
    count = (abs(x.numerator) * 200 + x.denominator) // (2 * x.denominator)
    if count >= 10**14:
        return STAR
    return count + (TOP if x < 0 and count else 0)


EDGES = [0.0, 1.0, 0.1, 1 / 3, 1.5, 2.0, 5e-324, 2.2250738585072009e-308, 2.2250738585072014e-308, 1.7976931348623157e308, 8.98846567431158e307, 1e308, 4503599627370497.5, 9007199254740993.0, 100.0, 3e-170]
EDGES = [bits(s * x) for x in EDGES for s in (1.0, -1.0)]


def any_float(rng):
    while True:
        n = rng.choice([rng.getrandbits(64), bits(rng.uniform(-1000, 1000)), bits(rng.randrange(-10**6, 10**6) / 100), rng.choice(EDGES)])
        if finite(n):
            return n


def lines(rng):
    for kind, made in (("+", total), ("-", lambda a, b: total(a, b ^ TOP)), ("*", times), ("/", divided)):
        pairs = [(EDGES[i], EDGES[(i * 7 + 3) % len(EDGES)]) for i in range(len(EDGES))] + [(any_float(rng), any_float(rng)) for _ in range(28)]
        for a, b in pairs:
            r = step(made(a, b))
            assert r == machine(kind, a, b), (kind, hex(a), hex(b))
            yield kind, a, b, r
    exponents = [0, 1, 2, 3, 5, 7, 8, 31, 64, 1000, 1023, 1024, 65535, 2147483648, 4294967294, 4294967295]
    bases = [0.8691199808003974, 1.0, -1.0, 0.5, -0.5, 2.0, 1.05, 1.0000001, 0.9999999, 0.0, -0.0, 5e-324, -1.5, 1e154, 1.35e154, 0.25]
    for i, n in enumerate(exponents):
        for x in bases[i % 4 :: 4] + [bases[0], 1.0000001]:
            yield "^", bits(x), n, power(bits(x), n)
    for _ in range(40):
        a, n = bits(rng.uniform(-2, 2)), rng.choice([rng.randrange(40), rng.getrandbits(32)])
        yield "^", a, n, power(a, n)
    for p in [*range(12), 64, (1 << 64) - 1]:
        yield "w", p, 0, power(bits(0.8691199808003974), p * p) if p < 8 else 0
    ends = [x + d for x in (-2147483649.0, -2147483648.0, -2147483647.0, 2147483646.0, 2147483647.0, 2147483648.0, 4294967296.0) for d in (-0.5, 0.0, 0.5)]
    for x in ends + [0.0, -0.0, 0.9, -0.9, 3.9, -3.9, 3e9, -3e9, 5e-324, -5e-324, 1e308, -1e308, 9.3e18, -9.3e18, 65536.999]:
        yield "c", bits(x), 0, cut(bits(x))
    for _ in range(40):
        a = any_float(rng)
        yield "c", a, 0, cut(a)
    yield "c", INFINITY, 0, (1 << 31) - 1
    yield "c", INFINITY + TOP, 0, 1 << 31
    yield "c", NAN, 0, 0
    for n in [0, 1, 2147483647, 2147483648, 2147483649, 4294967295] + [rng.getrandbits(32) for _ in range(10)]:
        yield "i", n, 0, n
        yield "q", n, 0, rounded(Fraction(n), False)
    near = [1e12, 999999999999.99, 999999999999.995, 999999999999.9951171875, 0.125, 0.375, 1.005, 2.675, 0.004, 0.0078125, 0.00390625, 1e11, 0.01, 0.005, 0.015, 1.15, 3.9, 0.29, 4.35, 1e-300, 1e15, 1e300, 0.0, 5e-324, 430.36, 99.995, 123456789.125, 0.009999999999999999]
    for n in sorted({m for x in near for m in (bits(x), bits(x) + 1, max(bits(x) - 1, 0))}):
        yield "h", n, 0, hundredths(n)
        yield "h", n + TOP, 0, hundredths(n + TOP)
    for _ in range(60):
        a = any_float(rng)
        yield "h", a, 0, hundredths(a)
    for n in (INFINITY, INFINITY + TOP, NAN):
        yield "h", n, 0, STAR
    for a, b in [(EDGES[i], EDGES[(i * 5 + 1) % len(EDGES)]) for i in range(len(EDGES))] + [(a, a ^ TOP) for a in EDGES[:6]]:
        yield "<", a, b, int(abs(exact(a)) < abs(exact(b)))
    for a in EDGES + [INFINITY, INFINITY + TOP, NAN]:
        yield "f", a, 0, int(finite(a))


NAMES = {"+": "sums", "-": "differences", "*": "products", "/": "quotients", "^": "powers", "w": "weights", "c": "cuts", "i": "signs", "q": "quantities", "h": "hundredths", "<": "sizes", "f": "finite"}


def main():
    made = sorted(lines(random.Random(20261115)), key=lambda l: list(NAMES).index(l[0]))
    (CRATE / "stdin").write_text("".join("%s %016x %016x %016x\n" % l for l in made))
    (CRATE / "stdout").write_text("".join("%s %d wrong 0\n" % (name, sum(l[0] == kind for l in made)) for kind, name in NAMES.items()))


main()
