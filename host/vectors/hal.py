#!/usr/bin/env python3
"""Points for the added routines, with their true values from mpmath: crates/run_hal/data/points.bin.

    python3 host/vectors/hal.py crates/run_hal/data/points.bin      (Python 3.9 or later, mpmath 1.3; under a minute)

A record is five words of 32 bits, most significant byte first: what is asked, x, y, and the value as the two halves of an f64's bits.
What is asked: 1 exp2, 2 exp, 3 sine and 4 cosine of degrees, 5 angle in degrees, 6 magnitude, each of x or (x, y) given by their f32 bits;
7 a magnitude so small that its squares leave f32's normal range: the value is the root of the fused sum, rounded once each, to be met exactly;
8 + n: the routine n outside its range, where the answer is a not-a-number.
A value is worked out with 160 binary digits and rounded once to f64. Nothing here is taken from our own program: the routine's steps are not used."""
import random
import struct
import sys
from fractions import Fraction
from math import isqrt
from mpmath import mp, mpf

mp.prec = 160
random.seed(20041)
out = []
seen = set()


def bits(x):
    return struct.unpack('>I', struct.pack('>f', x))[0]


def value(b):
    return struct.unpack('>f', struct.pack('>I', b))[0]


def put(op, x, y, v):
    if (op, x, y) in seen:
        return
    seen.add((op, x, y))
    out.append(struct.pack('>III', op, x, y) + struct.pack('>d', float(v)))


def near(b):
    """A pattern and its two neighbours of the same sign."""
    return [c for c in (b - 1, b, b + 1) if c >> 31 == b >> 31 and 0 <= c < 1 << 32]


# ---- exp2 and exp
def exp2(b):
    x = value(b)
    if 0 <= x <= 2:
        put(1, b, 0, mp.power(2, mpf(x)))


def exp(b):
    x = value(b)
    if -32 <= x <= 0:
        put(2, b, 0, mp.exp(mpf(x)))


SMALL = [0, 1, 2, 3, 0x1000, 0x7fffff, 0x800000, 0x800001, 0x1000000, 0x33000000, 0x34000000]
for b in SMALL:
    exp2(b)
    exp(b | 0x80000000)
exp2(0x80000000)
exp(0)
for i in range(513):                                    # every entry, in both octaves, and what stands beside it
    for b in near(bits(i / 256)):
        exp2(b)
for i in range(512 * 24 + 1):                           # where exp passes an entry
    if i <= 3000 or i % 7 == 0:
        for b in near(bits(float(-mp.log(2) * i / 256))):
            exp(b)
for b in near(bits(2.0)) + near(bits(1.0)):
    exp2(b)
for b in near(bits(-32.0)):
    exp(b)
while sum(1 for o in out if o[3] == 1) < 20500:
    for _ in range(500):
        exp2(bits(random.uniform(0, 2)))
        exp2(random.randrange(0x30000000, 0x40000001))
while sum(1 for o in out if o[3] == 2) < 20500:
    for _ in range(500):
        exp(bits(random.uniform(-32, 0)))
        exp(0x80000000 | random.randrange(0x30000000, 0x42000001))


# ---- sine and cosine
def turn(b):
    d = value(b)
    if 0 <= d <= 360:
        a = mpf(d) * mp.pi / 180
        put(3, b, 0, mp.sin(a))
        put(4, b, 0, mp.cos(a))


for b in SMALL + [0x80000000]:
    turn(b)
for i in range(0, 721):                                 # every degree and half degree, and what stands beside it
    for b in near(bits(i / 2)):
        turn(b)
while sum(1 for o in out if o[3] == 3) < 20500:
    for _ in range(500):
        turn(bits(random.uniform(0, 360)))
        turn(random.randrange(0x38000000, 0x43b40001))


# ---- the angle and the magnitude
LIMIT = bits(2097152.0)


def single(n):
    """A fraction from 0 up, rounded once to f32, ties to even."""
    if n == 0:
        return Fraction(0)
    e = max(n.numerator.bit_length() - n.denominator.bit_length(), -126)
    while e > -126 and n < Fraction(2) ** e:
        e -= 1
    while n >= Fraction(2) ** (e + 1):
        e += 1
    unit = Fraction(2) ** (e - 23)
    return round(n / unit) * unit


def root(n):
    """The square root of a fraction from 0 up, rounded once to f32."""
    if n == 0:
        return Fraction(0)
    a = n * Fraction(4) ** 400
    r = isqrt(a.numerator // a.denominator)
    return single(Fraction(2 * r + (0 if r * r == a else 1), 2) / Fraction(2) ** 400)


def pair(x, y):
    dx, dy = value(x), value(y)
    if not (x % (1 << 31) <= LIMIT and y % (1 << 31) <= LIMIT):
        return
    if dx == 0 and dy == 0:
        put(5, x, y, 0)
    else:
        a = mp.atan2(mpf(dy), mpf(dx)) * 180 / mp.pi
        put(5, x, y, a + 360 if a < 0 else a)
    exact = Fraction(dx) ** 2 + Fraction(dy) ** 2
    if exact == 0 or exact >= Fraction(1, 2 ** 126):
        put(6, x, y, mp.sqrt(mpf(exact.numerator) / mpf(exact.denominator)))
    else:
        put(7, x, y, root(single(Fraction(dx) ** 2 + single(Fraction(dy) ** 2))))


SIGNS = (0, 1 << 31)
SIZES = [0, 1, 2, 0x400000, 0x7fffff, 0x800000, 0x1f800000, 0x20000000, 0x33800000, 0x3f800000, 0x3f800001, 0x42c80000, 0x49ffffff, LIMIT]
for a in SIZES:                                         # axes, both zeros, subnormals, equal magnitudes, the ends
    for b in SIZES:
        for s in SIGNS:
            for t in SIGNS:
                pair(a | s, b | t)
for i in range(360):                                    # every degree, at three sizes
    for r in (0.001, 10.0, 1999999.0):
        a = mp.pi * i / 180
        pair(bits(float(r * mp.cos(a))), bits(float(r * mp.sin(a))))
for i in range(2000):
    a = random.randrange(1, LIMIT + 1)
    s, t = random.choice(SIGNS), random.choice(SIGNS)
    pair(a | s, a | t)                                  # equal magnitudes
    pair(a | s, 0 | t)                                  # the axes
    pair(0 | s, a | t)
    for b in near(a):
        if 0 < b <= LIMIT:
            pair(a | s, b | t)
for i in range(1, 252):                                 # where the tangent to the middle of a quarter is a 126th, and what stands beside it
    t = Fraction(i, 126) - 1
    for size in (37, 700000):
        for b in near(bits(float(size * (1 + t)))):
            for s in SIGNS:
                for r in SIGNS:
                    pair(bits(float(size * (1 - t))) | s, b | r)
for i in range(2500):                                   # tiny pairs
    pair(random.randrange(0, 0x20800000) | random.choice(SIGNS), random.randrange(0, 0x20800000) | random.choice(SIGNS))
for i in range(500):                                    # just below and above the positive x axis
    pair(random.randrange(0x3f000000, LIMIT + 1), random.randrange(0, 0x30000000) | random.choice(SIGNS))
while sum(1 for o in out if o[3] == 6) < 26500:
    for _ in range(500):
        pair(bits(random.uniform(-255, 255)), bits(random.uniform(-255, 255)))
        pair(bits(random.uniform(-2097152, 2097152)), bits(random.uniform(-2097152, 2097152)))
        pair(random.randrange(0x30000000, LIMIT + 1) | random.choice(SIGNS), random.randrange(0x30000000, LIMIT + 1) | random.choice(SIGNS))

# ---- outside
NANS = [0x7fc00000, 0x7f800001, 0x7fffffff, 0xffc00000, 0xffffffff]
INFS = [0x7f800000, 0xff800000]
for b in NANS + INFS:
    for op in (1, 2, 3, 4):
        put(8 + op, b, 0, 0)
    for c in (0, 0x3f800000, 0xbf800000, 0x7fc00000):
        for op in (5, 6):
            put(8 + op, b, c, 0)
            put(8 + op, c, b, 0)
for k in (1, 2, 1000):
    put(9, bits(2.0) + k, 0, 0)
    put(9, 0x80000000 + k, 0, 0)
    put(10, bits(-32.0) + k, 0, 0)
    put(10, k, 0, 0)
    for op in (3, 4):
        put(8 + op, bits(360.0) + k, 0, 0)
        put(8 + op, 0x80000000 + k, 0, 0)
    for s in SIGNS:
        for op in (5, 6):
            put(8 + op, LIMIT + k | s, 0x3f800000, 0)
            put(8 + op, 0x3f800000, LIMIT + k | s, 0)

open(sys.argv[1], 'wb').write(b''.join(out))
for op in range(1, 15):
    n = sum(1 for o in out if o[3] == op)
    if n:
        print(op, n)
