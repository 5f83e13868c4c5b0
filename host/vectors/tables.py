#!/usr/bin/env python3
"""The tables of the routines, as code and as definitions: cubics.rt and Cubics.antt of crates/hal_magnitude, turns.rt and Turns.antt of
crates/hal_angle, and crates/hal/src/pairs.rt.

    python3 host/vectors/tables.py      (in the repository; Python 3.9 or later, mpmath 1.3; then rt fmt)

docs/ROUTINES.md says what the numbers are. Of the files that are written over, all is kept but the numbers."""
import struct
from mpmath import mp, mpf, matrix

mp.prec = 200
STEPS = 63
PIECES = 32


def f32(x):
    return struct.unpack('>f', struct.pack('>f', float(x)))[0]


def bits32(x):
    return struct.unpack('>I', struct.pack('>f', x))[0]


def bits64(x):
    return struct.unpack('>Q', struct.pack('>d', x))[0]


# ---- powers of two: floor(2^23 * 2^(i / 256)), and how much the next is larger
def entry(i):
    return int(mp.floor(mp.power(2, 23 + mpf(i) / 256)))


PAIRS = [(entry(i), entry(i + 1) - entry(i)) for i in range(256)]


# ---- the root of a, 1 <= a < 4, times 2^23: the cubic through it at the four nodes of Chebyshev, in each piece
def cubic(lo, width):
    nodes = [lo + width * (1 + mp.cos((2 * j + 1) * mp.pi / 8)) / 2 for j in range(4)]
    rows = matrix([[x ** j for j in range(4)] for x in nodes])
    roots = matrix([mp.sqrt(x) * 2 ** 23 for x in nodes])
    return [float(c) for c in mp.lu_solve(rows, roots)]


CUBES = [cubic(start * (1 + mpf(k) / PIECES), mpf(start) / PIECES) for start in (1, 2) for k in range(PIECES)]
CUBICS = [c[j] for j in range(4) for c in CUBES]


# ---- the arctangent in degrees, by lines: at step k, d steps on, A + B * d
def line(k):
    def angle(d):
        return mp.atan((k - STEPS + d) / STEPS) * 180 / mp.pi
    half = mpf(1) / 2
    if k in (0, 2 * STEPS):         # an end: exactly 45 there, and the slope that is right in the middle of the half step that is used
        side = half if k == 0 else -half
        a = mpf(-45 if k == 0 else 45)
        return [f32(a), f32((angle(side / 2) - a) / (side / 2))]
    b = angle(half) - angle(-half)  # the slope of the chord
    inside = mp.sqrt(mp.mpf(1) / (b * mp.pi / 180) * STEPS - STEPS ** 2)  # where the curve has that slope, left and right of the middle
    spread = [angle(d) - b * d for d in (-half, half) + tuple(s * inside - (k - STEPS) for s in (-1, 1)) if -half <= d <= half]
    return [f32((max(spread) + min(spread)) / 2), f32(b)]


LINES = [line(k) for k in range(2 * STEPS + 1)] + [[45.0, 0.0]]
LAST = f32(359.99997)
QUARTERS = [[45.0, 63.0, 0.0, 90.0], [135.0, -63.0, 90.0, 180.0], [315.0, -63.0, 270.0, LAST], [225.0, 63.0, 180.0, 270.0]]
TURNS = [x for row in LINES + QUARTERS for x in row]


# ---- as text
def plain(x, single):
    """The shortest decimal, without an exponent, that reads back as x."""
    for digits in range(18):
        text = f'{x:.{digits}f}'
        if (f32(float(text)) if single else float(text)) == x:
            return text if '.' in text else text + '.0'
    raise ValueError(x)


def code(path, table, rows):
    text = open(path).read()
    start = text.index('= [\n', text.index(f'static {table}:')) + len('= [\n')
    end = text.index('];\n', start)
    open(path, 'w').write(text[:start] + ''.join(f'    {row},\n' for row in rows) + text[end:])


def definition(path, numbers, wide):
    text = open(path).read()
    start = text.index('=\n') + 2
    end = text.index('∷ []\n', start) + len('∷ []\n')
    rows = ' ∷\n    '.join(' ∷ '.join(numbers[i:i + wide]) for i in range(0, len(numbers), wide))
    open(path, 'w').write(f'{text[:start]}    {rows} ∷ []\n{text[end:]}')


code('crates/hal/src/pairs.rt', 'PAIRS', PAIRS)
code('crates/hal_magnitude/src/cubics.rt', 'CUBICS', [plain(x, False) for x in CUBICS])
code('crates/hal_angle/src/turns.rt', 'LINES', [f'({plain(a, True)}, {plain(b, True)})' for a, b in LINES])
code('crates/hal_angle/src/turns.rt', 'QUARTERS', ['Quarter { ' + ', '.join(f'{name}: {plain(x, True)}' for name, x in zip(('middle', 'steps', 'least', 'largest'), row)) + ' }' for row in QUARTERS])
definition('crates/hal_magnitude/specs/Cubics.antt', [f'f64 0x{bits64(x):016x}' for x in CUBICS], 6)
definition('crates/hal_angle/specs/Turns.antt', [f'f32 0x{bits32(x):08x}' for x in TURNS], 8)
