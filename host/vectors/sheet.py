#!/usr/bin/env python3
"""Makes the cases that crates/run_sheet replays, from the rules of the sheet alone: nothing of the proved code is read or run.

    python3 host/vectors/sheet.py crates/run_sheet/data/cases.bin

A case is a head of 40 bytes, most significant byte first: kind (1 writer, 2 reader, 3 a record made), number (8 bits each), room, elements in, elements out
(16 bits each), count (32 bits), width, height, layers (64 bits each), edition (32 bits); then the input and the expected output, as many elements as the head
says. The writer's input and the reader's output are words of 32 bits, the other two are bytes. Of the reader the head holds the width, height, layers and edition
that are expected. Of a record made, input and output are words: the input is the keypoint, the oriented keypoint and the values by their float bits, one behind the
other; width is the number of the keypoint's words, height that of the oriented keypoint's, the rest are values; layers has the samples; count and edition are 0.
What the program lends is larger than the room, filled with a pattern, and must keep it behind the expected output. Not here: a count above 1,048,575, which takes
579 MB of words."""
import itertools
import random
import struct
import sys

rng = random.Random(20240607)
HEADER = [4, 13, 13, 4, 20, 10]
# a record's whole numbers in each edition: the last is to be 0, and edition 2 has the blank bit before it
HEAD = {1: [13, 13, 4, 4, 8, 6], 2: [13, 13, 4, 4, 8, 1, 5]}
# the words of a record that the writer takes
TAKES = {1: 138, 2: 139}


def to_bits(widths, values):
    assert len(widths) == len(values)
    return ''.join(format(v, '0%db' % w) for w, v in zip(widths, values))


def from_bits(widths, bits):
    values, at = [], 0
    for w in widths:
        values.append(int(bits[at:at + w], 2))
        at += w
    return values


def pack(bits):
    return bytes(int(bits[i:i + 8], 2) for i in range(0, len(bits), 8))


def unpack(data):
    return ''.join(format(b, '08b') for b in data)


def is_float(word):
    return word >> 31 == 0 and (word >> 23) & 255 != 255


def is_nan(word):
    return (word >> 23) & 255 == 255 and word & 0x7fffff != 0


def number(word):
    return struct.unpack('>f', struct.pack('>I', word))[0]


def record_fault(width, height, layers, row, column, octave, layer, code, floats):
    """True where a rule of the record is broken."""
    if not (row < height and column < width and octave <= 15 and 1 <= layer <= layers and code <= 255):
        return True
    if not all(is_float(f) for f in floats):
        return True
    return not (number(floats[2]) > 0 and number(floats[4]) < 360)


def blank_fault(values, blank):
    """True where a blank word, of which edition 1 has none, breaks a rule."""
    return any(b > 1 or b == 1 and any(values) for b in blank)


def write(edition, width, height, layers, words, room):
    """Number, count and bytes."""
    if not (1 <= width <= 8192 and 1 <= height <= 8192):
        return 1, 0, b''
    if not 1 <= layers <= 15:
        return 2, 0, b''
    if edition not in TAKES:
        return 4, 0, b''
    n = TAKES[edition]
    whole = [words[n * i:n * i + n] for i in range(len(words) // n)]
    if any(not 1 <= r[3] <= layers for r in whole):
        return 2, 0, b''
    if len(words) % n or len(whole) > 1048575:
        return 5, 0, b''
    for r in whole:
        values, blank = r[10:138], r[138:]
        if record_fault(width, height, layers, *r[:5], r[5:10]) or any(v > 255 for v in values) or blank_fault(values, blank):
            return 5, 0, b''
    size = 8 + 154 * len(whole)
    if room < size:
        return 7, size, b''
    out = pack(to_bits(HEADER, [edition, width - 1, height - 1, layers, len(whole), 0]))
    for r in whole:
        out += pack(to_bits(HEAD[edition], r[:5] + r[138:] + [0])) + struct.pack('>5I', *r[5:10]) + bytes(r[10:138])
    return 0, size, out


def read(data, room):
    """Number, count, edition, frame and words."""
    bad = (8, 0, 0, (0, 0, 0), [])
    if len(data) < 8:
        return bad
    edition, w, h, layers, count, zero = from_bits(HEADER, unpack(data[:8]))
    if edition not in HEAD or layers == 0 or zero or len(data) != 8 + 154 * count:
        return bad
    words = []
    for i in range(count):
        r = data[8 + 154 * i:162 + 154 * i]
        *head, zero = from_bits(HEAD[edition], unpack(r[:6]))
        head, blank = head[:5], head[5:]
        floats = list(struct.unpack('>5I', r[6:26]))
        values = list(r[26:])
        if zero or record_fault(w + 1, h + 1, layers, *head, floats) or blank_fault(values, blank):
            return bad
        # edition 1 does not say of zeros whether they were read
        words += head + floats + values + (blank or [0 if any(values) else 2])
    if room < 139 * count:
        return 7, count, 0, (0, 0, 0), []
    return 0, count, edition, (w + 1, h + 1, layers), words


def make(keypoint, oriented, values, samples, room):
    """Number and words."""
    if (len(keypoint), len(oriented), len(values)) != (10, 6, 128):
        return 5, []
    if any(is_nan(keypoint[k]) for k in (0, 1, 2, 3, 6)) or any(is_nan(oriented[k]) for k in (0, 1, 2, 3, 5)):
        return 5, []
    if keypoint[:5] != oriented[:5]:
        return 5, []
    octave, layer, code = keypoint[4] % 256, keypoint[4] // 256 % 256, keypoint[4] // 65536
    head, floats = [keypoint[8], keypoint[7], octave, layer, code], oriented[:4] + oriented[5:]
    if record_fault(8192, 8192, 15, *head, floats):
        return 5, []
    if any(number(v) not in range(256) for v in values):
        return 5, []
    whole = [int(number(v)) for v in values]
    blank = 1 if samples == 0 else 0
    if blank and any(whole):
        return 5, []
    if room != 139:
        return 7, []
    return 0, head + floats + whole + [blank]


out, tally = [], {}


def head(kind, num, room, n_in, n_out, count, frame, edition):
    tally[kind, num] = tally.get((kind, num), 0) + 1
    return struct.pack('>BBHHHIQQQI', kind, num, room, n_in, n_out, count, *frame, edition)


def of_words(words):
    return struct.pack('>%dI' % len(words), *words)


def writer_case(edition, width, height, layers, words, room):
    num, count, data = write(edition, width, height, layers, words, room)
    out.append(head(1, num, room, len(words), len(data), count, (width, height, layers), edition) + of_words(words) + data)


def reader_case(data, room):
    num, count, edition, frame, words = read(data, room)
    out.append(head(2, num, room, len(data), len(words), count, frame, edition) + data + of_words(words))


def record_case(keypoint, oriented, values, samples, room=139):
    num, words = make(keypoint, oriented, values, samples, room)
    given = keypoint + oriented + values
    out.append(head(3, num, room, len(given), len(words), 0, (len(keypoint), len(oriented), samples), 0) + of_words(given) + of_words(words))


def some_record(edition, width, height, layers, zeros=False):
    floats = [rng.randrange(0, 0x7f800000) for _ in range(5)]
    floats[2] = rng.randrange(1, 0x7f800000)
    floats[4] = rng.randrange(0, 0x43b40000)
    values = [0] * 128 if zeros else [rng.randrange(256) for _ in range(128)]
    fields = [rng.randrange(height), rng.randrange(width), rng.randrange(16), rng.randrange(1, layers + 1), rng.randrange(256)]
    blank = [rng.randrange(2) if zeros else 0] if edition == 2 else []
    return fields + floats + values + blank


def some(edition, n):
    width, height, layers = rng.randrange(1, 8193), rng.randrange(1, 8193), rng.randrange(1, 16)
    words = []
    for _ in range(n):
        words += some_record(edition, width, height, layers, rng.randrange(3) == 0)
    return width, height, layers, words


def sheet_of(edition, width, height, layers, words):
    num, _, data = write(edition, width, height, layers, words, 1 << 16)
    assert num == 0
    return data


def flipped(data, bit):
    b = bytearray(data)
    b[bit // 8] ^= 128 >> bit % 8
    return bytes(b)


def with_word(words, at, value):
    changed = list(words)
    changed[at] = value
    return changed


FLOATS = [0, 1, 2, 0x007fffff, 0x00800000, 0x3f800000, 0x43b3ffff, 0x43b40000, 0x43b40001, 0x7f7fffff, 0x7f800000, 0x7f800001, 0x7fc00000, 0x80000000, 0x80000001, 0xbf800000, 0xff800000, 0xffffffff]
SIDES = [0, 1, 2, 8191, 8192, 8193, 65536, 1 << 32, (1 << 32) + 1, (1 << 63) + 5]
EDITIONS = list(range(18)) + [255, 256, 257, 258, 65537, 65538, (1 << 28) + 1, 1 << 29, (1 << 31) + 2, 0xfffffffe, 0xffffffff]


def both_ways(edition):
    """Cases of an edition."""
    n = TAKES[edition]

    # sound sheets and words, with every kind of room
    for many in range(4):
        for _ in range(5):
            w, h, l, words = some(edition, many)
            data = sheet_of(edition, w, h, l, words)
            for room in (0, len(data) - 1, len(data), len(data) + 1, len(data) + 9):
                writer_case(edition, w, h, l, words, room)
            for room in sorted({max(0, 139 * many - 1), 139 * many, 139 * many + 1, 139 * many + 7, 0}):
                reader_case(data, room)

    # every bit of the header, of a record's head and of its floats
    for many in range(2):
        w, h, l, words = some(edition, many)
        data = sheet_of(edition, w, h, l, words)
        for bit in range(64):
            reader_case(flipped(data, bit), 139 * many)
    w, h, l = 5000, 4000, 9
    words = some_record(edition, w, h, l) + some_record(edition, w, h, l)
    data = sheet_of(edition, w, h, l, words)
    one = sheet_of(edition, w, h, l, words[:n])
    for bit in range(48 + 160):
        reader_case(flipped(one, 64 + bit), 139)
    for bit in range(48):
        reader_case(flipped(data, 8 * 162 + bit), 278)
    for bit in itertools.combinations(range(54, 64), 2):
        reader_case(flipped(flipped(one, bit[0]), bit[1]), 139)

    # every field of the header and of a record at and past its ends
    for other in range(16):
        reader_case(pack(to_bits(HEADER, [other, w - 1, h - 1, l, 2, 0])) + data[8:], 278)
    for layers in range(16):
        reader_case(pack(to_bits(HEADER, [edition, w - 1, h - 1, layers, 2, 0])) + data[8:], 278)
    for count in (0, 1, 2, 3, 4, 255, 1048575):
        for room in (0, 278):
            reader_case(pack(to_bits(HEADER, [edition, w - 1, h - 1, l, count, 0])) + data[8:], room)
    fields = {0: [0, h - 1, h, h + 1, 8191], 1: [0, w - 1, w, w + 1, 8191], 2: range(16), 3: range(16), 4: [0, 1, 128, 255], 5: range(64)}
    for field, values in fields.items():
        for value in values:
            # the six bits behind the code as one number, whatever the edition has there
            parts = from_bits(HEAD[1], unpack(one[8:14]))
            parts[field] = value
            changed = pack(to_bits(HEAD[1], parts))
            reader_case(one[:8] + changed + one[14:], 139)
            if field == 3:
                reader_case(data[:162] + changed + data[168:], 278)
    for place in range(5):
        for f in FLOATS:
            at = 14 + 4 * place
            reader_case(one[:at] + struct.pack('>I', f) + one[at + 4:], 139)
            writer_case(edition, w, h, l, with_word(words[:n], 5 + place, f), 162)

    # lengths, and a broken rule before a lack of room
    for long in range(len(one)):
        reader_case(one[:long], 139)
    for extra in list(range(1, 12)) + [153, 154, 155]:
        reader_case(one + bytes(extra), 139)
    for bit in (0, 3, 60, 64 + 44, 64 + 48):
        reader_case(flipped(one, bit), 0)

    # 128 zeros, and each byte alone, with all six bits behind the code
    zeros = words[:10] + [0] * (n - 10)
    for bits in range(64):
        reader_case(from_zeros(edition, w, h, l, zeros, bits), 139)
    for place in range(128):
        changed = with_word(zeros, 10 + place, rng.randrange(1, 256))
        reader_case(sheet_of(edition, w, h, l, changed), 139)
        # and with the first of the six
        reader_case(from_zeros(edition, w, h, l, changed, 32), 139)

    # the writer: sides, layers, every word of a record, parts of a record
    for side in SIDES:
        for layers in (0, 1, 9):
            writer_case(edition, side, h, layers, words[:n], 162)
            writer_case(edition, w, side, layers, words[:n], 162)
    for layers in list(range(17)) + [255, (1 << 32) + 9, 1 << 63]:
        writer_case(edition, w, h, layers, words, 316)
    for place in range(n):
        for value in (255, 256) if 10 <= place < 138 else (0, 1, 2, 255, 256, 0xffffffff):
            writer_case(edition, w, h, l, with_word(words[:n], place, value), 162)
    for field, values in {0: [h - 1, h], 1: [w - 1, w], 2: [0, 15, 16, 255], 3: range(17), 4: [255, 256]}.items():
        for value in values:
            for i in range(2):
                writer_case(edition, w, h, l, with_word(words, n * i + field, value), 316)
    for part in list(range(1, 14)) + list(range(14, n - 3, 5)) + [n - 3, n - 2, n - 1]:
        writer_case(edition, w, h, l, words[:part], 316)
    for part in range(1, n, 15):
        writer_case(edition, w, h, l, words[:n] + words[n:n + part], 316)
    # the layer of a part of a record is not looked at
    for part in range(1, 9):
        writer_case(edition, w, h, l, words[:n] + [h, w, 16, 0, 256, 0, 0, 0, 0][:part], 316)

    # two faults at once, and each of them with no room
    faults = {
        'width': lambda c: c.update(width=0), 'height': lambda c: c.update(height=8193), 'no layers': lambda c: c.update(layers=0), 'layers': lambda c: c.update(layers=16),
        'layer': lambda c: c['words'].__setitem__(n + 3, 0), 'layer above': lambda c: c['words'].__setitem__(3, 15), 'row': lambda c: c['words'].__setitem__(0, 8192),
        'octave': lambda c: c['words'].__setitem__(2, 16), 'code': lambda c: c['words'].__setitem__(4, 256), 'size': lambda c: c['words'].__setitem__(7, 0),
        'angle': lambda c: c['words'].__setitem__(9, 0x43b40000), 'value': lambda c: c['words'].__setitem__(200, 256), 'part': lambda c: c['words'].append(7),
        'no edition': lambda c: c.update(edition=0), 'edition': lambda c: c.update(edition=3), 'the other edition': lambda c: c.update(edition=3 - edition),
        'room': lambda c: c.update(room=315)}
    if edition == 2:
        faults['blank'] = lambda c: c['words'].__setitem__(138, 1)
        faults['blank above'] = lambda c: c['words'].__setitem__(277, 2)
    for a, b in itertools.combinations(faults, 2):
        c = dict(edition=edition, width=w, height=h, layers=l, words=list(words), room=316)
        faults[a](c)
        faults[b](c)
        writer_case(**c)


def from_zeros(edition, w, h, l, words, bits):
    """A sheet of a record, whatever its six bits behind the code."""
    data = bytearray(sheet_of(edition, w, h, l, words))
    data[13] = data[13] & 192 | bits
    return bytes(data)


def blanks():
    """Edition 2's blank word at the writer, and back."""
    w, h, l = 700, 600, 3
    read_one = some_record(2, w, h, l)
    zeros = read_one[:10] + [0] * 128 + [0]
    for words in (read_one, zeros):
        for blank in (0, 1, 2, 3, 255, 256, 257, 65536, 1 << 31, (1 << 31) + 1, 0xffffffff):
            writer_case(2, w, h, l, with_word(words, 138, blank), 162)
            writer_case(2, w, h, l, with_word(words, 138, blank), 161)
    for place in range(128):
        for value in (1, 128) if place % 16 == 0 else (255,):
            writer_case(2, w, h, l, with_word(with_word(zeros, 10 + place, value), 138, 1), 162)
    # all patterns of three records that are read, level or blank
    kinds = [read_one, zeros, with_word(zeros, 138, 1)]
    for three in itertools.product(kinds, repeat=3):
        words = three[0] + three[1] + three[2]
        writer_case(2, w, h, l, words, 470)
        reader_case(sheet_of(2, w, h, l, words), 417)
        shorter = three[0][:138] + three[1][:138] + three[2][:138]
        reader_case(sheet_of(1, w, h, l, shorter), 417)


def editions():
    """The writer's editions, with the words of either, and with other faults."""
    w, h, l = 300, 200, 5
    for edition in EDITIONS:
        for of in (1, 2):
            words = some_record(of, w, h, l)
            n = len(words)
            writer_case(edition, w, h, l, words, 162)
            writer_case(edition, w, h, l, words, 0)
            writer_case(edition, w, h, l, [], 8)
            # a record's layer is looked at where the edition is known, and the frame's always
            writer_case(edition, w, h, l, with_word(words, 3, 0), 162)
            writer_case(edition, w, h, 16, words, 162)
            writer_case(edition, w, 0, 16, words, 162)
            writer_case(edition, w, h, l, with_word(words, 2, 16), 162)
            writer_case(edition, w, h, l, words[:n - 1], 162)
            writer_case(edition, w, h, l, words + [1], 162)


def records():
    """Records made of a keypoint, a direction and a descriptor."""

    def some_parts(zeros=False, samples=None):
        r = some_record(1, 8192, 8192, 15, zeros)
        word = r[2] + 256 * r[3] + 65536 * r[4]
        keypoint = r[5:9] + [word, rng.randrange(1 << 32), rng.randrange(0x7f800000), r[1], r[0], rng.randrange(5)]
        values = [struct.unpack('>I', struct.pack('>f', v))[0] for v in r[10:138]]
        return [keypoint, r[5:9] + [word, r[9]], values, rng.randrange(1, 3000) if samples is None else samples]

    def changed(part, at, value, parts):
        p = [list(parts[0]), list(parts[1]), list(parts[2]), parts[3]]
        p[part][at] = value
        return p

    def both(at, value, parts):
        return changed(1, at, value, changed(0, at, value, parts))

    for _ in range(8):
        record_case(*some_parts())
        record_case(*some_parts(True))
        record_case(*some_parts(True, 0))
    for samples in (0, 1, 2, 255, 256, 1 << 32, 1 << 63, (1 << 64) - 1):
        record_case(*some_parts(True, samples))
        record_case(*some_parts(False, samples))
    p, z = some_parts(), some_parts(True, 0)
    for room in (0, 1, 138, 139, 140, 278):
        record_case(*p, room)
        record_case(*changed(0, 7, 8192, p), room)
    # lengths
    for part in range(3):
        for cut in (lambda s: s[:-1], lambda s: s + s[:1], lambda s: [], lambda s: s + s):
            q = list(p)
            q[part] = cut(p[part])
            record_case(*q)
    # every float of either, and of both
    for f in FLOATS + [0xff800001, 0x7fffffff]:
        for at in (0, 1, 2, 3):
            record_case(*changed(0, at, f, p))
            record_case(*changed(1, at, f, p))
            record_case(*both(at, f, p))
        record_case(*changed(0, 6, f, p))
        record_case(*changed(1, 5, f, p))
    # a bit apart
    for at in range(5):
        for bit in range(32):
            record_case(*changed(bit % 2, at, p[bit % 2][at] ^ 1 << bit, p))
    # every bit of the octave word, its bytes, the cell, and the words that are free
    for bit in range(32):
        record_case(*both(4, p[0][4] ^ 1 << bit, p))
    for octave, layer, code in itertools.product((0, 15, 16, 255), (0, 1, 15, 16, 255), (0, 255, 256, 65535)):
        record_case(*both(4, octave + 256 * layer + 65536 * code, p))
    for at in (7, 8):
        for value in (0, 8191, 8192, 65536, 1 << 31, 0xffffffff):
            record_case(*changed(0, at, value, p))
    for at in (5, 9):
        for value in (0, 1, 16, 0xffffffff):
            record_case(*changed(0, at, value, p))
    # values: every whole number, what is none, and each place alone beside no samples
    for value in list(range(0, 250, 3)) + list(range(250, 258)):
        whole = struct.unpack('>I', struct.pack('>f', value))[0]
        record_case(*changed(2, value % 128, whole, p))
        if value % 5 == 0:
            record_case(*changed(2, value % 128, whole, z))
    for value in FLOATS + [0x3effffff, 0x3f000000, 0x3f7fffff, 0x3f800001, 0x437effff, 0x437f0001, 0x437f8000, 0x437fffff, 0x43800000, 0x4b800000, 0x4f800000, 0xb3800000]:
        for q in (p, z):
            record_case(*changed(2, rng.randrange(128), value, q))
    for place in range(128):
        record_case(*changed(2, place, 0x3f800000, z))
        if place % 16 == 0:
            record_case(*changed(2, place, 0x80000000, z))


for edition in (1, 2):
    both_ways(edition)
blanks()
editions()
records()
with open(sys.argv[1], 'wb') as f:
    f.write(b''.join(out))
NAMES = {1: 'writer', 2: 'reader', 3: 'record'}
print(len(out), 'cases,', sum(map(len, out)), 'bytes;', ', '.join('%s %d: %d' % (NAMES[k], n, t) for (k, n), t in sorted(tally.items())))
