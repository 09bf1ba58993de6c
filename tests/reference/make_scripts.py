"""Prints scripts of the bench with the lines that each prints, one script to a line: `SCRIPT LINES`.

usage: make_scripts.py [--long] [--seed N] [--count N]

SCRIPT is in hexadecimal and LINES are joined with `|`; `-` stands for an empty one of either. --long prints instead the
few scripts at the limit of 32,768 bytes.
"""

import argparse

from dowhikena import FIELDS, SCRIPT_LIMIT, Dice, Geometry, hex_of, run

WORKED = bytes.fromhex('010203020001 5300000100 47000000 570000020104 520000 4D0000 520000 520009')


def word(number):
    return bytes([number >> 8, number & 255])


def header(kind, m, n, c, frames):
    return bytes([kind, m, n, c]) + word(frames)


def store(f, record):
    return b'S' + word(f) + bytes(record)


def read(f):
    return b'R' + word(f)


def mend(f):
    return b'M' + word(f)


def copy(source, target):
    return b'C' + word(source) + word(target)


def write(f, strip, square, code):
    return b'W' + word(f) + bytes([strip, square, code])


def doubt(f, strip, square):
    return b'D' + word(f) + bytes([strip, square])


def gone(f, strip):
    return b'G' + word(f) + bytes([strip])


def cuts(script):
    """The script cut at each of its places."""
    return [script[:at] for at in range(len(script) + 1)]


def headers():
    """Each rule of the header at its limit and one past it, and 1 before 2."""
    good = [(0, 1, 2, 1, 1), (0, 1, 255, 254, 1), (0, 127, 2, 1, 1), (0, 85, 3, 2, 1), (1, 1, 36, 35, 1),
            (1, 18, 2, 1, 1), (1, 2, 18, 17, 1), (0, 1, 2, 1, 4096), (0, 15, 7, 1, 151), (0, 1, 4, 3, 2730),
            (1, 6, 6, 1, 420), (1, 1, 2, 1, 4096)]
    bad = [(2, 1, 2, 1, 1), (255, 1, 2, 1, 1), (0, 0, 2, 1, 1), (0, 1, 0, 0, 1), (0, 1, 2, 0, 1), (0, 1, 2, 2, 1),
           (0, 1, 2, 3, 1), (0, 16, 16, 1, 1), (0, 128, 2, 1, 1), (0, 255, 255, 254, 1), (1, 1, 37, 36, 1),
           (1, 19, 2, 1, 1), (1, 6, 7, 1, 1), (1, 2, 3, 3, 0), (3, 2, 3, 2, 0), (1, 0, 3, 2, 65535)]
    large = [(0, 1, 2, 1, 0), (0, 1, 2, 1, 4097), (0, 1, 2, 1, 65535), (0, 5, 9, 1, 331), (0, 1, 4, 3, 2731),
             (1, 6, 6, 1, 421), (0, 15, 17, 16, 63), (1, 2, 3, 2, 0)]
    return ([header(*numbers) + read(0) for numbers in good + bad + large] + [header(*numbers) for numbers in good]
            + [header(kind, m, n, c, frames) + read(frames - 1) + read(frames) for kind, m, n, c, frames in good])


def commands():
    """Each command accepted and refused, and unknown ones."""
    card, tray = header(1, 2, 3, 2, 3), header(0, 1, 4, 3, 2)
    ten = store(0, [1, 0])
    scripts = [
        WORKED, card, card + read(0), card + read(2), card + read(3), card + read(0x8000), card + mend(0),
        card + mend(3), card + copy(0, 1), card + copy(3, 0), card + copy(0, 3), card + copy(3, 3),
        card + ten + read(0) + copy(0, 2) + read(2) + copy(0, 0) + mend(0),
        card + store(3, [1, 0]) + store(3, [99, 99]) + store(0, [36, 36]) + read(0),
        card + store(0, [37, 0]) + store(0, [0, 37]) + store(0, [255, 255]) + read(0),
        card + ten + store(0, [0, 99]) + read(0) + store(0, [0, 1]) + read(0),
        card + write(3, 0, 0, 1) + write(0, 3, 0, 1) + write(0, 0, 2, 1) + write(0, 2, 1, 255) + read(0),
        card + doubt(3, 0, 0) + doubt(0, 3, 0) + doubt(0, 0, 2) + doubt(0, 2, 1) + read(0),
        card + gone(3, 0) + gone(0, 3) + gone(0, 2) + read(0),
        card + ten + write(0, 2, 1, 4) + read(0), card + ten + write(0, 1, 1, 16) + write(0, 2, 1, 4) + read(0),
        card + ten + gone(0, 0) + gone(0, 1) + read(0) + mend(0) + copy(0, 1),
        card + ten + doubt(0, 0, 0) + doubt(0, 1, 0) + doubt(0, 2, 0) + read(0) + mend(0) + copy(0, 1),
        card + ten + doubt(0, 0, 0) + doubt(0, 1, 0) + gone(0, 2) + read(0) + mend(0) + read(0),
        card + ten + doubt(0, 0, 0) + doubt(0, 1, 0) + doubt(0, 2, 0) + gone(0, 2) + read(0),
        card + ten + write(0, 0, 0, 37) + write(0, 1, 0, 255) + read(0) + write(0, 2, 0, 200) + read(0),
        card + ten + doubt(0, 0, 0) + write(0, 0, 0, 1) + read(0),
        card + ten + doubt(0, 0, 0) + write(0, 0, 0, 5) + read(0),
        card + ten + gone(0, 1) + write(0, 1, 0, 2) + read(0),
        card + ten + gone(0, 0) + write(0, 1, 0, 9) + write(0, 1, 1, 9) + read(0) + mend(0) + copy(0, 2) + read(2),
        card + ten + gone(0, 0) + copy(0, 1) + read(0) + read(1) + store(0, [2, 3]) + read(0) + read(1),
        card + ten + store(1, [0, 1]) + store(2, [1, 1]) + read(0) + read(1) + read(2) + copy(2, 0) + read(0),
        tray, tray + store(0, [8]) + read(0), tray + store(0, [255]) + read(0), tray + store(1, [0]) + read(1),
        tray + store(0, [8]) + write(0, 2, 0, 255) + read(0) + write(0, 1, 0, 0) + read(0),
        tray + store(0, [8]) + gone(0, 0) + gone(0, 3) + read(0) + copy(0, 1) + gone(0, 1) + read(0) + read(1),
        tray + store(0, [8]) + doubt(0, 1, 0) + read(0) + doubt(0, 2, 0) + read(0) + mend(0) + copy(0, 1),
        tray + store(0, [8]) + doubt(0, 1, 1) + gone(0, 4) + write(2, 0, 0, 0) + read(0),
        b'', card[:3], bytes([9]), bytes([9, 9, 9, 9, 9]),
    ]
    scripts += [card + ten + bytes([byte]) + read(0) for byte in (0, 1, 0x20, 0x41, 0x54, 0x72, 0x73, 0xFF)]
    return scripts + [tray + bytes([byte]) for byte in range(0, 256, 16)]


def random_command(dice, field, geo, frames):
    """Any command, its numbers now and then one too large."""
    f, target = dice.below(frames + dice.below(2)), dice.below(frames + dice.below(2))
    strip, square = dice.below(geo.n + (dice.below(8) == 0)), dice.below(geo.m + (dice.below(8) == 0))
    what = dice.below(12)
    if what < 2:
        return store(f, [dice.below(field.q + (field.q < 256 and dice.below(6) == 0)) for _ in range(geo.m * geo.k)])
    if what < 5:
        return read(f)
    if what < 6:
        return mend(f)
    if what < 7:
        return copy(f, target)
    if what < 9:
        return write(f, strip, square, dice.below(dice.one([field.q, 256])))
    return doubt(f, strip, square) if what < 11 else gone(f, strip)


# Few record symbols, so that every reading of a random script is searched in full.
RANDOM = [(1, 2, 3, 2), (1, 2, 4, 3), (1, 1, 4, 3), (1, 1, 5, 3), (1, 2, 6, 5), (1, 1, 8, 7), (1, 2, 2, 1),
          (1, 1, 3, 1), (1, 3, 4, 3), (1, 4, 3, 1), (0, 1, 4, 3), (0, 1, 2, 1), (0, 1, 6, 5), (0, 2, 3, 2),
          (0, 2, 4, 3), (0, 3, 4, 2)]
LIMITS = [(0, 1, 255, 254), (1, 1, 36, 35), (1, 2, 18, 17), (1, 18, 2, 1), (0, 127, 2, 1), (0, 85, 3, 2)]


def random_script(dice, geometry, length):
    kind, m, n, c = geometry
    field, frames = FIELDS[kind], 1 + dice.below(3)
    geo = Geometry(field.q, m, n, c)
    script = header(kind, m, n, c, frames)
    # Every frame is stored first, or most reads would meet the strips of a fresh tray.
    for f in range(frames):
        script += store(f, [dice.below(field.q) for _ in range(geo.m * geo.k)])
    for _ in range(length):
        script += random_command(dice, field, geo, frames)
    script += b''.join(read(f) for f in range(frames))
    if dice.below(10) == 0:
        script = script[:len(script) - 1 - dice.below(4)]
    elif dice.below(10) == 0:
        script += bytes([dice.below(256)])
    return script


def limit_script(dice, geometry):
    """A geometry at its limit: a store, a few marks, and what a read and a mend make of them."""
    kind, m, n, c = geometry
    q, k = FIELDS[kind].q, n - c
    script = header(kind, m, n, c, 2) + store(0, [dice.below(q) for _ in range(m * k)]) + read(0)
    for j in dice.pick(range(n), min(c - 1, dice.below(4))):
        script += gone(0, j)
    script += doubt(0, dice.below(n), dice.below(m)) + read(0) + copy(0, 1) + read(1)
    return script + write(1, dice.below(n), dice.below(m), dice.below(q)) + read(1) + mend(1) + read(1)


def all_scripts(dice, count):
    scripts = headers() + commands() + cuts(WORKED) + cuts(header(0, 1, 4, 3, 2) + store(1, [8]) + copy(1, 0)
                                                             + doubt(0, 0, 0) + read(0))
    for geometry in LIMITS:
        scripts += [limit_script(dice, geometry) for _ in range(3)]
    scripts = list(dict.fromkeys(scripts))
    while len(scripts) < count:
        scripts.append(random_script(dice, dice.one(RANDOM), 4 + dice.below(24)))
    return scripts


def long_scripts():
    """At the limit, one past it, and one past it with a bad header."""
    head = header(1, 2, 3, 2, 1) + store(0, [1, 0]) + read(0)
    return [head.ljust(SCRIPT_LIMIT, b'\0'), head.ljust(SCRIPT_LIMIT + 1, b'\0'),
            b'\t'.ljust(SCRIPT_LIMIT + 1, b'\0')]


def main():
    parser = argparse.ArgumentParser(description='Prints scripts with the lines that they print.')
    parser.add_argument('--long', action='store_true', help='the few scripts at the limit of length')
    parser.add_argument('--seed', type=int, default=1)
    parser.add_argument('--count', type=int, default=500)
    options = parser.parse_args()
    for script in long_scripts() if options.long else all_scripts(Dice(options.seed), options.count):
        print(hex_of(script) or '-', '|'.join(run(script)) or '-')


if __name__ == '__main__':
    main()
