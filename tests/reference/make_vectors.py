"""Prints correction vectors, or with --frames the frames of random records, one to a line.

usage: make_vectors.py [--frames] [--seed N] [--count N]

A correction vector is `FIELD M N C SHOWING ANSWER`, a frame vector `F FIELD M N C RECORD FRAME`: docs/REFERENCE.md.
An answer is known because the marks were put on a frame within the bounds, or counted (7, 8), or searched for in full.
"""

import argparse

from dowhikena import (DOUBTFUL, FIELDS, GONE, SEARCH_LIMIT, Geometry, Dice, accepted, answer_text, choices, fits,
                       frame_of, geometry_number, hex_of, read, showing_text, solve_for, strips_of, too_worn, worn)

# The most choices, for one square to a strip, that a full search is made through.
CHOICES_LIMIT = 1200
# The most check symbols for which two near frames are worked out.
NEAR_LIMIT = 40

# Byte geometries that meet the limit m*n = 255 or come near it: few, for their lines are long.
LARGE = [(1, 255, 254), (1, 255, 1), (1, 255, 20), (127, 2, 1), (85, 3, 2), (51, 5, 4), (15, 17, 16), (17, 15, 8),
         (16, 15, 14), (3, 85, 40), (5, 51, 10), (2, 127, 126), (63, 4, 3)]
SMALL = [(1, 2, 1), (1, 3, 2), (1, 4, 3), (1, 6, 5), (1, 9, 8), (1, 12, 4), (1, 16, 7), (2, 2, 1), (2, 3, 2), (2, 4, 2),
         (2, 4, 3), (2, 5, 4), (2, 7, 5), (2, 10, 3), (3, 2, 1), (3, 3, 2), (3, 4, 3), (3, 5, 3), (3, 6, 5), (4, 3, 2),
         (4, 4, 3), (4, 6, 4), (4, 8, 3), (5, 3, 1), (5, 4, 3), (6, 3, 2), (6, 5, 3), (7, 4, 2), (8, 3, 2), (8, 5, 4),
         (10, 4, 3), (12, 3, 2)]


def geometries(kind):
    """The small ones and the limits of a field: the card field is small enough to take them all."""
    q = FIELDS[kind].q
    if kind == 0:
        return [Geometry(q, *g) for g in SMALL], [Geometry(q, *g) for g in LARGE]
    every = [Geometry(q, m, n, c) for m in range(1, 19) for n in range(2, 37) for c in range(1, n)
             if not geometry_number(q, m, n, c)]
    return [g for g in every if g.m * g.n <= 20], [g for g in every if g.m * g.n > 20]


def other(dice, field, code):
    """A code of the field that differs from the given one."""
    return (code + 1 + dice.below(field.q - 1)) % field.q


def wear(dice, field, geo, frame, rho, doubt, tau, theta):
    """The frame with so many gone strips, doubtful squares, wrong strips and silent squares, or None."""
    if rho + tau > geo.n:
        return None
    order = dice.pick(range(geo.n), geo.n)
    gone, wrong, sound = order[:rho], order[rho:rho + tau], order[rho + tau:]
    strips = strips_of(geo, frame)
    squares = [(j, s) for j in sound for s in range(geo.m)]
    if theta > len(squares):
        return None
    silent = dice.pick(squares, theta)
    for j in wrong:
        for s in dice.pick(range(geo.m), 1 + dice.below(geo.m)):
            strips[j][s] = other(dice, field, strips[j][s])
    for j, s in silent:
        strips[j][s] = other(dice, field, strips[j][s])
    left = [(j, s) for j in wrong + sound for s in range(geo.m) if (j, s) not in silent]
    if doubt > len(left):
        return None
    # Now and then all the doubt falls on one strip after the other rather than anywhere.
    for j, s in left[:doubt] if dice.below(4) == 0 else dice.pick(left, doubt):
        over = field.q < 256 and dice.below(3) == 0
        strips[j][s] = field.q + dice.below(256 - field.q) if over else DOUBTFUL
    for j in gone:
        strips[j] = GONE
    return strips


def amounts(dice, geo):
    """Gone, doubtful, wrong, silent: up to, at and one past each bound."""
    m, c = geo.m, geo.c
    half = (c - 1) // 2
    some = dice.below(c)
    few = dice.below(m + 1)
    fixed = [
        (0, 0, 0, 0), (c - 1, 0, 0, 0), (c, 0, 0, 0), (geo.n, 0, 0, 0), (0, m, 0, 0), (0, m + 1, 0, 0),
        (c, m + 1, 0, 0), (c - 1, m + 1, 0, 0), (c - 1, m, 0, 0), (0, 0, half, 0), (0, 0, half + 1, 0),
        (some, 0, (c - 1 - some) // 2, 0), (some, 0, (c - 1 - some) // 2 + 1, 0),
        (some, m, (c - 1 - some) // 2, 0), (some, few, (c - 1 - some) // 2, 0), (c - 1 - 2 * half, m, half, 0),
        (0, 0, 0, 1), (0, 0, 0, 2), (0, 0, half, 1), (0, 0, half, 2), (c - 1, 0, 0, 1), (c - 1, m, 0, 1),
        (0, max(m - 1, 0), 0, 1), (c - 1, max(m - 1, 0), 0, 1),
    ]
    if m >= 2:
        fixed += [(0, m - 2, 0, 1), (some, m - 2, (c - 1 - some) // 2, 1), (some, dice.below(m - 1), 0, 1),
                  (c - 1, m - 2, 0, 1), (some, m - 1, (c - 1 - some) // 2, 1)]
    return fixed


def answer_for(field, geo, frame, showing):
    """The answer, or None where it is not known and a full search would take too long."""
    if too_worn(field, geo, showing):
        return read(field, geo, showing)
    if fits(field, geo, frame, showing):
        return accepted(field, geo, frame, showing)
    if field.q ** (geo.m * geo.k) <= SEARCH_LIMIT or choices(geo, *worn(field, showing)) <= CHOICES_LIMIT // geo.m:
        return read(field, geo, showing)
    return None


def random_record(dice, field, geo):
    if dice.below(12) == 0:
        return [0] * (geo.m * geo.k)
    return [dice.below(field.q) for _ in range(geo.m * geo.k)]


def vector(dice, kind, geo, amount):
    field = FIELDS[kind]
    frame = frame_of(field, geo, random_record(dice, field, geo))
    showing = wear(dice, field, geo, frame, *amount)
    answer = showing and answer_for(field, geo, frame, showing)
    return answer and vector_text(kind, geo, showing, answer)


def vector_text(kind, geo, showing, answer):
    return '%d %d %d %d %s %s' % (kind, geo.m, geo.n, geo.c, showing_text(geo.m, showing), answer_text(answer))


def between(dice, kind, geo):
    """A showing between two frames that lie close together: c-1 strips and m+1 squares apart."""
    field, m, c = FIELDS[kind], geo.m, geo.c
    frame = frame_of(field, geo, random_record(dice, field, geo))
    order = dice.pick(range(geo.n), geo.n)
    apart, rest = order[:c - 1], order[c - 1:]
    squares = dice.pick([j * m + s for j in rest for s in range(m)], m + 1)
    shown = list(frame)
    shown[squares[0]] = other(dice, field, shown[squares[0]])
    near = solve_for(field, geo, shown, {j * m + s for j in apart for s in range(m)} | set(squares[1:]))
    squares = dice.pick(squares, m + 1)
    rho, doubt = dice.below(c), dice.one([0, m + 1, m, m, max(m - 1, 0), max(m - 2, 0), dice.below(m + 1)])
    tau = min(max((c - 1 - rho) // 2 + dice.below(3) - 1, 0), c - 1 - rho)
    for j in apart[rho:rho + tau]:
        frame_strip = slice(j * m, (j + 1) * m)
        shown[frame_strip] = near[frame_strip]
    for s in squares:
        shown[s] = frame[s]
    for s in squares[:doubt]:
        shown[s] = DOUBTFUL
    for s in squares[doubt:doubt + dice.below(3)]:
        shown[s] = near[s]
    showing = strips_of(geo, shown)
    for j in apart[:rho]:
        showing[j] = GONE
    fitting = next((x for x in (frame, near) if fits(field, geo, x, showing)), frame)
    answer = answer_for(field, geo, fitting, showing)
    return answer and vector_text(kind, geo, showing, answer)


def correction_vectors(dice, count):
    small = {kind: geometries(kind)[0] for kind in FIELDS}
    large = {kind: geometries(kind)[1] for kind in FIELDS}
    made = set()
    while len(made) < count:
        kind = dice.below(2)
        pool = large if dice.below(16 if kind == 0 else 3) == 0 else small
        geo = dice.one(pool[kind])
        lines = [vector(dice, kind, geo, amount) for amount in dice.pick(amounts(dice, geo), 6)]
        if geo.m * geo.c <= NEAR_LIMIT:
            lines += [between(dice, kind, geo) for _ in range(3)]
        for line in lines:
            if line and line not in made and len(made) < count:
                made.add(line)
                yield line


def frame_vectors(dice, count):
    """Every geometry of the lists first, then random ones of them."""
    pools = [(kind, geo) for kind in FIELDS for geo in sum(geometries(kind), [])]
    cards = [p for p in pools if p[0] == 1]
    some = [p for p in pools if p[0] == 0] + dice.pick(cards, min(len(cards), 160))
    made = set()
    while len(made) < count:
        at = len(made)
        kind, geo = some[at] if at < len(some) else dice.one([p for p in some if p[1].m * p[1].n <= 64])
        field = FIELDS[kind]
        record = random_record(dice, field, geo) if dice.below(7) else [1] + [0] * (geo.m * geo.k - 1)
        frame = frame_of(field, geo, record)
        line = 'F %d %d %d %d %s %s' % (kind, geo.m, geo.n, geo.c, hex_of(record), hex_of(frame))
        if line not in made:
            made.add(line)
            yield line


def main():
    parser = argparse.ArgumentParser(description='Prints correction or frame vectors, one to a line.')
    parser.add_argument('--frames', action='store_true', help='frame vectors in place of correction vectors')
    parser.add_argument('--seed', type=int, default=1)
    parser.add_argument('--count', type=int, default=None)
    options = parser.parse_args()
    dice = Dice(options.seed)
    if options.frames:
        lines = frame_vectors(dice, options.count or 500)
    else:
        lines = correction_vectors(dice, options.count or 4000)
    for line in lines:
        print(line)


if __name__ == '__main__':
    main()
