"""Prints correction vectors at the largest byte geometries: the most wrong strips, and showings that no frame fits.

usage: make_large.py

A 9 is searched for over all records: the frames are the sums of multiples of the frames of the unit records, and a record is
passed over as soon as more strips differ than could be wrong or hold a silent square.
"""

from dowhikena import FIELDS, Answer, Dice, Geometry, NO_FIT, accepted, fits, frame_of, hex_of, strips_of
from make_vectors import random_record, vector_text, wear

BYTES = FIELDS[0]


def no_frame_fits(geo, showing):
    """Whether no record's frame fits, where nothing is gone or doubtful and a record has one or two symbols."""
    size = geo.m * geo.k
    units = [frame_of(BYTES, geo, [int(i == u) for i in range(size)]) for u in range(size)]
    shown = [x for strip in showing for x in strip]
    most = (geo.c - 1) // 2 + 1
    for number in range(BYTES.q ** size):
        record = [number // BYTES.q ** u % BYTES.q for u in range(size)]
        differing = set()
        for place, code in enumerate(shown):
            own = 0
            for factor, unit in zip(record, units):
                own = BYTES.sums[own][BYTES.products[factor][unit[place]]]
            if own != code:
                differing.add(place // geo.m)
                if len(differing) > most:
                    break
        else:
            frame = frame_of(BYTES, geo, record)
            if fits(BYTES, geo, frame, showing):
                return False
    return True


def main():
    dice = Dice(7)
    for shape, marks in (((1, 255, 254), (1, 0, 126, 0)), ((1, 255, 254), (0, 0, 126, 0)), ((1, 255, 254), (253, 0, 0, 0)),
                         ((2, 127, 126), (1, 0, 62, 1)), ((2, 127, 126), (1, 2, 62, 0)), ((2, 127, 126), (125, 0, 0, 1))):
        geo = Geometry(BYTES.q, *shape)
        frame = frame_of(BYTES, geo, random_record(dice, BYTES, geo))
        showing = wear(dice, BYTES, geo, frame, *marks)
        if not fits(BYTES, geo, frame, showing):
            raise AssertionError('%r %r' % (shape, marks))
        print(vector_text(0, geo, showing, accepted(BYTES, geo, frame, showing)))
    for shape in ((1, 255, 254), (2, 127, 126)):
        geo = Geometry(BYTES.q, *shape)
        showing = strips_of(geo, [dice.below(BYTES.q) for _ in range(geo.m * geo.n)])
        if no_frame_fits(geo, showing):
            print(vector_text(0, geo, showing, Answer(NO_FIT)))


if __name__ == '__main__':
    main()
