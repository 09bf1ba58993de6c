"""Loading, the four calls, the book of kept records, and the two calls for C programs."""

from ref_field import BYTES
from ref_frame import (BAD_GEOMETRY, BAD_SYMBOL, CLOSED, NO_SUCH_PLACE, NOT_SHOWN, UNSUITED, WRONG_LENGTH, Geometry,
                       frame_of, geometry_number)
from ref_reading import DOUBTFUL, GONE, Answer, fits, read, strips_of


def load_number(field, geo_numbers, medium):
    """The test of loading: `geo_numbers` are order, squares, strips, check strips."""
    if geometry_number(*geo_numbers):
        return BAD_GEOMETRY
    q, m, n, _ = geo_numbers
    return 0 if q == field.q and m == medium.m and n == medium.n and medium.levels >= q else UNSUITED


class Reel:
    """A loaded reel. Each call answers an Answer; a refusal has changed nothing of the medium."""

    def __init__(self, field, geo, medium):
        self.field, self.geo, self.medium = field, geo, medium

    def no_frame(self, f):
        return f >= self.medium.frames

    def put(self, f, frame, counts=None):
        self.medium.write(f, frame)
        if self.medium.shows(f) != strips_of(self.geo, frame):
            return Answer(NOT_SHOWN)
        return Answer(0, counts, frame)

    def store(self, f, record):
        if self.no_frame(f):
            return Answer(NO_SUCH_PLACE)
        if len(record) != self.geo.m * self.geo.k:
            return Answer(WRONG_LENGTH)
        if not self.field.has(*record):
            return Answer(BAD_SYMBOL)
        if not self.medium.is_open(f):
            return Answer(CLOSED)
        return self.put(f, frame_of(self.field, self.geo, record))

    def read(self, f, length):
        if self.no_frame(f):
            return Answer(NO_SUCH_PLACE)
        if length != self.geo.m * self.geo.k:
            return Answer(WRONG_LENGTH)
        return read(self.field, self.geo, self.medium.shows(f))

    def copy(self, source, target):
        if self.no_frame(source) or self.no_frame(target):
            return Answer(NO_SUCH_PLACE)
        if not self.medium.is_open(target):
            return Answer(CLOSED)
        answer = read(self.field, self.geo, self.medium.shows(source))
        return answer if answer.number else self.put(target, answer.frame, answer.counts)

    def mend(self, f):
        return self.copy(f, f)


class Book:
    """The records that a reel's frames keep: fed with the accepted calls and with what is shown after a wear."""

    def __init__(self, field, geo):
        self.field, self.geo, self.records = field, geo, {}

    def stored(self, f, record):
        self.records[f] = list(record)

    def copied(self, target, source_showing):
        frame = read(self.field, self.geo, source_showing).frame
        self.records[target] = frame[:self.geo.m * self.geo.k]

    def wore(self, medium):
        self.records = {f: record for f, record in self.records.items()
                        if fits(self.field, self.geo, frame_of(self.field, self.geo, record), medium.shows(f))}


def c_make(m, n, c, record, frame_length):
    if geometry_number(256, m, n, c):
        return Answer(BAD_GEOMETRY)
    geo = Geometry(256, m, n, c)
    if len(record) != m * geo.k or frame_length != m * n:
        return Answer(WRONG_LENGTH)
    return Answer(0, None, frame_of(BYTES, geo, record))


def c_correct(m, n, c, codes, strip_marks, square_marks, frame_length):
    if geometry_number(256, m, n, c):
        return Answer(BAD_GEOMETRY)
    if len(codes) != m * n or len(strip_marks) != n or len(square_marks) != m * n or frame_length != m * n:
        return Answer(WRONG_LENGTH)
    squares = [DOUBTFUL if mark else code for code, mark in zip(codes, square_marks)]
    geo = Geometry(256, m, n, c)
    showing = [GONE if mark else strip for mark, strip in zip(strip_marks, strips_of(geo, squares))]
    return read(BYTES, geo, showing)
