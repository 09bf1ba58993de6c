"""Geometry, check sums, and the frame of a record by Gaussian elimination on the check equations."""

from collections import namedtuple
from functools import lru_cache

# The numbers of the refusals.
(BAD_GEOMETRY, UNSUITED, NO_SUCH_PLACE, WRONG_LENGTH, BAD_SYMBOL, CLOSED, TOO_MANY_GONE, TOO_MANY_DOUBTFUL, NO_FIT,
 NOT_SHOWN, UNKNOWN_COMMAND, ENDS_EARLY) = range(1, 13)


class Geometry(namedtuple('Geometry', 'q m n c')):
    """Order, squares in a strip, strips in a frame, check strips."""

    @property
    def k(self):
        return self.n - self.c


def geometry_number(q, m, n, c):
    return 0 if 1 <= m and 1 <= c < n and m * n <= q - 1 else BAD_GEOMETRY


@lru_cache(maxsize=64)
def check_columns(field, geo):
    """For each square of the array, its coefficient in each of the m*c check sums (h outer, i inner)."""
    columns = []
    for j in range(geo.n):
        alpha = field.power(field.g, j)
        for kappa in range(geo.m):
            beta = field.power(field.g, j * geo.m + kappa)
            columns.append([field.products[field.power(alpha, i)][field.power(beta, h)]
                            for h in range(geo.m) for i in range(geo.c)])
    return columns


def check_sums(field, geo, array):
    columns = check_columns(field, geo)
    sums = [0] * (geo.m * geo.c)
    for symbol, column in zip(array, columns):
        row = field.products[symbol]
        sums = [field.sums[s][row[x]] for s, x in zip(sums, column)]
    return sums


def is_frame(field, geo, array):
    return len(array) == geo.m * geo.n and field.has(*array) and not any(check_sums(field, geo, array))


def eliminate(field, rows, unknowns):
    """Gauss-Jordan on the first `unknowns` columns, in place; answers how many of them have a pivot, in order."""
    done = 0
    for column in range(unknowns):
        at = next((r for r in range(done, len(rows)) if rows[r][column]), None)
        if at is None:
            continue
        rows[done], rows[at] = rows[at], rows[done]
        scale = field.products[field.inverses[rows[done][column]]]
        pivot = rows[done] = [scale[x] for x in rows[done]]
        for r, row in enumerate(rows):
            if r != done and row[column]:
                times = field.products[field.negations[row[column]]]
                rows[r] = [field.sums[x][times[y]] for x, y in zip(row, pivot)]
        done += 1
    return done


@lru_cache(maxsize=64)
def check_rows(field, geo):
    """For each check symbol, its dependence on the record's symbols, negated: the solved check equations."""
    columns = check_columns(field, geo)
    held, wanted = columns[:geo.m * geo.k], columns[geo.m * geo.k:]
    rows = [[column[e] for column in wanted + held] for e in range(geo.m * geo.c)]
    if eliminate(field, rows, len(wanted)) != len(wanted):
        raise AssertionError('the check equations do not settle the check strips: %r' % (geo,))
    return [row[len(wanted):] for row in rows]


def frame_of(field, geo, record):
    record = list(record)
    frame = list(record)
    for row in check_rows(field, geo):
        total = 0
        for x, symbol in zip(row, record):
            total = field.sums[total][field.products[x][symbol]]
        frame.append(field.negations[total])
    return frame
