"""What is shown, what fits it, and reading by trying every record or every choice of wrong strips and silent square.

A showing is n strips, each GONE or a list of m squares, each DOUBTFUL or a clear code.
"""

from collections import namedtuple
from functools import lru_cache
from itertools import combinations, product
from math import comb

from ref_frame import NO_FIT, TOO_MANY_DOUBTFUL, TOO_MANY_GONE, check_columns, check_sums, eliminate, frame_of

GONE = None
DOUBTFUL = None
SILENT_LIMIT = 1


def strips_of(geo, array):
    return [list(array[j * geo.m:(j + 1) * geo.m]) for j in range(geo.n)]


def reading(field, showing):
    """What counts of a showing: a clear code not below q is doubtful."""
    return [GONE if strip is GONE else [x if x is not DOUBTFUL and x < field.q else DOUBTFUL for x in strip]
            for strip in showing]


def worn(field, showing):
    """The number of gone strips, and of doubtful squares in the others."""
    shown = reading(field, showing)
    return (sum(strip is GONE for strip in shown),
            sum(x is DOUBTFUL for strip in shown if strip is not GONE for x in strip))


def differences(field, geo, frame, showing):
    """For each strip not gone, how many of its clear squares differ from the frame."""
    return {j: sum(x is not DOUBTFUL and x != y for x, y in zip(strip, own))
            for j, (strip, own) in enumerate(zip(reading(field, showing), strips_of(geo, frame))) if strip is not GONE}


def fits_by_definition(field, geo, frame, showing, limit=SILENT_LIMIT):
    """Some strips can be named as wrong so that the bounds hold: every choice is tried."""
    rho, doubt = worn(field, showing)
    differ = differences(field, geo, frame, showing)
    for tau in range(len(differ) + 1):
        if 2 * tau + rho > geo.c - 1:
            break
        for wrong in combinations(differ, tau):
            theta = sum(d for j, d in differ.items() if j not in wrong)
            if 2 * theta + doubt <= geo.m and theta <= limit:
                return True
    return False


def fits(field, geo, frame, showing, limit=SILENT_LIMIT):
    """The same by the best choice: the strips that differ most are the wrong ones."""
    rho, doubt = worn(field, showing)
    if rho > geo.c - 1:
        return False
    rest = sorted(differences(field, geo, frame, showing).values(), reverse=True)[(geo.c - 1 - rho) // 2:]
    return 2 * sum(rest) + doubt <= geo.m and sum(rest) <= limit


Answer = namedtuple('Answer', 'number counts frame', defaults=(None, None))

SEARCH_LIMIT = 5000


def accepted(field, geo, frame, showing):
    """The answer for a frame that is known to fit."""
    rho, doubt = worn(field, showing)
    return Answer(0, (rho, doubt, sum(differences(field, geo, frame, showing).values())), list(frame))


def too_worn(field, geo, showing):
    rho, doubt = worn(field, showing)
    return TOO_MANY_GONE if rho > geo.c - 1 else TOO_MANY_DOUBTFUL if doubt > geo.m else 0


@lru_cache(maxsize=8)
def all_frames(field, geo):
    return [tuple(frame_of(field, geo, record)) for record in product(range(field.q), repeat=geo.m * geo.k)]


def read_by_search(field, geo, showing):
    """Every record is tried; two that fit are an error of the rules."""
    number = too_worn(field, geo, showing)
    if number:
        return Answer(number)
    found = [frame for frame in all_frames(field, geo) if fits(field, geo, frame, showing)]
    if len(found) > 1:
        raise AssertionError('two frames fit: %r %r' % (geo, showing))
    return accepted(field, geo, found[0], showing) if found else Answer(NO_FIT)


def choices(geo, rho, doubt):
    """How many choices of wrong strips and silent square there are within the bounds."""
    silent = min(SILENT_LIMIT, (geo.m - doubt) // 2)
    here = geo.n - rho
    return sum(comb(here, tau) * (1 + silent * geo.m * (here - tau)) for tau in range((geo.c - 1 - rho) // 2 + 1))


def solve_for(field, geo, shown, unknown):
    """The frame that agrees with what is shown outside the squares `unknown`, or None."""
    columns = check_columns(field, geo)
    known = [0 if s in unknown else x for s, x in enumerate(shown)]
    wanted = sorted(unknown)
    right = [field.negations[s] for s in check_sums(field, geo, known)]
    rows = [[columns[s][e] for s in wanted] + [right[e]] for e in range(geo.m * geo.c)]
    rank = eliminate(field, rows, len(wanted))
    if any(row[-1] for row in rows[rank:]):
        return None
    if rank != len(wanted):
        raise AssertionError('two frames fit: %r %r %r' % (geo, shown, wanted))
    for s, row in zip(wanted, rows):
        known[s] = row[-1]
    return known


def read_by_choices(field, geo, showing):
    """Every choice of wrong strips and silent square is tried, each by solving the check equations."""
    number = too_worn(field, geo, showing)
    if number:
        return Answer(number)
    rho, doubt = worn(field, showing)
    m = geo.m
    shown, blank, here = [], set(), []
    for j, strip in enumerate(reading(field, showing)):
        squares = range(j * m, (j + 1) * m)
        if strip is GONE:
            blank.update(squares)
            shown += [0] * m
        else:
            here.append(j)
            blank.update(s for s, x in zip(squares, strip) if x is DOUBTFUL)
            shown += [0 if x is DOUBTFUL else x for x in strip]
    for theta in range(min(SILENT_LIMIT, (m - doubt) // 2) + 1):
        for tau in range((geo.c - 1 - rho) // 2 + 1):
            for wrong in combinations(here, tau):
                away = blank | {s for j in wrong for s in range(j * m, (j + 1) * m)}
                for silent in combinations([s for s in range(m * geo.n) if s not in away], theta):
                    frame = solve_for(field, geo, shown, away | set(silent))
                    if frame:
                        if not fits(field, geo, frame, showing):
                            raise AssertionError('a frame found does not fit')
                        return accepted(field, geo, frame, showing)
    return Answer(NO_FIT)


def read(field, geo, showing):
    """The answer by whichever of the two ways is open: all records where they are few, all choices otherwise."""
    if field.q ** (geo.m * geo.k) <= SEARCH_LIMIT:
        return read_by_search(field, geo, showing)
    return read_by_choices(field, geo, showing)
