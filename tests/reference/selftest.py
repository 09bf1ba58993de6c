"""Checks the reference model: the worked examples of docs/FORMATS.md, and brute force over small fields.

Exit status 0 when every check holds; otherwise 1, after a line for each that fails.
"""

import os
import sys
from itertools import product

from dowhikena import (ALPHABET, BYTES, CARDS, DOUBTFUL, FIELDS, GONE, SEARCH_LIMIT, Answer, Book, Card, Dice,
                       Geometry, Reel, Tray, accepted, answer_text, binary_field, c_correct, c_make, check_sums,
                       choices, fits, fits_by_definition, frame_of, geometry_number, header_number, is_frame,
                       load_number, prime_field, read, read_by_choices, read_by_search, run, showing_from,
                       showing_text, strips_of, worn)

FAILED = []
CHECKS = [0]


def check(what, good):
    CHECKS[0] += 1
    if not good:
        FAILED.append(what)
        print('FAILED: %s' % (what,))


SMALL = [prime_field(5, 2), prime_field(7, 3), prime_field(11, 2), prime_field(13, 2),
         binary_field(3, 0b1011), binary_field(4, 0b10011)]


# ---- worked examples -------------------------------------------------------------------------------------------------

def card_codes(text):
    return [ALPHABET.index(x) for x in text.replace(' ', '').encode()]


def card_showing(text):
    return [GONE if strip == '--' else [DOUBTFUL if x == '?' else ALPHABET.index(x.encode()) for x in strip]
            for strip in text.split()]


def worked_frames():
    geo = Geometry(37, 2, 3, 2)
    for record, frame in (('10', '10 2F G3'), ('01', '01 7A VP'), ('11', '11 9P AS')):
        check('frame of ' + record, frame_of(CARDS, geo, card_codes(record)) == card_codes(frame))
    ten = card_codes('10 2F G3')
    for text, counts in (('10 2F G4', (0, 0, 1)), ('-- 2F G4', (1, 0, 1)), ('-- ?F ?3', (1, 2, 0))):
        for way in (read_by_search, read_by_choices):
            check((text, way.__name__), way(CARDS, geo, card_showing(text)) == Answer(0, counts, ten))
    for text, number in (('-- -- G3', 7), ('?0 ?F ?3', 8), ('10 2G G4', 9), ('-- 99 G3', 9)):
        for way in (read_by_search, read_by_choices):
            check((text, way.__name__), way(CARDS, geo, card_showing(text)) == Answer(number))
    geo = Geometry(256, 1, 4, 3)
    check('byte frame', frame_of(BYTES, geo, [8]) == [8, 0x0E, 7, 1])
    check('byte showing', read(BYTES, geo, [[8], [0x0E], [0xFF], [1]]) == Answer(0, (0, 0, 1), [8, 0x0E, 7, 1]))
    check('byte refusal', read(BYTES, geo, [[8], [0], [0xFF], [1]]) == Answer(9))
    check('geometry 1 255 254', geometry_number(256, 1, 255, 254) == 0)
    check('geometry 16 16', all(geometry_number(256, 16, 16, c) == 1 for c in range(257)))


def worked_script():
    script = bytes.fromhex('010203020001 5300000100 47000000 570000020104 520000 4D0000 520000 520009')
    lines = ['S 0 0', 'G 0 0', 'W 0 0', 'R 0 0 1 0 1 0100', 'M 0 0', 'R 0 0 0 0 0 0100', 'R 9 3']
    check('worked script', run(script) == lines)
    check('empty script', run(b'') == ['! 12'])
    check('header only', run(script[:6]) == [])
    check('long script', run(script.ljust(32769, b'R')) == ['! 2'])
    check('unknown field', header_number(bytes.fromhex('020203020001')) == 1)
    check('1 before 2', header_number(bytes.fromhex('010203030000')) == 1)
    check('no frames', header_number(bytes.fromhex('010203020000')) == 2)
    check('largest tray', header_number(bytes.fromhex('000F07010097')) == 0 and Tray.size(151, 7, 15) == 32767)
    check('tray too large', header_number(bytes.fromhex('00050901014B')) == 2 and Tray.size(331, 9, 5) == 32769)


# ---- fields ----------------------------------------------------------------------------------------------------------

def field_laws(field):
    q, codes = field.q, range(field.q)
    name = 'field of %d: ' % q
    add, mul = field.sums, field.products
    check(name + 'neutral', all(add[a][0] == a and mul[a][1] == a for a in codes))
    check(name + 'commutes', all(add[a][b] == add[b][a] and mul[a][b] == mul[b][a] for a in codes for b in codes))
    check(name + 'negation', all(add[a][field.neg(a)] == 0 for a in codes))
    check(name + 'inverse', field.inv(0) == 0 and all(mul[a][field.inv(a)] == 1 for a in codes if a))
    check(name + 'powers', len({field.power(field.g, e) for e in range(q - 1)}) == q - 1)
    check(name + 'outside', not any((field.add(q, 1), field.add(1, q), field.mul(q, 1), field.mul(1, q),
                                     field.neg(q), field.inv(q))))
    few = codes if q <= 37 else range(0, q, 5)
    check(name + 'associates', all(add[add[a][b]][c] == add[a][add[b][c]] and mul[mul[a][b]][c] == mul[a][mul[b][c]]
                                   and mul[a][add[b][c]] == add[mul[a][b]][mul[a][c]]
                                   for a in few for b in few for c in few))


# ---- frames ----------------------------------------------------------------------------------------------------------

def plain_check_sums(field, geo, array):
    """The double sum word for word, with powers by repeated multiplication."""

    def power(a, e):
        result = 1
        for _ in range(e):
            result = field.mul(result, a)
        return result

    sums = []
    for h in range(geo.m):
        for i in range(geo.c):
            total = 0
            for j in range(geo.n):
                for kappa in range(geo.m):
                    alpha, beta = power(field.g, j), power(field.g, j * geo.m + kappa)
                    term = field.mul(array[j * geo.m + kappa], field.mul(power(alpha, i), power(beta, h)))
                    total = field.add(total, term)
            sums.append(total)
    return sums


def geometries(q):
    return [Geometry(q, m, n, c) for m in range(1, q) for n in range(2, q) for c in range(1, n)
            if not geometry_number(q, m, n, c)]


def frames_by_brute_force():
    """Over the smallest fields, the frames are exactly the arrays whose check sums are 0, one for each record."""
    for field in SMALL[:2]:
        for geo in geometries(field.q):
            if field.q ** (geo.m * geo.n) > 20000:
                continue
            zero = [a for a in product(range(field.q), repeat=geo.m * geo.n)
                    if not any(plain_check_sums(field, geo, a))]
            own = [tuple(frame_of(field, geo, r)) for r in product(range(field.q), repeat=geo.m * geo.k)]
            check(('frames', geo), zero == own)


def frames_at_random(dice):
    for field in SMALL + [CARDS]:
        for geo in geometries(field.q):
            record = [dice.below(field.q) for _ in range(geo.m * geo.k)]
            frame = frame_of(field, geo, record)
            good = frame[:len(record)] == record and is_frame(field, geo, frame)
            if field.q <= 16:
                good = good and plain_check_sums(field, geo, frame) == check_sums(field, geo, frame)
            check(('frame', geo), good)


# ---- fitting and reading ---------------------------------------------------------------------------------------------

def random_showing(dice, field, geo, frame):
    """A frame with random wear, from none to hopeless."""
    strips = strips_of(geo, frame)
    for _ in range(dice.below(geo.m + 3)):
        j, kappa = dice.below(geo.n), dice.below(geo.m)
        strips[j][kappa] = dice.one([DOUBTFUL, dice.below(field.q), dice.below(field.q), 200])
    for j in dice.pick(range(geo.n), dice.below(min(geo.n, geo.c + 1) + 1)):
        strips[j] = GONE if dice.below(2) else [dice.below(field.q) for _ in range(geo.m)]
    return strips


def readers_agree(dice, rounds):
    """Both ways of reading and both ways of fitting give the same; what fits comes from a record and is alone."""
    for field in SMALL:
        small = [geo for geo in geometries(field.q) if field.q ** (geo.m * geo.k) <= 400]
        for geo in small:
            for _ in range(rounds):
                record = [dice.below(field.q) for _ in range(geo.m * geo.k)]
                frame = frame_of(field, geo, record)
                showing = random_showing(dice, field, geo, frame)
                searched = read_by_search(field, geo, showing)
                check(('fits', geo, showing), fits(field, geo, frame, showing)
                      == fits_by_definition(field, geo, frame, showing))
                if choices(geo, *worn(field, showing)) <= 400:
                    check(('readers', geo, showing), searched == read_by_choices(field, geo, showing))
                if fits(field, geo, frame, showing):
                    check(('known', geo, showing), searched == accepted(field, geo, frame, showing))
                check(('text', geo), showing_from(showing_text(geo.m, showing)) == showing)


def every_showing():
    """Over the field of 5, every showing of two geometries: no two frames fit, and both readers agree on all."""
    field = SMALL[0]
    for geo in (Geometry(5, 1, 3, 2), Geometry(5, 2, 2, 1), Geometry(5, 1, 4, 3)):
        strips = [GONE] + [list(s) for s in product([DOUBTFUL, *range(6)], repeat=geo.m)]
        for showing in product(strips, repeat=geo.n):
            check(('every', geo, showing), read_by_search(field, geo, showing) == read_by_choices(field, geo, showing))


# ---- media, reels, books, the calls for C ----------------------------------------------------------------------------

def media():
    tray = Tray.fresh(2, 3, 2)
    check('fresh tray', bytes(tray.memory) == b'\1\0\0\0\0' * 6 and all(map(tray.is_open, range(2))))
    check('tray refusals', [tray.write(2, []), tray.write(0, [1]), tray.write(0, [256] * 6)] == [3, 4, 5])
    check('tray look', tray.look(0, 0, 0) == ('gone',) and [tray.look(*p) for p in ((2, 0, 0), (0, 3, 0), (0, 0, 2))]
          == [3, 3, 3])
    check('tray write', tray.write(1, [9, 8, 7, 6, 5, 4]) == 0 and tray.shows(1) == [[9, 8], [7, 6], [5, 4]]
          and tray.shows(0) == [GONE] * 3)
    card = Card.fresh(2, 3, 2)
    check('fresh card', bytes(card.memory) == b'  \n' * 6 and all(map(card.is_open, range(2))))
    check('card write', card.write(1, card_codes('01 7A V*')) == 0
          and bytes(card.memory) == b'  \n' * 3 + b'01\n7A\nV*\n')
    check('card closed', card.write(1, [0] * 6) == 6 and not card.is_open(1) and card.write(0, [37] * 6) == 5)
    worn_card = Card(bytearray(b'01\n7a\nvp\n'), 1, 3, 2)
    check('card wear', worn_card.shows(0) == [[0, 1], [7, DOUBTFUL], GONE])
    check('card read', Reel(CARDS, Geometry(37, 2, 3, 2), worn_card).read(0, 2)
          == Answer(0, (1, 1, 0), card_codes('01 7A VP')))
    check('making', [Tray.test(30, 2, 3, 2), Tray.test(31, 2, 3, 2), Tray.test(0, 0, 3, 2), Card.test(18, 2, 3, 2)]
          == [0, 2, 2, 0])
    check('loading', [load_number(CARDS, (37, 2, 3, 3), card), load_number(CARDS, (256, 2, 3, 2), card),
                      load_number(BYTES, (256, 2, 3, 2), card), load_number(BYTES, (256, 2, 3, 2), tray),
                      load_number(CARDS, (37, 2, 3, 2), card)] == [1, 2, 2, 0, 0])


def books(dice, rounds):
    """Through random calls and wear, every kept record is read and mended."""
    field, geo = SMALL[3], Geometry(13, 2, 5, 4)
    for _ in range(rounds):
        tray = Tray.fresh(3, geo.n, geo.m)
        reel, book = Reel(field, geo, tray), Book(field, geo)
        for _ in range(12):
            f, target, what = dice.below(4), dice.below(4), dice.below(6)
            if what == 0:
                record = [dice.below(14) for _ in range(geo.m * geo.k)]
                if reel.store(f, record).number == 0:
                    book.stored(f, record)
            elif what == 1:
                shown = tray.shows(f) if f < 3 else None
                if reel.copy(f, target).number == 0:
                    book.copied(target, shown)
            elif what == 2:
                reel.mend(f)
            else:
                for _ in range(dice.below(4)):
                    tray.memory[dice.below(len(tray.memory))] = dice.below(16)
                book.wore(tray)
            for f, record in book.records.items():
                frame = frame_of(field, geo, record)
                answer = reel.read(f, geo.m * geo.k)
                check(('kept', f, record), answer == accepted(field, geo, frame, tray.shows(f)))
        for f, record in book.records.items():
            check(('mended', f), reel.mend(f).number == 0
                  and tray.shows(f) == strips_of(geo, frame_of(field, geo, record)))


def c_calls():
    check('make', c_make(1, 4, 3, [8], 4) == Answer(0, None, [8, 0x0E, 7, 1]))
    check('make refused', [c_make(1, 4, 4, [8], 4).number, c_make(1, 4, 3, [8, 8], 4).number,
                           c_make(1, 4, 3, [8], 3).number] == [1, 4, 4])
    codes = [8, 0x0E, 0xFF, 1]
    check('correct', c_correct(1, 4, 3, codes, [0] * 4, [0] * 4, 4) == Answer(0, (0, 0, 1), [8, 0x0E, 7, 1]))
    check('correct refused', [c_correct(1, 4, 4, codes, [0] * 4, [0] * 4, 4).number,
                              c_correct(1, 4, 3, codes, [0] * 3, [0] * 4, 4).number,
                              c_correct(1, 4, 3, codes, [1, 9, 1, 0], [0] * 4, 4).number,
                              c_correct(1, 4, 3, codes, [0] * 4, [0, 1, 1, 0], 4).number,
                              c_correct(1, 4, 3, [8, 0, 0xFF, 1], [0] * 4, [0] * 4, 4).number] == [1, 4, 7, 8, 9])


# ---- the files of vectors --------------------------------------------------------------------------------------------

def vector_lines(name):
    path = os.path.join(os.path.dirname(os.path.abspath(__file__)), '..', 'vectors', name)
    with open(path, encoding='ascii') as file:
        return file.read().splitlines()


def vector_files():
    """Each line of the files holds by the definitions alone: check sums, fitting, and the counts."""
    for line in vector_lines('frames.txt'):
        _, kind, m, n, c, record, frame = line.split(' ')
        field = FIELDS[int(kind)]
        frame = list(bytes.fromhex(frame))
        check(line[:60], is_frame(field, Geometry(field.q, int(m), int(n), int(c)), frame)
              and bytes(frame).startswith(bytes.fromhex(record)))
    for line in vector_lines('correct.txt'):
        kind, m, n, c, text, answer = line.split(' ', 5)
        field = FIELDS[int(kind)]
        geo, showing = Geometry(field.q, int(m), int(n), int(c)), showing_from(text)
        rho, doubt = worn(field, showing)
        if answer.startswith('0 '):
            frame = list(bytes.fromhex(answer.rsplit(' ', 1)[1]))
            check(line[:60], is_frame(field, geo, frame) and fits(field, geo, frame, showing)
                  and answer_text(accepted(field, geo, frame, showing)) == answer)
        else:
            check(line[:60], answer == ('7' if rho > geo.c - 1 else '8' if doubt > geo.m else '9'))
        if field.q ** (geo.m * geo.k) <= SEARCH_LIMIT and (rho >= geo.c or choices(geo, rho, doubt) <= 150):
            check(('both', line[:60]), answer_text(read_by_search(field, geo, showing))
                  == answer_text(read_by_choices(field, geo, showing)) == answer)
    for name in ('scripts.txt', 'scripts_long.txt'):
        for line in vector_lines(name):
            script, _, lines = line.partition(' ')
            check((name, line[:60]), '|'.join(run(bytes.fromhex(script.replace('-', '')))) == lines.replace('-', ''))


def main():
    dice = Dice(1)
    worked_frames()
    worked_script()
    for field in SMALL + [CARDS, BYTES]:
        field_laws(field)
    frames_by_brute_force()
    frames_at_random(dice)
    readers_agree(dice, 12)
    every_showing()
    media()
    books(dice, 60)
    c_calls()
    vector_files()
    print('selftest: %d checks, %d failed' % (CHECKS[0], len(FAILED)))
    return 1 if FAILED else 0


if __name__ == '__main__':
    sys.exit(main())
