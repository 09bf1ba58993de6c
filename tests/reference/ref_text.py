"""The texts of vectors, and a generator of random numbers."""

from ref_reading import DOUBTFUL, GONE


def hex_of(codes):
    return bytes(codes).hex().upper()


def showing_text(m, showing):
    return ','.join('--' * m if strip is GONE else ''.join('??' if x is DOUBTFUL else '%02X' % x for x in strip)
                    for strip in showing)


def showing_from(text):
    """The showing of a vector's text."""
    strips = []
    for group in text.split(','):
        squares = [group[s:s + 2] for s in range(0, len(group), 2)]
        strips.append(GONE if '--' in squares else [DOUBTFUL if x == '??' else int(x, 16) for x in squares])
    return strips


def answer_text(answer):
    if answer.number:
        return str(answer.number)
    return '0 %d %d %d %s' % (*answer.counts, hex_of(answer.frame))


class Dice:
    """A small generator of its own, so that a seed gives the same file under every Python."""

    def __init__(self, seed):
        self.state = seed & 0xFFFFFFFFFFFFFFFF

    def below(self, bound):
        self.state = (self.state * 6364136223846793005 + 1442695040888963407) & 0xFFFFFFFFFFFFFFFF
        return (self.state >> 33) * bound >> 31

    def pick(self, items, count):
        """`count` different items, in a random order."""
        items = list(items)
        for at in range(count):
            other = at + self.below(len(items) - at)
            items[at], items[other] = items[other], items[at]
        return items[:count]

    def one(self, items):
        return items[self.below(len(items))]
