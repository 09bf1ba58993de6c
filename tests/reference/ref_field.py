"""Fields by definition: products bit by bit or modulo a prime, inverses by looking for them."""


class Field:
    """A field by its order, its generator, and addition and multiplication of codes below the order."""

    def __init__(self, q, g, add, mul):
        self.q, self.g = q, g
        codes = range(q)
        self.sums = [[add(a, b) for b in codes] for a in codes]
        self.products = [[mul(a, b) for b in codes] for a in codes]
        self.negations = [row.index(0) for row in self.sums]
        self.inverses = [0] + [row.index(1) for row in self.products[1:]]

    def has(self, *operands):
        return all(0 <= a < self.q for a in operands)

    def add(self, a, b):
        return self.sums[a][b] if self.has(a, b) else 0

    def mul(self, a, b):
        return self.products[a][b] if self.has(a, b) else 0

    def neg(self, a):
        return self.negations[a] if self.has(a) else 0

    def inv(self, a):
        return self.inverses[a] if self.has(a) else 0

    def power(self, a, e):
        result = 1
        while e:
            if e & 1:
                result = self.products[result][a]
            a = self.products[a][a]
            e >>= 1
        return result


def prime_field(p, g):
    return Field(p, g, lambda a, b: (a + b) % p, lambda a, b: a * b % p)


def binary_field(width, polynomial, g=2):
    """Codes are polynomials over the field of two, multiplied modulo `polynomial` (all its bits)."""

    def mul(a, b):
        result = 0
        for bit in range(width):
            if b >> bit & 1:
                result ^= a << bit
        for bit in range(2 * width - 2, width - 1, -1):
            if result >> bit & 1:
                result ^= polynomial << (bit - width)
        return result

    return Field(1 << width, g, lambda a, b: a ^ b, mul)


BYTES = binary_field(8, 0b100011101)
CARDS = prime_field(37, 2)
FIELDS = {0: BYTES, 1: CARDS}
