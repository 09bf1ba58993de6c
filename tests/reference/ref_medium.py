"""Tray and card over memory, by their layouts."""

from ref_frame import BAD_SYMBOL, CLOSED, NO_SUCH_PLACE, UNSUITED, WRONG_LENGTH
from ref_reading import DOUBTFUL, GONE


class Medium:
    """What tray and card share: counts over the caller's memory, looking, and the order of refusals in writing."""

    def __init__(self, memory, frames, n, m):
        self.memory, self.frames, self.n, self.m = memory, frames, n, m

    @classmethod
    def test(cls, length, frames, n, m):
        good = 1 <= frames <= 4096 and 1 <= n * m <= 255 and length == cls.size(frames, n, m)
        return 0 if good else UNSUITED

    @classmethod
    def fresh(cls, frames, n, m):
        medium = cls(bytearray(cls.size(frames, n, m)), frames, n, m)
        medium.clear()
        return medium

    def look(self, f, j, kappa):
        """A refusal's number, or ('gone',), ('doubtful',) or ('clear', code)."""
        if f >= self.frames or j >= self.n or kappa >= self.m:
            return NO_SUCH_PLACE
        strip = self.strip(f, j)
        if strip is GONE:
            return ('gone',)
        return ('doubtful',) if strip[kappa] is DOUBTFUL else ('clear', strip[kappa])

    def shows(self, f):
        return [self.strip(f, j) for j in range(self.n)]

    def write(self, f, codes):
        if f >= self.frames:
            return NO_SUCH_PLACE
        if len(codes) != self.n * self.m:
            return WRONG_LENGTH
        if any(code >= self.levels for code in codes):
            return BAD_SYMBOL
        if not self.is_open(f):
            return CLOSED
        for j in range(self.n):
            self.put(f, j, codes[j * self.m:(j + 1) * self.m])
        return 0


class Tray(Medium):
    levels = 256

    @staticmethod
    def size(frames, n, m):
        return frames * n * (1 + 2 * m)

    def start(self, f, j):
        return (f * self.n + j) * (1 + 2 * self.m)

    def clear(self):
        for f in range(self.frames):
            for j in range(self.n):
                self.memory[self.start(f, j)] = 1

    def is_open(self, f):
        return True

    def strip(self, f, j):
        at, m = self.start(f, j), self.m
        if self.memory[at]:
            return GONE
        return [DOUBTFUL if self.memory[at + 1 + m + s] else self.memory[at + 1 + s] for s in range(m)]

    def put(self, f, j, codes):
        at = self.start(f, j)
        self.memory[at:at + 1 + 2 * self.m] = bytes([0, *codes]) + bytes(self.m)


ALPHABET = b'0123456789ABCDEFGHIJKLMNOPQRSTUVWXYZ*'


class Card(Medium):
    levels = 37

    @staticmethod
    def size(frames, n, m):
        return frames * n * (m + 1)

    def characters(self, f, j):
        at = (f * self.n + j) * (self.m + 1)
        return self.memory[at:at + self.m]

    def clear(self):
        self.memory[:] = (b' ' * self.m + b'\n') * (self.frames * self.n)

    def is_open(self, f):
        return all(self.characters(f, j) == b' ' * self.m for j in range(self.n))

    def strip(self, f, j):
        values = [ALPHABET.find(bytes([x])) for x in self.characters(f, j)]
        if all(v < 0 for v in values):
            return GONE
        return [DOUBTFUL if v < 0 else v for v in values]

    def put(self, f, j, codes):
        at = (f * self.n + j) * (self.m + 1)
        self.memory[at:at + self.m + 1] = bytes(ALPHABET[x] for x in codes) + b'\n'
