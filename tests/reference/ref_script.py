"""The script of the bench: its header, its commands and the line of each."""

from ref_field import FIELDS
from ref_frame import BAD_GEOMETRY, ENDS_EARLY, NO_SUCH_PLACE, UNKNOWN_COMMAND, UNSUITED, Geometry, geometry_number
from ref_medium import Tray
from ref_reel import Reel


SCRIPT_LIMIT = TRAY_LIMIT = 32768
HEADER = 6


def word(pair):
    return pair[0] << 8 | pair[1]


def header_number(script):
    if len(script) > SCRIPT_LIMIT:
        return UNSUITED
    if len(script) < HEADER:
        return ENDS_EARLY
    kind, m, n, c = script[:4]
    frames = word(script[4:6])
    if kind not in FIELDS or geometry_number(FIELDS[kind].q, m, n, c):
        return BAD_GEOMETRY
    if not 1 <= frames <= 4096 or Tray.size(frames, n, m) > TRAY_LIMIT:
        return UNSUITED
    return 0


class Bench:
    """A script at work: a fresh tray, and one line for each command."""

    def __init__(self, script):
        kind, m, n, c = script[:4]
        field = FIELDS[kind]
        self.tray = Tray.fresh(word(script[4:6]), n, m)
        self.reel = Reel(field, Geometry(field.q, m, n, c), self.tray)

    def width(self, letter):
        """How many operand bytes a command takes, or None for an unknown one."""
        record = self.reel.geo.m * self.reel.geo.k
        return {'S': 2 + record, 'R': 2, 'M': 2, 'C': 4, 'W': 5, 'D': 4, 'G': 3}.get(letter)

    def mark(self, letter, f, operands):
        """W, D and G on the tray itself."""
        tray, strip = self.tray, operands[0]
        square = operands[1] if letter != 'G' else 0
        if f >= tray.frames or strip >= tray.n or square >= tray.m:
            return NO_SUCH_PLACE
        at = tray.start(f, strip)
        if letter == 'G':
            tray.memory[at] = 1
        else:
            tray.memory[at + 1 + tray.m + square] = int(letter == 'D')
            if letter == 'W':
                tray.memory[at + 1 + square] = operands[2]
        return 0

    def line(self, letter, operands):
        f, rest = word(operands), operands[2:]
        if letter == 'C':
            return 'C %d %d %d' % (f, word(rest), self.reel.copy(f, word(rest)).number)
        if letter == 'R':
            record = self.reel.geo.m * self.reel.geo.k
            answer = self.reel.read(f, record)
            text = 'R %d %d' % (f, answer.number)
            if answer.number:
                return text
            return text + ' %d %d %d ' % answer.counts + bytes(answer.frame[:record]).hex().upper()
        if letter == 'S':
            number = self.reel.store(f, rest).number
        elif letter == 'M':
            number = self.reel.mend(f).number
        else:
            number = self.mark(letter, f, rest)
        return '%s %d %d' % (letter, f, number)


def run(script):
    """The lines that a script prints."""
    number = header_number(script)
    if number:
        return ['! %d' % number]
    bench, lines, at = Bench(script), [], HEADER
    while at < len(script):
        letter = chr(script[at])
        width = bench.width(letter)
        if width is None:
            return lines + ['! %d' % UNKNOWN_COMMAND]
        operands = script[at + 1:at + 1 + width]
        if len(operands) < width:
            return lines + ['! %d' % ENDS_EARLY]
        lines.append(bench.line(letter, operands))
        at += 1 + width
    return lines
