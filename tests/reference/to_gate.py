"""Lays the vectors out for the gate: the questions as the input of the program `vectors`, and what it must write.

usage: to_gate.py
"""

import os

HERE = os.path.dirname(os.path.abspath(__file__))
VECTORS = os.path.join(HERE, '..', 'vectors')
CRATE = os.path.join(HERE, '..', '..', 'crates', 'vectors')


def lines(name):
    with open(os.path.join(VECTORS, name), encoding='ascii') as file:
        return file.read().splitlines()


def question(line):
    words = line.split(' ')
    return ' '.join(words[:6] if words[0] == 'F' else words[:5])


def main():
    answers = lines('worked.txt') + lines('large.txt') + lines('frames.txt') + lines('correct.txt')
    for name, text in (('stdin', [question(line) for line in answers]), ('stdout', answers)):
        with open(os.path.join(CRATE, name), 'w', encoding='ascii') as file:
            file.write('\n'.join(text) + '\n')


if __name__ == '__main__':
    main()
