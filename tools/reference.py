#!/usr/bin/env python3
"""The cycle programs once more, written plainly and apart from them, to compare bytes with: reference.py [ruled|entry] < FILE.net

Rows are made by brute combining and cleaning, certificates on fractions of whole numbers, and a line is matched as a whole and,
where that fails, by its longest prefix that some record's line begins with. `docs/SCOPE.md` has the rules."""
import re
import sys
from fractions import Fraction
from math import gcd

STANDING = [(-1, 0, 0, 0, 1, 0, 0), (1, -1, 1, 0, 0, 1, 0), (0, 1, -1, -1, 0, 0, 0), (0, 0, 0, 1, -1, -1, 0)]
LARGEST_COUNT, LARGEST_NUMBER = 1_048_575, 2_147_483_647
KINDS = {'ruled': (128, lambda row: 1), 'entry': (1024, lambda row: 1 + sum(c != 0 for c in row))}

NATURAL = rb'(?:0|[1-9][0-9]{0,6})'
WHOLE = rb'(?:0|-?[1-9][0-9]{0,6})'
LINES = {
    b'N': re.compile(rb'N: (%s)\n' % NATURAL),
    b'S': re.compile(rb'S:\n'),
    b'P': re.compile(rb'P:((?: %s)*)\n' % WHOLE),
    b'Q': re.compile(rb'Q:((?: %s)*)\n' % NATURAL),
}
# what a line may still become: each alternative is a prefix of some record's line
DIGITS = rb'(?:0|[1-9][0-9]{0,6})?'
PREFIX = [
    re.compile(rb'N(?::(?: %s)?)?' % DIGITS),
    re.compile(rb'S(?::)?'),
    re.compile(rb'P(?::(?: %s)*(?: (?:-|-?[1-9][0-9]{0,6}|0)?)?)?' % WHOLE),
    re.compile(rb'Q(?::(?: %s)*(?: %s)?)?' % (NATURAL, DIGITS)),
]


class Fault(Exception):
    def __init__(self, number, layer, line, column):
        self.line = b'F: %d %d %d %d\n' % (number, layer, line, column)


def broken_column(rest):
    """One past the longest prefix of the line that some record's line begins with."""
    best = 0
    for length in range(1, len(rest) + 1):
        if any(p.fullmatch(rest[:length]) for p in PREFIX):
            best = length
        else:
            break
    return best + 1


def used(row):
    return frozenset(j for j, c in enumerate(row) if c)


def divided(row):
    d = gcd(*row) if len(row) > 1 else row[0]
    return tuple(c // d for c in row) if d else row


def place_sum(place, row):
    return sum(e * c for e, c in zip(place, row))


def step(place, rows):
    sums = [place_sum(place, row) for row in rows]
    made = {row for row, s in zip(rows, sums) if s == 0}
    supports = [used(row) for row in rows]
    for i, s in enumerate(sums):
        if s <= 0:
            continue
        for j, t in enumerate(sums):
            if t >= 0:
                continue
            union = supports[i] | supports[j]
            # a row whose support has another current row's inside is dropped by cleaning; testing it here keeps this quick
            if any(k != i and k != j and supports[k] <= union for k in range(len(rows))):
                continue
            made.add(divided(tuple(-t * a + s * b for a, b in zip(rows[i], rows[j]))))
    kept = [row for row in made if not any(other != row and used(other) <= used(row) for other in made)]
    return sorted(kept)


def walk(rows, question):
    rest, t, coefficients = list(question), 1, [0] * len(rows)
    while any(rest):
        k = next(k for k, row in enumerate(rows) if all(r for r, c in zip(rest, row) if c))
        least = min(Fraction(r, c) for r, c in zip(rest, rows[k]) if c)
        s, p = least.numerator, least.denominator
        rest = [p * r - s * c for r, c in zip(rest, rows[k])]
        t, coefficients = t * p, [p * c for c in coefficients]
        coefficients[k] += s
        if max([t] + coefficients + rest) > LARGEST_NUMBER:
            return None
    return t, coefficients


class Sheet:
    def __init__(self, steps, kind):
        self.steps, (self.total, self.charge) = steps, KINDS[kind]
        self.places = []
        self.rows = sorted(tuple(int(i == j) for i in range(steps)) for j in range(steps))

    def offer(self, place, columns, line):
        if len(place) != self.steps:
            raise Fault(2, 2, line, 1)
        for effect, column in zip(place, columns):
            if abs(effect) > 1000:
                raise Fault(3, 2, line, column)
        if len(self.places) == 32:
            raise Fault(4, 2, line, 1)
        rows = step(place, self.rows)
        if any(c > LARGEST_COUNT for row in rows for c in row):
            raise Fault(5, 2, line, 1)
        if sum(map(self.charge, rows)) > self.total:
            raise Fault(6, 3, line, 1)
        self.places.append(place)
        self.rows = rows

    def ask(self, counts, columns, line):
        if len(counts) != self.steps:
            raise Fault(2, 2, line, 1)
        for count, column in zip(counts, columns):
            if count > LARGEST_COUNT:
                raise Fault(7, 2, line, column)
        for k, place in enumerate(self.places, 1):
            if place_sum(place, counts) != 0:
                return b'R: 9 %d\n' % k
        found = walk(self.rows, counts)
        if found is None:
            return b'R: 10 0\n'
        t, coefficients = found
        return b'A:' + b''.join(b' %d' % c for c in [t] + coefficients) + b'\n'


def fields(match):
    parts = [(m.start() + 1, int(m.group())) for m in re.finditer(rb'-?[0-9]+', match.group(0))]
    return [value for _, value in parts], [column for column, _ in parts]


def judged(data, kind):
    if len(data) > 16384:
        raise Fault(14, 1, 0, 0)
    if not data:
        raise Fault(13, 1, 1, 1)
    sheet, at, line, stage, answers = None, 0, 0, 0, []
    while at < len(data):
        line += 1
        end = data.find(b'\n', at)
        rest = data[at:] if end < 0 else data[at:end + 1]
        mark = rest[:1]
        if mark in LINES and rest[1:2] == b':':
            rank = {b'N': 0, b'S': 0, b'P': 1, b'Q': 2}[mark]
            if (sheet is None) != (rank == 0) or rank < stage:
                raise Fault(13, 1, line, 1)
            if mark == b'Q' and len(answers) == 16:
                raise Fault(14, 1, line, 1)
        match = LINES[mark].fullmatch(rest) if mark in LINES else None
        if match is None:
            raise Fault(12, 1, line, broken_column(rest))
        values, columns = fields(match)
        stage = rank
        if mark == b'N':
            if not 1 <= values[0] <= 24:
                raise Fault(1, 2, line, 1)
            sheet = Sheet(values[0], kind)
        elif mark == b'S':
            sheet = Sheet(7, kind)
            for place in STANDING:
                sheet.offer(place, [1] * 7, line)
        elif mark == b'P':
            sheet.offer(values, columns, line)
        else:
            answers.append(sheet.ask(values, columns, line))
        at += len(rest)
    listed = b''.join(b'C:' + b''.join(b' %d' % c for c in row) + b'\n' for row in sheet.rows)
    return b'M: %d\n' % len(sheet.rows) + listed + b''.join(answers)


def printout(data, kind):
    try:
        return judged(data, kind)
    except Fault as fault:
        return fault.line


if __name__ == '__main__':
    sys.stdout.buffer.write(printout(sys.stdin.buffer.read(), sys.argv[1] if len(sys.argv) > 1 else 'ruled'))
