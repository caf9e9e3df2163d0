#!/usr/bin/env python3
"""Writes a sheet file to standard output.

  tools/sheets.py may             the worked month of May 2023: three points
  tools/sheets.py large [POINTS]  a month of 31 days with so many points (400): ties, injections, growing peaks

The same arguments always give the same file.
"""
import sys


def line(point, day, values):
    return '|'.join([str(point), str(day)] + values) + '\n'


def may():
    for point, usual, special in (
        (1, 100000, {(10, 18): 150000}),
        (2, 200000, {(10, 18): 140000, (11, 3): 230000}),
        (3, 50000, {(20, 24): 60000, (21, 1): 60000}),
    ):
        for day in range(1, 32):
            yield line(point, day, ['W%d' % special.get((day, hour), usual) for hour in range(1, 25)])


def large(points):
    state = 20230501
    for point in range(1, points + 1):
        for day in range(1, 32):
            values = []
            for hour in range(24):
                state = (state * 1103515245 + 12345) % 2 ** 31
                letter = 'I' if state >> 8 & 15 == 0 else 'W'
                values.append(letter + str((state >> 12) % 90000 + point))
            yield line(point, day, values)


def main(words):
    if words[:1] == ['may'] and len(words) == 1:
        lines = may()
    elif words[:1] == ['large'] and len(words) <= 2:
        lines = large(int(words[1]) if len(words) == 2 else 400)
    else:
        sys.stderr.write(__doc__)
        return 2
    sys.stdout.writelines(lines)
    return 0


if __name__ == '__main__':
    sys.exit(main(sys.argv[1:]))
