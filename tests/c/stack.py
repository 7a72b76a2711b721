#!/usr/bin/env python3
"""Whether the stack that the headers state is what the calls take: `stack.py < LINES`, the lines of tests/c/stack.c. A figure is wrong if
the call takes as much or more, or if it is over 1 KiB and the call takes less than half of it. The last line is 'N passed, M failed'."""
import pathlib
import re
import sys

from agree import LIBRARIES, in_header


def stated():
    """The figure of each function, in bytes."""
    include = pathlib.Path(__file__).resolve().parents[2] / 'include'
    figures = {}
    for header in LIBRARIES:
        for name, (_, _, labels) in in_header((include / header).read_text()).items():
            number, unit = re.match(r'below ([\d,]+) (bytes|KiB)', labels['Stack']).groups()
            figures[name] = int(number.replace(',', '')) * (1024 if unit == 'KiB' else 1)
    return figures


def main():
    taken = {name: int(n) for name, n in map(str.split, sys.stdin)}
    figures = stated()
    wrong = 0
    for name in sorted(figures.keys() | taken.keys()):
        below, n = figures.get(name, 0), taken.get(name, 0)
        right = 0 < n < below <= max(2 * n, 1024)
        wrong += not right
        print(f'{"ok" if right else "FAILED"}: {name}: {n} bytes of stack, below {below} stated')
    print(f'{len(figures.keys() | taken.keys()) - wrong} passed, {wrong} failed')
    sys.exit(wrong != 0)


if __name__ == '__main__':
    main()
