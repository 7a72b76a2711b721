#!/usr/bin/env python3
"""Draws docs/layers.svg from crates.txt: `tools/layers.py > docs/layers.svg`. A crate stands above all that it uses, its colour is its
part of crates.txt, and a line leads to what it uses by no other."""
import pathlib
import re

COLOURS = {'definitions': '#f3e3b3', 'theorems': '#cfe3f1', 'code': '#d5ead0', 'open': '#f3cfc3', 'programs': '#e0d3ec'}
WIDTH, HEIGHT, ACROSS, DOWN, MARGIN = 118, 30, 138, 74, 24


def read(path):
    """The crates in their order, each with what it uses of this project, and its part of the list."""
    uses, parts, part = {}, {}, ''
    for line in path.read_text().splitlines():
        heading = re.match(r'## (\w+)', line)
        crate = re.match(r'(\w+)(?: staticlib)?:([^#]*)', line)
        if heading:
            part = heading[1]
        elif crate:
            uses[crate[1]], parts[crate[1]] = crate[2].split(), part
    return {n: [d for d in ds if d in uses] for n, ds in uses.items()}, parts


def direct(uses):
    """Of what each crate uses, that which it does not use by another too."""
    def below(n):
        return set(uses[n]).union(*(below(d) for d in uses[n]))
    return {n: [d for d in ds if not any(d in below(e) for e in ds)] for n, ds in uses.items()}


def levels(uses):
    """How many crates stand below each, one on the other."""
    level = {}

    def of(n):
        if n not in level:
            level[n] = 1 + max((of(d) for d in uses[n]), default=-1)
        return level[n]

    for n in uses:
        of(n)
    return level


def rows(uses, level, parts):
    """The crates of each level, ordered by their parts, and so that they stand near what they use."""
    order = list(COLOURS)
    above = [[n for n in uses if level[n] == k] for k in range(max(level.values()) + 1)]
    place = {}
    for row in above:
        def centre(n):
            return sum(place[d] for d in uses[n]) / len(uses[n]) if uses[n] else 0
        row.sort(key=lambda n: (order.index(parts[n]), centre(n)))
        start = -(len(row) - 1) / 2
        for i, n in enumerate(row):
            place[n] = start + i
    return above, place


def main():
    uses, parts = read(pathlib.Path(__file__).parent.parent / 'crates.txt')
    uses = direct(uses)
    level = levels(uses)
    above, place = rows(uses, level, parts)
    wide = max(len(row) for row in above)
    w, h = 2 * MARGIN + wide * ACROSS, 2 * MARGIN + len(above) * DOWN + 26
    x = {n: round(w / 2 + place[n] * ACROSS) for n in uses}
    y = {n: round(h - 26 - MARGIN - HEIGHT - level[n] * DOWN) for n in uses}
    out = [f'<svg xmlns="http://www.w3.org/2000/svg" viewBox="0 0 {w} {h}" font-family="sans-serif" font-size="13">',
           f'<rect width="{w}" height="{h}" fill="white"/>']
    for n in uses:
        for d in uses[n]:
            x1, y1, x2, y2 = x[n], y[n] + HEIGHT, x[d], y[d]
            bend = (y2 - y1) // 2
            out.append(f'<path d="M{x1} {y1} C{x1} {y1 + bend} {x2} {y2 - bend} {x2} {y2}" fill="none" stroke="#888" stroke-width="1"/>')
    for n in uses:
        out.append(f'<rect x="{x[n] - WIDTH // 2}" y="{y[n]}" width="{WIDTH}" height="{HEIGHT}" rx="4"'
                   f' fill="{COLOURS[parts[n]]}" stroke="#555"/>')
        out.append(f'<text x="{x[n]}" y="{y[n] + 20}" text-anchor="middle">{n}</text>')
    for i, (part, colour) in enumerate(COLOURS.items()):
        at = MARGIN + i * 130
        out.append(f'<rect x="{at}" y="{h - 28}" width="14" height="14" fill="{colour}" stroke="#555"/>')
        out.append(f'<text x="{at + 20}" y="{h - 16}">{"open to others" if part == "open" else part}</text>')
    print('\n'.join(out + ['</svg>']))


if __name__ == '__main__':
    main()
