#!/usr/bin/env python3
"""Writes the examples with positions into a folder: `solids.py FOLDER`. Both solids have volumes that are known by hand.

cube.txt, cube.positions: a cube of 1,000 steps, each face a grid of 5 by 5 squares of two triangles.
ring.positions, for ring.txt: a square frame with a square hole, as four beams mitred at the corners make it. It is 3,600 steps wide and
long, the hole 1,800, and it is 900 thick.
"""
import itertools
import pathlib
import sys

HERE = pathlib.Path(__file__).parent
ALONG, ROUND = 48, 12  # ring.txt is a grid of so many rows of so many vertices, closed both ways


def write(path, rows):
    path.write_text(''.join(' '.join(map(str, row)) + '\n' for row in rows))


def cube(n=5, step=200, corner=(-400, 150, 800)):
    """The triangles, counterclockwise as seen from outside, and the positions; the cube lies off the grid's middle."""
    points, triangles = {}, []

    def vertex(point):
        return points.setdefault(point, len(points))

    for axis, end, i, j in itertools.product(range(3), (0, n), range(n), range(n)):
        def at(a, b):
            point = [0, 0, 0]
            point[axis], point[(axis + 1) % 3], point[(axis + 2) % 3] = end, a, b
            return vertex(tuple(point))

        square = [at(i, j), at(i + 1, j), at(i + 1, j + 1), at(i, j + 1)]
        p, q, r, s = square if end else reversed(square)
        triangles += [(p, q, r), (p, r, s)]
    return triangles, [[c + step * x for c, x in zip(corner, p)] for p in points]


def rows_of(triangles):
    """Where each vertex of a closed grid stands. One goes straight on by turning past three of the six triangles about a vertex."""
    third = {(t[i], t[i - 2]): t[i - 1] for t in triangles for i in range(3)}

    def line(p, q):
        while True:
            yield p
            turned = p
            for _ in range(3):
                turned = third[q, turned]
            p, q = q, turned

    column = list(itertools.islice(line(*triangles[0][:2]), ALONG + 1))
    return [list(itertools.islice(line(p, third[q, p]), ROUND)) for p, q in zip(column, column[1:])]


def ring(rows, inner=900, step=300, low=-1000):
    """The positions: each row of the grid goes once round a beam, and the rows follow one another along the frame."""
    side, beam = ROUND // 4, ALONG // 4
    square = [(0, i) for i in range(side)] + [(i, side) for i in range(side)]
    square += [(side, side - i) for i in range(side)] + [(side - i, 0) for i in range(side)]
    points = {}
    for along, row in enumerate(rows):
        turns, part = divmod(along, beam)
        for (out, up), vertex in zip(square, row):
            x = inner + step * out
            y = 2 * x * part // beam - x
            for _ in range(turns):
                x, y = -y, x
            points[vertex] = x, y, low + step * up
    return [points[vertex] for vertex in range(ALONG * ROUND)]


def main():
    folder = pathlib.Path(sys.argv[1])
    triangles, positions = cube()
    write(folder / 'cube.txt', [[len(positions)], *triangles])
    write(folder / 'cube.positions', positions)
    numbers = [int(word) for word in (HERE / 'ring.txt').read_text().split()]
    triangles = list(zip(*[iter(numbers[1:])] * 3))
    write(folder / 'ring.positions', ring(rows_of(triangles)))


main()
