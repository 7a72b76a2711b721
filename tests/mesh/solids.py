"""Solids to test with: (points, faces), the faces counterclockwise as seen from outside."""
import itertools
import math


def cube(n=1, size=10.0, corner=(0.0, 0.0, 0.0)):
    """A cube of faces of n by n squares."""
    numbers, faces = {}, []
    for axis, end, i, j in itertools.product(range(3), (0, n), range(n), range(n)):
        def at(a, b):
            point = [0, 0, 0]
            point[axis], point[(axis + 1) % 3], point[(axis + 2) % 3] = end, a, b
            return numbers.setdefault(tuple(point), len(numbers))

        square = [at(i, j), at(i + 1, j), at(i + 1, j + 1), at(i, j + 1)]
        faces.append(square if end else square[::-1])
    return [tuple(c + x * size / n for c, x in zip(corner, p)) for p in numbers], faces


def grid(rows, columns, closed):
    """Triangles of a grid of vertices, closed both ways or neither."""
    faces = []
    for i, j in itertools.product(range(rows - (not closed)), range(columns - (not closed))):
        a, b, c, d = ((i + y) % rows * columns + (j + x) % columns for y, x in ((0, 0), (0, 1), (1, 1), (1, 0)))
        faces += [[a, b, c], [a, c, d]]
    return faces


def torus(rows, columns, far=3.0, near=1.25):
    def point(i, j):
        u, v = 2 * math.pi * i / rows, 2 * math.pi * j / columns
        return (far + near * math.cos(v)) * math.cos(u), (far + near * math.cos(v)) * math.sin(u), -near * math.sin(v)

    return [point(i, j) for i in range(rows) for j in range(columns)], [f[::-1] for f in grid(rows, columns, True)]


def disc(rows, columns):
    return [(0.5 * i, 0.25 * j, 0.01 * i * j) for i in range(rows) for j in range(columns)], grid(rows, columns, False)


def both(first, second):
    """Two solids as one of two pieces."""
    shift = len(first[0])
    return first[0] + second[0], first[1] + [[v + shift for v in face] for face in second[1]]


def whole(solid, factor):
    """The solid with whole coordinates."""
    return [tuple(int(round(c * factor)) for c in p) for p in solid[0]], solid[1]


SOLIDS = {
    'a cube': cube(),
    'a cube on the grid': whole(cube(4, 4000, (-2000, -1990, -1995)), 1),
    'a cube of whole numbers off the grid': whole(cube(3, 3000, (5000, -1990, 7000)), 1),
    'a small torus': torus(5, 4),
    'a torus': torus(20, 14),
    'a torus far off': ([(x + 1e4, y - 1e4, z) for x, y, z in torus(12, 8)[0]], torus(12, 8)[1]),
    'a torus on the grid': whole(torus(16, 12), 480),
    'a disc': disc(9, 13),
    'two pieces': both(cube(2), torus(9, 7)),
    'two pieces on the grid': whole(both(cube(2), torus(9, 7)), 100),
    'one triangle': ([(0.0, 0.0, 0.0), (1e-3, 0.0, 0.0), (0.0, 1e-3, 0.0)], [[0, 1, 2]]),
}
