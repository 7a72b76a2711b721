#!/usr/bin/env python3
"""Real files, those of Debian's assimp-testmodels and libcgal-demo: the triangles that `mesh list` reads against those that assimp reads.
`real.py FOLDER` fetches the packages into an empty folder and unpacks them there; nothing is installed."""
import collections
import itertools
import math
import os
import pathlib
import subprocess
import sys
import tarfile

import formats
from tool import Count, mesh

PACKAGES = ['assimp-testmodels', 'libcgal-demo', 'assimp-utils', 'libassimp5', 'libdraco7', 'libminizip1']
MOST = 8_000_000  # bytes of a file

# Files that are not what their format says, and that assimp reads all the same.
REFUSED = {
    'OBJ/number_formats.obj': "line 11: '3.1+e2' is not a coordinate",
    'OFF/invalid.off': 'the file ends where a count of corners is expected',
    'PLY/Wuson.ply': "line 3: 'Created' is not expected in the header",
}

# OFF files that assimp does not read whole: it leaves out faces of over eight corners, and refuses some colours. They are read here.
MISREAD = {'mpi.off', 'mesh_with_colors.off'}


def fetch(folder):
    subprocess.run(['apt-get', 'download', *PACKAGES], cwd=folder, check=True, stdout=sys.stderr)
    for package in folder.glob('*.deb'):
        subprocess.run(['dpkg', '-x', package, folder / 'root'], check=True)
    for archive in folder.glob('root/usr/share/doc/libcgal*/*.tar.gz'):
        with tarfile.open(archive) as tar:
            tar.extractall(folder / 'cgal' / archive.name.split('.')[0], filter='data')


def read_obj(text):
    """The points and faces of an OBJ file as assimp writes it, with nine digits: exact in single precision."""
    lines = [line.split() for line in text.splitlines()]
    points = [tuple(map(float, line[1:4])) for line in lines if line[:1] == ['v']]
    return points, [[int(word.split('/')[0]) - 1 for word in line[1:]] for line in lines if line[:1] == ['f']]


def bare_lines(path):
    """The lines of an OFF file without comments and empty lines: assimp takes such a line between vertices and faces for a face."""
    lines = (line.split('#')[0].strip() for line in path.read_text(errors='replace').splitlines())
    return list(filter(None, lines))


def by_lines(path):
    """The points and triangles of an OFF file whose header and counts have lines of their own."""
    rows = [line.split() for line in bare_lines(path)[1:]]
    vertices = int(rows[0][0])
    faces = [[int(w) for w in row[1:1 + int(row[0])]] for row in rows[1 + vertices:]]
    return [tuple(map(float, row[:3])) for row in rows[1:1 + vertices]], formats.triangles_of(faces)


def by_assimp(folder, path):
    """The points and triangles of a file as assimp reads it, or None."""
    out, bare = folder / 'assimp.obj', folder / 'bare.off'
    out.unlink(missing_ok=True)
    if path.suffix == '.off':
        bare.write_text('\n'.join(bare_lines(path)) + '\n')
        path = bare
    libraries = next(folder.glob('root/usr/lib/*/libassimp.so.*')).parent
    command = ['timeout', '20', folder / 'root/usr/bin/assimp', 'export', path, out, '-fobjnomtl']
    subprocess.run(command, capture_output=True, env={**os.environ, 'LD_LIBRARY_PATH': str(libraries)})
    if not out.exists():
        return None
    points, faces = read_obj(out.read_text(errors='replace'))
    return points, formats.triangles_of(faces)


def by_mesh(folder, path):
    """The step, the origin and the triangles on the grid as `mesh list` reads a file, or why it does not."""
    got = mesh('list', '--keep-collapsed', '--positions', folder / 'positions', '--frame', folder / 'frame', path)
    if got.status == 2:
        return got.errors.strip()
    numbers = [int(w) for w in (folder / 'positions').read_text().split()]
    positions = list(zip(*[iter(numbers)] * 3))
    words = (folder / 'frame').read_text().split()
    corners = [positions[int(w)] for w in got.out.split()[1:]]
    return float(words[1]), [float(w) for w in words[3:6]], list(zip(*[iter(corners)] * 3))


def near(point, step, origin):
    """The grid points that a point in single precision may be rounded to."""
    ranges = []
    for c, o in zip(point, origin):
        slack = 1.3e-7 * abs(c) / step + 1e-6
        ranges.append(range(math.ceil((c - o) / step - 0.5 - slack), math.floor((c - o) / step + 0.5 + slack) + 1))
    return list(itertools.product(*ranges))


def unmatched(step, origin, triangles, points, others):
    """How many triangles of the other reader are not among these, each used once."""
    left = collections.Counter(formats.turned(t) for t in triangles)
    missing = 0
    for triangle in others:
        corners = [near(points[v], step, origin) for v in triangle]
        tries = itertools.islice(map(formats.turned, itertools.product(*corners)), 4096)
        found = next((t for t in tries if left[t] > 0), None)
        missing += found is None
        left[found] -= 1
    return missing


def compare(folder, path):
    """What is found out about a file, and whether both readers say the same."""
    other = by_lines(path) if path.name in MISREAD else by_assimp(folder, path)
    mine = by_mesh(folder, path)
    if isinstance(mine, str):
        expected = REFUSED.get('/'.join(path.parts[-2:]))
        if expected:
            return expected in mine, f'{expected}, as it should be'
        theirs = f'{len(other[1])} triangles' if other else 'refuses it too'
        return not (other and other[1]), f'{mine.split(": ", 2)[-1]}; assimp {theirs}'
    if other is None:
        return False, f'{len(mine[2])} triangles; assimp refuses it'
    if len(mine[2]) != len(other[1]):
        return False, f'{len(mine[2])} triangles; assimp {len(other[1])}'
    missing = unmatched(*mine, *other)
    return missing == 0, f'{len(mine[2])} triangles, {missing} not alike'


def main():
    folder, counted = pathlib.Path(sys.argv[1]).resolve(), Count()
    if not list(folder.glob('*.deb')):
        fetch(folder)
    files = sorted([*(folder / 'root').rglob('*'), *(folder / 'cgal').rglob('*')])
    for path in files:
        if path.suffix.lower() in ('.stl', '.obj', '.off', '.ply') and path.is_file() and path.stat().st_size <= MOST:
            alike, what = compare(folder, path)
            counted.case(f'{path.relative_to(folder)}: {what}', [] if alike else ['the readers differ'])
    counted.end()


main()
