#!/usr/bin/env python3
"""Files of every format through `mesh list`, packing and unpacking by the second program, and `mesh model` back to every format: the same
triangles, each once and turned the same way, and the same volume."""
import collections
import pathlib
import struct
import tempfile

import formats
from solids import SOLIDS
from tool import Count, csv, mesh, oracle


class Unfit(Exception):
    """A model that does not get as far as the way back."""


def listed(folder, name, form, data):
    """What `mesh list` makes of a file: V, the list, the positions."""
    path = folder / f'model.{form}'
    path.write_bytes(data)
    got = mesh('list', '--positions', folder / f'{name}.positions', '--frame', folder / f'{name}.frame', path)
    if got.status:
        raise Unfit(f'{data[:20]}: {got}')
    numbers = [int(w) for w in got.out.split()]
    positions = [int(w) for w in (folder / f'{name}.positions').read_text().split()]
    return numbers[0], numbers[1:], positions


def packed(models):
    """The packs by the second program."""
    lines = (f'pack v={v} list={csv(numbers)} positions={csv(positions)}' for v, numbers, positions in models)
    answers = list(oracle(lines))
    for answer in answers:
        if not answer.startswith('ok '):
            raise Unfit(f'the second program does not pack it: {answer}')
    return [answer.split('pack=')[1].split()[0] for answer in answers]


def positions_in(pack):
    """Field 03 of a pack."""
    data = bytes.fromhex(pack)
    at = 0
    while data[at] != 3:
        at += 3 + struct.unpack_from('>H', data, at + 1)[0]
    length, = struct.unpack_from('>H', data, at + 1)
    numbers = struct.unpack_from(f'>{length // 2}h', data, at + 3)
    return list(zip(*[iter(numbers)] * 3))


def unpacked(packs):
    """What `unpack --positions` prints and writes for packs, by the second program."""
    for pack, answer in zip(packs, oracle(f'unpack pack={pack}' for pack in packs)):
        words = answer.split(' |')[0].split()
        numbers = words[-1].split('=')[1].split(',')
        text = 'model ' + ' '.join(words[1:6]) + '\n' + formats.rows(zip(*[iter(numbers)] * 3))
        yield text, formats.rows(positions_in(pack))


def counted_triangles(triangles):
    return collections.Counter(formats.turned(t) for t in triangles)


def nearest(point, cells, reach, step):
    """The vertex whose point is this one but for rounding."""
    key = tuple(int(c // step) for c in point)
    for shift in range(27):
        near = tuple(k + shift // 3 ** i % 3 - 1 for i, k in enumerate(key))
        for vertex, other in cells.get(near, ()):
            if max(abs(a - b) for a, b in zip(point, other)) <= reach:
                return vertex
    return None


def compare(points, faces, triangles, step):
    """What is wrong about triangles that should be those of a solid, but for half a step of rounding and single precision."""
    reach = 0 if step == 1 else step / 2 + 1e-6 * max(abs(c) for p in points for c in p)
    cells = collections.defaultdict(list)
    for vertex, point in enumerate(points):
        cells[tuple(int(c // max(step, reach)) for c in point)].append((vertex, point))
    back = [tuple(nearest(corner, cells, reach, max(step, reach)) for corner in t) for t in triangles]
    if any(None in t for t in back):
        return f'a corner of {triangles[next(n for n, t in enumerate(back) if None in t)]} is nowhere in the file'
    if counted_triangles(back) != counted_triangles(formats.triangles_of(faces)):
        return 'the triangles differ'
    corners = [c for t in triangles for c in t]
    here = formats.six_volumes(points, faces)
    there = formats.six_volumes(corners, [range(i, i + 3) for i in range(0, len(corners), 3)])
    scale = sum(abs(c) for p in points for c in p) / len(points) + 1
    return None if abs(here - there) <= 6 * len(triangles) * scale ** 2 * reach else f'the volume is {there / 6}, not {here / 6}'


def normals_agree(triangles, normals):
    """Whether normals are those by the corners' turn."""
    for (p, q, r), n in zip(triangles, normals):
        u, v = ([b - a for a, b in zip(p, other)] for other in (q, r))
        cross = [u[1] * v[2] - u[2] * v[1], u[2] * v[0] - u[0] * v[2], u[0] * v[1] - u[1] * v[0]]
        length = sum(c * c for c in cross) ** 0.5
        if length > 1e-9 * max(map(abs, u + v)) and max(abs(c / length - m) for c, m in zip(cross, n)) > 1e-2:
            return False
    return True


def way_back(folder, name, solid, text, positions):
    """What is wrong about the files that `mesh model` makes of an unpacked model."""
    (folder / 'back.positions').write_text(positions)
    step = float((folder / f'{name}.frame').read_text().split()[1])
    for form, reader in formats.READERS.items():
        files = ['--positions', folder / 'back.positions', '--frame', folder / f'{name}.frame']
        got = mesh('model', *files, '--format', form, data=text.encode())
        if got.status or got.errors:
            yield f'{form}: {got.status} {got.errors}'
            continue
        triangles, normals = reader(got.out)
        wrong = compare(*solid, triangles, step)
        if wrong or normals and not normals_agree(triangles, normals):
            yield f'{form}: {wrong or "a normal is wrong"}'


def undone(folder, text, positions):
    """What is wrong about `mesh list` after `mesh model` without a frame: a model on the grid stays as it is."""
    got = mesh('model', '--positions', folder / 'back.positions', '--format', 'off', data=text.encode())
    _, numbers, again = listed(folder, 'again', 'off', got.out)
    same = text.split()[6:] == [str(n) for n in numbers] and positions.split() == [str(n) for n in again]
    return [] if same else ['the list of the grid model is another']


def solid_case(folder, solid):
    """What is wrong about the way of a solid from every format to every other."""
    cases = [(form, writer) for form, writers in formats.WRITERS.items() for writer in writers]
    models = [listed(folder, str(n), form, writer(*solid)) for n, (form, writer) in enumerate(cases)]
    wrong = []
    for n, (text, positions) in enumerate(unpacked(packed(models))):
        each = list(way_back(folder, str(n), solid, text, positions)) or undone(folder, text, positions)
        wrong += [f'from {cases[n][1].__name__} to {why}' for why in each]
    return wrong


def main():
    counted = Count()
    for name, solid in SOLIDS.items():
        with tempfile.TemporaryDirectory() as folder:
            try:
                wrong = solid_case(pathlib.Path(folder), solid)
            except Unfit as why:
                wrong = [str(why)]
            counted.case(f'{name}, from every format to every other', wrong)
    counted.end()


main()
