#!/usr/bin/env python3
"""`mesh fault` on random lists: the number against the second program's check, what is named against a search of its own; and `mesh list`
on files with such lists: the faces, lines and coordinates that it names. `faults.py COUNT SEED`."""
import collections
import random
import re
import sys

import formats
import solids
from tool import Count, csv, mesh, oracle

BASES = [solids.cube(), solids.torus(4, 3), solids.torus(5, 6), solids.disc(3, 4), solids.both(solids.cube(), solids.torus(3, 3)),
         solids.both(solids.disc(2, 2), solids.disc(2, 3))]
FEW = 40  # each number is met so many times at least


def spoiled(rng, v, triangles):
    """A list with one more thing changed; the change need not be a fault."""
    triangles = [list(t) for t in triangles]
    if not triangles:
        return v, triangles
    t = rng.choice(triangles)
    way = rng.randrange(10)
    if way == 0:
        t[rng.randrange(3)] = v + rng.choice([0, 1, 500])
    elif way == 1:
        t[0] = t[rng.randrange(1, 3)]
    elif way == 2:
        t[0], t[1] = t[1], t[0]
    elif way == 3:
        triangles.append(t[1:] + t[:1])
    elif way == 4:
        triangles.remove(t)
    elif way == 5:
        v += rng.randrange(1, 3)
    elif way == 6:
        old, new = rng.randrange(v), rng.randrange(v)
        last = v - 1
        triangles = [[{old: new, last: old}.get(c, c) if old != last else {old: new}.get(c, c) for c in u] for u in triangles]
        v -= 1
    elif way == 7:
        triangles = rng.sample(triangles, rng.randrange(1, len(triangles) + 1))
    elif way == 8:
        t[rng.randrange(3)] = rng.randrange(v)
    else:
        triangles.append([rng.randrange(v) for _ in range(3)])
    return v, triangles


def numbered(triangles):
    """The triangles with their vertices numbered anew, all of them used."""
    new = {}
    triangles = [[new.setdefault(c, len(new)) for c in t] for t in triangles]
    return len(new), triangles


def random_list(rng):
    points, faces = rng.choice(BASES)
    v, triangles = len(points), formats.triangles_of(faces)
    rng.shuffle(triangles)
    triangles = [rng.choice([t, t[1:] + t[:1], t[2:] + t[:2]]) for t in triangles]
    for _ in range(rng.choice([0, 1, 1, 1, 2, 3])):
        v, triangles = spoiled(rng, v, triangles)
    if rng.random() < 0.4:
        v, triangles = numbered(triangles)
    numbers = [c for t in triangles for c in t]
    if rng.random() < 0.05:
        numbers = rng.choice([[], numbers[:-1], numbers[:-2], numbers * (24576 // max(len(numbers), 1) + 1)])
    if rng.random() < 0.05:
        v = rng.choice([0, 1, 2, 4097, 65535])
    return v, numbers


def sides(t):
    return [(t[i], t[(i + 1) % 3]) for i in range(3)]


def fans(vertex, mine, triangles):
    """Its triangles by what edges at the vertex join, whichever way these run."""
    groups = []
    for n in mine:
        ends = set(triangles[n]) - {vertex}
        touching = [g for g in groups if g[1] & ends]
        groups = [g for g in groups if not g[1] & ends]
        groups.append((frozenset([n]).union(*(g[0] for g in touching)), ends.union(*(g[1] for g in touching))))
    return frozenset(g[0] for g in groups)


def expected(number, v, numbers):
    """Everything that breaks a rule."""
    triangles = list(zip(*[iter(numbers)] * 3))
    if number == 1:
        return {len(numbers)}
    if number == 2:
        return {v}
    if number == 3:
        return {(n, c) for n, t in enumerate(triangles) for c in t if c >= v}
    if number == 4:
        return {(n, c) for n, t in enumerate(triangles) for c in t if t.count(c) > 1}
    if number == 5:
        owners = collections.defaultdict(list)
        for n, t in enumerate(triangles):
            for side in sides(t):
                owners[side].append(n)
        return {(*side, tuple(found)) for side, found in owners.items() if len(found) > 1}
    if number == 6:
        return set(range(v)) - set(numbers)
    mine = collections.defaultdict(list)
    for n, t in enumerate(triangles):
        for c in t:
            mine[c].append(n)
    found = {(vertex, fans(vertex, around, triangles)) for vertex, around in mine.items()}
    return {each for each in found if len(each[1]) > 1}


def plain(text):
    return tuple(int(n) for n in re.findall(r'(?:^|, )(\d+)', re.sub(r' \(.*?\)', '', text)))


PATTERNS = {
    1: r'the list has (\d+) numbers',
    2: r'the model has (\d+) vertices',
    3: r'triangle (\d+) names vertex (\d+)$',
    4: r'triangle (\d+)(?: \(.*\))? has vertex (\d+) twice$',
    5: r'the edge from vertex (\d+) to vertex (\d+) is in triangles (.*); ',
    6: r'vertex (\d+) is in no triangle$',
    7: r'vertex (\d+) has (\d+) fans: triangles (.*)',
}


def named(number, line):
    """What a line names, in the form of `expected`; the line itself where it is not as it should be."""
    found = re.match('mesh: ' + PATTERNS[number], re.sub(r'(, \d+ in the file,)? at \(.*?\)', '', line))
    if not found:
        return line
    if number == 7:
        fans = frozenset(frozenset(plain(part)) for part in found[3].split(' and '))
        return (int(found[1]), fans) if len(fans) == int(found[2]) else line
    if number == 5:
        return int(found[1]), int(found[2]), plain(found[3])
    numbers = tuple(map(int, found.groups()))
    return numbers if len(numbers) > 1 else numbers[0]


def list_case(v, numbers, answer):
    """What is wrong about `mesh fault` on one list, given the second program's answer."""
    got = mesh('fault', '--all', data=f'{v}\n{" ".join(map(str, numbers))}\n'.encode())
    if got.out.decode() != answer + '\n' or got.status != (answer != 'ok'):
        return f'{got} instead of {answer} for V {v}, {numbers[:60]}'
    lines = got.errors.splitlines()
    if answer == 'ok':
        return lines and f'{lines} though the list is good'
    number = int(answer.split()[1])
    if not lines[0].startswith(f'mesh: the service will refuse this with {number}: '):
        return f'{lines[0]} for {number}'
    found = [named(number, line) for line in lines[1:]]
    if len(set(found)) != len(found) and number != 3 or set(found) != expected(number, v, numbers):
        return f'{lines[1:]} instead of {expected(number, v, numbers)} for V {v}, {numbers[:60]}'
    return None


def written(rng, v, triangles, points):
    """A file with the list, and for each triangle the line where it stands; None where the format has no vertex numbers."""
    form = rng.choice(['off', 'obj', 'stl'])
    if form == 'stl':
        lines = ['solid']
        for t in triangles:
            lines += ['facet normal 0 0 0', 'outer loop', *('vertex ' + ' '.join(map(str, points[c])) for c in t), 'endloop', 'endfacet']
        return form, lines + ['endsolid'], [2 + 7 * n for n in range(len(triangles))], None
    if form == 'off':
        lines = ['OFF', f'{v} {len(triangles)} 0'] + [' '.join(map(str, p)) for p in points]
        faces = ['3 ' + ' '.join(map(str, t)) for t in triangles]
    else:
        lines = ['v ' + ' '.join(map(str, p)) for p in points]
        faces = ['f ' + ' '.join(str(c + 1) for c in t) for t in triangles]
    first = len(lines) + 1
    return form, lines + faces, [first + n for n in range(len(triangles))], 1 if form == 'obj' else 0


def file_case(rng, v, numbers, number):
    """What is wrong about `mesh list` on a file with a list of distinct points that breaks 4, 5 or 7."""
    triangles = list(zip(*[iter(numbers)] * 3))
    points = [(i, rng.randrange(-999, 1000) / 8, rng.randrange(100)) for i in range(v)]
    form, lines, at, first = written(rng, v, triangles, points)
    keep = ['--keep-collapsed'] if number == 4 else []
    got = mesh('list', '--all', '--format', form, *keep, data='\n'.join(lines).encode())
    told = got.errors.splitlines()
    start = next((n for n, line in enumerate(told) if f'refuse this with {number}' in line), None)
    if got.status != 1 or start is None:
        return f'{got} where {number} is expected'
    listed = [int(w) for w in got.out.split()]
    if {named(number, line) for line in told[start + 1:]} != expected(number, listed[0], listed[1:]):
        return f'{told[start + 1:]} instead of {expected(number, listed[0], listed[1:])}'
    text = '\n'.join(told[start + 1:])
    for triangle, face, line in re.findall(r'(\d+) \(face (\d+), line (\d+)\)', text):
        if not (triangle == face and at[int(face)] == int(line)):
            return f'triangle {triangle}, face {face}, stands at line {at[int(face)]}, not {line}'
    for vertex, old, x, y, z in re.findall(r'vertex (\d+)(?:, (\d+) in the file,)? at \((.*?), (.*?), (.*?)\)', text):
        corner = next(triangles[n // 3][n % 3] for n, c in enumerate(listed[1:]) if c == int(vertex))
        if (old and int(old) != corner + first) or points[corner] != (float(x), float(y), float(z)):
            return f'vertex {vertex} is {corner} of the file at {points[corner]}, not {old} at {x} {y} {z}'
    return None if re.search(r'face \d+, line', text) and ' at (' in text else f'no places in {text}'


def main():
    count, seed = int(sys.argv[1]), int(sys.argv[2])
    rng, counted = random.Random(seed), Count()
    lists = [random_list(rng) for _ in range(count)]
    answers = [a.split(' |')[0] for a in oracle(f'check v={v} list={csv(numbers)}' for v, numbers in lists)]
    assert len(answers) == count
    met = collections.Counter(answers)
    print(', '.join(f'{name} {met[name]}' for name in sorted(met)))
    for answer in ['ok'] + [f'refused {n}' for n in range(1, 8)]:
        wrong = [f'met {met[answer]} times'] if met[answer] < FEW else []
        wrong += filter(None, (list_case(*each, a) for each, a in zip(lists, answers) if a == answer))
        counted.case(f'mesh fault: {met[answer]} lists, {answer} by the second program, and what is named', wrong)
    for number in (4, 5, 7):
        some = [each for each, a in zip(lists, answers) if a == f'refused {number}' and len(set(each[1])) > 2][:100]
        wrong = list(filter(None, (file_case(rng, *each, number) for each in some)))
        counted.case(f'mesh list: {len(some)} files that break {number}, faces, lines and vertices named', wrong)
    counted.end()


main()
