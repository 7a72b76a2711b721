#!/usr/bin/env python3
"""Files that are cut off or changed at random, and some that are wrong in a known way: always a line on standard error, never a panic.
`malformed.py COUNT SEED` changes each file COUNT times."""
import random
import struct
import subprocess
import sys

import formats
import solids
from tool import MESH, Count, mesh

FILES = [(form, writer) for form, writers in formats.WRITERS.items() for writer in writers]
SOLID = solids.cube()
PLACES = 120  # at which each file is cut off


def answer_wrong(got):
    """What is wrong about an answer, whatever the file was."""
    lines = got.errors.splitlines()
    if got.status not in (0, 1, 2) or 'panicked' in got.errors:
        return f'status {got.status}, {got.errors[:200]}'
    if not lines or not all(line.startswith('mesh: ') for line in lines):
        return f'no line: {got.errors[:200]}'
    return f'{len(lines)} lines and {len(got.out)} bytes for a failure' if got.status == 2 and (got.out or len(lines) > 1) else None


def changed(rng, data):
    """Some bytes changed, put in or left out, or a part doubled."""
    data = bytearray(data)
    for _ in range(rng.choice([1, 1, 2, 5])):
        at = rng.randrange(len(data))
        way = rng.randrange(4)
        if way == 0:
            data[at] = rng.choice([rng.randrange(256), data[at] ^ 1 << rng.randrange(8)])
        elif way == 1:
            data[at:at] = rng.choice([b'-', b'9', b'999999999', b'1e999', b'nan', b'\n', b'#', b' ', b'\0', b'\xff' * 4])
        elif way == 2:
            del data[at:at + rng.choice([1, 2, 9])]
        else:
            data[at:at] = data[at:at + rng.choice([1, 7, 50])]
    return bytes(data)


def random_cases(counted, count, rng):
    for form, writer in FILES:
        data = writer(*SOLID)
        cut = [data[:n * len(data) // PLACES] for n in range(PLACES)]
        wrong = []
        for each in cut + [changed(rng, data) for _ in range(count)]:
            weld = rng.choice(['equal', 'grid', 'none'])
            wrong.append(answer_wrong(mesh('list', '--format', form, '--weld', weld, data=each)))
        counted.case(f'{writer.__name__}: cut off at {PLACES} places, {count} times changed at random', list(filter(None, wrong)))
        if form != 'obj':  # an OBJ file cut off between two lines is one of fewer faces
            taken = [n for n in range(len(data) // 3, len(data) - 40, 9) if mesh('list', '--format', form, data=data[:n]).status == 0]
            counted.case(f'{writer.__name__}: cut off, and never taken for the whole', [f'cut after {n} bytes' for n in taken])


def ply(header, body=b'', form='ascii'):
    return f'ply\nformat {form} 1.0\n{header}end_header\n'.encode() + body


XYZ = 'property float x\nproperty float y\nproperty float z\n'
FACE = 'property list uchar int vertex_indices\n'
STL = formats.stl_binary(*SOLID)
BAD = [
    ('stl', b'', 'no STL file'),
    ('stl', b'solid\nfacet normal 0 0 1\nouter loop\nvertex 0 0 x\n', "line 4: 'x' is not a coordinate"),
    ('stl', b'solid\nfacet normal 0 0 1\nouter loop\nvertex 0 0 inf\n', 'line 4: a coordinate is not finite'),
    ('stl', b'solid\nfacet normal 0 0 1\nouter loop\nvertex 0 0\nvertex', 'line 4: the line ends where a coordinate'),
    ('stl', b'solid\nendsolid\n', 'no triangle'),
    ('stl', STL[:80] + b'\xff\xff\xff\xff' + STL[84:], 'the header states 4294967295 triangles'),
    ('stl', STL[:-1], 'byte 683: the file ends'),
    ('stl', STL[:96] + struct.pack('<f', float('nan')) + STL[100:], 'byte 96: a coordinate is not finite'),
    ('obj', b'v 0 0 0\nv 1 0 0\nv 0 1 0\nf 1 2 4\n', 'line 4: a face names a vertex beyond the 3'),
    ('obj', b'v 0 0 0\nf 0 1 1\n', 'line 2: there is no vertex 0'),
    ('obj', b'v 0 0 0\nf -2 1 1\n', 'line 2: there is no vertex -2'),
    ('obj', b'v 0 0 0\nf 1 1 -9223372036854775808\n', 'line 2: there is no vertex -9223372036854775808'),
    ('obj', b'v 0 0 0\nf 1 1 99999999999999999999\n', "line 2: '99999999999999999999' is not a vertex number"),
    ('obj', b'v 1 2,5 3\n', "line 1: '2,5' is not a coordinate"),
    ('off', b'', 'empty'),
    ('off', b'OFF BINARY\n', "'BINARY' is not a count of vertices"),
    ('off', b'4OFF\n1 1 1\n', "'4OFF' is not read"),
    ('off', b'OFF\n18446744073709551615 1 0\n0 0 0\n', 'the file ends where a coordinate is expected, at line 3'),
    ('off', b'OFF\n1 1 0\n0 0 0\n18446744073709551615 0 0 0\n', 'the file ends where a vertex number is expected, at line 4'),
    ('off', b'OFF\n1 1 0\n0 0 0\n3 0 0 18446744073709551615\n', 'line 4: a face names a vertex beyond the 1'),
    ('off', b'OFF\n-1 1 0\n', "line 2: '-1' is not a count of vertices"),
    ('ply', b'ply\n', 'the header does not end'),
    ('ply', b'plx\n', "line 1: 'plx' instead of 'ply'"),
    ('ply', b'ply\nelement face 0\nend_header\n', "no line 'format'"),
    ('ply', ply(f'element vertex 1\n{XYZ}', b'0 0 0\n'), "no element 'face'"),
    ('ply', ply(f'element vertex 1\n{XYZ}element face 1\nproperty int a\n', b'0 0 0\n7\n'), "no list 'vertex_indices'"),
    ('ply', ply(f'element vertex 1\nproperty float x\nelement face 1\n{FACE}', b'0\n3 0 0 0\n'), 'line 8: a coordinate is missing'),
    ('ply', ply(f'element vertex 1\n{XYZ}element face 1\n{FACE}', b'0 0 0\n-3 0 0 0\n'), 'line 11: -3 is not a length'),
    ('ply', ply('element vertex 1\nproperty float32 x\nproperty quad y\n'), "line 5: 'quad' is not a type"),
    ('ply', ply(f'element vertex 1\n{XYZ}element face 1\nproperty list float int vertex_indices\n'), 'line 8: the length of a list'),
    ('ply', ply(f'element vertex 99999999999\n{XYZ}element face 1\n{FACE}', b'\0' * 30, 'binary_big_endian'), 'the file ends'),
    ('ply', ply(f'element nothing 99999999999999\nelement vertex 1\n{XYZ}element face 1\n{FACE}', b'0 0 0\n3 0 0 5\n'), 'line 12: a face'),
    ('ply', ply(f'element vertex 99999999999999999999\n{XYZ}'), "line 3: '99999999999999999999' is not a count"),
    ('off', b'OFF\n3 1 0\n0 0 0\n1e308 0 0\n-1e308 0 0\n3 0 1 2\n', 'to be reckoned with'),
    ('off', b'OFF\n3 1 0\n0 0 0\n1e-320 0 0\n0 1e-320 0\n3 0 1 2\n', 'to be reckoned with'),
    ('off', b'OFF\n3 1 0\n1e17 0 0\n100000000000000064 0 1\n1e17 0.5 0\n3 0 1 2\n', 'to be reckoned with'),
    ('dxf', b'0\nSECTION\n', "'dxf' is not a format that is read"),
]


def known_cases(counted):
    wrong = []
    for form, data, why in BAD:
        got = mesh('list', '--format', form, data=data)
        if got.status != 2 or why not in got.errors or answer_wrong(got):
            wrong.append(f'{got} for {data[:80]} instead of {why}')
    counted.case(f'{len(BAD)} files that are wrong in a known way', wrong)


OTHERS = [
    (['list', '--format', 'off', '--scale', '0'], b'', "'0' is not a scale"),
    (['list', '--format', 'off', '--scale', '5000'], b'OFF\n3 1 0\n0 0 0\n1 0 0\n0 1 0\n3 0 1 2\n', 'the scale may be 4095 at most'),
    (['list', '--format', 'off', '--weld', 'all'], b'', "'all' is not a way to weld"),
    (['list'], b'', 'what format it has'),
    (['list', '/nowhere/a.stl'], b'', 'cannot read /nowhere/a.stl'),
    (['list', '--format', 'off', '-o', '/nowhere/a'], b'OFF\n3 1 0\n0 0 0\n1 0 0\n0 1 0\n3 0 1 2\n', 'cannot write /nowhere/a'),
    (['fault'], b'', 'there is no list'),
    (['fault'], b'3\n0 1 -2\n', "line 2: '-2' is not a vertex number"),
    (['fault'], b'refused 12\n', 'a refusal, number 12'),
    (['model', '--format', 'stl'], b'', '--positions FILE is missing'),
    (['model', '--positions', '/dev/null'], b'', '--format is missing'),
    (['model', '--positions', '/dev/null', '--format', 'stl'], b'model 3 2 5 1 0\n0 1 2\n', '2 triangles are stated, 3 numbers follow'),
    (['model', '--positions', '/dev/null', '--format', 'stl'], b'3 0 1 2\n', 'the model has 3 vertices, the positions are those of 0'),
    (['model', '--positions', '/dev/null', '--format', 'stl'], b'0 0 1 2\n', 'a triangle names vertex 0'),
    (['model', '--positions', '/dev/null', '--format', 'stl'], b'0 1 2\n', '2 numbers are not three'),
    (['model', '--positions', '/dev/null', '--format', '3ds'], b'0\n', "'3ds' is not a format that is written"),
    (['model', '--positions', '/dev/null', '--frame', '/dev/null', '--format', 'stl'], b'0\n', "ends where 'step' is expected"),
]


def command_cases(counted):
    wrong = []
    for words, data, why in OTHERS:
        got = mesh(*words, data=data)
        if got.status != 2 or why not in got.errors or answer_wrong(got):
            wrong.append(f'{got} for {words} instead of {why}')
    counted.case(f'{len(OTHERS)} commands that fail in a known way', wrong)
    asked = mesh('--help')
    wrong_words = [[], ['lists'], ['list', '--nothing'], ['list', 'a', 'b'], ['list', '--scale'], ['fault', '--frame', 'a']]
    usage = [mesh(*words) for words in wrong_words]
    right = asked.status == 0 and asked.out.startswith(b'usage: mesh ') and not asked.errors
    right = right and all(got.status == 2 and got.errors.encode() == asked.out and not got.out for got in usage)
    counted.case('the use text, asked for and after wrong arguments', [] if right else [str(usage)])
    with open('/dev/full', 'wb') as full:
        done = subprocess.run([MESH, 'fault'], input=b'3 0 1 2', stdout=full, stderr=subprocess.PIPE)
    right = done.returncode == 2 and done.stderr.startswith(b'mesh: cannot write standard output: ')
    counted.case('a write that fails', [] if right else [str(done)])


def main():
    counted = Count()
    known_cases(counted)
    command_cases(counted)
    random_cases(counted, int(sys.argv[1]), random.Random(int(sys.argv[2])))
    counted.end()


main()
