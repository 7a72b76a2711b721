"""Mesh files written and read a second time, apart from the tool that is tested. A solid is (points, faces): coordinates, and faces of
three or more vertex numbers."""
import struct


def triangles_of(faces):
    """The faces cut as fans."""
    return [(face[0], face[i], face[i + 1]) for face in faces for i in range(1, len(face) - 1)]


def turned(triple):
    """From its least corner on: equal for triangles that are the same."""
    lowest = triple.index(min(triple))
    return triple[lowest:] + triple[:lowest]


def six_volumes(points, faces):
    total = 0
    for a, b, c in triangles_of(faces):
        (px, py, pz), (qx, qy, qz), (rx, ry, rz) = points[a], points[b], points[c]
        total += px * (qy * rz - qz * ry) - py * (qx * rz - qz * rx) + pz * (qx * ry - qy * rx)
    return total


def rows(rows):
    return ''.join(' '.join(map(str, row)) + '\n' for row in rows)


def stl_binary(points, faces, header=b'solid, though binary'):
    parts = [header.ljust(80, b' '), struct.pack('<I', len(triangles_of(faces)))]
    for triangle in triangles_of(faces):
        parts.append(struct.pack('<12fH', 0, 0, 0, *(c for v in triangle for c in points[v]), 7))
    return b''.join(parts)


def stl_ascii(points, faces):
    text = 'solid a name\n'
    for triangle in triangles_of(faces):
        corners = ''.join('      vertex ' + ' '.join(map(str, points[v])) + '\n' for v in triangle)
        text += '  facet normal 0 nan 1e0\n    outer loop\n' + corners + '    endloop\n  endfacet\n'
    return (text + 'endsolid a name\n').encode()


def obj(points, faces):
    lines = ['# a comment \xe9', 'mtllib a.mtl', 'o thing'] + ['v ' + ' '.join(map(str, p)) + ' 1.0' for p in points]
    lines += ['vt 0 0', 'vn 0 0 1', 'g part']
    forms = ['{0}', '{0}/1', '{0}//1', '{0}/1/1', '{1}']
    for n, face in enumerate(faces):
        lines.append('f ' + ' '.join(forms[n % 5].format(v + 1, v - len(points)) for v in face))
    return '\r\n'.join(lines).encode('latin-1')


def off(points, faces):
    head = f'OFF\n# a comment\n\n{len(points)} {len(faces)} 0\n'
    return (head + rows(points) + rows([len(face), *face] for face in faces)).encode()


def coff(points, faces):
    head = f'STCNOFF {len(points)} {len(faces)} 0 # counts\n'
    return (head + rows([*p, 0, 0, 1, 9, 9, 9, 255, 0, 0] for p in points) + rows([len(f), *f, 3, 0.5, 1] for f in faces)).encode()


def ply_ascii(points, faces):
    head = 'ply\nformat ascii 1.0\ncomment a\n' + ply_elements(points, faces, 'double')
    text = rows([[7]]) + rows([1, *p, 2, 5, 6] for p in points) + rows([0.5, len(face), *face] for face in faces)
    return (head + text).encode()


def ply_elements(points, faces, real):
    return (f'element other 1\nproperty uchar a\nelement vertex {len(points)}\nproperty short s\nproperty {real} x\nproperty {real} y\n'
            f'property {real} z\nproperty list uchar int8 l\nelement face {len(faces)}\nproperty float32 q\n'
            'property list ushort int vertex_indices\nend_header\n')


def ply_binary(points, faces, order='<'):
    name = {'<': 'binary_little_endian', '>': 'binary_big_endian'}[order]
    parts = [f'ply\nformat {name} 1.0\n{ply_elements(points, faces, "float64")}'.encode(), b'\x07']
    parts += [struct.pack(order + 'hdddBbb', -1, *p, 2, 5, -6) for p in points]
    parts += [struct.pack(f'{order}fH{len(face)}i', 0.5, len(face), *face) for face in faces]
    return b''.join(parts)


def ply_big(points, faces):
    return ply_binary(points, faces, '>')


WRITERS = {
    'stl': [stl_binary, stl_ascii],
    'obj': [obj],
    'off': [off, coff],
    'ply': [ply_ascii, ply_binary, ply_big],
}


def read_stl(data):
    count, = struct.unpack_from('<I', data, 80)
    assert len(data) == 84 + 50 * count and not data.startswith(b'solid')
    facets = [struct.unpack_from('<12fH', data, 84 + 50 * n) for n in range(count)]
    return [tuple(tuple(f[i:i + 3]) for i in (3, 6, 9)) for f in facets], [f[:3] for f in facets]


def read_stl_ascii(data):
    words = data.decode().split()
    assert words[0] == 'solid' and words[-1] == 'endsolid'
    numbers = [float(w) for w in words if w[0] in '-0123456789']
    assert len(words) == 2 + 21 * (len(numbers) // 12) and len(numbers) % 12 == 0
    facets = list(zip(*[iter(numbers)] * 12))
    return [tuple(tuple(f[i:i + 3]) for i in (3, 6, 9)) for f in facets], [f[:3] for f in facets]


def read_obj(data):
    lines = [line.split() for line in data.decode().splitlines()]
    points = [tuple(map(float, line[1:])) for line in lines if line[0] == 'v']
    return [tuple(points[int(w) - 1] for w in line[1:]) for line in lines if line[0] == 'f'], None


def indexed(lines, vertices, faces):
    points = [tuple(map(float, line.split())) for line in lines[:vertices]]
    triangles = [tuple(map(int, line.split())) for line in lines[vertices:]]
    assert len(triangles) == faces and all(t[0] == 3 and len(t) == 4 for t in triangles)
    return [tuple(points[v] for v in t[1:]) for t in triangles], None


def read_off(data):
    head, counts, *lines = data.decode().splitlines()
    assert head == 'OFF'
    return indexed(lines, *map(int, counts.split()[:2]))


def read_ply(data):
    head, body = data.decode().split('end_header\n')
    counts = [int(line.split()[2]) for line in head.splitlines() if line.startswith('element')]
    return indexed(body.splitlines(), *counts)


READERS = {'stl': read_stl, 'stl-ascii': read_stl_ascii, 'obj': read_obj, 'off': read_off, 'ply': read_ply}
