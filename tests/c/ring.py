#!/usr/bin/env python3
"""Whether examples/ring.c prints and packs what the second program answers: `ring.py OUTPUT PACK`.

The ring's list and positions are made here in another way, and every answer comes from the second program's binary."""
import pathlib
import sys

sys.path.insert(0, str(pathlib.Path(__file__).resolve().parent.parent))

import second

NAMES = ['new', 'forward', 'backward', 'border', 'split', 'close', 'union', 'start']
INDEXED = {'split': [10], 'union': [7, 10]}
NOTE = b'two of these'
# An octagon of corners (10, 0) and (7, 7) has an area of 280; between the heights -350 and 350 the ring's is 280 times 12,000 on average.
SIX_BY_HAND = 6 * 280 * 12_000 * 700


def ring():
    """The list by rows that are shifted, and the positions by quarter turns."""
    rows = [list(range(6 * i, 6 * i + 6)) for i in range(8)]

    def shifted(row):
        return row[1:] + row[:1]

    squares = [s for row, after in zip(rows, shifted(rows)) for s in zip(row, after, shifted(after), shifted(row))]
    triangles = [t for a, b, c, d in squares for t in ((a, b, c), (a, c, d))]
    hexagon = [(140, 0), (120, 350), (80, 350), (60, 0), (80, -350), (120, -350)]
    points = []
    for quarter in range(4):
        for x, y in ((10, 0), (7, 7)):
            for _ in range(quarter):
                x, y = -y, x
            points += [(x * out, y * out, up) for out, up in hexagon]
    return [n for t in triangles for n in t], [z for p in points for z in p]


def operations(pack):
    """The lines of the pack's operations; in a closed model each of them builds a triangle."""
    bits = ''.join(f'{b:08b}' for b in pack[14:14 + int.from_bytes(pack[12:14], 'big')])
    out = []
    while len(out) < int.from_bytes(pack[5:7], 'big'):
        name, bits = NAMES[int(bits[:3], 2)], bits[3:]
        words = [name]
        for width in INDEXED.get(name, []):
            words.append(str(int(bits[:width], 2)))
            bits = bits[width:]
        out.append('op ' + ' '.join(words))
    return out


def answers(lines):
    """What the second program answers to each line, without its rooms."""
    return [answer.split(' | ')[0] for answer in second.answers(lines)]


def named(answer):
    """The parts key=value of an answer, and the rest of it."""
    words = answer.split()
    return dict(w.split('=') for w in words if '=' in w), [w for w in words if '=' not in w]


def numbers(name, words):
    return ' '.join([f'{name}:', *words])


def told(name, answer):
    """An answer as the example prints it."""
    return f'{name}: accepted' if answer.startswith('ok') else f'{name}: {answer}'


def expected():
    """What the example is to print, and its pack."""
    entries, positions = ring()
    joined = ','.join(map(str, entries))
    check, packed = answers([f'check v=48 list={joined}',
                                     f'pack v=48 list={joined} positions={",".join(map(str, positions))} note={NOTE.hex()}'])
    parts, _ = named(packed)
    pack = bytes.fromhex(parts['pack'])
    counts = [int.from_bytes(pack[i:i + 2], 'big') for i in (3, 5, 7, 9)]
    begin, ops = 'begin v={} t={} places={} loops={}'.format(*counts), operations(pack)
    bench, volume, melted, cut, begun, *built, finish = answers([
        f'bench pack={pack.hex()}', f'volume pack={pack.hex()}', f'reader pack={pack.hex()}', f'reader pack={pack[:-1].hex()}', begin, *ops,
        'finish'])
    of_bench, model = named(bench)
    out = [told('check', check), told('pack', packed), f'bytes: {parts["len"]}', numbers('numbering', parts['numbering'].split(',')),
           numbers('order', parts['order'].split(',')), told('unpack', bench),
           numbers('vertices, triangles, edges, rims, unions', model[1:6]), f'Euler number: {model[6]}',
           f'note: {bytes.fromhex(of_bench["note"]).decode()}', numbers('triangles', of_bench['triangles'].split(',')),
           told('volume', volume), told('furnace', melted),
           f'six times the volume: {named(volume)[0]["six"]}, the furnace\'s: {named(melted)[0]["six"]}', told('a pack cut short', cut),
           told('begin', begun)]
    out += [numbers(op.split()[1], [w for w in answer.split()[1:] if w != 'none']) for op, answer in zip(ops, built)]
    out += [told('finish', finish), numbers('edges, rims, unions', finish.split()[1:4]), f'Euler number: {finish.split()[4]}']
    return out, pack


def main():
    output, packed = sys.argv[1:]
    lines, pack = expected()
    found = pathlib.Path(output).read_text().splitlines()
    wrong = [f'line {i + 1}: {a!r}, expected {b!r}' for i, (a, b) in enumerate(zip(found, lines)) if a != b]
    if len(found) != len(lines):
        wrong.append(f'{len(found)} lines, expected {len(lines)}')
    if pathlib.Path(packed).read_bytes() != pack:
        wrong.append('another pack')
    if f'six times the volume: {SIX_BY_HAND}, the furnace\'s: {SIX_BY_HAND}' not in found:
        wrong.append(f'the volume is not {SIX_BY_HAND}')
    print('\n'.join(wrong[:5]) or f'{len(lines)} lines and {len(pack)} bytes alike')
    sys.exit(bool(wrong))


if __name__ == '__main__':
    main()
