#!/usr/bin/env python3
"""Draws docs/ring.svg from the lines that run.c prints: `run < ring.txt | draw.py > ring.svg`. Vertex n of the list stands in column n % 4
and row n // 4 of the unrolled ring, so that a triangle lies in one cell; each edge is drawn wherever it lies in the frame."""
import sys
from collections import namedtuple

SHOWN = 1, 2, 6, 7, 11, 17, 18, 20, 21, 23, 25, 26, 27, 30, 34
COLUMNS = ROWS = 4
CELL, VERTEX = 40, 7.5  # a cell's side and a vertex's radius, in pixels as all that follows
TOP, SIDE, ACROSS, DOWN, PANELS = 134, 24, 212, 228, 5  # the first panel's corner, the way to the next, and how many stand side by side

Step = namedtuple('Step', 'number words built waiting current')  # loops are lists of (vertex, open); of the waiting the latest is first
NOTHING = Step(0, [], [], [], [])

STYLE = '''
text { font-family: sans-serif; fill: #333 } .title { font-size: 19px; font-weight: bold } .name { font-size: 13px; font-weight: bold }
.said { font-size: 11px } .n { font-size: 9px; text-anchor: middle } .grey { fill: #777 } .white { fill: #fff; font-weight: bold }
path { fill: none; stroke-linejoin: round } .model { fill: #fff; stroke: #d4d4d4; stroke-width: 1 }
.built { fill: #dfe5ea; stroke: #c3ccd3; stroke-width: 1 } .this { fill: #f7d774; stroke: #c3ccd3; stroke-width: 1 }
.loop { stroke: #0072b2; stroke-width: 4 } .edge { stroke: #d55e00; stroke-width: 4 } .point { fill: #d55e00 }
.waits { stroke: #8a4fae; stroke-width: 3; stroke-dasharray: 9 2 } .turn { fill: #8a4fae }
.marked { stroke: #222; stroke-width: 4; stroke-dasharray: 5 3 } .left { stroke: #222; stroke-width: 1.5; stroke-dasharray: 5 3 }
.link { stroke: #222; stroke-width: 3; stroke-dasharray: .1 5; stroke-linecap: round }
.vertex { fill: #fff; stroke: #555 } .again { fill: #f4f4f4; stroke: #bbb } .unused { fill: #c4c4c4 }
'''


def places(words):
    """A loop's places as run.c prints them: 8- 5- 6=."""
    return [(int(word[:-1]), word[-1] == '-') for word in words]


def read(lines):
    """The model's triangles in new numbers, where each vertex stands, the steps, and the totals."""
    triangles, steps, numbering, totals = [], [], [], []
    for kind, *words in (line.replace(':', '').split() for line in lines):
        if kind == 'numbering':
            numbering = [int(word) for word in words]
        elif kind == 'triangle':
            triangles.append([numbering[int(word)] for word in words])
        elif kind == 'step':
            steps.append(Step(int(words[0]), words[1:], [], [], []))
        elif kind == 'built' and words != ['none']:
            steps[-1].built.extend(map(int, words))
        elif kind == 'waiting':
            steps[-1].waiting.insert(0, places(words[1:]))
        elif kind == 'current':
            steps[-1].current.extend(places(words))
        elif kind == 'complete':
            totals = words
    return triangles, {new: (old % COLUMNS, old // COLUMNS) for old, new in enumerate(numbering)}, steps, totals


def nearest(here, there, period):
    """The copy of `there` beside `here`, along an axis that goes round."""
    step = (there - here + 1) % period - 1
    if step > 1:
        sys.exit('draw: two vertices of an edge or a link are not neighbours in the grid')
    return here + step


def copies(grid, vertices):
    """The vertices' points, one beside the other, wherever all of them lie in the frame."""
    chain = [grid[vertices[0]]]
    for v in vertices[1:]:
        chain.append((nearest(chain[-1][0], grid[v][0], COLUMNS), nearest(chain[-1][1], grid[v][1], ROWS)))
    shifts = [(x, y) for x in (-COLUMNS, 0, COLUMNS) for y in (-ROWS, 0, ROWS)]
    moved = [[(c + x, r + y) for c, r in chain] for x, y in shifts]
    inside = [points for points in moved if all(0 <= c <= COLUMNS and 0 <= r <= ROWS for c, r in points)]
    return [[(c * CELL, (ROWS - r) * CELL) for c, r in points] for points in inside]


def decimals(*numbers):
    """One decimal, the same on every machine."""
    return ' '.join(f'{round(10 * number) / 10:g}' for number in numbers)


def lines_to(points):
    return 'M' + 'L'.join(decimals(*point) for point in points)


def path(kind, parts):
    return f'<path class="{kind}" d="{"".join(parts)}"/>\n' if parts else ''


def along(start, end, far, aside):
    """The point that lies `far` pixels before the end and `aside` pixels to the right of the way there."""
    (x, y), (u, v) = start, end
    length = ((u - x) ** 2 + (v - y) ** 2) ** 0.5
    dx, dy = (u - x) / length, (v - y) / length
    return u - far * dx - aside * dy, v - far * dy + aside * dx


def half(start, end):
    return ((end[0] - start[0]) ** 2 + (end[1] - start[1]) ** 2) ** 0.5 / 2


def arrow(kind, head, start, end):
    """A current edge, with its point before the end's circle."""
    tip = [along(start, end, VERTEX, 0), along(start, end, VERTEX + 10, 6), along(start, end, VERTEX + 10, -6)]
    return path(kind, [lines_to([start, along(start, end, VERTEX + 7, 0)])]) + path(head, [lines_to(tip) + 'Z'])


def bow(start, end):
    """A link, bent to the left: over what it cuts off."""
    return lines_to([start]) + 'Q' + decimals(*along(start, end, half(start, end), -0.8 * half(start, end)), *end)


def turn(number, start, end):
    """A waiting loop's number, on the open side of its current edge; not outside of the frame."""
    x, y = along(start, end, half(start, end), 11)
    if not (0 < x < COLUMNS * CELL and 0 < y < ROWS * CELL):
        return ''
    return f'<circle class="turn" cx="{decimals(x)}" cy="{decimals(y)}" r="6.5"/>' + label('n white', x, y + 3.2, number)


def label(kind, x, y, words):
    return f'<text class="{kind}" x="{decimals(x)}" y="{decimals(y)}">{words}</text>\n'


def edges(loop):
    """A loop's edges, each with whether it is open, the current one first."""
    return [((a, b), is_open) for (a, is_open), (b, _) in zip(loop, loop[1:] + loop[:1])]


def drawn_loop(grid, loop, marked, line, shaft, head):
    """A loop: its open edges but the current one, those marked by an operation, the links, and the current edge."""
    def each(draw, wanted):
        return [draw(*points) for edge, is_open in edges(loop)[1:] if wanted(edge, is_open) for points in copies(grid, edge)]

    def straight(*points):
        return lines_to(points)
    return (path(line, each(straight, lambda edge, is_open: is_open))
            + path('marked', each(straight, lambda edge, is_open: not is_open and edge in marked))
            + path('link', each(bow, lambda edge, is_open: not is_open and edge not in marked))
            + ''.join(arrow(shaft, head, *points) for points in copies(grid, edges(loop)[0][0])))


def vertices(grid, used):
    """Every point of the frame: a vertex that is built by its number, at the far sides in grey."""
    def one(v, x, y):
        if v >= used:
            return f'<circle class="unused" cx="{x}" cy="{y}" r="2"/>\n'
        again = x == COLUMNS * CELL or y == 0
        return (f'<circle class="{"again" if again else "vertex"}" cx="{x}" cy="{y}" r="{VERTEX}"/>'
                + label('n grey' if again else 'n', x, y + 3.2, v))
    return ''.join(one(v, *points[0]) for v in sorted(grid) for points in copies(grid, [v]))


def loops(step):
    return [loop for loop in step.waiting + [step.current] if loop]


def remark(step, before, marked):
    """What the operation built or marked, what it linked, and which edge is current then."""
    def links(of):
        return [edge for loop in loops(of) for edge, is_open in edges(loop) if not is_open and edge not in marked]

    def arrows(edge):
        return '{}&#8594;{}'.format(*edge)
    said = ['builds ' + ' '.join(map(str, step.built)) if step.built else 'marks ' + arrows(edges(before.current)[0][0])]
    said += ['a rim'] * (not step.built and len(loops(step)) < len(loops(before)))
    said += ['link ' + arrows(edge) for edge in links(step) if edge not in links(before)]
    said += ['current ' + arrows(edges(step.current)[0][0]) if step.current else 'no loop is left']
    return ', '.join(said)


def panel(model, grid, steps):
    """The last of the steps, after those before it."""
    before, step = ([NOTHING] + steps)[-2:]
    marked = {edges(a.current)[0][0] for a, b in zip(steps, steps[1:]) if not b.built}
    held = {edge for loop in loops(step) for edge, _ in edges(loop)}

    def filled(kind, triangles):
        return path(kind, [lines_to(points) + 'Z' for t in triangles if t for points in copies(grid, t)])
    return (label('name', 0, -30, f'step {step.number}: {" ".join(step.words)}') + label('said', 0, -16, remark(step, before, marked))
            + f'<rect width="{COLUMNS * CELL}" height="{ROWS * CELL}" fill="url(#none)"/>\n'
            + filled('model', model) + filled('built', [s.built for s in steps[:-1]]) + filled('this', [step.built])
            + path('left', [lines_to(points) for edge in sorted(marked - held) for points in copies(grid, edge)])
            + ''.join(drawn_loop(grid, loop, marked, 'waits', 'waits', 'turn') for loop in step.waiting)
            + (drawn_loop(grid, step.current, marked, 'loop', 'edge', 'point') if step.current else '')
            + vertices(grid, 1 + max(v for s in steps for v in s.built))
            + ''.join(turn(i + 1, *points) for i, loop in enumerate(step.waiting) for points in copies(grid, edges(loop)[0][0])))


def legend():
    """Each sign: its column and row, a sample, 36 wide, and its words. A column is of triangles, loops, marks or vertices."""
    start, end = (0, 0), (36, 0)
    across = lines_to([start, end])

    def box(style):
        return f'<rect x="6" y="-8" width="24" height="16" {style}/>\n'

    def circle(kind, words):
        return f'<circle class="{kind}" cx="18" cy="0" r="{VERTEX}"/>' + label(words, 18, 3.2, 8)

    def pointed(kind, head):
        return arrow(kind, head, start, (end[0] + VERTEX, 0))
    groups = [
        [(box('class="built"'), 'built before'),
         (box('class="this"'), 'built by this operation'),
         (box('fill="url(#none)"'), 'the window: no triangles')],
        [(path('loop', [across]), 'current loop, an open edge'),
         (pointed('edge', 'point'), 'current edge'),
         (pointed('waits', 'turn') + turn(1, (1, -9), (25, -9)), 'waiting loop, 1 the latest')],
        [(path('marked', [across]), 'marked as border'),
         (path('left', [across]), 'marked as border, has left its loop'),
         (path('link', [bow((0, 5), (36, 5))]), 'link: marked, no edge of the model')],
        [(circle('vertex', 'n'), 'a vertex, by its new number'),
         (circle('again', 'n grey'), 'the same vertex once more')],
    ]
    return [(i, j, *sign) for i, group in enumerate(groups) for j, sign in enumerate(group)]


def at(x, y, drawn):
    return f'<g transform="translate({decimals(x, y)})">\n{drawn}</g>\n'


def heading(width, height, captions):
    name = 'The cut-border moves over a small ring'
    return (f'<svg xmlns="http://www.w3.org/2000/svg" viewBox="0 0 {width} {height}" width="{width}" height="{height}">\n'
            f'<title>{name}</title>\n<style>{STYLE}</style>\n<defs><pattern id="none" width="5" height="5" patternUnits="userSpaceOnUse">'
            '<rect width="5" height="5" fill="#fff"/><path d="M0 5L5 0" stroke="#aaa" stroke-width=".8"/></pattern></defs>\n'
            f'<rect width="{width}" height="{height}" fill="#fff"/>\n' + label('title', SIDE, 34, name)
            + ''.join(label('said', SIDE, 56 + 16 * i, caption) for i, caption in enumerate(captions)))


def captions(model, grid, steps, totals):
    edge_count, rims, unions, _ = totals
    return [f'A run of the library: {len(steps)} operations build {len(model)} triangles with {len(grid)} vertices and {edge_count} edges, '
            f'{rims} rim (the window) and {unions} union (the handle). Shown is the builder after {len(SHOWN)} of them.',
            'The ring is unrolled: the left and the right side of each square are the same, and so are top and bottom. What lies on a side '
            'is drawn on both.']


def check(model, steps, totals):
    """The run is whole, and what it built is the model."""
    def turned(triangle):
        return min(tuple(triangle[i:] + triangle[:i]) for i in range(3))
    built = [step.built for step in steps if step.built]
    if not totals or len(steps) < max(SHOWN) or sorted(map(turned, built)) != sorted(map(turned, model)):
        sys.exit('draw: the steps do not build the model')


def main():
    model, grid, steps, totals = read(sys.stdin)
    check(model, steps, totals)
    below = TOP + -(-len(SHOWN) // PANELS) * DOWN - 18
    print(heading(2 * SIDE + PANELS * ACROSS - 8, below + 86, captions(model, grid, steps, totals)), end='')
    for i, number in enumerate(SHOWN):
        print(at(SIDE + i % PANELS * ACROSS, TOP + i // PANELS * DOWN, panel(model, grid, steps[:number])), end='')
    for i, j, sample, words in legend():
        print(at(SIDE + i * 270, below + j * 28, sample + label('said', 46, 4, words)), end='')
    print('</svg>')


if __name__ == '__main__':
    main()
