#!/usr/bin/env python3
"""Breaks the lines of proofs and definitions that are longer than a screen is wide; `rt fmt` then indents them.
`tools/wrap.py [--check] FILE..`; what it cannot break it leaves."""
import re
import sys

WIDE = 140
# what binds least is broken first: a line goes on with one of these, or with an argument
BEFORE = [('| ',), ('→ ',), ('× ', '⊎ '), ('|| ',), ('&& ',), ('∙ ',), ('≡ ', '≤ ', '< '), ('∷ ', '++ ', '+ ', '$ ')]
OPEN, CLOSE = '([{⌜', ')]}⌝'


def breaks(line):
    """Where a line may be broken: each space outside comments, with the depth of brackets there and what follows."""
    depth, out, start = 0, [], len(line) - len(line.lstrip())
    for i, ch in enumerate(line):
        if line.startswith('-- ', i):
            break
        if ch in OPEN:
            depth += 1
        elif ch in CLOSE:
            depth -= 1
        elif ch == ' ' and i > start + 8 and line[i - 1] not in 'λ ':
            rest = line[i + 1:]
            if re.match(r'(=|:|↦|as|where|;|\.)( |$)', rest) or re.match(r'[^ ]* (:|=|↦|≔) ', rest) and line[i - 1] in '({;':
                continue
            if re.search(r'(λ [^.]*|\(λ [^.]*)$', line[max(0, i - 60):i]) and '.' not in line[line.rfind('λ', 0, i):i]:
                continue
            ends = line[:i].endswith((' =', ' ↦', ' in', ';')) or line[:i].endswith('.') and not line[:i].endswith('..')
            rank = next((k + 1 for k, words in enumerate(BEFORE) if rest.startswith(words)), len(BEFORE) + 1)
            out.append((depth, 0 if ends else rank, i))
    return out


def words(line, first, then):
    """A line of words, begun by `first`, as lines begun by it or by `then`."""
    out = [first]
    for word in line[len(first):].split():
        if len(out[-1]) + 1 + len(word) > WIDE:
            out.append(then)
        out[-1] += word if out[-1].endswith(' ') else ' ' + word
    return out


def uses(line):
    """The names that are used of a file, in as many lines as they need."""
    head, names = re.fullmatch(r'(.*\.\{)(.*)\};?', line).groups()
    end = '};' if line.endswith(';') else '}'
    out = [head]
    for name in names.split(', '):
        if out[-1] != head and len(out[-1]) + 2 + len(name) + len(end) > WIDE:
            out.append(head)
        out[-1] += name if out[-1] == head else ', ' + name
    return [l + end for l in out]


def broken(line):
    """A line as lines of at most WIDE characters; an attribute stands on one, as `rt fmt` lays it out."""
    if len(line) <= WIDE or line.lstrip().startswith('#['):
        return [line]
    begun = re.match(r' *(-- +|// +|unfolding )', line)
    if begun:
        return words(line, begun[0], begun[0] if '--' in begun[0] or '//' in begun[0] else ' ' * len(begun[0]))
    if re.match(r'(ghost )?use ', line):
        return uses(line) if line.rstrip(';').endswith('}') else [line]
    indent = len(line) - len(line.lstrip())
    found = [b for b in breaks(line) if b[2] <= WIDE and b[2] - indent >= 24]
    if not found:
        found = [b for b in breaks(line)]
        if not found:
            return [line]
        found = [min(found, key=lambda b: b[2])]
    depth, kind, at = min(found, key=lambda b: (b[0], b[1], -b[2]))
    rest = ' ' * (indent + 4) + line[at + 1:].lstrip()
    if len(rest) >= len(line):
        return [line]
    return [line[:at].rstrip()] + broken(rest)


def wrap(text):
    return '\n'.join(piece for line in text.split('\n') for piece in broken(line))


def main(names, check):
    """Breaks the lines of these files, or only says which files have lines to break."""
    long = []
    for name in names:
        with open(name) as f:
            old = f.read()
        new = wrap(old)
        if new != old:
            long.append(name)
            if not check:
                with open(name, 'w') as f:
                    f.write(new)
    if check and long:
        print('lines to break:', *long)
    return 1 if check and long else 0


if __name__ == '__main__':
    args = sys.argv[1:]
    sys.exit(main([a for a in args if a != '--check'], '--check' in args))
