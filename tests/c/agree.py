#!/usr/bin/env python3
"""Whether the headers say what the Rattle sources and the archives have: `agree.py [TOP]`, TOP the project's folder or a copy of it.

Of each function the parameters in their order, types and names, the refusals, how each buffer is to be aligned, that the crate which
exports it has it as its library has it, and that the archive of its header exports it, and no other; of place records and builders each
field, where C's rules put it; the limits; the operations' codes. The last line is 'N passed, M failed'."""
import pathlib
import re
import subprocess
import sys
import tempfile

LIBRARIES = {'cutborder.h': 'capi', 'cutborder_search.h': 'search', 'furnace.h': 'furnace'}
# A buffer's length has 64 bits on every machine in furnace.h.
LENGTH = {'furnace.h': 'uint64_t'}
TYPES = {'u8': 'uint8_t', 'u16': 'uint16_t', 'i16': 'int16_t', 'u32': 'uint32_t', 'i32': 'int32_t', 'i64': 'int64_t', 'usize': 'size_t',
         'Place': 'struct cutborder_place', 'Builder': 'struct cutborder_builder'}
ALIGNMENTS = {'u8': 1, 'bool': 1, 'u16': 2, 'i16': 2, 'u32': 4, 'i32': 4, 'i64': 8, 'usize': 8, 'Place': 2, 'Builder': 2}
# What is named otherwise in C.
PARAMETERS = {'buffer': 'pack'}
FIELDS = {'stated.vertices': 'vertices', 'stated.triangles': 'triangles', 'stated.places': 'most_places', 'stated.loops': 'most_loops',
          'peaks.places': 'peak_places', 'peaks.loops': 'peak_loops'}
# Each limit of the headers, by the constants of the sources. A pack: counts, operations (20 bits at most for each triangle and 3 for each
# edge), positions, a note.
LIMITS = {'CUTBORDER_PLACES': 'MAX_PLACES', 'CUTBORDER_LOOPS': 'MAX_LOOPS', 'CUTBORDER_VERTICES': 'VERTICES',
          'CUTBORDER_TRIANGLES': 'TRIANGLES', 'CUTBORDER_ENTRIES': 'CORNERS', 'CUTBORDER_NOTE_BYTES': 'MOST_NOTE',
          'CUTBORDER_PACK_BYTES': '14 + (20 * TRIANGLES + 3 * CORNERS) // 8 + 6 * VERTICES + 3 + MOST_NOTE + 3',
          'CUTBORDER_LINKS': 'VERTICES + CORNERS', 'FURNACE_MEMORY': 'BYTES', 'FURNACE_PLACES': 'FURNACE_PLACES',
          'FURNACE_LOOPS': 'FURNACE_LOOPS'}
NUMBERS = r'\d+(?: to \d+)?(?:(?:, then |, | or | and )\d+(?: to \d+)?)*'


def value(expression, names):
    """A sum or product of numbers and names."""
    words = re.sub(r'(?:\w+::)?([A-Z]\w*)', lambda m: str(value(names[m[1]], names)), str(expression))
    if not re.fullmatch(r'[\d +*/()]+', words):
        raise ValueError(f'no number: {expression}')
    return eval(words)


def constants(top):
    """The sources' constants of sizes, as they are written."""
    texts = [(top / f'crates/{page}.rt').read_text() for page in ('rules/src/lib', 'cells/src/bytes')]
    return dict(m.groups() for text in texts for m in re.finditer(r'const (\w+): usize = ([^;]+);', text))


def aliases(top, names):
    """The sources' array types that have a name."""
    text = (top / 'crates/corners/src/lib.rt').read_text()
    return {name: f'[{of}; {value(n, names)}]' for name, of, n in re.findall(r'pub type (\w+) = \[(\w+); ([^\]]+)\];', text)}


def in_source(text):
    """The exported functions of a source: parameters, what is returned, and the comment."""
    found = re.findall(r'((?:^//.*\n)+)#\[unsafe\(no_mangle\)\]\npub extern "C" fn (\w+)\(([^)]*)\) -> (\w+)', text, re.M)
    return {name: ([tuple(p.strip().split(': ', 1)) for p in re.split(r',(?![^\[]*\])', ps) if p.strip()], gives,
                   ' '.join(comment.replace('//', '').split())) for comment, name, ps, gives in found}


def promised(text):
    """The clauses of the exported functions of a source."""
    found = re.findall(r'^pub extern "C" fn (\w+)\([^)]*\) -> \w+\n((?:    .*\n)*?){', text, re.M)
    return {name: clauses.split() for name, clauses in found}


def in_header(text):
    """The functions of a header: parameters as they stand, what is returned, and the comment's lines by their labels."""
    found = re.findall(r'/\*((?:[^*]|\*(?!/))*)\*/\n(\w+) (\w+)\(([^)]*)\);', text)
    out = {}
    for comment, gives, name, ps in found:
        lines = re.findall(r'\n \* ([A-Z]\w+)  +((?:.|\n \*   )*)', comment)
        labels = {label: ' '.join(of.replace('*', ' ').split()) for label, of in lines}
        out[name] = [' '.join(p.split()) for p in ps.split(',')], gives, labels
    return out


def in_c(parameter, length, names, known):
    """What a source's parameter is in C: one parameter, or a pointer and a length."""
    name, kind = parameter
    name = PARAMETERS.get(name, name)
    m = re.fullmatch(r'&(mut )?(.+)', kind)
    if not m:
        return [f'{TYPES[kind]} {name}']
    const, kind = '' if m[1] else 'const ', known.get(m[2], m[2])
    array = re.fullmatch(r'\[(\w+)(?:; ([^\]]+))?\]', kind)
    if array and array[2]:
        return [f'{const}{TYPES[array[1]]} {name}[{value(array[2], names)}]']
    if not array:
        return [f'{const}{TYPES[kind]} *{name}']
    counted = 'records' if array[1] == 'Place' else f'{name}_bytes' if array[1] == 'u8' else f'{name}_entries'
    return [f'{const}{TYPES[array[1]]} *{name}', f'{length} {counted}']


def alignments(parameters, known):
    """Which parameters that are pointers are aligned to how many bytes; those to 1 are not told."""
    out = {}
    for name, kind in parameters:
        if kind[0] == '&':
            bare = re.sub(r'&(mut )?', '', kind)
            n = ALIGNMENTS[re.search(r'\w+', known.get(bare, bare))[0]]
            out.setdefault(n, []).append(PARAMETERS.get(name, name))
    return {n: names for n, names in out.items() if n > 1}


def numbers(words):
    """The numbers of a list such as '1 to 8, 22, 9 to 11'."""
    spans = re.findall(r'(\d+)(?: to (\d+))?', words)
    return [k for a, b in spans for k in range(int(a), int(b or a) + 1)]


def refusals(functions):
    """What each function of a source refuses, in the order of the tests, by its comment; what is said of another function is taken over."""
    out, told = {}, []
    for name, (_, _, comment) in functions.items():
        more = re.search(r'(\d+(?: and \d+)*) besides, (?:after (\d+)|last)', comment)
        plain = re.search(rf'(?:refusals |the refusal, )({NUMBERS})|: ({NUMBERS}), or ', comment)
        if more and comment.startswith('The same'):
            at = told.index(int(more[2])) + 1 if more[2] else len(told)
            out[name] = told[:at] + numbers(more[1].replace('and', ',')) + told[at:]
        elif as_other := re.search(r'as `(\w+)` does', comment):
            out[name] = out[as_other[1]]
        elif plain:
            out[name] = told = numbers(plain[1] or plain[2])
    return out


def fields(top, name, names, at=0, before=''):
    """The fields of a struct of the sources with where each lies and its size, by C's rules; the struct's end; and its alignment. One that
    is not laid out as C does has no fields."""
    text = (top / 'crates/rules/src/lib.rt').read_text()
    body = re.search(rf'#\[repr\(C\)\]\n(?:#\[derive\(.*\)\]\n)?pub struct {name} {{\n(.*?)\n}}', text, re.S)
    out, most = [], 1
    for field, kind in re.findall(r'pub (\w+): (.+),', body[1] if body else ''):
        array = re.fullmatch(r'\[(\w+); (.+)\]', kind)
        if kind in ALIGNMENTS or array:
            one = ALIGNMENTS[array[1] if array else kind]
            at = -(-at // one) * one
            size = one * (value(array[2], names) if array else 1)
            path = before + field
            out.append((FIELDS.get(path, path), at, size))
            at += size
        else:
            inner, at, one = fields(top, kind, names, at, f'{field}.')
            out += inner
        most = max(most, one)
    return out, -(-at // most) * most, most


def compiled(top, structs):
    """What a C compiler makes of the header's structs: a line for each field in the header's order, then size and alignment."""
    text = re.sub(r'/\*.*?\*/', '', (top / 'include/cutborder.h').read_text(), flags=re.S)
    lines = []
    for struct in structs:
        body = re.search(rf'struct {struct} {{(.*?)}};', text, re.S)[1]
        for field in re.findall(r'(\w+)(?:\[\w+\])?[,;]', body):
            lines.append(f'printf("{field} %zu %zu\\n", offsetof(struct {struct}, {field}), sizeof(((struct {struct} *)0)->{field}));')
        lines.append(f'printf("{struct} %zu %zu\\n", sizeof(struct {struct}), _Alignof(struct {struct}));')
    with tempfile.TemporaryDirectory() as folder:
        source, program = pathlib.Path(folder, 'layout.c'), pathlib.Path(folder, 'layout')
        source.write_text('#include "cutborder.h"\n#include <stdio.h>\nint main(void) {\n' + '\n'.join(lines) + '\n}\n')
        subprocess.run(['cc', '-std=c11', '-I', top / 'include', '-o', program, source], check=True)
        return subprocess.run([program], check=True, capture_output=True, text=True).stdout.splitlines()


def exported(archive):
    """The functions that an archive has for its callers, by their names."""
    lines = subprocess.run(['nm', '-g', '--defined-only', archive], check=True, capture_output=True, text=True).stdout.splitlines()
    return {words[2] for words in map(str.split, lines) if len(words) == 3 and words[1] == 'T'}


class Comparison:
    """Counts what was compared, and says what differs."""

    def __init__(self):
        self.passed = self.failed = 0

    def same(self, what, source, header):
        if source == header:
            self.passed += 1
            print(f'ok: {what}')
        else:
            self.failed += 1
            print(f'FAILED: {what}\n  source  {source}\n  header  {header}')


def compare_function(told, name, source, header, length, names, known):
    """One function's prototype, and how its buffers are aligned."""
    parameters, gives, _ = source
    of_header, header_gives, labels = header
    in_numbers = [re.sub(r'\[([A-Z_]+)\]', lambda m: f'[{value(m[1], names)}]', p) for p in of_header]
    expected = [p for each in parameters for p in in_c(each, length, names, known)]
    told.same(f'{name}: parameters and answer', (expected, TYPES[gives]), (in_numbers, header_gives))
    aligned = dict(re.findall(r'to (\d): ([\w, ]+)', labels.get('Aligned', '').split('(')[0]))
    told.same(f'{name}: alignment', alignments(parameters, known), {int(n): ws.strip().split(', ') for n, ws in aligned.items()})


def compare_refusals(told, header, text, source, declared):
    """What each function refuses. The comment of the furnace's source counts it up; its header has a table in the order of the tests."""
    tested, in_order = refusals(source), sorted if header == 'furnace.h' else list
    for name in source:
        returns = re.match(rf'0, or ({NUMBERS})', declared.get(name, (0, 0, {}))[2].get('Returns', ''))
        listed = numbers(returns[1]) if returns else []
        told.same(f'{name}: refusals', in_order(tested.get(name, [])), in_order(listed))
    if header == 'furnace.h':
        told.same('furnace.h: the table of refusals', listed, [int(n) for n in re.findall(r'^ \* +(\d+)  ', text, re.M)])


def compare_library(told, top, header, library, names):
    """All functions of one header."""
    text = (top / 'include' / header).read_text()
    own, exports = ((top / f'crates/{crate}/src/lib.rt').read_text() for crate in (library, f'{library}_c'))
    source, declared = in_source(own), in_header(text)
    known = aliases(top, names)
    of_header = dict(re.findall(r'#define (\w+) (-?\d+)', text))
    told.same(f'{header}: what {library}_c exports', source, in_source(exports))
    told.same(f'{header}: what {library}_c promises', promised(own), promised(exports))
    told.same(f'{header}: the functions, in their order', list(source), re.findall(r'^\w+ (\w+)\(', text, re.M))
    told.same(f'{header}: the functions of lib{library}.a', exported(top / f'target/staticlib/lib{library}.a'), set(declared))
    labelled = {n for n, (_, _, labels) in declared.items() if {'Returns', 'Lent', 'Aligned', 'Stack'} <= set(labels)}
    told.same(f'{header}: each function has its promise', set(source), labelled)
    for name in [n for n in source if n in declared]:
        compare_function(told, name, source[name], declared[name], LENGTH.get(header, 'size_t'), names | of_header, known)
    compare_refusals(told, header, text, source, declared)


def compare_limits(told, top, names):
    """The limits, and that the headers have no others."""
    text = ''.join((top / 'include' / header).read_text() for header in LIBRARIES)
    stated = {name: int(n) for name, n in re.findall(r'#define (\w+) (-?\d+)', text)}
    told.same('limits', {name: value(of, names) for name, of in LIMITS.items()}, stated)
    most = re.search(r'No pack has over ([\d,]+) bytes', (top / 'crates/text/src/packs.rt').read_text())[1]
    told.same('the longest pack', int(most.replace(',', '')), stated['CUTBORDER_PACK_BYTES'])


def compare_codes(told, top):
    """The operations' codes: the enum of the types, what a pack's codes are read as, and the header's enum."""
    header = re.search(r'enum {(.*?)}', (top / 'include/cutborder.h').read_text(), re.S)[1]
    stated = [name.capitalize() for name in re.findall(r'CUTBORDER_(\w+)', header)]
    declared = re.search(r'pub enum Operation {(.*?)}', (top / 'crates/rules/src/lib.rt').read_text(), re.S)[1]
    read = re.search(r'pub fn kind_of.*?match code {(.*?)}', (top / 'crates/wire/src/reader.rt').read_text(), re.S)[1]
    told.same('operations', re.findall(r'([A-Z]\w+)', declared), stated)
    told.same('codes', re.findall(r'(\w+) => Operation::(\w+)', read), [(str(i) if i < 7 else '_', n) for i, n in enumerate(stated)])


def compare_layouts(told, top, names):
    """Place records and builders."""
    structs = {'cutborder_place': 'Place', 'cutborder_builder': 'Builder'}
    expected = []
    for struct, name in structs.items():
        of, end, alignment = fields(top, name, names)
        expected += [f'{field} {at} {size}' for field, at, size in of] + [f'{struct} {end} {alignment}']
    try:
        found = compiled(top, structs)
    except subprocess.CalledProcessError:
        found = 'the header does not compile'
    told.same('place records and builders: where each field lies', expected, found)


def main():
    top = pathlib.Path(sys.argv[1]) if sys.argv[1:] else pathlib.Path(__file__).resolve().parents[2]
    names, told = constants(top), Comparison()
    for header, library in LIBRARIES.items():
        compare_library(told, top, header, library, names)
    compare_limits(told, top, names)
    compare_codes(told, top)
    compare_layouts(told, top, names)
    print(f'{told.passed} passed, {told.failed} failed')
    sys.exit(told.failed != 0)


if __name__ == '__main__':
    main()
