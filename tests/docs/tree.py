"""What the project has that a document may name: crates, files, theorems and definitions, records and their fields, functions, must-fail
edits, rows of the table, programs and their options."""
import fnmatch
import os
import re
import subprocess

TOP = os.path.dirname(os.path.dirname(os.path.dirname(os.path.abspath(__file__))))
DECLARED = re.compile(r' *(?:pub |abbrev |unfoldable )*(?:(record|data|module) (\S+)|([^\s:(){}=]+(?: [^\s:(){}=]+)*) :(?:\s|$))')
ITEM = re.compile(r'\b(?:fn|struct|enum|trait|const|static|mod|type|def|class) (\w+)|^ +(?:pub )?(\w+): |^([A-Z_]+) =', re.M)
# A word of Rattle that names nothing in the tree.
WORDS = {'impl'}
TYPE = re.compile(r'^(?:pub )?(?:enum|struct) (\w+)[^{;]*\{(.*?)^\}', re.M | re.S)


def of_page(text):
    """What a page of specs/ or proofs/ states, and the fields or constructors of each record and data type."""
    stated, parts, blocks = set(), {}, []
    for line in filter(str.strip, text.splitlines()):
        depth, declared = len(line) - len(line.lstrip()), DECLARED.match(line)
        blocks = [b for b in blocks if b[0] < depth]
        if not declared or depth != (blocks[-1][0] + 2 if blocks else 0):
            continue
        within = parts[blocks[-1][1]] if blocks and blocks[-1][2] != 'module' else stated
        within.update(n.strip('«»') for n in (declared[2] or declared[3]).split())
        if declared[1]:
            blocks.append((depth, declared[2], declared[1]))
            parts[declared[2]] = set()
    return stated, parts


def of_code(text):
    """The items of a source, and the variants and fields of each type."""
    return ({n for found in ITEM.findall(text) for n in found if n},
            {name: set(re.findall(r'^    (?:pub )?(\w+)', body, re.M)) for name, body in TYPE.findall(text)})


def of_words(text):
    """All words but those of comments: of headers, and of the script that names packages."""
    return set(re.findall(r'[\w-]+', re.sub(r'/\*.*?\*/', '', text, flags=re.S))), {}


READERS = {'antt': of_page, 'rt': of_code, 'rs': of_code, 'py': of_code, 'h': of_words, 'tests/avr/install': of_words}


class Tree:
    """What there is, read once: the text of each file, what it declares, and the ends of its path, by which it may be called."""

    def __init__(self):
        self.files, self.stated, self.names, self.parts, self.ends = {}, {}, {}, {}, {}
        for folder, below, files in os.walk(TOP):
            below[:] = [b for b in below if b not in ('target', 'out', '.git')]
            for path in [folder + '/'] + [f'{folder}/{f}' for f in files]:
                self.read(path[len(TOP) + 1:])
        text = ''.join(t for f, t in self.files.items() if f.endswith(('.rt', '.rs', '.py', '.antt')))
        lines = re.findall(r'^(\w+)(?: staticlib)?:(.*)', self.files['crates.txt'], re.M)
        kit = ' '.join(re.findall(r'use (?!Rattle\.(?!std\.))[\w.]+\.\{([^}]*)\}', text) + [uses for _, uses in lines])
        self.crates = {name for name, _ in lines}
        self.edits = [f for f in self.files if f.endswith('.edit')]
        self.known = self.crates.union(WORDS, re.split('[ ,]+', kit), *self.names.values(), (os.path.basename(f)[:-5] for f in self.edits))
        self.literals = set(re.findall(r'''["']((?<=")[^"\n]+|--[^'\n]+)''', text))
        self.rows = re.findall(r'^    -- (.*)', self.files['crates/rules/proofs/Models.antt'], re.M)
        self.help = subprocess.run(['rt', 'help'], stdout=subprocess.PIPE, stderr=subprocess.STDOUT, text=True).stdout
        self.commands = {c for cs in re.findall(r'^(?:usage:)? +rt ([a-z|-]+)', self.help, re.M) for c in cs.split('|')}

    def read(self, path):
        self.files[path] = '' if not os.path.isfile(f'{TOP}/{path}') else open(f'{TOP}/{path}', errors='replace').read()
        reader = READERS.get(path.rpartition('.')[2])
        if reader:
            self.stated[path], parts = reader(self.files[path])
            self.names[path] = self.stated[path].union(*parts.values())
            for record, names in parts.items():
                self.parts.setdefault(record, set()).update(names)
        for p in {path.rstrip('/'), re.sub(r'\.(antt|rt)$', '', path)}:
            for i in range(p.count('/') + 1):
                self.ends.setdefault(p.split('/', i)[i], []).append(path)

    def declares(self, name):
        """Whether a page of the crates declares it."""
        return any(name in self.names[f] for f in self.names if f.endswith('.antt'))

    def paths(self, name):
        """The files and folders that a path means: from the top or from crates/; where it begins at neither, all that end so."""
        name, first = name.rstrip('/'), name.split('/')[0]
        here = '/' in name and (f'{first}/' in self.files or first in self.crates)
        found = [p for p in self.ends.get(name, []) if not here or p.startswith((name, f'crates/{name}'))]
        return fnmatch.filter(self.files, name) if '*' in name else found

    def scope(self, word):
        """The files that a crate, a path or the name of a page means."""
        page = '/' in word or word[:1].isupper()
        starts = [f'crates/{word}/'] if word in self.crates else self.paths(word) if page else []
        return [f for f in self.files if f.startswith(tuple(starts))]

    def binary(self, name, folder=''):
        """Whether the cargo crate in this folder, or some cargo crate, has this binary."""
        ends = f'src/bin/{name}.rs', f'src/bin/{name}/main.rs', f'{name}/src/main.rs'
        return any(p.startswith(folder) for end in ends for p in self.ends.get(end, []))

    def options(self, program):
        """The text in which a program's options stand; None if there is no such program."""
        name = re.sub(r'.*\btarget/(bin|release)/', '', program)
        if f'crates/{name}/src/main.rt' in self.files:
            return ''.join(t for f, t in self.files.items() if f.startswith((f'crates/{name}/src/', 'crates/text/src/')))
        if self.files.get(program) and self.runs(program):
            return self.files[program]
        compiled = '--release --bin --quiet ' + ' '.join(self.literals)
        return self.help if program == 'rt' else compiled if program == 'cargo' or self.binary(name) else None

    def module(self, path):
        """crate::name, crate::module::name or Type::name."""
        first, *rest = path.split('::')
        if first not in self.crates:
            return rest[0] in self.parts.get(first, ()) or any({first, *rest} <= names for f, names in self.names.items())
        src, lib = f'crates/{first}/src/', '/'.join(rest[:-1]) or 'lib'
        return rest[-1] in self.names.get(f'{src}{lib}.rt', ()) or f'{src}{"/".join(rest)}.rt' in self.files

    def takes(self, function, given):
        """Whether a function, with its crate or without, has these parameters."""
        crate, name = function.split('::')[0], function.split('::')[-1]
        start = f'crates/{crate}/src/' if '::' in function else 'crates/'
        sources = [t for f, t in self.files.items() if f.startswith(start) and f.endswith('.rt')]
        heads = re.findall(rf'fn {name}\b[^(]*\(([^)]*)\)', ''.join(sources))
        return '..' in given or any(re.findall(r'(\w+): ', head) == given for head in heads)

    def runs(self, path):
        """Whether a file is no script, or can be called."""
        return not self.files[path].startswith('#!') or os.access(f'{TOP}/{path}', os.X_OK)

    def plain(self, name):
        """A name or a page anywhere, a binary, or what is printed: a text begins so; `..`, a number or a capital stands for the rest."""
        text = re.escape(re.sub(r' (\.\.|[A-Z]|-?\d+)$', '', name)) + r'(?!\w)'
        return name in self.known or name in self.ends or self.binary(name) or any(re.match(text, t) for t in self.literals)
