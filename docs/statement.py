#!/usr/bin/env python3
"""Writes docs/STATEMENT.md: what a reader has to believe of `run`, as definitions by file.

    python3 docs/statement.py           writes the page
    python3 docs/statement.py --check   only tells whether it is as it would be written

It follows names from the contract of `run` through the definitions in specs/: a name leads to its definition, and
that to the names in it. Types that are declared in code (src/) are followed through their fields.
"""
import collections
import os
import re
import sys
import textwrap

TOP = os.path.normpath(os.path.join(os.path.dirname(os.path.abspath(__file__)), '..'))
CRATES = os.path.join(TOP, 'crates')
PAGE = os.path.join(TOP, 'docs', 'STATEMENT.md')
ROOT = os.path.join('qvtr_engine', 'src', 'top.rt')
WORD = re.compile(r"[^\s(){}\[\].,:;λ→×¬=|\\\"]+")
QUALIFIED = re.compile(r"([^\s(){}\[\].,:;]+)\.([^\s(){}\[\].,:;]+)")
KINDS = re.compile(r'\s*(pub )?(abbrev|unfoldable|data|record)')
START = re.compile(r'\s*(?:(?:abbrev|unfoldable|pub|data|record|irreducible)\s+)+(\S+)')


def read(path):
    with open(os.path.join(CRATES, path), encoding='utf-8') as file:
        return file.read()


def without_comment(line):
    return re.sub(r'(^|\s)--\s.*$', '', line)


class Uses:
    """What the `use` lines of a file bring: names, and modules under a name."""

    def __init__(self):
        self.names, self.modules = {}, {}

    def add(self, path, names, alias):
        if alias:
            self.modules[alias] = path
        for name in names:
            name, _, other = name.partition(' as ')
            for part in pieces(other or name):
                self.names[part] = path, name


def pieces(name):
    """The words by which a name is used: those between the gaps of an operator."""
    return [p for p in name.split('◌') if p] if '◌' in name else [name]


USE = re.compile(r'^(?:ghost |pub )?use (\S+?)(?:\.\{(.*)\}|(?: as (\w+)))?;?$')


def used(line, uses, again=False, spec=None):
    """Notes what a `use` line brings, and what a file hands on (`pub use`)."""
    found = USE.match(line)
    if not found:
        return
    path = found[1]
    names = [n.strip() for n in found[2].split(',')] if found[2] else []
    uses.add(path, names, found[3] or (None if names else path.split('.')[-1]))
    if again:
        for name in names:
            for part in pieces(name):
                spec.handed[part] = path


class Spec:
    """A file of definitions: each with its own words, and a constructor leads to its type."""

    def __init__(self, path):
        self.path, self.uses, self.words = path, Uses(), collections.defaultdict(set)
        self.owner, self.order, self.handed = {}, [], {}
        self.head = self.read_head(read(path).split('\n'))
        self.read_definitions(read(path).split('\n'))

    def read_head(self, lines):
        head = []
        for line in lines:
            if not line.startswith('--'):
                break
            head.append(line.lstrip('- '))
        return ' '.join(head)

    def define(self, name):
        for part in pieces(name):
            self.owner[part] = name
        if name not in self.order:
            self.order.append(name)
        return name

    def read_definitions(self, lines):
        name, is_record, indent = None, False, 0
        for line in map(without_comment, lines):
            if re.match(r'(?:pub )?use ', line):
                used(line, self.uses, again=line.startswith('pub'), spec=self)
                continue
            if not line.strip() or re.match(r'\s*(infix|pub mod|mod |mutual)', line):
                continue
            found = START.match(line)
            deep = len(line) - len(line.lstrip())
            is_field = is_record and deep > indent and re.match(r'\s+pub \S+ :', line)
            equation = WORD.match(line.strip())
            if line.startswith('module '):
                name = self.define('module')
            elif found and not is_field and not (name and deep > indent and not KINDS.match(line)):
                name, is_record, indent = self.define(found[1]), 'record ' in line.partition(found[1])[0], deep
            elif equation and self.owner.get(equation[0]) and deep <= indent:
                name = self.owner[equation[0]]
            if name:
                member = re.match(r'\s+(?:pub )?(\S+) :', line)
                if member and deep > indent and not is_record and member[1] not in self.owner:
                    self.owner[member[1]] = name
                self.words[name].update(WORD.findall(line))
                self.words[name].update('.'.join(pair) for pair in QUALIFIED.findall(line))


class Code:
    """A file of code: the types that it declares, each with the words of its fields."""

    def __init__(self, path):
        self.path, self.words, self.order, name = path, collections.defaultdict(set), [], None
        for line in read(path).split('\n'):
            if line.startswith('//') or line.startswith('    //'):
                continue
            found = re.match(r'(?:pub )?(?:struct|enum|trait|type|const) (\w+)', line)
            if found:
                name = found[1]
                self.order.append(name)
            if name:
                self.words[name].update(re.findall(r'\b[A-Z]\w*\b', line))
            if line.startswith('}') or (found and line.rstrip().endswith(';')):
                name = None


def crates_by_level():
    """The crates, those above before those below."""
    stands = {}
    for line in read(os.path.join('..', 'crates.txt')).split('\n'):
        if ':' in line and not line.startswith('#'):
            name, _, rest = line.partition(':')
            stands[name.split()[0]] = rest.split()
    level = {}

    def depth(name):
        if name not in level:
            level[name] = 1 + max([depth(d) for d in stands.get(name, []) if d in stands] or [0])
        return level[name]
    return sorted(stands, key=lambda n: (-depth(n), n))


class Walk:
    def __init__(self):
        self.specs, self.codes, self.library = {}, {}, collections.defaultdict(set)
        self.reached, self.types = collections.OrderedDict(), collections.OrderedDict()
        self.open = collections.deque()

    def spec(self, crate, module):
        path = os.path.join(crate, 'specs', *module.split('.')) + '.antt'
        if path not in self.specs:
            self.specs[path] = Spec(path) if os.path.exists(os.path.join(CRATES, path)) else None
        return self.specs[path]

    def code(self, crate, module):
        path = os.path.join(crate, 'src', *module.split('.')) + '.rt'
        return self.code_at(path) if os.path.exists(os.path.join(CRATES, path)) else None

    def code_at(self, path):
        if path not in self.codes:
            self.codes[path] = Code(path)
        return self.codes[path]

    def follow(self, path, name):
        """A name that the module of this path has."""
        parts = path.split('.')
        if parts[0] != 'Rattle' or not os.path.isdir(os.path.join(CRATES, parts[1])):
            self.library['.'.join(parts[:4]) if parts[0] == 'Rattle' else path].add(name)
            return
        crate, rest = parts[1], parts[3:]
        if rest[0] == 'declared':
            self.reach_type(crate, rest[1:], name)
        elif rest[0] not in ('contracts', 'formers'):
            spec = self.spec(crate, '.'.join(rest))
            for part in pieces(name) if spec else ():
                if part in spec.owner:
                    self.reach(spec, spec.owner[part])
                elif part in spec.handed:
                    self.follow(spec.handed[part], part)

    def reach(self, spec, name):
        if name != 'module' and 'module' in spec.words:
            self.words(spec.uses, spec.words['module'], None)
        if (spec.path, name) not in self.reached:
            self.reached[spec.path, name] = True
            self.open.append((spec, name))

    def reach_type(self, crate, rest, name):
        """A type of the code: the module that declares it, and the type (or the constants)."""
        inside = [p for p in rest if p[0].isupper()]
        modules = [p for p in rest if not p[0].isupper()]
        wanted = name if inside[:1] in (['TheConstants'], []) else inside[0]
        code = self.code(crate, '.'.join(modules))
        if code and (code.path, wanted) not in self.types:
            self.types[code.path, wanted] = True
            for word in sorted(code.words.get(wanted, ())):
                self.reach_field(crate, code, word)

    def reach_field(self, crate, code, word):
        if word in code.words:
            if (code.path, word) not in self.types:
                self.types[code.path, word] = True
                for other in sorted(code.words[word]):
                    self.reach_field(crate, code, other)
            return
        brought = r'^use (\w+)(?:::\w+)*::(?:\{[^}]*\b%s\b[^}]*\}|%s);' % (word, word)
        found = re.search(brought, read(code.path), re.M)
        if not found:
            return
        home = crate if found[1] == 'crate' else found[1]
        for path in files_of(home, 'src', '.rt'):
            if re.search(r'^pub (?:struct|enum|trait) %s\b' % word, read(path), re.M):
                other = self.code_at(path)
                if (path, word) not in self.types:
                    self.types[path, word] = True
                    for inner in sorted(other.words[word]):
                        self.reach_field(home, other, inner)
                return

    def words(self, uses, words, own=None):
        for word in sorted(words):
            if own and word in own.owner:
                self.reach(own, own.owner[word])
            elif word in uses.names:
                self.follow(*uses.names[word])
            elif word.partition('.')[0] in uses.modules and '.' in word:
                self.follow(uses.modules[word.partition('.')[0]], word.partition('.')[2])

    def run(self):
        uses, words, inside = Uses(), set(), False
        for line in read(ROOT).split('\n'):
            used(line, uses)
            if line.startswith('pub fn '):
                inside = line.startswith('pub fn run')
            elif line.startswith('{'):
                inside = False
            elif inside and not line.strip().startswith('//'):
                words.update(WORD.findall(line))
        self.words(uses, words)
        while self.open:
            spec, name = self.open.popleft()
            self.words(spec.uses, spec.words[name], spec)


def files_of(crate, folder, ending):
    found = []
    for at, _, names in os.walk(os.path.join(CRATES, crate, folder)):
        found += [os.path.relpath(os.path.join(at, n), CRATES) for n in names if n.endswith(ending)]
    return sorted(found)


def wrapped(first, text, indent='  '):
    """The text in lines of at most 100 bytes, as which tools count what isn't ASCII."""
    padded = ''.join(c + '\0' * (len(c.encode()) - 1) for c in text)
    lines = textwrap.wrap(padded, width=100, initial_indent=first, subsequent_indent=indent, break_long_words=False,
                          break_on_hyphens=False)
    return [line.replace('\0', '') for line in lines]


def quoted(names):
    return ', '.join(f'`{n}`' for n in names)


def more(count):
    if count == 0:
        return '.'
    return '; one more isn\'t needed.' if count == 1 else f'; {count} more aren\'t needed.'


def page():
    walk = Walk()
    walk.run()
    by_file = collections.OrderedDict()
    for path, name in walk.reached:
        by_file.setdefault(path, []).append(name)
    types = collections.OrderedDict()
    for path, name in walk.types:
        types.setdefault(path, []).append(name)
    lines = [HEAD.format(definitions=sum(map(len, by_file.values())), files=len(by_file),
                         types=sum(map(len, types.values()))).rstrip(), '']
    for crate in crates_by_level():
        here = [p for p in by_file if p.split(os.sep)[0] == crate]
        declared = [p for p in types if p.split(os.sep)[0] == crate]
        if not here and not declared:
            continue
        lines += ['## ' + crate, '']
        for path in here:
            spec, module = walk.specs[path], os.path.relpath(path, os.path.join(crate, 'specs'))[:-5]
            names = [n for n in spec.order if n in by_file[path] and n != 'module']
            lines += wrapped('- ', f'**[{module}](../crates/{path})**: ' + ', '.join(f'`{n}`' for n in names)
                             + more(len([n for n in spec.order if n != 'module']) - len(names)))
        for path in declared:
            link = f'[{os.path.relpath(path, crate)}](../crates/{path})'
            lines += wrapped('- ', f'declared in the code, {link}: '
                             + ', '.join(f'`{n}`' for n in types[path]) + '.')
        every = [p for p in files_of(crate, 'specs', '.antt') if not p.endswith('Lib.antt')]
        inner = [os.path.relpath(p, os.path.join(crate, 'specs'))[:-5] for p in every if p not in by_file]
        if inner:
            lines += wrapped('- ', 'inner, not part of the statement of `run`: ' + ', '.join(inner) + '.')
        lines.append('')
    rest = [c for c in crates_by_level() if os.path.isdir(os.path.join(CRATES, c, 'specs'))
            and not any(p.split(os.sep)[0] == c for p in by_file)]
    lines += ['## Crates that the statement doesn\'t reach', '']
    lines += wrapped('', 'All of their `specs/` are inner: ' + quoted(rest) + '.', '') + ['']
    lines += ['## Words of the library', '']
    lines += ['The definitions also use words of the toolchain\'s library, which are trusted as it is:', '']
    for module in sorted(walk.library):
        lines += wrapped('- ', f'`{module}`: ' + quoted(sorted(walk.library[module])) + '.')
    return '\n'.join(lines) + '\n'


HEAD = '''# What a reader has to believe

`run` is the one function that the program calls. Its contract stands in
[crates/qvtr_engine/src/top.rt](../crates/qvtr_engine/src/top.rt), above its body. Whoever believes that the
contract says the right thing, and trusts the toolchain, needs to read no other code and no proof.

The contract is made of definitions. This page lists all that it reaches, by file: **{definitions} definitions
in {files} files**, and {types} types and constants that the code declares. The script
`docs/statement.py` makes the page by following names. The list is long since it holds a whole language: two
file formats with their faults, the grammar, the types, and the meaning of relations.

How to read it:

1. The contract of `run`, then `Answer`, `Run` and `Reply` in `qvtr_engine`. They say what is printed, with
   which status, and what the files are afterwards.
2. `CheckAnswer` and `ConvertAnswer`: the steps of a check and of a conversion, one definition a step.
3. What a check means, in `qvtr_semantics`: `Satisfaction`, `Calls`, `Bindings`, `Templates`, and then
   `Expressions`.
4. Which files are models: `Markup` (`xmi_text`), `Content` and `FirstFault` (`model_assembly`), `Files`
   (`model_files`).
5. Which texts are scripts: `Tokens` (`ql_lex`), `Grammar` (`ocl_parser` and `qvtr_parser`), `Resolutions` and
   `Faults` (`script_scopes`), `HasType` (`ocl_types`).

A file that is *inner* serves the proofs, or contracts of functions further in: `run` promises nothing in its
words. Crates above stand before those below, and files in the order in which they are met.
'''


def main():
    text = page()
    if sys.argv[1:] == ['--check']:
        with open(PAGE, encoding='utf-8') as file:
            if file.read() != text:
                sys.exit('docs/STATEMENT.md is not what docs/statement.py writes')
        return
    with open(PAGE, 'w', encoding='utf-8') as file:
        file.write(text)


if __name__ == '__main__':
    main()
