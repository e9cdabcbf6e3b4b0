#!/usr/bin/env python3
"""Writes what the pages docs/crates/NAME.md say by the code: public calls, definitions, laws, crates above.

    python3 docs/crates.py           writes the end of each page, behind the mark
    python3 docs/crates.py --check   only tells which pages are not as they would be written

What stands before the mark is written by hand. A crate without a page gets one.
"""
import os
import re
import sys
import textwrap

TOP = os.path.normpath(os.path.join(os.path.dirname(os.path.abspath(__file__)), '..'))
PAGES = os.path.join(TOP, 'docs', 'crates')
MARK = '<!-- what follows is written by docs/crates.py -->'
EDGE = 106


def read(*path):
    with open(os.path.join(TOP, *path), encoding='utf-8') as file:
        return file.read()


def files(crate, folder, ending):
    found, home = [], os.path.join(TOP, 'crates', crate)
    for at, _, names in os.walk(os.path.join(home, folder)):
        found += [os.path.relpath(os.path.join(at, n), home) for n in names if n.endswith(ending)]
    return sorted(found)


def dependencies():
    stands = {}
    for line in read('crates.txt').split('\n'):
        if ':' in line and not line.startswith('#'):
            name, _, rest = line.partition(':')
            stands[name.split()[0]] = rest.split()
    return stands


def sentence(text):
    """The first sentence of a comment, on one line."""
    text = ' '.join(text.split())
    found = re.match(r'(.*?[.!?])(?: [A-Z`]|$)', text)
    return (found[1] if found else text).rstrip('.')


def bullet(first, text):
    return textwrap.wrap(text, width=EDGE, initial_indent=first, subsequent_indent=' ' * len(first),
                         break_long_words=False, break_on_hyphens=False)


# ---- code

ITEM = re.compile(r'((?:^[ \t]*///.*\n)*)((?:^[ \t]*#\[.*\]\n)*)'
                  r'^([ \t]*)pub (?:const )?(fn|struct|enum|trait|const|type) (\w+)', re.M)
INNER_LAW = re.compile(r'((?:^///.*\n)+)^(?:pub\(\w+\) )?fn (\w+)\(\)\n(?:^    .*\n)*^\{\}$', re.M)
OWNER = re.compile(r'^(?:impl|pub trait)\b(?:<[^{]*?>)? ?(?:\w+ for )?(\w+)', re.M)


def items(crate):
    """The public items of a crate: name, kind, file, first sentence, the type that a method is of, a law or not."""
    found = []
    for path in files(crate, 'src', '.rt'):
        text = read('crates', crate, path)
        for item in ITEM.finditer(text):
            comment = re.sub(r'^[ \t]*///', '', item[1], flags=re.M)
            owner = None
            if item[3]:
                heads = OWNER.findall(text[:item.start(4)])
                owner = heads[-1] if heads else None
            law = item[4] == 'fn' and is_law(text, item.end())
            found.append((item[5], item[4], path, sentence(comment), owner, law))
    return found


def is_law(text, at):
    """A function that gives nothing and changes nothing: its contract is all that it has."""
    head = re.match(r'.*?(?=\{|;|^[ \t]*(?:requires|ensures)\b)', text[at:], re.M | re.S)[0]
    return '->' not in head and '&mut' not in head


def exported(crate):
    """The names that the root file hands on."""
    path = 'src/lib.rt'
    if not os.path.exists(os.path.join(TOP, 'crates', crate, path)):
        return None
    names = set()
    for group in re.findall(r'^pub use [\w:]+::(\{[^}]*\}|\w+);', read('crates', crate, path), re.M | re.S):
        names.update(re.findall(r'\w+', group))
    return names


def calls(crate):
    names, lines = exported(crate), []
    if names is None:
        return lines
    every = items(crate)
    for name, kind, path, text, owner, law in every:
        if owner is None and name in names and not (kind == 'fn' and law) and kind != 'const':
            methods = [n for n, k, _, _, o, _ in every if o == name and k == 'fn']
            line = f'`{name}`' + (f': {text}' if text else '') + (f'. Calls: {listed(methods)}' if methods else '')
            lines += bullet('- ', f'{line} ({os.path.basename(path)}).')
    constants = sorted(n for n, k, _, _, o, _ in every if k == 'const' and n in names)
    if constants:
        lines += bullet('- ', 'Constants: ' + ', '.join(f'`{c}`' for c in constants) + '.')
    return lines


def laws(crate):
    names, lines = exported(crate) or set(), []
    for name, kind, path, text, owner, law in items(crate):
        if kind == 'fn' and law and owner is None:
            private = '' if name in names else ', private'
            lines += bullet('- ', f'`{name}` ({path}{private})' + (f': {text}.' if text else '.'))
    for path in files(crate, 'src', '.rt'):
        for comment, name in INNER_LAW.findall(read('crates', crate, path)):
            text = sentence(re.sub(r'^///', '', comment, flags=re.M))
            lines += bullet('- ', f'`{name}` ({path}, private): {text}.')
    return lines


# ---- definitions

def definitions(crate):
    """The files of specs/, each behind those that it stands on."""
    paths = [p for p in files(crate, 'specs', '.antt') if not p.endswith('Lib.antt') and '/formers' not in p]
    modules = {p[len('specs/'):-5].replace('/', '.'): p for p in paths}
    uses = {}
    for module, path in modules.items():
        text = read('crates', crate, path)
        used = re.findall(r'^(?:pub )?use Rattle\.%s\.specs\.([\w.]+?)(?:\.\{| as |$)' % crate, text, re.M)
        uses[module] = [m for m in used if m in modules]
    done, order = set(), []

    def visit(module):
        if module not in done:
            done.add(module)
            for other in sorted(uses[module]):
                visit(other)
            order.append(module)
    for module in sorted(modules):
        visit(module)
    lines = []
    for module in order:
        head = re.match(r'(?:--.*\n)+', read('crates', crate, modules[module]))
        text = sentence(re.sub(r'^-- ?', '', head[0], flags=re.M)) if head else ''
        link = f'[{module}](../../crates/{crate}/{modules[module]})'
        lines += bullet('- ', link + (f': {text}.' if text else '.'))
    return lines


# ---- what is refused

def refused(crate):
    """Edits of code that the prover has to refuse, and examples of wrong answers that the definitions exclude."""
    edits = sorted(os.path.basename(p)[:-len('.edit')] for p in files(crate, 'must-fail', '.edit'))
    lines = bullet('- ', f'Edits that must fail: {listed(edits)}.') if edits else []
    if os.path.exists(os.path.join(TOP, 'crates', crate, 'proofs', 'Refuting.antt')):
        text = read('crates', crate, 'proofs', 'Refuting.antt')
        for comment, name in re.findall(r'((?:^-- .*\n)+)pub (\w+) :', text, re.M):
            lines += bullet('- ', f'`{name}` excludes: {sentence(re.sub("^-- ", "", comment, flags=re.M))}.')
    return lines


# ---- pages

def above(crate, stands):
    found, todo = set(), [crate]
    while todo:
        below = todo.pop()
        for other, needs in stands.items():
            if below in needs and other not in found:
                found.add(other)
                todo.append(other)
    return sorted(found)


def listed(names):
    return ', '.join(f'`{n}`' for n in names)


def end_of_page(crate, stands):
    own = [d for d in stands[crate] if d in stands]
    kit = [d for d in stands[crate] if d not in stands]
    lines = [MARK, '', '## Where it stands', '']
    lines += bullet('', (f'It stands on {listed(own)}' if own else 'It stands on no crate of the repository')
                    + (f', and on the toolchain\'s {listed(kit)}' if kit else '') + '.')
    upper = above(crate, stands)
    again = 'A change of its code or contracts is proved again here and in what stands above: '
    lines += bullet('', again + listed(upper) + '.' if upper
                    else 'Nothing stands above it: a change is proved again here alone.') + ['']
    for title, part in (('Public calls', calls(crate)),
                        ('Definitions, those first on which others stand', definitions(crate)),
                        ('Laws', laws(crate)), ('What is refused', refused(crate))):
        if part:
            lines += [f'## {title}', ''] + part + ['']
    return '\n'.join(lines).rstrip('\n') + '\n'


def head_of_code(crate):
    for path in ('src/lib.rt', 'src/main.rt'):
        if os.path.exists(os.path.join(TOP, 'crates', crate, path)):
            head = re.match(r'(?://!.*\n)+', read('crates', crate, path))
            return re.sub(r'^//! ?', '', head[0], flags=re.M).strip() if head else ''
    return ''


def new_head(crate):
    """The head of a page by that of the code. Tables stay in the code."""
    lines = [f'# {crate}', '']
    for paragraph in re.split(r'\n\s*\n', head_of_code(crate)):
        if paragraph.startswith('|'):
            continue
        for part in re.split(r'\n(?=- )', paragraph):
            first = '- ' if part.startswith('- ') else ''
            lines += bullet(first, ' '.join(part[len(first):].split()))
        lines.append('')
    return '\n'.join(lines) + '\n'


def main():
    stands, amiss = dependencies(), []
    for crate in sorted(stands):
        path = os.path.join(PAGES, f'{crate}.md')
        before = ''
        if os.path.exists(path):
            with open(path, encoding='utf-8') as file:
                before = file.read()
        head = before.partition(MARK)[0] or new_head(crate)
        text = head.rstrip('\n') + '\n\n' + end_of_page(crate, stands)
        if text != before:
            amiss.append(crate)
            if sys.argv[1:] != ['--check']:
                os.makedirs(PAGES, exist_ok=True)
                with open(path, 'w', encoding='utf-8') as file:
                    file.write(text)
    if sys.argv[1:] == ['--check'] and amiss:
        sys.exit('docs/crates.py would write these pages anew: ' + ', '.join(amiss))


if __name__ == '__main__':
    main()
