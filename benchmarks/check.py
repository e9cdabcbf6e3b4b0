#!/usr/bin/env python3
"""Times `qvtr check` on the main script over large models.

    python3 benchmarks/check.py PROGRAM

PROGRAM is the built program. Each line tells the models, the seconds and the peak memory of the run, and what was printed.
The script and the metamodels are those of crates/qvtr_cmd/data; models are made anew in a temporary folder.
"""
import os
import shutil

from timing import run, timed

DATA = os.path.join(os.path.dirname(os.path.abspath(__file__)), '..', 'crates', 'qvtr_cmd', 'data')
SCRIPT = 's.qvtr'
HEAD = ('<?xml version="1.0" encoding="UTF-8"?>\n'
        '<xmi:XMI xmi:version="20131001" xmlns:xmi="http://www.omg.org/spec/XMI/20131001" xmlns:m="%s">\n')
FOOT = '</xmi:XMI>\n'


def kind_of(i, j):
    return 'Integer' if (i + j) % 2 == 0 else 'String'


def packages(count):
    return range((count + 99) // 100)


def classes_in(p, count):
    return range(100 * p, min(100 * p + 100, count))


def source(count):
    """`count` persistent classes, a hundred a package, each with none to three attributes."""
    lines = []
    for p in packages(count):
        lines.append(f'<m:Package xmi:id="p{p}" name="p{p}">')
        for i in classes_in(p, count):
            attributes = ''.join(f'<attrs xmi:id="p{p}.C{i}.a{j}" name="a{j}" prim="{kind_of(i, j)}"/>' for j in range(i % 4))
            lines.append(f'<classes xmi:id="p{p}.C{i}" name="C{i}" kind="persistent">{attributes}</classes>')
        lines.append('</m:Package>')
    return HEAD % 'Cls' + '\n'.join(lines) + '\n' + FOOT


def target(count, last=None):
    """A table for each class, a column for each attribute; the last one may have another name."""
    lines = []
    for p in packages(count):
        lines.append(f'<m:Schema xmi:id="s{p}" name="p{p}">')
        for i in classes_in(p, count):
            name = last if last and i == count - 1 else f'C{i}'
            columns = ''.join(f'<columns xmi:id="s{p}.C{i}.a{j}" name="a{j}" type="{kind_of(i, j)}"/>' for j in range(i % 4))
            lines.append(f'<tables xmi:id="s{p}.C{i}" name="{name}">{columns}</tables>')
        lines.append('</m:Schema>')
    return HEAD % 'Rdb' + '\n'.join(lines) + '\n' + FOOT


def heirs(count):
    """One package with classes each of which has the next one as parent."""
    body = ''.join(
        f'<classes xmi:id="C{i}" name="C{i}"' + (' kind="persistent"' if i == 0 else '')
        + (f' parent="C{i + 1}"' if i + 1 < count else '') + '/>' for i in range(count))
    return HEAD % 'Cls' + f'<m:Package xmi:id="p" name="p">{body}</m:Package>\n' + FOOT


def one_table():
    return HEAD % 'Rdb' + '<m:Schema xmi:id="s" name="p"><tables xmi:id="t" name="C0"/></m:Schema>\n' + FOOT


CASES = [
    ('30 classes', lambda: source(30), lambda: target(30)),
    ('300 classes, 753 objects of the target', lambda: source(300), lambda: target(300)),
    ('300 classes, the last without its table', lambda: source(300), lambda: target(300, 'other')),
    ('1,000 classes', lambda: source(1000), lambda: target(1000)),
    ('3,000 classes', lambda: source(3000), lambda: target(3000)),
    ('10,000 classes', lambda: source(10000), lambda: target(10000)),
    ('20,000 classes', lambda: source(20000), lambda: target(20000)),
    ('a chain of 128 calls', lambda: heirs(64), one_table),
    ('a chain of more', lambda: heirs(65), one_table),
]


def measure(program, folder):
    for name in (SCRIPT, 'cls.xmi', 'rdb.xmi'):
        shutil.copy(os.path.join(DATA, name), folder)
    words = [program, 'check', SCRIPT, 'rdb', 'Cls=cls.xmi', 'Rdb=rdb.xmi', 'uml=u.xmi', 'rdb=r.xmi']
    for name, left, right in CASES:
        for file, make in (('u.xmi', left), ('r.xmi', right)):
            with open(os.path.join(folder, file), 'w') as out:
                out.write(make())
        seconds, memory, printed = timed(words, folder)
        print(f'{name}: {seconds:.2f} s, {memory / 1e6:.0f} MB: {printed}', flush=True)


if __name__ == '__main__':
    run(__doc__, measure)
