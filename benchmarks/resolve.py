#!/usr/bin/env python3
"""Times `qvtr check` on large scripts over models without objects, so nearly all of it is reading and resolving the script.

    python3 benchmarks/resolve.py PROGRAM

PROGRAM is the built program. Each line tells the script, its size, the seconds and the peak memory of the run, and what was printed.
The metamodels are those of crates/qvtr_cmd/data; scripts are made anew in a temporary folder.
"""
import os
import shutil

from timing import run, timed

DATA = os.path.join(os.path.dirname(os.path.abspath(__file__)), '..', 'crates', 'qvtr_cmd', 'data')
BOTH = 'domain uml c : Class {}; domain rdb t : Table {};'


def script(body):
    return 'transformation T (uml : Cls, rdb : Rdb) {\n' + body + '}\n'


def calls(count, clause, last):
    """Relations each of which calls the next one; the last one calls none, or the first."""
    def relation(k):
        called = k + 1 if k + 1 < count else last
        call = f'{clause} {{ R{called}(c, t); }}' if called is not None else ''
        return f'relation R{k} {{{BOTH} {call}}}\n'
    return script(''.join(relation(k) for k in range(count)))


CASES = [
    ('25,000 relations', lambda: script(''.join(f'relation R{k}{{domain uml c:Class{{}};}}' for k in range(25_000)))),
    ('a relation of 50,000 variables', lambda: script(
        'relation R {' + ','.join(f'a{k}' for k in range(50_000)) + ' : String; domain uml c : Class {}; where {'
        + ''.join(f"a{k}='';" for k in range(50_000)) + '} }')),
    ('a template of 100,000 items', lambda: script('relation R { domain uml c : Class {' + ','.join(["name=''"] * 100_000) + '}; }')),
    ('20,000 calls in a where clause', lambda: script(
        f'relation R {{{BOTH}}} relation Q {{{BOTH} where {{' + 'R(c, t);' * 20_000 + '} }')),
    ('10,000 relations in a chain of when calls', lambda: calls(10_000, 'when', None)),
    ('10,000 relations on a cycle of when calls', lambda: calls(10_000, 'when', 0)),
    ('10,000 relations on a cycle of where calls', lambda: calls(10_000, 'where', 0)),
]


def measure(program, folder):
    for name in ('cls.xmi', 'rdb.xmi'):
        shutil.copy(os.path.join(DATA, name), folder)
    for name in ('u.xmi', 'r.xmi'):
        with open(os.path.join(folder, name), 'w') as out:
            out.write('<xmi:XMI/>')
    for name, make in CASES:
        text = make()
        with open(os.path.join(folder, 'large.qvtr'), 'w') as out:
            out.write(text)
        words = [program, 'check', 'large.qvtr', 'rdb', 'Cls=cls.xmi', 'Rdb=rdb.xmi', 'uml=u.xmi', 'rdb=r.xmi']
        seconds, memory, printed = timed(words, folder)
        print(f'{name}: {len(text) / 1e6:.1f} MB, {seconds:.1f} s, {memory / 1e6:.0f} MB: {printed}', flush=True)


if __name__ == '__main__':
    run(__doc__, measure)
