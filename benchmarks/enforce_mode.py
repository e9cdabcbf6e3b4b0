#!/usr/bin/env python3
"""Times the repair of large targets.

    python3 benchmarks/enforce_mode.py PROGRAM

PROGRAM is the built program of crates/repair_cases. Each line is a row of a table: the target, the processor's seconds of a whole run (with the
reading of the files, and what is demanded), those of the repair alone (the whole without the run of `counts`, which doesn't repair), those of
reading the target's file alone, the peak memory of both runs, and what is reported. Each time is the least of three.
"""
import os

from check import DATA, FOOT, HEAD, classes_in, kind_of, packages, source, target
from demands import NOTHING, lines_of
from timing import run, worked

NAMES = 's.qvtr rdb Cls=cls.emof Rdb=rdb.emof uml=u.xmi rdb=r.xmi'
EMPTY = '<xmi:XMI/>'


def worn(count):
    """A target of which every tenth table has another name, so that it goes with its columns, and every tenth column another type."""
    lines = []
    for p in packages(count):
        lines.append(f'<m:Schema xmi:id="s{p}" name="p{p}">')
        for i in classes_in(p, count):
            name = f'D{i}' if i % 10 == 0 else f'C{i}'
            kinds = ['Real' if (3 * i + j) % 10 == 5 else kind_of(i, j) for j in range(i % 4)]
            columns = ''.join(f'<columns xmi:id="s{p}.C{i}.a{j}" name="a{j}" type="{kind}"/>' for j, kind in enumerate(kinds))
            lines.append(f'<tables xmi:id="s{p}.C{i}" name="{name}">{columns}</tables>')
        lines.append('</m:Schema>')
    return HEAD % 'Rdb' + '\n'.join(lines) + '\n' + FOOT


def asked(verb, script, model, old):
    lines = []
    for name in ('cls', 'rdb'):
        with open(os.path.join(DATA, name + '.xmi'), encoding='utf-8') as it:
            lines += lines_of(name + '.emof', it.read().rstrip('\n'))
    lines += lines_of('s.qvtr', script)
    lines += ['file u.xmi ' + ' '.join(model.split('\n')), 'file r.xmi ' + ' '.join(old.split('\n')), f'{verb} {NAMES}']
    return '\n'.join(lines) + '\n'


def least(program, folder, text):
    """The least seconds of three runs, the memory, and what was printed."""
    with open(os.path.join(folder, 'cases'), 'w', encoding='utf-8') as out:
        out.write(text)
    runs = [worked([program], folder, 'cases') for _ in range(3)]
    seconds, memory, printed = min(runs)
    return seconds, memory, printed.split('=>')[-1].strip()


def measure(program, folder):
    with open(os.path.join(DATA, 's.qvtr'), encoding='utf-8') as it:
        script = it.read()
    print('| target | whole | repair | reading the target | memory, without the repair | reported |\n|---|---|---|---|---|---|')
    for count in (2000, 20000):
        model = source(count)
        for name, old in (('empty', EMPTY), ('right already', target(count)), ('every tenth object and value wrong', worn(count))):
            whole, memory, reported = least(program, folder, asked('size', script, model, old))
            before, less, _ = least(program, folder, asked('counts', script, model, old))
            read = least(program, folder, asked('counts', NOTHING, EMPTY, old))[0]
            print(f'| {count} classes, {name} | {whole:.2f} | {whole - before:.2f} | {read:.2f} | '
                  f'{memory / 1e6:.0f} MB, {less / 1e6:.0f} MB | {reported} |', flush=True)


if __name__ == '__main__':
    run(__doc__, measure)
