#!/usr/bin/env python3
"""Times `qvtr enforce` on the main script over large models, with `check` of what it made and `convert` of both files beside it.

    python3 benchmarks/enforce.py PROGRAM [CLASSES..]

PROGRAM is the built program; without numbers of classes they are 300, 2,000 and 20,000. Each line tells the target, the processor seconds and the
peak memory of the run, and what was printed; a line before tells the sizes of the files. The last line of each number is a check of what was made:
it takes minutes over 20,000 classes.
"""
import os
import shutil
import sys
import tempfile

from check import DATA, FOOT, HEAD, SCRIPT, classes_in, kind_of, packages, source, target
from timing import timed

FILES = ['Cls=cls.xmi', 'Rdb=rdb.xmi', 'uml=u.xmi', 'rdb=r.xmi']


def tenth_wrong(count):
    """The right target, but for each tenth table, which has another name, and each tenth column, which has another type."""
    lines, columns = [], 0
    for p in packages(count):
        lines.append(f'<m:Schema xmi:id="s{p}" name="p{p}">')
        for i in classes_in(p, count):
            parts = ''
            for j in range(i % 4):
                columns += 1
                kind = 'Date' if columns % 10 == 0 else kind_of(i, j)
                parts += f'<columns xmi:id="s{p}.C{i}.a{j}" name="a{j}" type="{kind}"/>'
            name = f'old{i}' if i % 10 == 9 else f'C{i}'
            lines.append(f'<tables xmi:id="s{p}.C{i}" name="{name}">{parts}</tables>')
        lines.append('</m:Schema>')
    return HEAD % 'Rdb' + '\n'.join(lines) + '\n' + FOOT


def tell(name, words, folder):
    seconds, memory, printed = timed(words, folder)
    print(f'{name}: {seconds:.2f} s, {memory / 1e6:.0f} MB: {printed}', flush=True)


def write(folder, file, text):
    with open(os.path.join(folder, file), 'w', encoding='utf-8') as out:
        out.write(text)
    return len(text.encode())


def measure_count(program, folder, count):
    size = write(folder, 'u.xmi', source(count))
    empty = HEAD % 'Rdb' + FOOT
    for name, text in (('an empty target', empty), ('a right target', target(count)), ('a target a tenth of which is wrong', tenth_wrong(count))):
        write(folder, 'r.xmi', text)
        tell(f'{count} classes, {name}', [program, 'enforce', SCRIPT, 'rdb'] + FILES, folder)
    made = os.path.getsize(os.path.join(folder, 'r.xmi'))
    print(f'{count} classes: the source has {size / 1e6:.1f} MB, the target {made / 1e6:.1f} MB', flush=True)
    for meta, file in (('cls.xmi', 'u.xmi'), ('rdb.xmi', 'r.xmi')):
        tell(f'{count} classes, convert {file}', [program, 'convert', 'xmi', meta, file, 'out.xmi'], folder)
    tell(f'{count} classes, check', [program, 'check', SCRIPT, 'rdb'] + FILES, folder)


def main():
    if len(sys.argv) < 2:
        sys.exit(__doc__)
    program = os.path.abspath(sys.argv[1])
    counts = [int(word) for word in sys.argv[2:]] or [300, 2000, 20000]
    with tempfile.TemporaryDirectory() as folder:
        for name in (SCRIPT, 'cls.xmi', 'rdb.xmi'):
            shutil.copy(os.path.join(DATA, name), folder)
        for count in counts:
            measure_count(program, folder, count)


if __name__ == '__main__':
    main()
