#!/usr/bin/env python3
"""Times `qvtr convert` on large and on unkind files, beside Python's xml.etree.

    python3 benchmarks/convert.py PROGRAM

PROGRAM is the built program. Each line tells the file, its size, the seconds and the peak memory of the run, the
memory as a multiple of the file, and what was printed. Files are made anew in a temporary folder.
"""
import os
import subprocess
import tempfile
import time
import xml.etree.ElementTree as tree

from timing import run, timed

HEAD = ('<?xml version="1.0" encoding="UTF-8"?>\n'
        '<xmi:XMI xmi:version="20131001" xmlns:xmi="http://www.omg.org/spec/XMI/20131001" xmlns:m="Bench">\n')
FOOT = '</xmi:XMI>\n'
TYPES = 'http://www.omg.org/spec/PrimitiveTypes/20131001'


def attribute(owner, name, primitive, upper='1'):
    return (f'<ownedAttribute xmi:id="{owner}.{name}" name="{name}" lower="0" upper="{upper}">'
            f'<type xmi:type="emof:PrimitiveType" href="{TYPES}#{primitive}"/></ownedAttribute>')


def reference(owner, name, upper, opposite, composite='false'):
    return (f'<ownedAttribute xmi:id="{owner}.{name}" name="{name}" type="{owner}" lower="0" upper="{upper}" '
            f'opposite="{owner}.{opposite}" isComposite="{composite}"/>')


def metamodel():
    """One class: a name, values, links of many to many, links to one, and parts."""
    owned = ''.join([
        attribute('N', 'name', 'String'), attribute('N', 'values', 'Integer', '*'),
        reference('N', 'uses', '*', 'usedBy'), reference('N', 'usedBy', '*', 'uses'),
        reference('N', 'parent', '1', 'children'), reference('N', 'children', '*', 'parent'),
        reference('N', 'parts', '*', 'whole', 'true'), reference('N', 'whole', '1', 'parts')])
    return (f'<emof:Package xmi:version="20131001" xmi:id="p" name="Bench">'
            f'<ownedType xmi:type="emof:Class" xmi:id="N" name="N">{owned}</ownedType></emof:Package>\n')


def model(objects):
    return HEAD + '\n'.join(objects) + '\n' + FOOT


def names(numbers):
    return ' '.join(f'n{k}' for k in numbers)


def plain(count, text):
    return model(f'  <m:N xmi:id="n{k}" name="{text} {k}"/>' for k in range(count))


def many_partners(count):
    first = f'  <m:N xmi:id="n0" uses="{names(range(1, count))}"/>'
    return model([first] + [f'  <m:N xmi:id="n{k}"/>' for k in range(1, count)])


def many_values(count):
    values = ''.join(f'<values>{k % (count // 2)}</values>' for k in range(count))
    return model([f'  <m:N xmi:id="n0">{values}</m:N>'])


def all_to_one(count):
    return model(['  <m:N xmi:id="n0"/>'] + [f'  <m:N xmi:id="n{k}" parent="n0"/>' for k in range(1, count)])


def chain(count):
    """Each object is a part of the next one of the file; the depth is refused."""
    return model(f'  <m:N xmi:id="n{k}" whole="n{k + 1}"/>' if k + 1 < count else f'  <m:N xmi:id="n{k}"/>' for k in range(count))


def each_with_each(count):
    return model(f'  <m:N xmi:id="n{k}" uses="{names(range(count))}"/>' for k in range(count))


def to_nothing(count):
    return model(f'  <m:N xmi:id="n{k}" parent="x{k}"/>' for k in range(count))


def colliding_names(count):
    """Names of `colliding_names.c` whose hashes agree in 13 bits where no key stands before them; `cc` has to be there."""
    source = os.path.join(os.path.dirname(os.path.abspath(__file__)), 'colliding_names.c')
    with tempfile.TemporaryDirectory() as folder:
        maker = os.path.join(folder, 'colliding_names')
        subprocess.run(['cc', '-O2', '-o', maker, source], check=True)
        made = subprocess.run([maker, str(count), '13'], check=True, stdout=subprocess.PIPE, text=True).stdout.split()
    return model(f'  <m:N xmi:id="{name}"/>' for name in made)


CASES = [
    ('50,000 objects, 5 MB', lambda: plain(50_000, 'a name of some sixty characters, so that a file has 5 MB ...')),
    ('16 MB of objects', lambda: plain(199_000, 'a name of fifty characters')),
    ('150,000 partners', lambda: many_partners(150_000)),
    ('150,000 values', lambda: many_values(150_000)),
    ('200,000 that refer to one', lambda: all_to_one(200_000)),
    ('200,000 in one chain', lambda: chain(200_000)),
    ('1,200 with each of 1,200', lambda: each_with_each(1_200)),
    ('100,000 references to nothing', lambda: to_nothing(100_000)),
    ('199,000 names that collide', lambda: colliding_names(199_000)),
]


def read_and_write(path, target):
    before = time.time()
    tree.parse(path).write(target)
    return time.time() - before


def measure(program, folder):
    with open(os.path.join(folder, 'meta.xmi'), 'w') as file:
        file.write(metamodel())
    for name, make in CASES:
        path = os.path.join(folder, 'in.xmi')
        with open(path, 'w') as file:
            file.write(make())
        size = os.path.getsize(path)
        library = read_and_write(path, os.path.join(folder, 'library.xmi'))
        for form in ('json', 'xmi'):
            seconds, memory, printed = timed([program, 'convert', form, 'meta.xmi', 'in.xmi', 'out'], folder)
            print(f'{name}, to {form}: {size / 1e6:.1f} MB, {seconds:.2f} s (xml.etree {library:.2f} s), '
                  f'{memory / 1e6:.0f} MB ({memory / size:.1f} times the file): {printed}', flush=True)


if __name__ == '__main__':
    run(__doc__, measure)
