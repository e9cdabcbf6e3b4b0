#!/usr/bin/env python3
"""Times `qvtr check` on shapes of scripts and models, each with three sizes.

    python3 benchmarks/shapes.py PROGRAM

PROGRAM is the built program. Each line tells the shape, and for each size the processor seconds and the peak
memory; last the exponent with which the seconds grow from the second size to the third. Metamodels are those of
crates/qvtr_cmd/data; scripts and models are made anew in a temporary folder.
"""
import math
import os
import shutil

from check import DATA, FOOT, HEAD
from timing import run, timed

MAIN = open(os.path.join(DATA, 's.qvtr'), encoding='utf-8').read()


def classes(names, inside=lambda i: ''):
    """A package with a class of each name."""
    body = '\n'.join(f'<classes xmi:id="c{i}" name="{name}" kind="persistent">{inside(i)}</classes>'
                     for i, name in enumerate(names))
    return HEAD % 'Cls' + f'<m:Package xmi:id="p" name="p">{body}</m:Package>\n' + FOOT


def tables(names, inside=lambda i: ''):
    """A schema with a table of each name."""
    body = '\n'.join(f'<tables xmi:id="t{i}" name="{name}">{inside(i)}</tables>' for i, name in enumerate(names))
    return HEAD % 'Rdb' + f'<m:Schema xmi:id="s" name="p">{body}</m:Schema>\n' + FOOT


def relation(domains, clauses='', models='uml : Cls, rdb : Rdb', others=''):
    return f'transformation T ({models}) {{ top relation R {{ {domains} {clauses} }} {others} }}\n'


def names(count):
    return [f'n{i}' for i in range(count)]


def attributes(count):
    return lambda i: ''.join(f'<attrs xmi:id="a{j}" name="a{j}" prim="String"/>' for j in range(count))


def columns(count):
    return lambda i: ''.join(f'<columns xmi:id="k{j}" name="a{j}" type="String"/>' for j in range(count))


def wide(count):
    return MAIN, [classes(['n0'], attributes(count)), tables(['n0'], columns(count))]


def listed(count):
    script = relation('v : String; checkonly domain uml c : Class {attrs = a : Attr {name = v}};'
                      'checkonly domain rdb t : Table {columns = k : Column {name = v}};')
    return script, [classes(['n0'], attributes(count)), tables(['n0'], columns(count))]


def items(count):
    all_items = ', '.join(f'name = v{i}' for i in range(count))
    variables = ''.join(f'v{i} : String; ' for i in range(count))
    script = relation(f'{variables} checkonly domain uml c : Class {{{all_items}}};'
                      f'checkonly domain rdb t : Table {{{all_items}}};')
    return script, [classes(['n0']), tables(['n0'])]


def equations(count):
    variables = ''.join(f'v{i} : String; ' for i in range(count))
    chained = ' '.join(f'v{i + 1} = v{i};' for i in range(count - 1))
    script = relation(f'{variables} checkonly domain uml c : Class {{name = v0}};'
                      f'checkonly domain rdb t : Table {{name = v{count - 1}}};', f'when {{ {chained} }}')
    return script, [classes(['n0']), tables(['n0'])]


def by_name(count):
    script = relation('v : String; checkonly domain uml c : Class {name = v}; checkonly domain rdb t : Table {name = v};')
    return script, [classes(names(count)), tables(names(count))]


def joined(sources):
    """So many source domains joined by a name."""
    def made(count):
        models = ', '.join(f'm{i} : Cls' for i in range(sources)) + ', rdb : Rdb'
        domains = 'v : String; ' + ''.join(f'checkonly domain m{i} c{i} : Class {{name = v}}; ' for i in range(sources))
        return (relation(domains + 'checkonly domain rdb t : Table {name = v};', models=models),
                [classes(names(count))] * sources + [tables(names(count))])
    return made


def condition(count):
    script = relation('checkonly domain m0 c : Class {}; checkonly domain m1 d : Class {}; checkonly domain rdb t : Table {};',
                      'when { c.name = d.name; }', 'm0 : Cls, m1 : Cls, rdb : Rdb')
    return script, [classes(names(count)), classes(names(count)), tables(['n0'])]


def untied(count):
    """Each class wants a schema, which nothing ties to it: there is one, behind its tables."""
    script = relation('checkonly domain uml c : Class {}; checkonly domain rdb s : Schema {};')
    return script, [classes(names(count)), tables(names(count))]


def callers(count):
    script = relation('checkonly domain m0 c : Class {}; checkonly domain m1 d : Class {}; checkonly domain rdb t : Table {};',
                      'where { Sub(c, t); }', 'm0 : Cls, m1 : Cls, rdb : Rdb',
                      'relation Sub { checkonly domain m0 c : Class {}; checkonly domain rdb t : Table {}; }')
    return script, [classes(names(count)), classes(names(count)), tables(['n0'])]


def script_of(relations):
    return 'transformation T (uml : Cls, rdb : Rdb) {\n' + '\n'.join(relations) + '\n}\n'


PACKAGE = ('top relation PackageToSchema { n : String; checkonly domain uml p : Package {name = n};'
           'checkonly domain rdb s : Schema {name = n}; }')
CLASS = ('top relation ClassToTable { n : String; checkonly domain uml c : Class {owner = p : Package {}, name = n};'
         'checkonly domain rdb t : Table {schema = s : Schema {}, name = n}; when { PackageToSchema(p, s); } %s }')
ATTRIBUTE = ('top relation AttributeToColumn { n : String; checkonly domain uml a : Attr {owner = c : Class {}, name = n};'
             'checkonly domain rdb k : Column {table = t : Table {}, name = n}; when { ClassToTable(c, t); } }')
USE = ('top relation UseToTables { u : Table; checkonly domain uml c : Class {uses = d : Class {}};'
       'checkonly domain rdb t : Table {}; when { ClassToTable(c, t); ClassToTable(d, u); } }')


def one_attribute(count):
    """An attribute in each class; and each class uses the next."""
    return lambda i: f'<attrs xmi:id="a{i}" name="a{i}"/><uses xmi:idref="c{(i + 1) % count}"/>'


def one_column(i):
    return f'<columns xmi:id="k{i}" name="a{i}"/>'


def calls_of_calls(count):
    script = script_of([PACKAGE, CLASS % '', ATTRIBUTE])
    return script, [classes(names(count), one_attribute(count)), tables(names(count), one_column)]


def two_calls(count):
    script = script_of([PACKAGE, CLASS % 'where { Same(c, t); }', USE,
                        'relation Same { n : String; checkonly domain uml c : Class {name = n}; checkonly domain rdb t : Table {name = n}; }'])
    return script, [classes(names(count), one_attribute(count)), tables(names(count), one_column)]


def each_with_each(count):
    """Packages and schemas of which each matches each, and a relation that calls this."""
    packages = HEAD % 'Cls' + ''.join(f'<m:Package xmi:id="p{i}" name="p{i}"/>\n' for i in range(count)) + FOOT
    schemas = HEAD % 'Rdb' + ''.join(f'<m:Schema xmi:id="s{i}" name="s{i}"/>\n' for i in range(count)) + FOOT
    script = script_of(['relation Any { checkonly domain uml p : Package {}; checkonly domain rdb s : Schema {}; }',
                        'top relation R { checkonly domain uml p : Package {}; checkonly domain rdb s : Schema {}; when { Any(p, s); } }'])
    return script, [packages, schemas]


SHAPES = [
    ('one class of n attributes', wide, (2000, 4000, 8000)),
    ('n columns of one table, by name', listed, (2000, 4000, 8000)),
    ('n variables as items', items, (2000, 4000, 8000)),
    ('n equations', equations, (2000, 4000, 8000)),
    ('n classes and tables, by name', by_name, (5000, 10000, 20000)),
    ('two sources of n classes, by name', joined(2), (2000, 4000, 8000)),
    ('three sources of n classes, by name', joined(3), (2000, 4000, 8000)),
    ('two sources of n classes, by a condition', condition, (2000, 4000, 8000)),
    ('n classes, an object of a rare class for each', untied, (5000, 10000, 20000)),
    ('n x n callers of one relation', callers, (100, 200, 400)),
    ('n attributes, a when call of a relation with a when call', calls_of_calls, (2000, 4000, 8000)),
    ('n classes, two when calls of a relation with calls', two_calls, (2000, 4000, 8000)),
    ('n packages and schemas, each with each, called', each_with_each, (250, 500, 1000)),
]


def words_of(program, models):
    """The words of a check, and the names of its models' files."""
    if len(models) == 2:
        bound = ['uml']
    else:
        bound = [f'm{i}' for i in range(len(models) - 1)]
    files = [f'{name}.xmi' for name in bound] + ['r.xmi']
    words = [program, 'check', 's.qvtr', 'rdb', 'Cls=cls.xmi', 'Rdb=rdb.xmi']
    return words + [f'{name}={name}.xmi' for name in bound] + ['rdb=r.xmi'], files


def measured(program, folder, made):
    script, models = made
    words, files = words_of(program, models)
    for file, text in zip(['s.qvtr'] + files, [script] + models):
        with open(os.path.join(folder, file), 'w', encoding='utf-8') as out:
            out.write(text)
    return timed(words, folder)


def measure(program, folder):
    for name in ('cls.xmi', 'rdb.xmi'):
        shutil.copy(os.path.join(DATA, name), folder)
    for name, make, sizes in SHAPES:
        runs = [measured(program, folder, make(size)) for size in sizes]
        told = ', '.join(f'{size}: {seconds:.2f} s {memory / 1e6:.0f} MB' for size, (seconds, memory, _) in zip(sizes, runs))
        exponent = math.log(max(runs[2][0], 0.01) / max(runs[1][0], 0.01), sizes[2] / sizes[1])
        print(f'{name}: {told}; exponent {exponent:.1f}: {runs[2][2]}', flush=True)


if __name__ == '__main__':
    run(__doc__, measure)
