#!/usr/bin/env python3
"""Times the search for entries and demands on large models.

    python3 benchmarks/demands.py PROGRAM

PROGRAM is the built program of crates/repair_cases. Each line tells the models, the seconds and the peak memory of the run, and how many
entries, demands and terms were found. The seconds have the reading of the files in them, which `only read` tells by a script that demands
nothing of the same files.
"""
import os

from check import DATA, heirs, source
from timing import run, timed

SMALL = """transformation T (uml : Cls, rdb : Rdb) {
  key Rdb::Schema {name};
  key Rdb::Table {schema, name};
  %s
}
"""
NOTHING = SMALL % "top relation R { checkonly domain uml p : Package {name = 'none'}; enforce domain rdb s : Schema {name = 'none'}; }"
PACKAGES = SMALL % """top relation R {
    n : String;
    checkonly domain uml p : Package {name = n};
    enforce domain rdb s : Schema {name = n};
  }"""
TABLES = SMALL % """top relation R {
    n, m : String;
    checkonly domain uml c : Class {name = n, owner = p : Package {name = m}};
    enforce domain rdb s : Schema {name = m, tables = t : Table {name = n}};
  }"""
NODES = """<emof:Package xmi:version="20131001" xmi:id="M" name="M">
<ownedType xmi:type="emof:Class" xmi:id="I" name="Item" isAbstract="true">
<ownedAttribute xmi:id="I.n" name="name" lower="0"><type xmi:type="emof:PrimitiveType" href="p#String"/></ownedAttribute>
<ownedAttribute xmi:id="I.x" name="next" type="N" lower="0" upper="*" opposite="N.p"/>
</ownedType>
<ownedType xmi:type="emof:Class" xmi:id="R" name="Root" superClass="I"/>
<ownedType xmi:type="emof:Class" xmi:id="N" name="Node" superClass="I">
<ownedAttribute xmi:id="N.p" name="prev" type="I" lower="0" opposite="I.x"/>
</ownedType>
</emof:Package>"""
DEEP = """transformation T (uml : Cls, m : M) {
  key M::Root {name};
  key M::Node {prev, name};
  top relation First {
    n : String;
    checkonly domain uml c : Class {name = n, kind = 'first'};
    enforce domain m r : Root {name = n};
    where { Next(c, r); }
  }
  relation Next {
    n : String;
    checkonly domain uml c : Class {usedBy = d : Class {name = n}};
    enforce domain m i : Item {next = k : Node {name = n}};
    where { Next(d, k); }
  }
}
"""


def packages(count):
    return '<xmi:XMI>' + ''.join(f'<Package xmi:id="p{i}" name="p{i}"/>' for i in range(count)) + '</xmi:XMI>'


def classes(count):
    body = ''.join(f'<classes xmi:id="c{i}" name="C{i}"/>' for i in range(count))
    return f'<xmi:XMI><Package xmi:id="p" name="p">{body}</Package></xmi:XMI>'


def line(count):
    """Classes each of which is used by the next one."""
    body = ''.join(f'<Class xmi:id="c{i}" name="C{i}"' + (' kind="first"' if i == 0 else f' uses="c{i - 1}"') + '/>' for i in range(count))
    return f'<xmi:XMI>{body}</xmi:XMI>'


def attributed_heirs(classes, attributes):
    """Classes each of which has the next one as parent, the last one with many attributes."""
    attrs = ''.join(f'<attrs xmi:id="a{i}" name="a{i}" prim="String"/>' for i in range(attributes))
    body = ''.join(
        f'<classes xmi:id="c{i}" name="C{i}"' + (' kind="persistent"' if i == 0 else '') +
        (f' parent="c{i + 1}"/>' if i + 1 < classes else f'>{attrs}</classes>') for i in range(classes))
    return f'<xmi:XMI><Package xmi:id="p" name="p">{body}</Package></xmi:XMI>'


def lines_of(name, text):
    return [f'file {name} '] + ['+ ' + part for part in text.split('\n')]


def asked(script, model, target='rdb', names='Cls=cls.emof Rdb=rdb.emof uml=u.xmi rdb=r.xmi'):
    flat = ' '.join(model.split('\n'))
    lines = []
    for name in ('cls', 'rdb'):
        with open(os.path.join(DATA, name + '.xmi'), encoding='utf-8') as it:
            lines += lines_of(name + '.emof', it.read().rstrip('\n'))
    lines += lines_of('m.emof', NODES) + lines_of('s.qvtr', script)
    lines += ['file u.xmi ' + flat, 'file r.xmi <xmi:XMI/>', f'counts s.qvtr {target} {names}']
    return '\n'.join(lines) + '\n'


def cases():
    with open(os.path.join(DATA, 's.qvtr'), encoding='utf-8') as it:
        script = it.read()
    for count in (300, 2000, 20000):
        yield f'{count} classes', asked(script, source(count))
        yield f'{count} classes, only read', asked(NOTHING, source(count))
    yield 'a chain of 128 calls', asked(script, heirs(64))
    yield 'a chain of 126 calls, with 20,000 attributes at its end', asked(script, attributed_heirs(63, 20000))
    for count in (10000, 100000):
        yield f'{count} entries of a relation', asked(PACKAGES, packages(count))
        yield f'{count} terms over one parent', asked(TABLES, classes(count))
    yield 'a term of height 100', asked(DEEP, line(100), 'm', 'Cls=cls.emof M=m.emof uml=u.xmi m=r.xmi')


def measure(program, folder):
    for name, text in cases():
        with open(os.path.join(folder, 'cases'), 'w', encoding='utf-8') as out:
            out.write(text)
        seconds, memory, printed = timed([program], folder, 'cases')
        print(f"{name}: {seconds:.2f} s, {memory / 1e6:.0f} MB: {printed.split('=>')[-1]}", flush=True)


if __name__ == '__main__':
    run(__doc__, measure)
