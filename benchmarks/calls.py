#!/usr/bin/env python3
"""Times `qvtr check` on scripts with ever more paths of calls between few relations, and with long lines of calls.

    python3 benchmarks/calls.py PROGRAM

PROGRAM is the built program. A script has layers of two relations, each of which calls both of the next layer, in its where clause or in
its when clause: 2 ^ n paths of calls with n layers, and 2 n different calls. Each line tells the clause and the layers, the seconds and
the peak memory of the run, and what was printed. In a fan each relation calls all later ones in its where clause, the last first: so ever
longer chains come to each. In a line each relation calls the next in its when clause; the stack has 1 MB there.
The metamodels are those of crates/qvtr_cmd/data; the rest is made in a temporary folder.
"""
import os
import resource
import shutil

from timing import run, timed

DATA = os.path.join(os.path.dirname(os.path.abspath(__file__)), '..', 'crates', 'qvtr_cmd', 'data')
SCRIPT = 'layers.qvtr'
LAYERS = (5, 10, 20, 40, 60)
FANS = (15, 30, 60, 120)
LINES = (1000, 10000)
STACK = 2 ** 20
HEAD = ('<?xml version="1.0" encoding="UTF-8"?>\n'
        '<xmi:XMI xmi:version="20131001" xmlns:xmi="http://www.omg.org/spec/XMI/20131001" xmlns:m="%s">\n')
FOOT = '</xmi:XMI>\n'
SOURCE = HEAD % 'Cls' + '<m:Package xmi:id="p" name="p"><classes xmi:id="c" name="C"/></m:Package>\n' + FOOT
TARGET = HEAD % 'Rdb' + '<m:Schema xmi:id="s" name="p"><tables xmi:id="t" name="C"/></m:Schema>\n' + FOOT


def relation(head, clause, callees):
    """A relation between classes and tables of one name that calls others."""
    calls = ' '.join(f'{name}(c, t);' for name in callees)
    return (f'  {head} {{\n    n : String;\n    checkonly domain uml c : Class {{name = n}};\n    enforce domain rdb t : Table {{name = n}};\n'
            + (f'    {clause} {{ {calls} }}\n' if callees else '') + '  }\n')


def script(clause, layers):
    parts = [relation('top relation Top', clause, ('A0', 'B0'))]
    for i in range(layers):
        callees = (f'A{i + 1}', f'B{i + 1}') if i + 1 < layers else ()
        parts += [relation(f'relation {side}{i}', clause, callees) for side in 'AB']
    return 'transformation Layers (uml : Cls, rdb : Rdb) {\n' + ''.join(parts) + '}\n'


def fan(relations):
    parts = [relation('top relation Top', 'where', [f'R{j}' for j in reversed(range(relations))])]
    for i in range(relations):
        parts.append(relation(f'relation R{i}', 'where', [f'R{j}' for j in reversed(range(i + 1, relations))]))
    return 'transformation Fan (uml : Cls, rdb : Rdb) {\n' + ''.join(parts) + '}\n'


def line(relations):
    """Relations each of which calls the next, as short as they can be: a script has at most 1 MiB."""
    head, domains = 'relation R%d {', 'domain uml c : Class {}; domain rdb t : Table {};'
    parts = [(f'top {head}' if i == 0 else head) % i + domains + (f'when {{R{i + 1}(c, t);}}' if i + 1 < relations else '') + '}\n'
             for i in range(relations)]
    return 'transformation Line (uml : Cls, rdb : Rdb) {\n' + ''.join(parts) + '}\n'


def measure(program, folder):
    for name in ('cls.xmi', 'rdb.xmi'):
        shutil.copy(os.path.join(DATA, name), folder)
    for file, text in (('u.xmi', SOURCE), ('r.xmi', TARGET)):
        with open(os.path.join(folder, file), 'w') as out:
            out.write(text)
    words = [program, 'check', SCRIPT, 'rdb', 'Cls=cls.xmi', 'Rdb=rdb.xmi', 'uml=u.xmi', 'rdb=r.xmi']
    for clause in ('where', 'when'):
        for layers in LAYERS:
            with open(os.path.join(folder, SCRIPT), 'w') as out:
                out.write(script(clause, layers))
            seconds, memory, printed = timed(words, folder)
            print(f'{clause}, {layers} layers: {seconds:.2f} s, {memory / 1e6:.0f} MB: {printed}', flush=True)
    for relations in FANS:
        with open(os.path.join(folder, SCRIPT), 'w') as out:
            out.write(fan(relations))
        seconds, memory, printed = timed(words, folder)
        print(f'fan of {relations}: {seconds:.2f} s, {memory / 1e6:.0f} MB: {printed}', flush=True)
    resource.setrlimit(resource.RLIMIT_STACK, (STACK, resource.getrlimit(resource.RLIMIT_STACK)[1]))
    for relations in LINES:
        with open(os.path.join(folder, SCRIPT), 'w') as out:
            out.write(line(relations))
        seconds, memory, printed = timed(words, folder)
        print(f'line of {relations:,}: {seconds:.2f} s, {memory / 1e6:.0f} MB: {printed}', flush=True)



if __name__ == '__main__':
    run(__doc__, measure)
