#!/usr/bin/env python3
"""Times `qvtr check` on expressions over many variables and large collections.

    python3 benchmarks/expressions.py PROGRAM

PROGRAM is the built program. Each line tells what is asked, the processor seconds and what was printed.
Scripts and models are made anew in a temporary folder; the metamodel is that of examples/language.
"""
import os
import shutil

from timing import run, timed

META = os.path.join(os.path.dirname(os.path.abspath(__file__)), '..', 'examples', 'language', 'trees.emof')


def model(inside, kids=0):
    """A root, with what stands inside it and so many kids."""
    nodes = ''.join(f'<kids xmi:id="k{i}" name="n{i}"/>' for i in range(kids))
    return f'<xmi:XMI><Node xmi:id="a1" name="root">{inside}{nodes}</Node></xmi:XMI>\n'


def tagged(count):
    return model(''.join(f'<tags>t{i}</tags>' for i in range(count)))


def script(variables, left, right, condition='true', queries=''):
    """One relation of the two roots."""
    return (f'transformation T (left : Trees, right : Trees) {{ {queries}top relation R {{ {variables}\n'
            f'checkonly domain left a : Node {{{left}}};\ncheckonly domain right b : Node {{{right}}};\n'
            f'when {{ {condition}; }} }} }}\n')


def many_variables(count):
    items = ', '.join(f'name = v{i}' for i in range(count))
    return script(' '.join(f'v{i} : String;' for i in range(count)), items, items)


def asked(condition, queries=''):
    return script('', "name = 'root'", "name = 'root'", condition, queries)


def of_each(count, source, body):
    return asked(f'let s : Sequence(String) = {source}->asSequence() in s->forAll(x | {body})')


def chain(kind, operation, count):
    """A collection to which one element after another is brought."""
    element = f'{kind}{{%d}}' if operation == 'union' else '%d'
    return asked(f'{kind}{{0}}' + ''.join(f'->{operation}({element % i})' for i in range(count)) + '->notEmpty()')


def queries_in_turn(count, body):
    """Queries that call those before them: in the body {0} calls the query before, and {1} the one before that."""
    queries = 'query q0() : Integer { 0 }\nquery q1() : Integer { 1 }\n' + ''.join(
        f'query q{i}() : Integer {{ {body.format(f"q{i - 1}()", f"q{i - 2}()")} }}\n' for i in range(2, count + 1))
    return asked(f'q{count}() >= 0', queries)


CASES = [(f'{n} variables and items', many_variables(n), model('')) for n in (100, 200)] + [
    (f'{what} in forAll over {n}', of_each(n, 'a.tags', body), tagged(n))
    for n in (4000, 8000)
    for what, body in (
        ('size', f's->size() = {n}'), ('at', "s->at(3) = 't2'"), ('includes', "s->includes('t2')"))
] + [
    (f'{kind}: {operation}, {n} times', chain(kind, operation, n), model(''))
    for n in (5000, 10000)
    for kind, operation in (
        ('Sequence', 'including'), ('Set', 'including'), ('OrderedSet', 'including'), ('Bag', 'including'),
        ('Sequence', 'union'), ('Set', 'union'), ('OrderedSet', 'union'), ('Bag', 'union'),
        ('OrderedSet', 'append'), ('Sequence', 'prepend'))
] + [
    (f'{n} queries, {what}', queries_in_turn(n, body), model(''))
    for n in (20, 40, 400)
    for what, body in (('each calls the one before twice', '({0} + {0}).mod(1000)'), ('each calls the two before', '({0} + {1}).mod(1000)'))
]


def measure(program, folder):
    shutil.copy(META, os.path.join(folder, 'trees.emof'))
    for name, text, content in CASES:
        for file, data in (('s.qvtr', text), ('left.xmi', content), ('right.xmi', content)):
            with open(os.path.join(folder, file), 'w', encoding='utf-8') as out:
                out.write(data)
        words = ['check', 's.qvtr', 'right', 'Trees=trees.emof', 'left=left.xmi', 'right=right.xmi']
        seconds, _, printed = timed([program] + words, folder)
        print(f'{name}: {seconds:.2f} s: {printed}', flush=True)


if __name__ == '__main__':
    run(__doc__, measure)
