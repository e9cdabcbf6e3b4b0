#!/usr/bin/env python3
"""Checks the documents: their lines, their links, and that each command prints what they say.

    python3 docs/check.py PROGRAM     all that needs no proof; PROGRAM is the built program
    python3 docs/check.py             lines, links, names and copies alone
    python3 docs/check.py --cases     writes the examples into the cases of crates/engine_cases

What a document says is found by its marks:

- A block ```console has commands behind `$ ` and below each what it prints. They run above a copy of examples/ (in an
  example's own README in a copy of its folder), with the program in reach as `qvtr`.
- A block ```sh needs the toolchain and isn't run.
- A block behind `<!-- file PATH -->` is that file, or lines of it that follow each other.
- A table behind `<!-- values -->` has expressions with their values. Each is a case of crates/expression_cases, and
  is asked of the program.
- A table behind `<!-- refused KIND -->` has texts that are refused, with what is printed: the inside of a
  transformation (KIND `script`), a whole script (`text`), a model (`model`), or what stands in a metamodel
  (`metamodel`).
"""
import os
import re
import shutil
import subprocess
import sys
import tempfile

TOP = os.path.normpath(os.path.join(os.path.dirname(os.path.abspath(__file__)), '..'))
WIDEST = 110
COPIES = {  # what stands twice: of the example, and of the stored run of qvtr_cmd
    'cls.emof': 'cls.xmi', 'rdb.emof': 'rdb.xmi', 'cls2rdb.qvtr': 's.qvtr', 'shop.xmi': 'u.xmi',
    'tables.xmi': 'r.xmi', 'no_column.xmi': 'no_column.xmi'}
CASES_BEGIN = '# The examples of examples/, written by docs/check.py --cases.\n'
CASES_END = '# Checks of the main script.'


def read(path):
    with open(os.path.join(TOP, path), encoding='utf-8') as file:
        return file.read()


def listed(pattern):
    words = ['git', 'ls-files', '--cached', '--others', '--exclude-standard', pattern]
    found = subprocess.run(words, cwd=TOP, text=True, stdout=subprocess.PIPE, check=True).stdout.split()
    return sorted(path for path in found if os.path.exists(os.path.join(TOP, path)))


def documents():
    return listed('*.md')


def example_files():
    """The files of examples but for those that are copies."""
    copies = {'examples/classes_to_tables/' + name for name in COPIES}
    return [path for path in listed('examples/*') if not path.endswith('.md') and path not in copies]


class Faults:
    def __init__(self):
        self.found, self.done = 0, 0

    def say(self, where, text):
        self.found += 1
        print(f'{where}: {text}')

    def compare(self, where, wanted, got):
        self.done += 1
        if wanted != got:
            self.say(where, f'says\n{wanted}\n  but it is\n{got}')


# ---- lines and links

def check_lines(faults, path, text):
    for number, line in enumerate(text.split('\n'), 1):
        if len(line) > WIDEST:
            faults.say(f'{path}:{number}', f'{len(line)} columns')


def anchors(text):
    """The names that headings have as targets of links, as they are made from their words."""
    names = set()
    for line in without_blocks(text).split('\n'):
        found = re.match(r'#+ (.*)', line)
        if found:
            names.add(re.sub(r'[^\w\- ]', '', found[1].lower()).replace(' ', '-'))
    return names


def without_blocks(text):
    return re.sub(r'^```.*?^```', '', text, flags=re.M | re.S)


def check_links(faults, path, text):
    for target in re.findall(r'\]\(([^)\s]+)\)', without_blocks(text)):
        if re.match(r'https?:', target):
            continue
        file, _, anchor = target.partition('#')
        there = os.path.normpath(os.path.join(os.path.dirname(path), file)) if file else path
        faults.done += 1
        if not os.path.exists(os.path.join(TOP, there)):
            faults.say(path, f'no such file: {target}')
        elif anchor and anchor not in anchors(read(there)):
            faults.say(path, f'no such heading: {target}')


def check_paths(faults, path, text):
    """Files that a document names by their crate are there."""
    for name in re.findall(r'`(\w+/(?:src|specs|proofs|stdin|stdout|data)\b[\w./]*)`', without_blocks(text)):
        faults.done += 1
        places = ('crates/' + name, 'crates/' + name + '.antt', name)
        if not any(os.path.exists(os.path.join(TOP, place)) for place in places):
            faults.say(path, f'no such file: {name}')


def words_of_code():
    """Each word of code and definitions, and each name of a crate, a folder or a file."""
    words = set()
    for path in listed('crates/*'):
        words.update(re.findall(r'\w+', path))
        if path.endswith(('.rt', '.antt')):
            words.update(re.findall(r'\w+', read(path)))
    return words


def check_names(faults, path, text, words):
    """Names of the pages on code are there."""
    if path not in ('docs/PROVED.md', 'docs/DESIGN.md') and not path.startswith('docs/crates/'):
        return
    for name in re.findall(r'`([A-Za-z_]\w*(?:(?:::|\.)\w+)*)`', without_blocks(text)):
        faults.done += 1
        if not words.issuperset(re.findall(r'\w+', name)):
            faults.say(path, f'no such name: {name}')


# ---- blocks

def blocks(text):
    """The blocks of a document: the line, the mark in front, the language, and the text."""
    for found in re.finditer(r'(?:^<!-- (.*?) -->\n+)?^```(\S*)\n(.*?)^```$', text, re.M | re.S):
        yield text.count('\n', 0, found.start(3)), found[1] or '', found[2], found[3]


def commands(block):
    """The commands of a block, each with what it prints."""
    parts = []
    for line in block.split('\n')[:-1]:
        if line.startswith('$ '):
            parts.append([line[2:], ''])
        elif parts and parts[-1][0].endswith('\\') and not parts[-1][1]:
            parts[-1][0] += '\n' + line
        elif parts:
            parts[-1][1] += line + '\n'
    return parts


def run_block(faults, where, block, program, folder):
    """Runs the commands of a block one after the other in one shell, and compares what each prints."""
    listed = commands(block)
    script = 'exec 2>&1\nqvtr() { "$QVTR" "$@"; }\n'
    for command, _ in listed:
        script += f'{command}\n__s=$?; printf "\\036"; (exit $__s)\n'
    done = subprocess.run(['bash', '-c', script], cwd=folder, stdout=subprocess.PIPE,
                          env={**os.environ, 'QVTR': program})
    printed = done.stdout.decode('utf-8', 'replace').split('\036')
    for (command, wanted), got in zip(listed, printed):
        faults.compare(f'{where}: {command}', wanted, got)


def check_blocks(faults, path, text, program):
    home = os.path.dirname(path)
    with tempfile.TemporaryDirectory() as folder:
        shutil.copytree(os.path.join(TOP, 'examples'), os.path.join(folder, 'examples'))
        start = os.path.join(folder, home) if home.startswith('examples') else folder
        for line, mark, language, block in blocks(text):
            where = f'{path}:{line}'
            if mark.startswith('file '):
                faults.done += 1
                if block not in read(mark[5:]):
                    faults.say(where, f'stands not so in {mark[5:]}')
            if program and language == 'console':
                run_block(faults, where, block, program, start)


# ---- expressions and scripts over two small models

META = '''<emof:Package xmi:id="K" name="K">
  <ownedType xmi:type="emof:Class" xmi:id="Named" name="Named" isAbstract="true"/>
  <ownedType xmi:type="emof:Class" xmi:id="X" name="X" superClass="Named">
    <ownedAttribute name="n"><type href="x#Integer"/></ownedAttribute>
    <ownedAttribute name="s" lower="0"><type href="x#String"/></ownedAttribute>
    <ownedAttribute name="one" type="X" lower="0"/>
    <ownedAttribute xmi:id="kids" name="kids" type="X" lower="0" upper="*" isComposite="true" opposite="up"/>
    <ownedAttribute xmi:id="up" name="up" type="X" lower="0" opposite="kids"/>
  </ownedType>
  %s
</emof:Package>
'''


def answer(program, script, files=None):
    """What a check of the script prints, over two models with one object each unless files are given."""
    with tempfile.TemporaryDirectory() as folder:
        one = '<xmi:XMI><X n="1"/></xmi:XMI>'
        given = {'k.emof': META % '', 'a.xmi': one, 'b.xmi': one,
                 'words': 'check s.qvtr b K=k.emof a=a.xmi b=b.xmi', 's.qvtr': script, **(files or {})}
        for name, text in given.items():
            with open(os.path.join(folder, name), 'w', encoding='utf-8') as file:
                file.write(text)
        words = [program] + given['words'].split()
        return subprocess.run(words, cwd=folder, stdout=subprocess.PIPE).stdout.decode('utf-8')


def value_script(expression, value):
    if value == 'invalid':
        test = f'({expression}).oclIsInvalid()'
    elif value.endswith('{}'):
        test = f'({expression})->isEmpty()'
    else:
        test = f'({expression}) = {value}'
    return inside('top relation R { domain a a0 : X {}; domain b b0 : X {}; where { %s } }' % test)


def inside(text):
    return f'transformation T (a : K, b : K) {{ {text} }}'


def rows_behind(mark, text):
    for table in re.findall(r'^<!-- %s -->\n+((?:\|.*\n)+)' % mark, text, re.M):
        for row in table.split('\n')[2:]:
            cells = re.findall(r'`` (.*?) ``|`(.*?)`', row.replace('\\|', '\0'))
            if cells:
                yield [(a or b).replace('\0', '|') for a, b in cells]


def check_values(faults, path, text, program):
    cases = set(read('crates/expression_cases/stdout').split('\n'))
    for expression, value, *_ in rows_behind('values', text):
        where = f'{path}: {expression}'
        faults.done += 1
        if f'value {expression} => {value}' not in cases:
            faults.say(where, 'is no case of crates/expression_cases with this value')
        if program:
            faults.compare(where, 'yes\n', answer(program, value_script(expression, value)))


def check_refused(faults, path, text, program):
    """Tables of what is refused: the inside of a transformation, a model, what stands in a metamodel."""
    converting = 'convert xmi k.emof in.xmi out.xmi'
    for kind, files in (('script', lambda given: {'s.qvtr': inside(given)}),
                        ('text', lambda given: {'s.qvtr': given}),
                        ('model', lambda given: {'words': converting, 'in.xmi': given}),
                        ('metamodel', lambda given: {'words': converting, 'k.emof': META % given})):
        for given, printed, *_ in rows_behind('refused ' + kind, text):
            faults.compare(f'{path}: {given}', printed + '\n', answer(program, '', files(given)))


# ---- copies and cases

def check_copies(faults):
    for example, stored in COPIES.items():
        faults.compare(f'examples/classes_to_tables/{example}', read(f'crates/qvtr_cmd/data/{stored}'),
                       read(f'examples/classes_to_tables/{example}'))
    questions, answers = cases()
    for file, wanted in (('stdin', questions), ('stdout', answers)):
        faults.done += 1
        if wanted not in read(f'crates/engine_cases/{file}'):
            faults.say(f'crates/engine_cases/{file}', 'has not the examples as they are: run docs/check.py --cases')


def cases():
    """The examples as cases of the engine: their files, and each command over them with its answer."""
    questions, answers = CASES_BEGIN, ''
    for folder in sorted(os.listdir(os.path.join(TOP, 'examples'))):
        here = os.path.join('examples', folder)
        if not os.path.isdir(os.path.join(TOP, here)):
            continue
        questions += f'# {folder}\n'
        for name in sorted(os.listdir(os.path.join(TOP, here))):
            if not name.endswith('.md'):
                lines = read(f'{here}/{name}').split('\n')[:-1]
                questions += f'file {name} \n' + ''.join(f'+ {line}\n' for line in lines)
        for group in stored_commands(folder):
            questions += 'vault\n'
            for command, printed in group:
                line = 'run ' + command
                questions += line + '\n'
                answers += f'{line} => {status_of(printed)} ' + printed.replace('\n', '\\n') + '\n'
    return questions + '\n', answers


def stored_commands(folder):
    """The commands over the files of an example, a group a document; one that has no enforcement leaves out those that were met."""
    met = set()
    for path in documents():
        group = list(commands_over(folder, path))
        if not any(given.startswith('enforce ') for given, _ in group):
            group = [(given, printed) for given, printed in group if given not in met]
        met.update(given for given, _ in group)
        if group:
            yield group


def commands_over(folder, path):
    """The commands of a document over the files of an example, with what they print."""
    place = folder if path.startswith(f'examples/{folder}/') else None
    for _, _, language, block in blocks(read(path)) if language_of(path) else ():
        at = place
        for command, printed in commands(block) if language == 'console' else ():
            words = re.sub(r'\\\n\s*', '', command).split()
            if words[0] == 'cd':
                at = os.path.basename(words[1])
            if words[0] == 'qvtr' and at == folder:
                yield ' '.join(words[1:]), printed


def language_of(path):
    return path == 'README.md' or path.startswith(('docs/', 'examples/'))


STATUSES = {'yes': 0, 'done': 0, 'unchanged': 0, 'no': 1, 'usage': 2, 'fault': 3, 'refused': 4, 'conflict': 5, 'unmet': 6, 'cycle': 7, 'deep': 7,
            'invalid': 8, 'limit': 9, 'not-enforceable': 11}


def status_of(printed):
    first = printed.split('\n')[0].split(' ')[0]
    return STATUSES[first]


def write_cases():
    questions, answers = cases()
    path = os.path.join(TOP, 'crates', 'engine_cases', 'stdin')
    text = read('crates/engine_cases/stdin')
    before = text.index(CASES_BEGIN) if CASES_BEGIN in text else text.index(CASES_END)
    asked = text[before:text.index(CASES_END)].count('\nrun ')
    with open(path, 'w', encoding='utf-8') as file:
        file.write(text[:before] + questions + text[text.index(CASES_END):])
    lines = read('crates/engine_cases/stdout').split('\n')
    first = next(i for i, line in enumerate(lines) if line.startswith('run '))
    with open(os.path.join(TOP, 'crates', 'engine_cases', 'stdout'), 'w', encoding='utf-8') as file:
        file.write('\n'.join(lines[:first] + answers.split('\n')[:-1] + lines[first + asked:]))


def main():
    if sys.argv[1:] == ['--cases']:
        write_cases()
        return
    program = os.path.abspath(sys.argv[1]) if len(sys.argv) > 1 else None
    faults, words = Faults(), words_of_code()
    for path in documents():
        text = read(path)
        check_lines(faults, path, text)
        check_links(faults, path, text)
        check_paths(faults, path, text)
        check_names(faults, path, text, words)
        check_blocks(faults, path, text, program)
        check_values(faults, path, text, program)
        if program:
            check_refused(faults, path, text, program)
    for path in example_files():
        check_lines(faults, path, read(path))
    check_copies(faults)
    for script in ('statement.py', 'crates.py'):
        faults.done += 1
        if subprocess.run([sys.executable, os.path.join(TOP, 'docs', script), '--check']).returncode:
            faults.found += 1
    print(f'{faults.done} things were looked at, {faults.found} are not as they should be')
    sys.exit(1 if faults.found else 0)


if __name__ == '__main__':
    main()
