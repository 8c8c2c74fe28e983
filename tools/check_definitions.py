#!/usr/bin/env python3
"""Checks docs/DEFINITIONS.md: check_definitions.py, or check_definitions.py --list

What one has to believe for the clauses of `engine` is what these clauses reach: the definitions that they cite, those that the
bodies of these cite, and so on. Names are followed through the `use` lines of each file, definition by definition; a name that
is bound where it stands, as an argument or a field, is none. Types that are declared in the sources are not followed.

It fails where a definition that docs/DEFINITIONS.md names does not stand in the file that is named beside it, where the first
part names one that is not reached, or has no row for a file of which some definition is reached, and where the second part
names one that is reached. It prints what is wrong, with the line, and ends with 1 if anything is. `--list` prints the files
that are reached, each behind the number of steps to it, and what of them is.
"""
import functools
import pathlib
import re
import sys

ROOT = pathlib.Path(__file__).resolve().parent.parent
DEFINITIONS = ROOT / 'docs' / 'DEFINITIONS.md'
ENGINE = ROOT / 'crates' / 'bg_top' / 'src' / 'top.rt'
USE = re.compile(r'^\s*(?:ghost )?use Rattle\.(\w+)\.specs\.(\w+)(?:\.\{([^}]*)\}| as (\w+));?$', re.M)
ITEM = re.compile(r"^ *(?:(?:abbrev|unfoldable) (?:pub )?([^\s:]+) :|pub (?:record|data) ([\w']+)\b|module _)", re.M)
WORD = re.compile(r"[^\W\d][\w']*(?:\.[^\W\d][\w']*)*|>>=")
BOUND = re.compile(r"λ ((?:[\w']+ |\([^()]*\) )*[\w']+|\([^()]*\))\.|[({]((?:[\w']+ )+):")
LABEL = re.compile(r"(?<=[{;])\s*[\w']+ = ")


def spec_of(crate, file):
    """The file of definitions."""
    return ROOT / 'crates' / crate / 'specs' / f'{file}.antt'


@functools.lru_cache(maxsize=None)
def text_of(path):
    """The text without comments."""
    return re.sub(r'--.*', '', path.read_text(encoding='utf-8'))


def imports_of(text):
    """What names stand for that are imported: of each the crate, the file and the name there, which is none of a whole file."""
    found = {}
    for crate, file, names, alias in USE.findall(text):
        if not spec_of(crate, file).is_file():
            continue
        if alias:
            found[alias] = (crate, file, None)
        for word in filter(None, (word.strip() for word in names.split(','))):
            name, _, other = word.partition(' as ')
            found[(other or name).strip('◌')] = (crate, file, name.strip('◌'))
    return found


@functools.lru_cache(maxsize=None)
def bodies_of(crate, file):
    """The definitions of a file: of each name its text; a case of a type has the text of the type."""
    text = text_of(spec_of(crate, file))
    starts = list(ITEM.finditer(text))
    bodies = {}
    for start, end in zip(starts, [found.start() for found in starts[1:]] + [len(text)]):
        if name := start.group(1) or start.group(2):
            bodies[name.strip('◌')] = text[start.start():end]
    return bodies


@functools.lru_cache(maxsize=None)
def owners_of(crate, file):
    """Of each definition of a file, and of each case of a type, the name of that definition."""
    owners = {}
    for name, body in bodies_of(crate, file).items():
        for part in re.findall(r"^ +([\w']+) :", body, re.M) if re.match(r' *(pub )?data ', body) else []:
            owners.setdefault(part, name)
    return {**owners, **{name: name for name in bodies_of(crate, file)}}


def clauses_of(name, body):
    """The parts of a definition in each of which names are bound for themselves: its type, and each of its equations."""
    if re.search(r'\b(record|data) ', body.split(':')[0]):
        return [body]
    parts = re.split(rf'^(?=\s*{re.escape(name)} |.* >>= .* = )', body, flags=re.M)
    return [part for part in parts if part.strip()]


def bound_in(clause):
    """The names that are bound in a clause: arguments, of functions and of types, and fields of a record."""
    bound = set()
    for groups in BOUND.findall(clause):
        for words in groups:
            bound.update(re.findall(r"[\w']+", words.split(':')[0]))
    bound.update(re.findall(r"^ +(?:pub )?([\w']+) :", clause, re.M))
    return bound


def arguments_in(clause, name, known):
    """The names that an equation binds on its left: all that are no cases of types."""
    left, equals, _ = clause.partition('=')
    if not equals or not left.strip().startswith(name) and '>>=' not in left:
        return set()
    return {word for word in WORD.findall(left) if word not in known}


def cited_in(clause, bound, known):
    """What a clause cites, by crate, file and name."""
    for word in WORD.findall(LABEL.sub(' ', clause)):
        first, _, rest = word.partition('.')
        target = None if first in bound else known.get(first)
        if target and target[2] is None and rest:
            yield (*target[:2], rest.split('.')[0])
        elif target and target[2]:
            yield target


def is_case(target):
    """Whether the target is a case of a type, as a pattern may have it."""
    crate, file, name = target
    return name is not None and owners_of(crate, file).get(name, name) != name


@functools.lru_cache(maxsize=None)
def cites(crate, file, name):
    """The definitions that a definition cites."""
    own = {word: (crate, file, word) for word in owners_of(crate, file)}
    known = {**imports_of(text_of(spec_of(crate, file))), **own}
    cases = {word for word, target in known.items() if target[2] is None or is_case(target)}
    found = set()
    for clause in clauses_of(name, bodies_of(crate, file)[name]):
        bound = bound_in(clause) | arguments_in(clause, name, cases)
        found.update(cited_in(clause, bound - {name}, known))
    return owned(found)


def owned(targets):
    """The definitions that the targets are, or are parts of."""
    found = set()
    for crate, file, name in targets:
        if owner := owners_of(crate, file).get(name):
            found.add((crate, file, owner))
    return found


def roots():
    """The definitions that the clauses of `engine` cite."""
    text = ENGINE.read_text(encoding='utf-8')
    head = re.search(r'^pub fn engine\b.*?^\{', text, re.M | re.S).group(0)
    clauses = re.sub(r'//.*', '', head[head.index('    ensures'):])
    bound = {word for words in re.findall(r'λ ([\w ]+)\.', clauses) for word in words.split()}
    return owned(cited_in(re.sub(r'ensures \w+', '', clauses), bound, imports_of(text)))


def reached():
    """The definitions that the clauses of `engine` reach, each with the number of steps to it."""
    steps, front = {}, roots()
    while front:
        steps.update(dict.fromkeys(front, max(steps.values(), default=-1) + 1))
        front = {other for target in front for other in cites(*target)} - steps.keys()
    return steps


# ---- docs/DEFINITIONS.md

PARTS = ['What the clauses of `engine` reach', 'What contracts of libraries cite besides']


def rows():
    """Of each row its line, its part and its cells: 0 for the first part, 1 for the second."""
    part, found = None, []
    for number, line in enumerate(DEFINITIONS.read_text(encoding='utf-8').split('\n'), 1):
        if line.startswith('## '):
            part = PARTS.index(line[3:]) if line[3:] in PARTS else None
        cells = [cell.strip() for cell in re.split(r'(?<!\\)\|', line)[1:-1]] if line.startswith('|') else []
        if part is not None and cells and cells[0] != 'Definition' and set(cells[0]) != {'-'}:
            found.append((number, part, cells))
    return found


def names_in(cell):
    """The names of a cell in backquotes: the first word of each, but the names of crates."""
    words = [words.split()[0] for words in re.findall(r'`([^`]+)`', cell)]
    return [word for word in words if not (ROOT / 'crates' / word).is_dir()]


def files_in(cell):
    """The files of a cell, each behind the folder of the one before it where it has none of its own."""
    folder, files = '', []
    for word in re.findall(r'`([^`]+)`', cell):
        folder = word.rpartition('/')[0] if '/' in word else folder
        files.append(f'{folder}/{word.rpartition("/")[2]}')
    return files


def owner_in(file, name):
    """The definition of that name in the file, or of which it is a case; of a source the type that is declared."""
    path = ROOT / 'crates' / file
    if not path.is_file():
        return None
    if path.suffix != '.antt':
        return (file, name) if re.search(rf'^pub (struct|enum) {name}\b', path.read_text(encoding='utf-8'), re.M) else None
    crate = path.parts[-3]
    owner = owners_of(crate, path.stem).get(name)
    return owner and (crate, path.stem, owner)


def faults_of_row(part, cells, steps):
    """What is wrong with a row."""
    if len(cells) != 3:
        return ['a row of another number of cells']
    names, files = names_in(cells[0]), files_in(cells[2])
    faults = [f'no file {file}' for file in files if not (ROOT / 'crates' / file).is_file()]
    faults += [f'{file} has none of these' for file in files if not any(owner_in(file, name) for name in names)]
    for name in names:
        owners = [owner for file in files if (owner := owner_in(file, name))]
        if not owners:
            faults.append(f'{name} does not stand in {" or ".join(files)}')
        elif part == 0 and not any(len(owner) == 2 or owner in steps for owner in owners):
            faults.append(f'{name} is not reached')
        elif part == 1 and all(owner in steps for owner in owners):
            faults.append(f'{name} is reached')
    return faults


def faults_of(steps):
    """What is wrong with docs/DEFINITIONS.md."""
    found, named = rows(), set()
    faults = [f':{number}: {fault}' for number, part, cells in found for fault in faults_of_row(part, cells, steps)]
    for _, part, cells in found:
        named.update(files_in(cells[-1]) if part == 0 else [])
    wanted = {f'{crate}/specs/{file}.antt' for crate, file, _ in steps}
    return faults + [f': no row of the first part for {file}' for file in sorted(wanted - named)]


def listed(steps):
    """The files that are reached, from `engine` on, and what of them is."""
    files = {}
    for (crate, file, name), count in steps.items():
        files.setdefault(f'crates/{crate}/specs/{file}.antt', []).append((count, name))
    ordered = sorted(files.items(), key=lambda item: (min(item[1])[0], item[0]))
    return [f'{min(found)[0]} {file}: {" ".join(name for _, name in sorted(found))}' for file, found in ordered]


def main(words):
    if words not in ([], ['--list']):
        print('check_definitions.py or check_definitions.py --list', file=sys.stderr)
        return 2
    steps = reached()
    told = listed(steps) if words else [f'docs/DEFINITIONS.md{fault}' for fault in faults_of(steps)]
    print(*told, sep='\n', end='\n' if told else '')
    return 1 if told and not words else 0


if __name__ == '__main__':
    sys.exit(main(sys.argv[1:]))
