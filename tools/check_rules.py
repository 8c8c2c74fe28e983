#!/usr/bin/env python3
"""Checks docs/RULES.md: check_rules.py

Of each link: its file is there, and the name in front stands in it, a definition as a definition, a function as `fn NAME`, a
clause as `ensures CLAUSE {` above its function, an example by its name, by what a row expects or gives, or by a text, a test as
a test, an edit or a planted bug by its name. Then that each rule has a row: each code, status and refusal of a call in
docs/REFUSALS.md, each clause of a solid bigraph, local condition and verdict. It prints what is wrong, with the line, and ends
with 1 if anything is.
"""
import functools
import pathlib
import re
import sys

ROOT = pathlib.Path(__file__).resolve().parent.parent
RULES = ROOT / 'docs' / 'RULES.md'
REFUSALS = ROOT / 'docs' / 'REFUSALS.md'
NONE = '—'
LINK = re.compile(r'\[`([^`]+)`\]\(([^)]+)\)')
CLAUSE = re.compile(r'(?:(`\w+`(?: and `\w+`)*) of|the clause of) ' + LINK.pattern)
PLAIN = re.compile(r'\[([^\]]+)\]\(([^)#]+)\)')
COLUMNS = ['Definition', 'Code', 'Clause', 'Shown by', 'Edit or planted bug']
CHECKED = {'Definition', 'Code', 'Clause'}


@functools.lru_cache(maxsize=None)
def text_of(path):
    """The text of the file, or None where it is not there."""
    return path.read_text(encoding='utf-8') if path.is_file() else None


def has_definition(text, name):
    """Whether a word, a field or a case of that name is defined."""
    word = re.escape(name)
    return re.search(rf'^ *((abbrev|unfoldable) )?(pub )?{word} :|^ *pub (data|record) {word}\b', text, re.M) is not None


def headers_of(text, name):
    """The lines of each function of that name, from `fn` up to its body; of `Type::name` those of the type."""
    kind, _, word = name.rpartition('::')
    inside, indent, headers, header = '', '', [], None
    for line in text.split('\n'):
        if found := re.match(r'(?:impl\b.*?(\w+)(?:<[^>]*>)? \{|\})$', line):
            inside = found.group(1) or ''
        if found := re.match(rf'( *)(?:pub(?:\(crate\))? )?fn {re.escape(word)}\b', line):
            indent, header = found.group(1), [] if kind in ('', inside) else None
        if header is None:
            continue
        header.append(line.strip())
        if line in (f'{indent}{{', f'{indent}{{}}') or line.endswith(';') and line.startswith(f'{indent}    ensures') \
                or line.endswith('{') and line.startswith((f'{indent})', f'{indent}fn', f'{indent}pub')):
            headers.append(header)
            header = None
    return headers


def fault_of_clause(clauses, name, text):
    """Why these clauses do not stand above the function, or None; no clauses stand for the one without a name."""
    headers = headers_of(text, name)
    if not headers:
        return f'no function {name}'
    begins = [f'ensures {clause} {{' for clause in clauses] or ['ensures {']
    if any(all(any(line.startswith(begin) for line in header) for begin in begins) for header in headers):
        return None
    return f'{name} has no clause {" and ".join(begins)}'


def stands_in_row(name, row):
    """Whether what a row expects begins so, or its input has it; a row without an input is one that only has words."""
    expected, _, given = row.partition(' ::')
    return expected.startswith(name) or name in given


def fault_of_example(name, path, text, told):
    """Why nothing of that name, or with that line, is shown there, or None; what is told is part of what is expected."""
    kind = f' that shows {told}' if told else ''
    if path.suffix == '.rt':
        return None if re.search(rf'#\[test\]\nfn {re.escape(name)}\b', text) else f'no test {name}'
    if path.suffix in ('.listing', '.model', '.journal'):
        expected = text_of(path.with_suffix('.expected')) if path.stem == name else None
        return None if expected is not None and told in expected else f'no example {name}{kind}'
    lines = [line for line in text.split('\n') if told in line and not line.startswith('#')]
    found = any(stands_in_row(name, line) if path.suffix == '.rows' else name in line for line in lines)
    return None if found else f'no line {name}{kind}'


def fault_of_edit(name, path, text):
    """Why there is no edit or planted bug of that name, or None."""
    found = path.stem == name if path.suffix == '.edit' else re.search(rf'^== {re.escape(name)}$', text, re.M)
    return None if found else f'no edit or bug {name}'


def fault_of_link(column, clauses, name, target, told):
    """What is wrong with a link of that column, or None; what is told is what an example has to show."""
    path = (RULES.parent / target).resolve()
    text = text_of(path)
    if ROOT not in path.parents or text is None:
        return f'no file {target}'
    fault = None
    if column == 'Definition':
        fault = None if path.suffix == '.antt' and has_definition(text, name) else f'no definition {name}'
    elif column == 'Code':
        fault = None if headers_of(text, name) else f'no function {name}'
    elif column == 'Clause':
        fault = fault_of_clause(clauses, name, text)
    elif column == 'Shown by':
        fault = fault_of_example(name, path, text, told)
    else:
        fault = fault_of_edit(name, path, text)
    return fault and f'{fault} in {target}'


def faults_of_cell(column, cell, told):
    """What is wrong with a cell."""
    if cell == NONE:
        return [f'{column} has a dash'] if column in CHECKED else []
    pattern = CLAUSE if column == 'Clause' else LINK
    rest = pattern.sub('', cell).replace(',', '').strip()
    faults = [f'{column} has what is no link: {rest}'] if rest else []
    for found in pattern.finditer(cell):
        clauses = re.findall(r'\w+', (found.group(1) or '').replace(' and ', ' ')) if column == 'Clause' else []
        name, target = found.groups()[-2:]
        faults.append(fault_of_link(column, clauses, name, target, told))
    return [fault for fault in faults if fault]


def cells_of(line):
    """The cells of a row of a table, or none where the line is no row."""
    if not line.startswith('|') or re.fullmatch(r'[|\-]+', line):
        return []
    return [cell.strip() for cell in re.split(r'(?<!\\)\|', line)[1:-1]]


def tables_of(path):
    """Of each section its rows: the number of the line, and the cells; the first row of a table is its head."""
    section, sections = '', {}
    for number, line in enumerate(path.read_text(encoding='utf-8').split('\n'), 1):
        if line.startswith('## '):
            section = line[3:]
        if cells := cells_of(line):
            sections.setdefault(section, []).append((number, cells))
    return sections


def faults_of_text(text):
    """What is wrong with the links outside of tables, each fault with its line."""
    faults = []
    for number, line in enumerate(text.split('\n'), 1):
        if not line.startswith('|'):
            faults.extend((number, fault) for found in PLAIN.finditer(line) if (fault := fault_of_plain(*found.groups())))
    return faults


def fault_of_plain(name, target):
    """Why the link's file, or the word, function, type or module that it names there, is not, or None."""
    path = (RULES.parent / target).resolve()
    text = text_of(path)
    if text is None:
        return f'no file {target}'
    word = name.strip('`')
    if name == word or path.stem == word:
        return None
    declared = re.search(rf'^pub (enum|struct) {re.escape(word)}\b', text, re.M) or headers_of(text, word)
    found = has_definition(text, word) if path.suffix == '.antt' else declared
    return None if found else f'no {word} in {target}'


def told_by(section, key):
    """What the examples of a row have to show."""
    if section.startswith('Codes of'):
        return f'refused {key}'.replace('`', '')
    return f'refused 49 NotSolid clause {key[0]} ' if section == 'Clauses of a solid bigraph' else ''


def faults_of_rows(sections):
    """What is wrong with the rows of the tables, each fault with its line."""
    faults = []
    for section, rows in sections.items():
        for number, cells in rows:
            if cells[1:] == COLUMNS:
                continue
            if len(cells) != 1 + len(COLUMNS):
                faults.append((number, 'a row of another number of cells'))
                continue
            for column, cell in zip(COLUMNS, cells[1:]):
                told = told_by(section, cells[0])
                faults.extend((number, fault) for fault in faults_of_cell(column, cell, told))
        for number, cells in rows:
            if [other[0] for _, other in rows].count(cells[0]) > 1:
                faults.append((number, f'two rows of {cells[0]}'))
    return faults


def codes_of(cells):
    """The codes of a row of docs/REFUSALS.md with their names: more than one in `21 to 24`, more than one limit of 52."""
    if not (found := re.fullmatch(r'(\d+)(?: to (\d+))?', cells[0])):
        return []
    numbers = range(int(found.group(1)), int(found.group(2) or found.group(1)) + 1)
    keys = [f'{number} {name}' for number, name in zip(numbers, cells[1].split(', '))]
    limits = re.findall(r'`(\w+)`', cells[2]) if cells[1] == 'TooLarge' else []
    return [f'{keys[0]} `{limit}`' for limit in limits] or keys


def calls_of(rows):
    """The refusals of calls, but those that are told as above."""
    call, keys = '', []
    for _, (name, answer, where) in rows[1:]:
        call = name or call
        if 'as above' not in where:
            keys.append(f'{call}: {answer}')
    return keys


def variants_of(file, name):
    """The variants of an enum of the sources, in backquotes."""
    body = re.search(rf'enum {name} \{{(.*?)\n\}}', text_of(ROOT / 'crates' / file), re.S).group(1)
    return [f'`{word}`' for word in re.findall(r'^    (\w+)', body, re.M)]


def wanted_rows():
    """Of each section the first cells that have to be there, or how many rows there are."""
    told = tables_of(REFUSALS)
    wanted = {section: [key for _, cells in told[section] for key in codes_of(cells)]
              for section in ('Codes of listings', 'Codes of a composition', 'Codes of models')}
    wanted['Exit statuses'] = [cells[0] for _, cells in told['Exit statuses'][1:]]
    wanted['Refusals of calls'] = calls_of(told['Refusals of calls'])
    wanted['Verdicts on a step'] = variants_of('bg_cond/src/verdict.rt', 'Verdict')
    wanted['Verdicts on a journal'] = [*variants_of('bg_journal/src/outcome.rt', 'Why'),
                                       *variants_of('bg_journal/src/outcome.rt', 'Replay'), '`Bad`']
    return wanted


def parts_defined(file, name, pattern):
    """What matches the pattern in a definition of that name."""
    body = re.search(rf'pub (?:data|record) {name} .*?(?=\n\n|\Z)', text_of(ROOT / 'crates' / file), re.S).group(0)
    return re.findall(pattern, body, re.M)


def faults_of_sections(sections):
    """The rules that have no row."""
    first = {section: [cells[0] for _, cells in rows] for section, rows in sections.items()}
    faults = [f'{section}: no row for {key}' for section, keys in wanted_rows().items()
              for key in keys if key not in first.get(section, [])]
    local = parts_defined('bg_cases/specs/Conditions.antt', 'LocalCondition', r'^  (\w+) : LocalCondition')
    fields = parts_defined('bg_rules/specs/Solid.antt', 'IsSolid', r'^  pub (\w+) :')
    for section, names in (('Local conditions of a match', local), ('Clauses of a solid bigraph', fields)):
        shown = ' '.join(cells[1] for _, cells in sections.get(section, []) if len(cells) > 1)
        faults.extend(f'{section}: no row for {name}' for name in names if f'`{name}`' not in shown)
    return faults


def main():
    sections = tables_of(RULES)
    faults = sorted(faults_of_text(text_of(RULES)) + faults_of_rows(sections))
    faults = [f'docs/RULES.md:{number}: {fault}' for number, fault in faults]
    faults.extend(f'docs/RULES.md: {fault}' for fault in faults_of_sections(sections))
    print(*faults, sep='\n', end='\n' if faults else '')
    return 1 if faults else 0


if __name__ == '__main__':
    sys.exit(main())
