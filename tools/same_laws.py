#!/usr/bin/env python3
"""Lists the laws and definitions that say the same under another name or in another crate: same_laws.py [CRATES].

A statement is what stands behind `NAME :`, with its bound variables renamed in their order. Statements of fewer than
60 characters are left out, and the files that tools/grammar.py writes. What is listed may still differ, where it speaks of
parameters of a section or of words of its own file.
"""
import collections
import glob
import re
import sys

SIGNATURE = re.compile(r'\s*(?:pub |abbrev |unfoldable )*([^\s:(){}]+) : (.*)')
BINDER = re.compile(r'[({]([^(){}:]+?) : ')


def statements(path):
    """The place, the name and the statement of each signature of the file."""
    lines = open(path, encoding='utf-8').read().split('\n')
    for number, line in enumerate(lines, start=1):
        found = SIGNATURE.match(line)
        if not found or line.strip().startswith('--'):
            continue
        name, statement = found.groups()
        for more in lines[number:]:
            if not more.strip().startswith('→'):
                break
            statement += ' ' + more.strip()
        yield f'{path}:{number}', name, statement


def renamed(statement):
    """The statement, its bound variables numbered in their order."""
    count = 0
    for variables in BINDER.findall(statement):
        for variable in variables.split():
            statement = re.sub(rf'(?<![\w.\-]){re.escape(variable)}(?![\w\-])', f'v{count}', statement)
            count += 1
    return statement


def main():
    root = sys.argv[1] if len(sys.argv) > 1 else 'crates'
    places = collections.defaultdict(list)
    for path in sorted(glob.glob(f'{root}/*/specs/**/*.antt', recursive=True) + glob.glob(f'{root}/*/proofs/**/*.antt', recursive=True)):
        if '/bg_syntax/' in path:
            continue
        for place, name, statement in statements(path):
            if len(statement) >= 60 and 'goal.' not in statement:
                places[renamed(statement)].append((place, name))
    for statement, found in sorted(places.items(), key=lambda item: -len(item[1])):
        if len(found) > 1:
            print(statement)
            for place, name in found:
                print(f'    {place} {name}')


if __name__ == '__main__':
    main()
