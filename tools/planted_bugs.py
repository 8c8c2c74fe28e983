#!/usr/bin/env python3
"""Bugs that are planted on demand: planted_bugs.py COPY CRATE[/NAME].., or planted_bugs.py --look

`planted_bugs/CRATE.edits` beside this script has the bugs of a crate. A line `== NAME` begins each, and its lines `file:`,
`old:` and `new:` are those of a must-fail edit: each `old:` text stands once in the file, as the pairs before it left it. A
line that begins with `#` says something of what follows. The gate tries none of these bugs.

All bugs of a crate, or one of them, are written into a copy of the repository, in place of the copy's own must-fail edits of
that crate. The prover then has to refuse each:

    git clone -q . CLONE
    tools/planted_bugs.py CLONE CRATE
    cd CLONE && rt must-fail CRATE

With `--look` it says which bugs of the repository that it stands in cannot be planted, since the code has changed under them,
and ends with 1 if there are any.
"""
import pathlib
import sys

HERE = pathlib.Path(__file__).resolve().parent
BUGS = HERE / 'planted_bugs'


def bugs_of(crate):
    """The bugs of the crate: of each its name, and its lines."""
    bugs = []
    for line in (BUGS / f'{crate}.edits').read_text(encoding='utf-8').split('\n'):
        if line.startswith('== '):
            bugs.append((line[len('== '):], []))
        elif line and not line.startswith('#'):
            bugs[-1][1].append(line)
    return bugs


def fault_of(folder, lines):
    """Why the bug cannot be planted in the crate in this folder, or None."""
    file, old, texts, pairs = None, None, {}, 0
    for line in lines:
        word, _, text = line.partition(':')
        text = text[1:] if text.startswith(' ') else text
        if word == 'file':
            file = text
            if not (folder / file).is_file():
                return f'there is no file {file}'
            texts.setdefault(file, (folder / file).read_text(encoding='utf-8'))
        elif word == 'old' and file:
            old = text
            if texts[file].count(old) != 1:
                return f'stands {texts[file].count(old)} times in {file}: {old.strip()}'
        elif word == 'new' and old:
            texts[file], old, pairs = texts[file].replace(old, text), None, pairs + 1
        else:
            return f'a line that is out of place: {line}'
    if old or not pairs:
        return 'an `old:` without its `new:`, or no pair'
    if all(text == (folder / file).read_text(encoding='utf-8') for file, text in texts.items()):
        return 'changes nothing'
    return None


def plant(copy, word):
    """Writes the bugs that the word names, of a crate or one, and returns how many of them cannot be planted."""
    crate, _, wanted = word.partition('/')
    folder = copy / 'crates' / crate
    faults = 0
    (folder / 'must-fail').mkdir(exist_ok=True)
    for name, lines in bugs_of(crate):
        if wanted in ('', name):
            (folder / 'must-fail' / f'{name}.edit').write_text('\n'.join(lines) + '\n', encoding='utf-8')
            faults += told(crate, name, fault_of(folder, lines))
    return faults


def told(crate, name, fault):
    """Says the fault, and returns 1 where there is one."""
    if fault is None:
        return 0
    print(f'{crate}/{name}: {fault}')
    return 1


def look(root):
    """Returns how many bugs of the repository cannot be planted, or have the name of another bug or edit."""
    faults = 0
    for path in sorted(BUGS.glob('*.edits')):
        folder = root / 'crates' / path.stem
        names = {edit.stem for edit in folder.glob('must-fail/*.edit')}
        for name, lines in bugs_of(path.stem):
            faults += told(path.stem, name, 'there is another of this name' if name in names else fault_of(folder, lines))
            names.add(name)
    return faults


def main(words):
    if words == ['--look']:
        return 1 if look(HERE.parent) else 0
    crates = {path.stem for path in BUGS.glob('*.edits')}
    known = crates | {f'{crate}/{name}' for crate in crates for name, _ in bugs_of(crate)}
    unknown = [word for word in words[1:] if word not in known]
    if len(words) < 2 or unknown:
        print('planted_bugs.py COPY CRATE[/NAME].. or planted_bugs.py --look;', *['unknown:', *unknown] if unknown else [],
              'crates:', *sorted(crates), file=sys.stderr)
        return 2
    copy = pathlib.Path(words[0])
    for crate in {word.partition('/')[0] for word in words[1:]}:
        for edit in (copy / 'crates' / crate / 'must-fail').glob('*.edit'):
            edit.unlink()
    return 1 if sum([plant(copy, word) for word in words[1:]]) else 0


if __name__ == '__main__':
    sys.exit(main(sys.argv[1:]))
