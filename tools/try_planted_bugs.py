#!/usr/bin/env python3
"""Tries the planted bugs of a crate, many in one check: try_planted_bugs.py COPY CRATE[/NAME]..

`rt must-fail` gives each bug a check of its own. This writes as many bugs as stand in different functions into the copy of
the repository at once, has these functions checked and no others (`rt check --only`), and wants each of them to be refused
for goals of its own, and not since it calls another that is refused. What is left over goes into the next check. A bug that
is not in a function of `src/` (a definition, a constant), or that does not compile with the others, is told as not tried:
`planted_bugs.py` and `rt must-fail` try it alone. The copy's sources are put back after each check. Ends with 1 where a bug
is not refused.
"""
import pathlib
import re
import subprocess
import sys

from planted_bugs import bugs_of

JOBS = "2"


def name_at(text, position):
    """Returns the name of the function whose text holds the position, as `rt check` tells its end, or None."""
    heads = [it for it in re.finditer(r"^( *)(?:pub(?:\([a-z]+\))? )?(?:const )?fn (\w+)", text, re.M) if it.start() <= position]
    if not heads:
        return None
    head = heads[-1]
    impls = [it for it in re.finditer(r"^impl(?:<[^>]*>)? (?:(\w+)(?:<[^{]*>)? for )?(\w+)", text, re.M) if it.start() < head.start()]
    if head[1] and impls:
        return f"{impls[-1][2]}{impls[-1][1] or ''}::{head[2]}"
    return head[2]


def path_of(file, name):
    """Returns what `rt check --only` is to be told: a method by its type, any other function by its module."""
    return name if "::" in name else file.removeprefix("src/").removesuffix(".rt").replace("/", "::") + "::" + name


def applied(folder, lines, texts):
    """Returns the texts with the bug in them, and the functions that it changes; None where it cannot be planted there."""
    texts, functions, file, old = dict(texts), set(), None, None
    for line in lines:
        word, _, text = line.partition(":")
        text = text.removeprefix(" ")
        if word == "file":
            file = text
            texts.setdefault(file, (folder / file).read_text(encoding="utf-8"))
        elif word == "old":
            old = text
        elif texts[file].count(old) != 1 or not file.startswith("src/"):
            return None
        else:
            name = name_at(texts[file], texts[file].index(old))
            if name is None:
                return None
            functions.add(path_of(file, name))
            texts[file] = texts[file].replace(old, text)
    return texts, functions


def chosen(folder, bugs):
    """Returns the texts with bugs of different functions, and by function the bug that is in it."""
    texts, held = {}, {}
    for bug, lines in bugs:
        made = applied(folder, lines, texts)
        if made and not any(it in held for it in made[1]):
            texts = made[0]
            held.update({it: bug for it in made[1]})
    return texts, held


def checked(folder, texts, functions):
    """Returns what a check of these functions says, of the crate with these texts."""
    own = {file: (folder / file).read_text(encoding="utf-8") for file in texts}
    try:
        for file, text in texts.items():
            (folder / file).write_text(text, encoding="utf-8")
        words = [word for it in functions for word in ("--only", it)]
        return subprocess.run(["rt", "check", "--jobs", JOBS, *words], cwd=folder, stdout=subprocess.PIPE, stderr=subprocess.STDOUT, text=True, errors="replace").stdout
    finally:
        for file, text in own.items():
            (folder / file).write_text(text, encoding="utf-8")


def is_refused(said, function):
    """Whether the check refuses the function for goals of its own."""
    told = [line for line in said.split("\n") if re.search(rf"\bfn \S*\b{re.escape(function)}: ", line)]
    return any(": not proved" in line or "did not prove" in line or "expected answers" in line for line in told)


def tried(copy, crate, bugs):
    """Tries the bugs of the crate, says what came of each, and returns how many were not refused."""
    folder, left, missed = copy / "crates" / crate, list(bugs), 0
    while left:
        texts, held = chosen(folder, left)
        if not held:
            break
        said = checked(folder, texts, held)
        if not re.search(r"^only=\d+ proved=\d+", said, re.M):
            print(f"{crate}: {', '.join(held.values())}: not tried, since together they do not reach the prover")
        else:
            for bug in dict.fromkeys(held.values()):
                refused = all(is_refused(said, function) for function in held if held[function] == bug)
                missed += not refused
                print(f"{crate}/{bug}: {'refused' if refused else 'NOT REFUSED for goals of its own'}", flush=True)
        left = [it for it in left if it[0] not in held.values()]
    for bug, _ in left:
        print(f"{crate}/{bug}: not tried, since it changes no function of src/ alone")
    return missed


def main(words):
    copy, missed = pathlib.Path(words[0]), 0
    for word in words[1:]:
        crate, _, wanted = word.partition("/")
        missed += tried(copy, crate, [it for it in bugs_of(crate) if wanted in ("", it[0])])
    return 1 if missed else 0


if len(sys.argv) < 3:
    sys.exit(__doc__)
sys.exit(main(sys.argv[1:]))
