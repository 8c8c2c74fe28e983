#!/usr/bin/env python3
"""Proves and builds the program: tools/build.py.

`rt run` in the program's folder builds the libraries below it one by one. This lays the program's crates out in a folder
of their own, without their edits, and calls `rt ci` there, which proves as many side by side as there are processors and
keeps what it proved for the gate. How far it is stands on standard error, crate by crate. Ends with 70, and with the end
of what `rt` said, where a crate is not proved.
"""
import os
import pathlib
import re
import shutil
import subprocess
import sys
import tempfile
import time

PROGRAM = "bigengine"
TOP = pathlib.Path(__file__).resolve().parent.parent
# the parts of a crate that its proof and its run read
PARTS = ("src", "specs", "proofs", "data", "stdin", "stdout", "args", "status")


def tell(text):
    print(f"{PROGRAM}: {text}", file=sys.stderr, flush=True)


def lines_of_crates():
    """Returns the line of each crate of crates.txt, by its name."""
    lines = [line.partition("#")[0].strip() for line in (TOP / "crates.txt").read_text().splitlines()]
    return {line.partition(":")[0].split()[0]: line for line in lines if line}


def below(lines):
    """Returns the program and the crates of the repository below it."""
    found, left = [], [PROGRAM]
    while left:
        name = left.pop()
        if name in lines and name not in found:
            found.append(name)
            left += lines[name].partition(":")[2].split()
    return found


def lay_out(names, lines, room):
    """Writes these crates, their list and the handles into a folder."""
    (room / "crates.txt").write_text("".join(f"{lines[name]}\n" for name in names))
    shutil.copy(TOP / "HANDLES", room)
    for name in names:
        to = room / "crates" / name
        to.mkdir(parents=True)
        for part in PARTS:
            source = TOP / "crates" / name / part
            if source.is_dir():
                shutil.copytree(source, to / part)
            elif source.exists():
                shutil.copy(source, to)


def prove(names, room):
    """Runs the gate over the folder, tells each crate that is done, and returns whether all is proved and what was said."""
    said, done = [], 0
    with subprocess.Popen(["rt", "ci"], cwd=room, stdin=subprocess.DEVNULL, stdout=subprocess.PIPE, stderr=subprocess.STDOUT, text=True, errors="replace") as gate:
        for line in gate.stdout:
            said.append(line)
            proved = re.match(r"rt: (\w+) (?:proved$|is kept)", line)
            if proved:
                done += 1
                tell(f"{done} of {len(names)} crates proved: {proved[1]}")
    return gate.returncode == 0, said


def main():
    begun = time.time()
    lines = lines_of_crates()
    names = below(lines)
    tell(f"proving and building the program, once: {len(names)} crates, on four processors within an hour")
    with tempfile.TemporaryDirectory(prefix=f"{PROGRAM}-") as folder:
        room = pathlib.Path(folder)
        lay_out(names, lines, room)
        is_proved, said = prove(names, room)
        built = room / "crates" / PROGRAM / "out" / PROGRAM
        if not is_proved or not built.exists():
            sys.stderr.writelines(said[-20:])
            tell("not proved, so there is no program")
            return 70
        to = TOP / "crates" / PROGRAM / "out" / PROGRAM
        to.parent.mkdir(exist_ok=True)
        shutil.copy(built, to)
        # a source that was changed meanwhile is newer than the program
        os.utime(to, (begun, begun))
    tell(f"done, after {(time.time() - begun) / 60:.0f} minutes")
    return 0


sys.exit(main())
