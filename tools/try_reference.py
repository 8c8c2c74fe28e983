#!/usr/bin/env python3
"""Compares what a program answers with what the reference in tools/reference answers, on many cases.

    python3 tools/try_reference.py PROGRAM [COUNT] [SEED]

PROGRAM is the built program. The cases are those made by hand (tools/reference/cases.py) and COUNT at random (1,000 where
it is not given): models, hosts with redexes, runs of one worker, journals in front of models, listings and words, many of them damaged. The same SEED (1
where it is not given) makes the same cases. Exit status and standard output have to be the same, and nothing may stand on
standard error. Each difference is told with its words and its input. The last line is `N cases, M different`, also after
Ctrl-C; the status is 1 where M > 0.

The reference was written from the description of the language alone and shares no code with the engine or with
tools/grammar.py: a misreading of either shows here, a sentence that both misread alike does not.
"""
import random
import subprocess
import sys

from reference.cases import cases
from reference.draws import draw
from reference.engine import engine

SHOWN = 2000
SECONDS = 120
CHECKED = 3000


def answer_of(program, words, data):
    """Status, standard output and standard error of the program."""
    try:
        run = subprocess.run([program, *words], input=data, capture_output=True, timeout=SECONDS, check=False)
    except subprocess.TimeoutExpired:
        return f'none within {SECONDS} seconds', b'', b''
    return run.returncode, run.stdout, run.stderr


def tell(words, data, wanted, found):
    """Writes a difference: the input, and what stands around the first byte that differs."""
    pairs = enumerate(zip(wanted[1], found[1]))
    place = next((place for place, (one, other) in pairs if one != other), min(len(wanted[1]), len(found[1])))
    print(f'---- words {words}, and an input of {len(data)} bytes:')
    print(data[:SHOWN].decode('latin1'))
    for name, (status, written, fault) in (('reference', wanted), ('program', found)):
        print(f'-- {name}: status {status}, around byte {place} {written[max(0, place - 100):place + 100]!r} {fault[:SHOWN]!r}')
    sys.stdout.flush()


def main():
    if not 2 <= len(sys.argv) <= 4:
        sys.exit('usage: try_reference.py PROGRAM [COUNT] [SEED]')
    count, seed = [int(number) for number in sys.argv[2:]] + [1000, 1][len(sys.argv) - 2:]
    chance, made, tried, different = random.Random(seed), cases(), 0, 0
    try:
        for place in range(len(made) + count):
            words, data = made[place] if place < len(made) else draw(chance)
            wanted = (*engine(words, data, checks_itself=len(data) < CHECKED), b'')
            found = answer_of(sys.argv[1], words, data)
            tried += 1
            if found != wanted:
                different += 1
                tell(words, data, wanted, found)
    except KeyboardInterrupt:
        print('ended before the last case')
    print(f'{tried} cases, {different} different')
    sys.exit(1 if different else 0)


if __name__ == '__main__':
    main()
