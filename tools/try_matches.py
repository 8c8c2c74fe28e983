#!/usr/bin/env python3
"""Makes models at random, and compares what `match` writes of each with what occurrences.py finds.

    python3 tools/try_matches.py PROGRAM SEED COUNT

PROGRAM is the built program. Tells each model at which the two differ, and how many were compared.
"""
import os
import random
import subprocess
import sys

SECOND = os.path.join(os.path.dirname(os.path.abspath(__file__)), 'occurrences.py')
CONTROLS = 'ctrl A = 0;\nctrl B = 1;\natomic ctrl P = 1;\natomic ctrl Q = 2;\n'


def inside(depth, names, sites):
    """What is in a node: a site, nothing, or nodes."""
    chance = random.random()
    if sites and chance < 0.4:
        return 'id'
    if depth > 3 or chance < 0.5:
        return '1'
    nodes = beside(depth, names, sites)
    return f'({nodes} | id)' if sites and random.random() < 0.4 else f'({nodes})'


def node(depth, names, sites):
    control = random.choice('ABPQ')
    if control == 'A':
        return f'A.{inside(depth + 1, names, sites)}'
    if control == 'B':
        return f'B{{{random.choice(names)}}}.{inside(depth + 1, names, sites)}'
    if control == 'P':
        return f'P{{{random.choice(names)}}}'
    return f'Q{{{random.choice(names)},{random.choice(names)}}}'


def beside(depth, names, sites):
    count = random.choice([1, 1, 2, 2, 3]) if depth < 3 else 1
    return ' | '.join(node(depth, names, sites) for _ in range(count))


def closed(expression, names):
    for name in names:
        if random.random() < 0.5:
            expression = f'/{name} ({expression})'
    return expression


def model():
    host = closed(' | '.join(beside(0, ['x', 'y', 'z'], False) for _ in range(3)), ['x', 'y', 'z'])
    regions = random.choice([1, 1, 1, 2])
    redex = ' || '.join(beside(random.choice([1, 2, 2]), ['u', 'v'], True) for _ in range(regions))
    redex = closed(redex, ['u', 'v'])
    return f'{CONTROLS}big s = {host};\nreact r = {redex} --> {redex};\nbegin brs init s; rules = [ {{r}} ]; end\n'


def written(command, text):
    return subprocess.run(command, input=text, capture_output=True, text=True, timeout=60)


def main():
    program, seed, count = sys.argv[1], int(sys.argv[2]), int(sys.argv[3])
    random.seed(seed)
    compared = occurring = differing = 0
    for _ in range(count):
        text = model()
        found = written([program, 'match'], text)
        if found.returncode != 0:
            continue
        wanted = written([sys.executable, SECOND], written([program, 'show'], text).stdout)
        compared += 1
        occurring += found.stdout.count('\n') > 1
        if found.stdout != wanted.stdout:
            differing += 1
            print(text)
    print(f'{compared} compared, {occurring} with occurrences, {differing} differ')
    sys.exit(1 if differing else 0)


main()
