#!/usr/bin/env python3
"""Runs models again and again with several workers, and judges each run by the reference in tools/reference.

    python3 tools/try_runs.py [--jobs N] [--models M] PROGRAM [COUNT [SEED]]

PROGRAM is the built program. Each model of examples/models and examples/runs, and M made at random (none where M is not
given), is run with 1, 2, 4, 8 and 64 workers, with several numbers of steps, and with COUNT seeds (3 where it is not given),
which SEED (1 where it is not given) chooses. N processes run and judge (1 where it is not given).

Each entry of a journal is judged: its step has to be legal in the host before it, and its worker one of those that ran; and
the end, the predicates, the lines of the watchers and the last host have to be those of that journal. With one worker all
bytes have to be those of the run that the seed draws. Each wrong text is told with its model, its words and why. The last
line is `N runs, M wrong, S steps judged`, also after Ctrl-C; the status is 1 where M > 0.
"""
import argparse
import collections
import functools
import itertools
import multiprocessing
import pathlib
import random
import signal
import subprocess
import sys

from reference.draws import run_case
from reference.judging import Wrong, judge_run
from reference.runs import drawn_run, run_lines
from reference.statements import system_of

EXAMPLES = pathlib.Path(__file__).parents[1] / 'examples'
WORKERS = [1, 2, 4, 8, 64]
STEPS = [0, 1, 2, 13, 60, 400]
FIRST_SEEDS = [0, 18446744073709551615]
SECONDS = 120
SHOWN = 3000
FEW = 10


@functools.lru_cache(maxsize=64)
def described(data):
    """The system that the bytes of a model describe."""
    return system_of(data)


def judge(program, name, data, workers, steps, seed):
    """What there is to tell of a run, nothing where it is right; how many steps it has; and its end."""
    words = ['run', '--workers', str(workers), '--steps', str(steps), '--seed', str(seed)]
    told = f'{name}: {" ".join(words)}'
    try:
        run = subprocess.run([program, *words], input=data, capture_output=True, timeout=SECONDS, check=False)
    except subprocess.TimeoutExpired:
        return f'{told}: nothing within {SECONDS} seconds', 0, 'none'
    text = run.stdout.decode('latin1')
    if run.returncode or run.stderr:
        return f'{told}: status {run.returncode}, {text[:SHOWN]!r} {run.stderr[:SHOWN]!r}', 0, 'none'
    try:
        system = described(data)
        judge_run(system, workers, steps, text)
        if workers == 1 and '\n'.join(run_lines(system, drawn_run(system, seed, steps)) + ['']) != text:
            raise Wrong('it is a run, and not the one that the seed draws')
    except Wrong as wrong:
        return f'{told}: {wrong}\n{text[:SHOWN]}', 0, 'none'
    return '', text.count('\nstep '), text.partition('\nend\n')[2].split()[0]


def judged(task):
    return judge(*task)


def stored_models():
    """The name, the bytes and the numbers of steps of each model of the examples."""
    for folder in ('models', 'runs'):
        for path in sorted((EXAMPLES / folder).glob('*.model')):
            yield path.name, path.read_bytes(), STEPS


def random_models(chance, count):
    """The same of models made at random, with so few steps that their hosts stay small; the name is the text."""
    for _ in range(count):
        words, data = run_case(chance)
        yield data.decode(), data, [min(int(words[2]), FEW)]


def tasks_of(program, count, models, seed):
    """Each run that is to be judged: program, model, workers, steps, seed."""
    chance = random.Random(seed)
    for name, data, numbers in itertools.chain(stored_models(), random_models(chance, models)):
        for workers, steps in itertools.product(WORKERS, numbers):
            seeds = FIRST_SEEDS + [chance.randrange(1 << 64) for _ in range(count)]
            yield from ((program, name, data, workers, steps, each) for each in seeds[:count])


def arguments():
    parser = argparse.ArgumentParser(usage='try_runs.py [--jobs N] [--models M] PROGRAM [COUNT [SEED]]')
    parser.add_argument('program')
    parser.add_argument('count', nargs='?', type=int, default=3)
    parser.add_argument('seed', nargs='?', type=int, default=1)
    parser.add_argument('--jobs', type=int, default=1)
    parser.add_argument('--models', type=int, default=0)
    return parser.parse_args()


def main():
    given = arguments()
    tried = wrong = steps = 0
    ends = collections.Counter()
    with multiprocessing.Pool(given.jobs, signal.signal, (signal.SIGINT, signal.SIG_IGN)) as pool:
        try:
            tasks = tasks_of(given.program, given.count, given.models, given.seed)
            for told, count, end in pool.imap_unordered(judged, tasks, chunksize=8):
                tried, steps, wrong = tried + 1, steps + count, wrong + bool(told)
                ends[end] += 1
                if told:
                    print(told, flush=True)
        except KeyboardInterrupt:
            print('ended before the last run')
    print('ends: ' + ', '.join(f'{end} {count}' for end, count in sorted(ends.items())))
    print(f'{tried} runs, {wrong} wrong, {steps} steps judged')
    sys.exit(1 if wrong else 0)


if __name__ == '__main__':
    main()
