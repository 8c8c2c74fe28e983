#!/usr/bin/env python3
"""Runs every command of the program on inputs that a hostile author would write, with a clock and a bound on memory.

    python3 tools/try_hostile.py [--peer PATH] [--only PART ..] [--command NAME ..] [--all] PROGRAM

The cases stand in tools/hostile: models and listings at each limit and one past it (limits, listings), hosts and redexes of
shapes that hurt (shapes), many and large rules (rules), texts that are no models (damaged). Of each run is told its status,
its seconds of processor time and the most memory of the process; with --peer also the seconds of another program of the same commands, and
whether both wrote the same (of several workers only the statuses have to agree). Each run is one of `check`, `show`, `match`,
`explain` (`match --explain`), `run`, `workers` (`run --workers 8`), `compose`. --only takes the cases with a PART in their
names, --command these commands. Without --all a run is told where it is wrong, or takes more than a second.

A run is wrong where its status is another than its case expects, where the answer does not begin as it says, where anything
is written on standard error, where it takes more seconds or memory than its case allows (of several workers as many seconds
each), where it has not ended after six times as long by the clock, and where the peer wrote something
else. The last line is `N runs, M wrong`, also after Ctrl-C; the status is 1 where M > 0.
"""
import argparse
import dataclasses
import filecmp
import os
import pathlib
import resource
import signal
import subprocess
import sys
import tempfile
import threading

from hostile import damaged, limits, listings, rules, shapes
from hostile.case import COMMANDS, SECONDS, WORKERS

CASES = [*limits.CASES, *listings.CASES, *shapes.CASES, *rules.CASES, *damaged.CASES]
# the stack of a run, its address space, in which each thread has room for its own, and the most that it may write
STACK = 8 * 2**20
ADDRESSES = 4 * 2**30
WRITTEN = 2 * 2**30
PATIENCE = 6
# from here on a status tells of a signal
KILLED = 128
TOLD_FROM = 1.0


@dataclasses.dataclass
class Run:
    """How a run ended: its status, none where it was ended; its seconds of processor time; what it took and wrote."""

    status: int | None
    seconds: float
    mebibytes: float
    size: int
    errors: str


def limited():
    """The bounds of a child, which has no terminal and writes no core."""
    resource.setrlimit(resource.RLIMIT_STACK, (STACK, STACK))
    resource.setrlimit(resource.RLIMIT_AS, (ADDRESSES, ADDRESSES))
    resource.setrlimit(resource.RLIMIT_FSIZE, (WRITTEN, WRITTEN))
    resource.setrlimit(resource.RLIMIT_CORE, (0, 0))


def run(program, words, source, written, seconds):
    """Runs a program on a file, into a file; ends it after so many seconds. /usr/bin/time tells its time and memory."""
    figures, errors = f'{written}.figures', f'{written}.errors'
    told = ['/usr/bin/time', '-q', '-f', '%U %S %M', '-o', figures]
    with open(source, 'rb') as given, open(written, 'wb') as taken, open(errors, 'wb') as wrong:
        child = subprocess.Popen([*told, program, *words], stdin=given, stdout=taken, stderr=wrong, preexec_fn=limited, start_new_session=True)
        ended = []
        timer = threading.Timer(seconds, lambda: (ended.append(True), os.killpg(child.pid, signal.SIGKILL)))
        timer.start()
        try:
            status = child.wait()
        finally:
            timer.cancel()
    user, system, memory = (0, 0, 0) if ended else pathlib.Path(figures).read_text().split()[-3:]
    return Run(
        status=None if ended else status,
        seconds=float(user) + float(system),
        mebibytes=int(memory) / 1024,
        size=os.path.getsize(written),
        errors=pathlib.Path(errors).read_text('latin1')[:200],
    )


def begins(written, text):
    """Whether the file begins so."""
    with open(written, 'rb') as read:
        return read.read(len(text)) == text.encode()


def allowed(case, command):
    """How many seconds of processor time a run may take."""
    return case.seconds.get(command, SECONDS) * (WORKERS if command == 'workers' else 1)


def wrongs(case, command, answer, written):
    """What is wrong with a run, in words."""
    seconds = allowed(case, command)
    if answer.status is None:
        yield 'not ended'
        return
    if answer.status not in case.statuses[command]:
        yield f'status {answer.status}, wanted {" or ".join(map(str, sorted(case.statuses[command])))}'
    if command == case.tells and not begins(written, case.said):
        yield f'does not begin with {case.said!r}'
    if answer.errors:
        yield f'on standard error: {answer.errors!r}'
    if answer.seconds > seconds:
        yield f'more than {seconds} s'
    if answer.mebibytes > case.mebibytes:
        yield f'more than {case.mebibytes} MiB'


def differs(command, answer, other, written, peers):
    """How the peer's answer is another, in words; nothing where either has none, as for want of time or memory."""
    if None in (answer.status, other.status) or other.status >= KILLED:
        return
    if answer.status != other.status:
        yield f'the peer has status {other.status}'
    elif command != 'workers' and not filecmp.cmp(written, peers, shallow=False):
        yield 'the peer wrote something else'


def try_command(options, case, command, room):
    """Runs a command on the input of a case, and tells of it. Returns whether it is right."""
    written, peers = room / 'written', room / 'peers'
    seconds = PATIENCE * case.seconds.get(command, SECONDS)
    answer = run(options.program, case.words(command), room / 'input', written, seconds)
    wrong = list(wrongs(case, command, answer, written))
    line = f'{case.name} {command}: status {answer.status}, {answer.seconds:.2f} s, {answer.mebibytes:.0f} MiB, {answer.size} bytes'
    if options.peer:
        other = run(options.peer, case.words(command), room / 'input', peers, seconds)
        wrong += differs(command, answer, other, written, peers)
        line += f'; the peer {other.seconds:.2f} s, {other.mebibytes:.0f} MiB'
    if wrong:
        print(f'{line}: WRONG: {"; ".join(wrong)}', flush=True)
    elif options.all or answer.seconds > TOLD_FROM:
        print(line, flush=True)
    return not wrong


def parsed():
    """The words of the command line."""
    parser = argparse.ArgumentParser(description=__doc__, formatter_class=argparse.RawDescriptionHelpFormatter)
    parser.add_argument('program')
    parser.add_argument('--peer')
    parser.add_argument('--only', nargs='+', default=[''], metavar='PART')
    parser.add_argument('--command', nargs='+', default=COMMANDS, choices=COMMANDS, metavar='NAME')
    parser.add_argument('--all', action='store_true')
    return parser.parse_args()


def main():
    options = parsed()
    runs = wrong = 0
    try:
        with tempfile.TemporaryDirectory() as folder:
            room = pathlib.Path(folder)
            for case in CASES:
                if not any(part in case.name for part in options.only):
                    continue
                (room / 'input').write_bytes(case.input())
                for command in options.command:
                    wrong += not try_command(options, case, command, room)
                    runs += 1
    except KeyboardInterrupt:
        pass
    print(f'{runs} runs, {wrong} wrong')
    return 1 if wrong or not runs else 0


if __name__ == '__main__':
    sys.exit(main())
