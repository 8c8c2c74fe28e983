"""Judges the text of a run by any number of workers: takes each entry's step, and compares what is told of the end."""
import re

from .reactions import fresh_host, react
from .runs import Run, run_lines, step_words
from .steps import judged_step, legal_steps

NUMBER = '(?:0|[1-9][0-9]*)'
ENTRY = re.compile(f'step ({NUMBER}) ({NUMBER})((?: {NUMBER})+)')
FULL = re.compile(f'full ({NUMBER})((?: {NUMBER})+)')


class Wrong(Exception):
    """Why a text is not that of a run, in words."""


def numbers_of(text):
    return [int(word) for word in text.split()]


def entries_of(lines):
    """The entries of a journal."""
    if lines[0] != 'journal 1':
        raise Wrong(f'the first line is {lines[0]!r}')
    entries = []
    for place, line in enumerate(lines[1:], 1):
        if line == 'end':
            return entries
        match = ENTRY.fullmatch(line)
        if match is None:
            raise Wrong(f'line {place + 1} is {line!r}')
        entries.append((int(match[1]), int(match[2]), numbers_of(match[3])))
    raise Wrong('the journal has no end')


def replayed(system, workers, entries):
    """The last host, and the nodes of the host after each entry, where each may be taken."""
    host, counts = fresh_host(system.host), []
    for place, (worker, rule, nodes) in enumerate(entries):
        told = f'step {place}, {step_words(rule, nodes)} of worker {worker}'
        if worker >= workers:
            raise Wrong(f'{told}: there is no such worker')
        reason, parts = judged_step(host, system, rule, nodes)
        if reason:
            raise Wrong(f'{told}: {reason}')
        host = react(host, system.rules[rule], parts)
        if host is None:
            raise Wrong(f'{told}: TooLarge')
        counts.append(len(host.big.nodes))
    return host, counts


def judge_end(system, host, end, is_spent):
    """Whether the line of the end is right, of a journal that has as many steps as were asked for, or fewer."""
    if is_spent or end == 'limit':
        if not is_spent or end != 'limit':
            raise Wrong(f'the end is {end!r}, and as many steps as were asked for were {"" if is_spent else "not "}taken')
        return
    if end == 'quiet':
        steps = legal_steps(host, system, 1)
        if steps:
            raise Wrong(f'the end is quiet, and {step_words(*steps[0])} is legal')
        return
    match = FULL.fullmatch(end)
    if match is None:
        raise Wrong(f'the end is {end!r}')
    rule, nodes = int(match[1]), numbers_of(match[2])
    reason, parts = judged_step(host, system, rule, nodes)
    if reason:
        raise Wrong(f'the end is {end!r}: {reason}')
    if react(host, system.rules[rule], parts) is not None:
        raise Wrong(f'the end is {end!r}, and there is room')


def judge_run(system, workers, most, text):
    """Raises Wrong where this is no text of a run by so many workers with at most so many steps."""
    lines = text.split('\n')
    entries = entries_of(lines)
    if len(entries) > most:
        raise Wrong(f'{len(entries)} steps')
    host, counts = replayed(system, workers, entries)
    end = lines[len(entries) + 2] if len(lines) > len(entries) + 2 else ''
    judge_end(system, host, end, len(entries) == most)
    wanted = run_lines(system, Run(entries, counts, end, host)) + ['']
    for place in range(max(len(wanted), len(lines))):
        pair = [found[place] if place < len(found) else None for found in (wanted, lines)]
        if pair[0] != pair[1]:
            raise Wrong(f'line {place + 1} is {pair[1]!r}, not {pair[0]!r}')
