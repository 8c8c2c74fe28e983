"""Runs: the one that a seed draws, and what is written of a run, by docs/FORMATS.md."""
from typing import NamedTuple

from .occurrences import Search, decompose
from .picks import words
from .reactions import Host, fresh_host, react
from .spelling import bigraph_lines
from .steps import legal_steps

MOST_CANDIDATES = 4096


class Run(NamedTuple):
    """A run: entries (worker, rule, map), the nodes of the host after each, the line of its end, and the last host."""
    entries: list
    counts: list
    end: str
    host: Host


def step_words(rule, nodes):
    return ' '.join(map(str, [rule, *nodes]))


def drawn_run(system, seed, most, is_small=lambda host: True):
    """The run of one worker with at most so many steps; it is left off, too, where a host is not small any more."""
    host, generator, entries, counts = fresh_host(system.host), words(seed), [], []
    while len(entries) < most and is_small(host):
        candidates = legal_steps(host, system, MOST_CANDIDATES)
        if not candidates:
            return Run(entries, counts, 'quiet', host)
        rule, nodes = candidates[next(generator) % len(candidates)]
        after = react(host, system.rules[rule], decompose(host.big, system.rules[rule].redex, nodes))
        if after is None:
            return Run(entries, counts, f'full {step_words(rule, nodes)}', host)
        host = after
        entries.append((0, rule, nodes))
        counts.append(len(host.big.nodes))
    return Run(entries, counts, 'limit', host)


def watch_lines(run):
    """The lines of the three watchers."""
    last = run.entries[-1][1] if run.entries else 'none'
    return [f'watch tally {len(run.entries)}', f'watch last {last}', f'watch peak {max(run.counts, default=0)}']


def predicate_lines(system, host):
    return [f'pred {label} {"true" if Search(host.index, pattern).is_somewhere() else "false"}'
            for label, pattern in system.predicates]


def host_lines(system, host):
    return [f'host {host.next_node} {host.next_edge}'] + bigraph_lines(system.labels, host.big)


def journal_lines(entries):
    return ['journal 1'] + [f'step {worker} {step_words(rule, nodes)}' for worker, rule, nodes in entries] + ['end']


def run_lines(system, run):
    return journal_lines(run.entries) + [run.end] + predicate_lines(system, run.host) + watch_lines(run) + host_lines(system, run.host)
