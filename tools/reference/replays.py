"""Replays: what the journal in front of an input is of the system that is described behind it, by docs/FORMATS.md."""
import re

from .reactions import fresh_host, react
from .runs import host_lines
from .steps import judged_step

NUMBER = re.compile(rb'0|[1-9][0-9]*')
LARGEST_NUMBER = 2147483647
MOST_ENTRIES = 100000
MOST_NODES = 65536


class NoRun(Exception):
    """The line that says where a journal stops being one, or which entry is not taken and why."""


def number_of(word):
    """The number that the word spells, None where it spells none."""
    return int(word) if NUMBER.fullmatch(word) and int(word) <= LARGEST_NUMBER else None


def entry_of(line):
    """The entry (worker, rule, map) of a line without its line feed, None where it is no such line."""
    first, *words = line.split(b' ')
    numbers = [number_of(word) for word in words]
    if first != b'step' or None in numbers or not 3 <= len(numbers) <= MOST_NODES + 2:
        return None
    return numbers[0], numbers[1], numbers[2:]


def journal_of(data):
    """The entries of the journal in front, and the bytes behind it."""
    at, entries, line = 0, [], 1
    while True:
        end = data.find(b'\n', at)
        text = data[at:end] if end >= 0 else None
        at = end + 1
        if line > 1 and text == b'end':
            return entries, data[at:]
        if line == 1:
            is_good = text == b'journal 1'
        else:
            entry = entry_of(text) if text is not None and len(entries) < MOST_ENTRIES else None
            entries.append(entry)
            is_good = entry is not None
        if not is_good:
            raise NoRun(f'journal at {line}')
        line += 1


def replay_lines(system, entries):
    """The lines of a legal journal."""
    host = fresh_host(system.host)
    for place, (_, rule, nodes) in enumerate(entries):
        reason, parts = judged_step(host, system, rule, nodes)
        host = react(host, system.rules[rule], parts) if reason is None else None
        if host is None:
            raise NoRun(f'illegal {place} {reason or "TooLarge"}')
    return ['legal'] + host_lines(system, host)
