"""The words of the command line, by docs/USAGE.md."""
from typing import NamedTuple

COMMANDS = ('compose', 'check', 'show', 'match', 'run', 'replay', 'trial')
RANGES = {'most': (1, 1000000), 'workers': (1, 64), 'steps': (0, 100000), 'seed': (0, 18446744073709551615),
          'size': (1, 300)}
DEFAULTS = {'most': 100000, 'workers': 1, 'steps': 1000, 'seed': 0, 'size': 10, 'explain': False}


class Request(NamedTuple):
    command: str
    most: int
    workers: int
    steps: int
    seed: int
    size: int
    is_explained: bool


def request_of(words):
    """What the words behind the program's name ask for, or None where they are refused."""
    given, commands, waiting = {}, [], list(words)
    while waiting:
        word = waiting.pop(0)
        if word == '--':
            commands += waiting
            break
        if word.startswith('--'):
            name, sign, value = word[2:].partition('=')
            if name in given or name not in (*RANGES, 'explain'):
                return None
            if name == 'explain':
                given[name] = not sign
                if sign:
                    return None
                continue
            if not sign:
                if not waiting:
                    return None
                value = waiting.pop(0)
            given[name] = number_of(value, *RANGES[name])
            if given[name] is None:
                return None
        elif word.startswith('-') and word != '-':
            return None
        else:
            commands.append(word)
    if len(commands) != 1 or commands[0] not in COMMANDS:
        return None
    return Request(commands[0], *[given.get(name, number) for name, number in DEFAULTS.items()])


def number_of(word, least, most):
    """The number of one to twenty digits that the word spells, where it is in the range."""
    if not 1 <= len(word) <= 20 or any(each not in '0123456789' for each in word):
        return None
    return int(word) if least <= int(word) <= most else None
