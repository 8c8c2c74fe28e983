"""The grammar, read out of docs/LANGUAGE.md, its LL(1) table, and derivation trees; 31 and 32 are refused here."""
import pathlib
import re
from typing import NamedTuple

from .refusals import Refusal

LANGUAGE = pathlib.Path(__file__).parents[2] / 'docs' / 'LANGUAGE.md'
END = 'the end'
DEEPEST = 256


class Tree(NamedTuple):
    """A derivation tree: a symbol, the alternative taken (from 0), and its parts, in which a number stands for a token."""
    symbol: str
    way: int
    parts: list


def read_grammar(text):
    """The alternatives of each symbol, each a list of parts; the grammar stands where a fence of the text begins so."""
    grammar = text[text.index('\nModel    = '):]
    _, *pieces = re.split(r'(\w+) +=(?= )', grammar[:grammar.index('\n```')])
    return {symbol: [[part for part in way.split() if part != 'none'] for way in re.split(r'\s\|\s', body)]
            for symbol, body in zip(pieces[::2], pieces[1::2])}


def begins_with(parts, ways, first, empty):
    """The kinds with which the parts may begin, and whether they may be the empty word."""
    kinds = set()
    for part in parts:
        kinds |= first[part] if part in ways else {part}
        if part not in empty:
            return kinds, False
    return kinds, True


def sets_of(ways):
    """Of each symbol: with which kinds it may begin, whether it may be empty, and which kinds may come behind it."""
    first, empty, follow = {symbol: set() for symbol in ways}, set(), {symbol: set() for symbol in ways}
    follow['Model'].add(END)
    before = None
    while before != (before := (sum(map(len, first.values())), len(empty), sum(map(len, follow.values())))):
        for symbol, alternatives in ways.items():
            for parts in alternatives:
                kinds, is_empty = begins_with(parts, ways, first, empty)
                first[symbol] |= kinds
                if is_empty:
                    empty.add(symbol)
                for place, part in enumerate(parts):
                    if part in ways:
                        kinds, is_empty = begins_with(parts[place + 1:], ways, first, empty)
                        follow[part] |= kinds | (follow[symbol] if is_empty else set())
    return first, empty, follow


def table_of(ways):
    """The alternative to take of each symbol at each kind of token."""
    first, empty, follow = sets_of(ways)
    table = {}
    for symbol, alternatives in ways.items():
        for way, parts in enumerate(alternatives):
            kinds, is_empty = begins_with(parts, ways, first, empty)
            for kind in kinds | (follow[symbol] if is_empty else set()):
                assert (symbol, kind) not in table, f'the grammar is not LL(1) at {symbol} and {kind}'
                table[symbol, kind] = way
    return table


WAYS = read_grammar(LANGUAGE.read_text(encoding='utf-8'))
TABLE = table_of(WAYS)


def parse(found, end):
    """The derivation tree of the tokens; `end` is the offset of the end of the text."""
    top, at = [], 0
    wanted = [('Model', 0, top)]
    while wanted:
        part, depth, siblings = wanted.pop()
        kind, start = (found[at].kind, found[at].start) if at < len(found) else (END, end)
        if part in WAYS:
            way = TABLE.get((part, kind))
            if way is None:
                raise Refusal(31, start)
            tree = Tree(part, way, [])
            siblings.append(tree)
            inside = depth + 1 if part in ('K', 'U') else depth
            wanted += [(each, inside, tree.parts) for each in reversed(WAYS[part][way])]
        else:
            if part != kind:
                raise Refusal(31, start)
            if depth > DEEPEST:
                raise Refusal(32, start)
            siblings.append(at)
            at += 1
    if at < len(found):
        raise Refusal(31, found[at].start)
    return top[0]
