"""What follows from the grammar in grammar.py: first and follow sets, the table, ranks, and which types lead back."""

import re

from grammar import DEEPENS, GRAMMAR, KINDS, TOPICS

KIND = dict(KINDS)
KIND_NUMBER = {variant: number for number, (_, variant) in enumerate(KINDS)}
END = len(KINDS)


def read_grammar():
    """The symbols in order, and for each its alternatives, a list of parts; a part is a symbol's or a kind's name."""
    ways = {}
    for line in GRAMMAR.strip().splitlines():
        name, right = re.match(r'(\w+)\s*=\s(.*)', line).groups()
        found, way = [], []
        for word in re.findall(r'"[^"]*"|\w+|\|', right):
            if word == '|':
                found.append(way)
                way = []
            elif word != 'none':
                way.append(word)
        ways[name] = found + [way]
    return ways


WAYS = read_grammar()
SYMBOLS = list(WAYS)
SYMBOL_NUMBER = {s: i for i, s in enumerate(SYMBOLS)}


def is_symbol(part):
    return part in WAYS


# ---- first and follow sets, the table, ranks

def first_sets():
    first, empty = {s: set() for s in SYMBOLS}, set()
    changed = True
    while changed:
        changed = False
        for s in SYMBOLS:
            for way in WAYS[s]:
                found, nullable = first_of(way, first, empty)
                if not found <= first[s] or (nullable and s not in empty):
                    first[s] |= found
                    empty |= {s} if nullable else set()
                    changed = True
    return first, empty


def first_of(way, first, empty):
    found = set()
    for part in way:
        if not is_symbol(part):
            return found | {KIND_NUMBER[KIND[part]]}, False
        found |= first[part]
        if part not in empty:
            return found, False
    return found, True


FIRST, EMPTY = first_sets()


def follow_sets():
    follow = {s: set() for s in SYMBOLS}
    follow[SYMBOLS[0]].add(END)
    changed = True
    while changed:
        changed = False
        for s in SYMBOLS:
            for way in WAYS[s]:
                for i, part in enumerate(way):
                    if is_symbol(part):
                        found, nullable = first_of(way[i + 1:], FIRST, EMPTY)
                        found = found | (follow[s] if nullable else set())
                        if not found <= follow[part]:
                            follow[part] |= found
                            changed = True
    return follow


FOLLOW = follow_sets()


def table_rows():
    rows = {}
    for s in SYMBOLS:
        row = [0] * (END + 1)
        for i, way in enumerate(WAYS[s]):
            found, nullable = first_of(way, FIRST, EMPTY)
            for kind in found | (FOLLOW[s] if nullable else set()):
                assert row[kind] == 0, f'not LL(1): {s} at {kind}'
                row[kind] = i + 1
        rows[s] = row
    return rows


def ranks():
    """From 1 on, so that some alternative of each symbol has only symbols of lower ranks."""
    rank, level = {}, 0
    while len(rank) < len(SYMBOLS):
        level += 1
        now = [s for s in SYMBOLS if s not in rank and any(all(not is_symbol(p) or p in rank for p in w) for w in WAYS[s])]
        rank.update({s: level for s in now})
    return rank


ROWS = table_rows()
RANKS = ranks()

# ---- the types of trees

def is_list(s):
    """Whether it has `none`, and its other alternatives end in the symbol itself: a vector stands for it."""
    others = [w for w in WAYS[s] if w]
    return [] in WAYS[s] and all(w[-1] == s for w in others)


def item_ways(s):
    return [w[:-1] for w in WAYS[s] if w]


def ways_of(s):
    """The alternatives of the symbol's type; of a list those of an item."""
    return item_ways(s) if is_list(s) else WAYS[s]


def many(s):
    """Whether the symbol's type is an enum."""
    return len(ways_of(s)) > 1


def leads_to(s):
    found, todo = set(), [s]
    while todo:
        for way in WAYS[todo.pop()]:
            for part in way:
                if is_symbol(part) and part not in found:
                    found.add(part)
                    todo.append(part)
    return found


REACH = {s: leads_to(s) for s in SYMBOLS}


def in_cycle(s):
    """Whether the symbol's type leads back to itself; a list that only ends in itself does not."""
    return any(is_symbol(p) and (p == s and not is_list(s) or s in REACH[p] and p != s) for w in WAYS[s] for p in w)


CYCLE = {s: frozenset(t for t in SYMBOLS if in_cycle(t) and (t == s or (t in REACH[s] and s in REACH[t]))) for s in SYMBOLS if in_cycle(s)}


# an alternative with more parts than this is read in groups: each `?` leads through the drops of what is held by then
MOST_PARTS = 8
GROUP = 5


def groups(way):
    """Where the groups of an alternative's parts begin."""
    return list(range(0, len(way), GROUP)) if len(way) > MOST_PARTS else [0]


def long_way(s):
    """The number of the symbol's alternative that is read in groups, if it has one."""
    found = [i for i, w in enumerate(WAYS[s]) if len(groups(w)) > 1]
    assert not found or (len(found) == 1 and s not in CYCLE and s not in DEEPENS and not is_list(s)), s
    return found[0] if found else None


def starts_behind(s):
    """Where the groups behind the first one begin, the last one first."""
    i = long_way(s)
    return [] if i is None else groups(WAYS[s][i])[:0:-1]


def is_boxed(holder, part):
    return is_symbol(part) and holder in CYCLE and part in CYCLE[holder] and not is_list(part)


TOPIC = {s: name for name, _, symbols in TOPICS for s in symbols.split()}
assert set(TOPIC) == set(SYMBOLS)


def topic_of(s):
    return TOPIC[s]


def symbols_of(topic):
    return [s for s in SYMBOLS if TOPIC[s] == topic]


def cycle_name(s):
    """The cycle goes by its topic."""
    return topic_of(s) if s in CYCLE else None


def type_of(holder, part):
    if not is_symbol(part):
        return 'u32'
    if is_list(part):
        return f'Vec<Syn{part}Item>'
    return f'Box<Syn{part}>' if is_boxed(holder, part) else f'Syn{part}'


def spelled(way):
    return ' '.join(way) if way else 'none'


def rule(s):
    return f'{s} = ' + ' | '.join(spelled(w) for w in WAYS[s])


def snake(s):
    name = re.sub(r'(?<=[a-z])(?=[A-Z])', '_', s).lower()
    return {'ref': 'reference', 'not': 'negation'}.get(name, name)


def counts():
    entries = sum(1 for s in SYMBOLS for x in ROWS[s] if x)
    return f'{len(SYMBOLS)} symbols, {sum(map(len, WAYS.values()))} alternatives, {END} kinds, {entries} entries,'
