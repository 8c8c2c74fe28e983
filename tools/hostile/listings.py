"""Listings at each limit and one past it, and of shapes that hurt."""
import random

from .case import listing, too_long
from .texts import BYTES, ROWS, mixed

GREATEST = 2_147_483_647


def section(word, rows):
    """A part: its count and its rows."""
    return [f'{word} {len(rows)}', *rows]


def signature(*controls):
    """The lines of a signature."""
    return section('signature', list(controls))


def big(regions=1, sites=(), inner=(), outer=(), edges=(), nodes=()):
    """The lines of a bigraph."""
    parts = {'sites': sites, 'inner': inner, 'outer': outer, 'edges': edges, 'nodes': nodes}
    return [f'bigraph {regions}', *(line for word, rows in parts.items() for line in section(word, list(rows)))]


def text(*parts):
    """The text of these lines."""
    return '\n'.join(line for part in parts for line in part) + '\n'


ROOM = signature('Room 0 normal')
SEAT = signature('Seat 1 atomic')
EMPTY = big(0)


def alone(upper, controls=ROOM):
    """A bigraph after the one with nothing in it."""
    return lambda: text(controls, upper(), EMPTY)


def names(count):
    """So many names, in order."""
    return sorted(f'x{n}' for n in range(count))


def controls(count):
    """A signature of so many controls."""
    return lambda: text(signature(*(f'K{n} 0 normal' for n in range(count))), EMPTY, EMPTY)


def arity(ports):
    """A control of so many ports."""
    return lambda: text(signature(f'K {ports} normal'), EMPTY, EMPTY)


def regions(count):
    """So many regions in as many sites."""
    return lambda: text(ROOM, big(1, sites=['r0'] * count), big(count))


def identity(count):
    """So many inner names and outer names."""
    listed = names(count)
    return lambda: text(SEAT, big(0, inner=[f'{name} =a' for name in listed], outer=['a']), big(0, outer=listed))


def edges(count):
    """So many edges, none with a point."""
    return alone(lambda: big(1, edges=map(str, range(count))))


def nodes(count):
    """So many nodes in one region."""
    return alone(lambda: big(1, nodes=[f'{n} Room r0' for n in range(count)]))


def number(greatest):
    """A node with this number."""
    return alone(lambda: big(1, nodes=[f'{greatest} Room r0']))


def chain(below):
    """65,536 nodes in one another: the place of each by its number."""
    return lambda: text(ROOM, big(1, sites=['r0']), big(1, nodes=[f'{n} Room {below(n)}' for n in range(ROWS)]))


def downward(number):
    """Each node in the one before it."""
    return 'r0' if number == 0 else f'n{number - 1}'


def upward(number):
    """Each node in the one behind it."""
    return 'r0' if number == ROWS - 1 else f'n{number + 1}'


def crosswise(number):
    """A chain whose numbers are in no order."""
    return 'r0' if number == 0 else f'n{(number - 40503) % ROWS}'


def cycle(number):
    """Each node in the one before it, and the first in the last."""
    return f'n{(number - 1) % ROWS}'


def on_one(name, count, ports=16):
    """Nodes of 16 ports, all on one name, composed with one that closes it."""
    controls_of = signature(f'Hub {ports} atomic')
    links = ' '.join([f'={name}'] * ports)
    upper = big(1, sites=['r0'], inner=[f'{name} #0'], edges=['0'])
    return lambda: text(controls_of, upper, big(1, outer=[name], nodes=[f'{n} Hub r0 {links}' for n in range(count)]))


def to_long(length, count, ports=16):
    """Ports that all get a long name: the output is longer than the input by their number."""
    controls_of = signature(f'Hub {ports} atomic')
    links = ' '.join(['=a'] * ports)
    name = 'b' * length
    upper = big(1, sites=['r0'], inner=[f'a ={name}'], outer=[name])
    return lambda: text(controls_of, upper, big(1, outer=['a'], nodes=[f'{n} Hub r0 {links}' for n in range(count)]))


def both():
    """65,536 nodes in each operand, so twice as many in the composition."""
    upper = big(1, sites=['r0'], nodes=[f'{2 * n} Room r0' for n in range(ROWS)])
    return text(ROOM, upper, big(1, nodes=[f'{2 * n + 1} Room r0' for n in range(ROWS)]))


def meeting():
    """The same, where the last number is in both."""
    upper = big(1, sites=['r0'], nodes=[f'{n} Room r0' for n in range(ROWS)])
    return text(ROOM, upper, big(1, nodes=[f'{ROWS - 1 + n} Room r0' for n in range(ROWS)]))


def spread():
    """Nodes of one port, each on an edge that its number tells in no order."""
    rows = [f'{n} Seat r0 #{mixed(n)}' for n in range(ROWS)]
    return text(SEAT, big(1, edges=map(str, range(ROWS)), nodes=rows), EMPTY)


def damaged(seed):
    """A listing with a line that is taken away, doubled, or changed in one byte."""
    def make():
        draw = random.Random(seed)
        lines = text(ROOM, big(1, sites=['r0'], nodes=[f'{n} Room r0' for n in range(2000)]), big(1)).encode().split(b'\n')
        at = draw.randrange(len(lines) - 1)
        kind = draw.randrange(3)
        if kind == 0:
            del lines[at]
        elif kind == 1:
            lines.insert(at, lines[at])
        else:
            lines[at] = lines[at][:-1] + bytes([draw.choice(b'\0 \nxR\xff')])
        return b'\n'.join(lines)

    return make


CASES = [
    listing('controls', controls(4096)),
    listing('controls_past', controls(4097), 'refused 2 TooMany at 1'),
    listing('arity', arity(16)),
    listing('arity_past', arity(17), 'refused 2 TooMany at 2'),
    listing('regions', regions(ROWS)),
    listing('regions_past', regions(ROWS + 1), 'refused 2 TooMany at 4'),
    listing('names', identity(ROWS)),
    listing('names_past', identity(ROWS + 1), 'refused 2 TooMany at 5'),
    listing('edges', edges(ROWS)),
    listing('edges_past', edges(ROWS + 1), 'refused 2 TooMany at 7'),
    listing('nodes', nodes(ROWS)),
    listing('nodes_past', nodes(ROWS + 1), 'refused 2 TooMany at 8'),
    listing('number', number(GREATEST)),
    listing('number_past', number(GREATEST + 1), 'refused 1 BadLine at 9'),
    too_long('listing_bytes_past', lambda: 'signature 0\n' * (BYTES // 12 + 1)),
    listing('downward', chain(downward)),
    listing('upward', chain(upward)),
    listing('crosswise', chain(crosswise)),
    listing('cycle', chain(cycle), 'refused 7 Cycle at'),
    listing('on_one', on_one('a', ROWS)),
    listing('to_long', to_long(100_000, 64)),
    listing('both', both),
    listing('meeting', meeting, 'refused 12 SupportMeets'),
    listing('spread', spread),
    listing('zeros', lambda: b'\0' * BYTES, 'refused 1 BadLine at 1'),
    listing('lines', lambda: '\n' * BYTES, 'refused 1 BadLine at 1'),
    listing('label', lambda: text(signature('K' + 'a' * (BYTES - 200) + ' 0 normal'), EMPTY, EMPTY)),
    listing('count_long', lambda: 'signature ' + '1' * (BYTES - 200) + '\n', 'refused 1 BadLine at 1'),
    listing('behind', lambda: text(ROOM, EMPTY, EMPTY) + 'x' * 1_000_000, 'refused'),
    *(listing(f'damaged_{seed}', damaged(seed), 'refused') for seed in range(24)),
]
