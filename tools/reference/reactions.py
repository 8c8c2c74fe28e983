"""What a reaction does to a host, by docs/DEFINITIONS.md: the decomposition at an occurrence, put together anew."""
from .bigraphs import Bigraph, compose, identity, links_with_points, tensor
from .occurrences import Index

MOST_ROWS = 65536
LARGEST_COUNTER = 2147483648


class Host:
    """A ground bigraph and the numbers that its next new node and edge will have, with an index for searches."""
    __slots__ = ('big', 'next_node', 'next_edge', 'index')

    def __init__(self, big, next_node, next_edge):
        self.big, self.next_node, self.next_edge, self.index = big, next_node, next_edge, Index(big)


def fresh_host(big):
    """What a run begins with: the counters one past the largest numbers, 0 where there is none."""
    return Host(big, max(big.nodes, default=-1) + 1, max(big.edges, default=-1) + 1)


def lean(big):
    """Without its idle edges."""
    used = links_with_points(big)
    edges = [edge for edge in big.edges if ('#', edge) in used]
    return Bigraph(big.nodes, edges, big.sites, big.inner, big.regions, big.outer)


def raised(big, node, edge):
    """The nodes and edges with numbers so much higher."""
    rows, sites, inner = big.through(lambda place: ('n', place[1] + node) if place[0] == 'n' else place,
                                     lambda link: ('#', link[1] + edge) if link[0] == '#' else link)
    return Bigraph({number + node: row for number, row in rows.items()}, [number + edge for number in big.edges], sites, inner,
                   big.regions, big.outer)


def parts_of(parameter):
    """For each region of a parameter the nodes under it, in ascending order."""
    parts = [[] for _ in range(parameter.regions)]
    for node in sorted(parameter.nodes):
        place = ('n', node)
        while place[0] == 'n':
            place = parameter.nodes[place[1]][1]
        parts[place[1]].append(node)
    return parts


def late_nodes(parts, entries):
    """How many nodes the late copies have: those of a part that an earlier entry asks for too."""
    return sum(len(parts[entry]) for place, entry in enumerate(entries) if entry in entries[:place])


def instantiate(parameter, entries, next_node):
    """A region for each entry with a copy of the part that it asks for. The first copy of a part keeps its numbers; each
    later one takes the next free numbers, in the order of the nodes. Links stay, so copies share them."""
    parts, nodes = parts_of(parameter), {}
    for region, entry in enumerate(entries):
        part = parts[entry]
        numbers = {node: node for node in part}
        if entry in entries[:region]:
            numbers = {node: next_node + rank for rank, node in enumerate(part)}
            next_node += len(part)
        for node in part:
            control, place, links = parameter.nodes[node]
            nodes[numbers[node]] = (control, ('r', region) if place[0] == 'r' else ('n', numbers[place[1]]), links)
    return Bigraph(nodes, (), [], {}, len(entries), parameter.outer)


def react(host, rule, parts):
    """The host after the reaction at a decomposition, or None where it passes a limit of hosts."""
    context, _, parameter = parts
    inside = parts_of(parameter)
    count = len(context.nodes) + len(rule.reactum.nodes) + sum(len(inside[entry]) for entry in rule.entries)
    first_late = host.next_node + len(rule.reactum.nodes)
    next_node, next_edge = first_late + late_nodes(inside, rule.entries), host.next_edge + len(rule.reactum.edges)
    if count > MOST_ROWS or max(next_node, next_edge) > LARGEST_COUNTER:
        return None
    middle = tensor(raised(rule.reactum, host.next_node, host.next_edge), identity(0, parameter.outer))
    instance = instantiate(parameter, rule.entries, first_late)
    after = lean(compose(context, compose(middle, instance)))
    assert len(after.nodes) == count, 'the reference contradicts itself'
    return Host(after, next_node, next_edge) if len(after.edges) <= MOST_ROWS else None
