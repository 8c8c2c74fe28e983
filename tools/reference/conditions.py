"""Conditions, by docs/DEFINITIONS.md: the pieces of a host at an occurrence, and whether a rule's conditions hold there."""
from .bigraphs import Bigraph
from .occurrences import Index, Search

HOLE = 4294967295


def piece_of(index, rows, holes, regions):
    """Some nodes of a host, with the links that they have there: an edge with a point elsewhere becomes an outer name.
    The holes stand beside them; no pattern has a node of their control."""
    nodes, edges, names = dict(holes), set(), set()
    for node, (control, place, _) in rows.items():
        links = []
        for link in index.host.nodes[node][2]:
            if link[0] == '#' and any(other not in rows for other, _ in index.ports[link]):
                link = ('=', (2, link[1]))
            links.append(link)
            (edges if link[0] == '#' else names).add(link[1])
        nodes[node] = (control, place, tuple(links))
    return Bigraph(nodes, edges, (), {}, regions, names)


def parameter_piece(host, parameter):
    return piece_of(host.index, parameter.nodes, {}, parameter.regions)


def context_piece(host, context):
    """The nodes of the context, with a hole where each region of the redex stood, numbered from the next node on."""
    holes = {host.next_node + region: (HOLE, place, ()) for region, place in enumerate(context.sites)}
    return piece_of(host.index, context.nodes, holes, context.regions)


def first_failing(host, rule, parts):
    """The number of the first condition that does not hold at a decomposition, or None."""
    context, _, parameter = parts
    pieces = {}
    for number, (is_wanted, side, pattern) in enumerate(rule.conditions):
        if side not in pieces:
            piece = context_piece(host, context) if side == 'ctx' else parameter_piece(host, parameter)
            pieces[side] = Index(piece)
        if Search(pieces[side], pattern).is_somewhere() != is_wanted:
            return number
    return None
