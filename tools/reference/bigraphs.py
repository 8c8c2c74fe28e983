"""Bigraphs and their algebra, by docs/DEFINITIONS.md and the pictures of docs/LANGUAGE.md.

A name is a tuple: (0, identifier), (1, node, index) for the name of a port, (2, edge) for that of an opened edge; so
names are ordered as tuples are. A place is ('n', node) or ('r', region), a link ('#', edge) or ('=', name).
"""
from .refusals import Fault


class Bigraph:
    """`nodes` has for each node its control, its place and its links; `inner` has for each inner name its link."""
    __slots__ = ('nodes', 'edges', 'sites', 'inner', 'regions', 'outer')

    def __init__(self, nodes=None, edges=(), sites=(), inner=None, regions=0, outer=()):
        self.nodes, self.edges, self.sites = nodes or {}, set(edges), list(sites)
        self.inner, self.regions, self.outer = inner or {}, regions, set(outer)

    def __eq__(self, other):
        return all(getattr(self, part) == getattr(other, part) for part in self.__slots__)

    def through(self, place=lambda place: place, link=lambda link: link):
        """Its nodes, sites and inner names, where places and links become others."""
        nodes = {node: (control, place(above), tuple(map(link, links))) for node, (control, above, links) in self.nodes.items()}
        return nodes, [place(each) for each in self.sites], {name: link(each) for name, each in self.inner.items()}


def identity(width, names):
    return Bigraph(sites=[('r', region) for region in range(width)], inner={name: ('=', name) for name in names},
                   regions=width, outer=names)


def ion(control, node, names):
    return Bigraph({node: (control, ('r', 0), tuple(('=', name) for name in names))}, (), [('n', node)], {}, 1, names)


def atom(control, node, names):
    return Bigraph({node: (control, ('r', 0), tuple(('=', name) for name in names))}, (), [], {}, 1, names)


def merger(width):
    return Bigraph(sites=[('r', 0)] * width, regions=1)


def apart(one, other):
    if not one.nodes.keys().isdisjoint(other.nodes) or one.edges & other.edges:
        raise Fault(12)


def compose(outer, inner):
    """The inner one in the sites and inner names of the outer one."""
    if inner.regions != len(outer.sites) or inner.outer != set(outer.inner):
        raise Fault(11)
    apart(inner, outer)
    nodes, sites, names = inner.through(lambda place: outer.sites[place[1]] if place[0] == 'r' else place,
                                        lambda link: outer.inner[link[1]] if link[0] == '=' else link)
    return Bigraph({**outer.nodes, **nodes}, inner.edges | outer.edges, sites, names, outer.regions, outer.outer)


def parallel(left, right):
    if not left.inner.keys().isdisjoint(right.inner):
        raise Fault(14)
    apart(left, right)
    nodes, sites, names = right.through(lambda place: ('r', place[1] + left.regions) if place[0] == 'r' else place)
    return Bigraph({**left.nodes, **nodes}, left.edges | right.edges, left.sites + sites, {**left.inner, **names},
                   left.regions + right.regions, left.outer | right.outer)


def tensor(left, right):
    if not left.inner.keys().isdisjoint(right.inner) or left.outer & right.outer:
        raise Fault(13)
    return parallel(left, right)


def merge(left, right):
    both = parallel(left, right)
    nodes, sites, names = both.through(lambda place: ('r', 0) if place[0] == 'r' else place)
    return Bigraph(nodes, both.edges, sites, names, 1, both.outer)


def nest(outer, inner):
    if outer.inner:
        raise Fault(17)
    if len(outer.sites) != inner.regions:
        raise Fault(15)
    return compose(parallel(identity(0, inner.outer), outer), inner)


def close(big, name, edge):
    if name not in big.outer:
        raise Fault(16)
    nodes, sites, names = big.through(link=lambda link: ('#', edge) if link == ('=', name) else link)
    return Bigraph(nodes, big.edges | {edge}, sites, names, big.regions, big.outer - {name})


def links_with_points(big):
    return {link for _, _, links in big.nodes.values() for link in links} | set(big.inner.values())


def whole(big):
    """Without its idle edges, the others numbered 0, 1, 2 in their order."""
    used = links_with_points(big)
    numbers = {edge: number for number, edge in enumerate(sorted(each for each in big.edges if ('#', each) in used))}
    nodes, sites, names = big.through(link=lambda link: ('#', numbers[link[1]]) if link[0] == '#' else link)
    return Bigraph(nodes, numbers.values(), sites, names, big.regions, big.outer)


def unsolid_clause(big):
    """The least clause of a solid bigraph that fails (docs/REFUSALS.md, at its end), or None."""
    parents, used = {place for _, place, _ in big.nodes.values()}, links_with_points(big)
    fails = [any(('r', region) not in parents for region in range(big.regions)),
             any(('=', name) not in used for name in big.outer),
             len(set(big.sites)) != len(big.sites),
             any(place[0] == 'r' for place in big.sites),
             not big.nodes,
             bool(big.inner) or any(name[0] != 0 for name in big.outer)]
    return fails.index(True) + 1 if True in fails else None
