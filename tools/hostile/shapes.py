"""Hosts and redexes of shapes that hurt, each at the limit of nodes or of what its rule's occurrences come to."""
from .case import accepted
from .texts import MANY, POWER, ROWS, doubled, joined, mixed, model, one_rule, powers, times

CHAIN = doubled('N.id', '*', POWER)
STAR = doubled('A', '|', POWER)
LINK = doubled('P{x}', '|', POWER)
REGIONS = doubled('A', '||', POWER)


def chain(redex, host='p16 * 1', **more):
    """65,536 nodes in one another."""
    return lambda: one_rule(host, redex, CHAIN, **more)


def star(redex, host=f'N.({powers(ROWS - 1)})', **more):
    """65,535 nodes in one."""
    return lambda: one_rule(host, redex, STAR, **more)


def link(redex, host='p16', **more):
    """65,536 points on one link."""
    return lambda: one_rule(host, redex, LINK, **more)


def regions(redex, host='p16', **more):
    """65,536 regions with a node each."""
    return lambda: one_rule(host, redex, REGIONS, **more)


def named_nodes():
    """65,536 nodes on names of their own, in no order."""
    return one_rule(joined('|', lambda n: f'P{{x{mixed(n)}}}', ROWS), 'P{x}')


def pairs(count):
    """So many pairs of nodes, each with an edge of its own, in one region."""
    return one_rule(times('pair', count), '/x (P{x} | P{x})', 'big pair = /x (P{x} | P{x});\n')


def ring(count, redex):
    """So many nodes of two ports, each tied to the next."""
    return one_rule(joined('|', lambda n: f'D{{x{n},x{(n + 1) % count}}}', count), redex)


def bipartite(side):
    """A node for each two of so many left and as many right names, and a redex for which three of them would meet."""
    return one_rule(joined('|', lambda n: f'D{{x{n // side},y{n % side}}}', side * side), 'D{a,b} | D{b,c} | D{c,a}')


def distinct(count, redex_count):
    """Nodes of so many controls in a region, sought by as many or others of them."""
    def listed(number):
        return joined('|', lambda n: f'K({n})', number)

    return 'fun atomic ctrl K(n) = 0;\n' + one_rule(listed(count), listed(redex_count)).split('ctrl M = 0;\n')[1]


def ports(count):
    """A redex as large as the host: so many nodes of 16 ports, each on a name of its own."""
    nodes = joined('|', lambda n: 'W{' + ','.join(f'x{16 * n + k}' for k in range(16)) + '}', count)
    return model(f'atomic ctrl W = 16;\nbig s = {nodes};\nreact r = s --> s;\n', 'r')


def trees():
    """A tree of 16 levels, each node with two in it, but those above the leaves."""
    levels = joined('', lambda n: f'big p{n + 1} = N.(p{n} | p{n});\n', 14)
    return one_rule('p14', 'N.(N.id | N.id | id)', f'big p0 = N.A;\n{levels}')


# `seconds` says where what the definition asks is more than a pass over the host: all pairs, or maps as long as the host.
CASES = [
    accepted('chain', chain('N.id'), count=ROWS),
    accepted('chain_of_ten', chain('N.' * 10 + 'id'), count=ROWS - 9),
    accepted('chain_end', chain('N.1'), count=1),
    accepted('chain_dropped', chain('N.id', reactum='1', behind=' @ []'), count=ROWS),
    accepted('chain_beside', chain('N.id || A', 'p15 * 1 | A'), count=2**15),
    accepted('chain_apart', chain('N.id || A', 'p15 * (N.1 | A)'), count=1),
    accepted('chain_nested', chain('N.id || N.id', 'p11 * 1')),
    accepted('chain_copied', chain('M.id', 'M.p14 * 1', reactum='M.id | M.id', behind=' @ [0, 0]'), count=1),
    accepted('tree', trees, count=2 * (2**14 - 1)),
    accepted('star', star('N.(A | id)'), count=ROWS - 1),
    accepted('star_pairs', star('A | A'), count=MANY),
    accepted('star_ten', star(times('A', 10)), count=MANY),
    accepted('star_without', star('N.(A | B | id)')),
    accepted('three_apart', star('A | A | A | B', f'M.({powers(400)}) | M.B')),
    accepted('three_in_two', star('N.(A | A | A | id) || M.(A | B | id)', f'N.({powers(200)}) | M.({powers(200)}) | M.B')),
    accepted('link', link('P{x} | Q{x}', 'p15 | Q{x}'), count=2**15),
    accepted('link_pairs', link('P{x} || P{x}'), count=MANY),
    accepted('link_closed', link('/x (P{x} | P{x})', '/x p16')),
    accepted('link_others', link('P{x} | Q{x}', 'p15 | Q{y}')),
    accepted('links_crossed', link('D{x,y} | P{x} | Q{y}', 'p14 | D{x,y} | D{y,x} | Q{y}'), count=2**14),
    accepted('regions_each', regions('A'), count=ROWS),
    accepted('regions_pairs', regions('A || A'), count=MANY),
    accepted('regions_beside', regions('A | A')),
    accepted('regions_apart', regions('A || B', 'p15 || B'), count=2**15),
    accepted('named_nodes', named_nodes, count=ROWS),
    accepted('pairs', lambda: pairs(2**14), count=2**15),
    accepted('ring', lambda: ring(2**14, 'D{a,b} | D{b,c} | D{c,d}'), count=2**14),
    accepted('ring_open', lambda: ring(2**14, 'D{a,b} | D{b,c} | D{c,a}')),
    accepted('bipartite', lambda: bipartite(60)),
    accepted('clique', lambda: one_rule(times('D{x,x}', 60), 'D{a,b} | D{b,c} | D{c,a}'), count=60 * 59 * 58),
    # redexes as large as the host
    accepted('whole_chain', chain('p16 * 1'), count=1),
    accepted('whole_star', star(f'N.({powers(ROWS - 1)})'), count=MANY, most=1),
    accepted('whole_link', link('p16'), count=MANY, most=1),
    accepted('whole_edge', link('/x p16', '/x p16'), count=MANY, most=1),
    accepted('whole_regions', regions('p16'), count=MANY, most=1),
    accepted('whole_sites', lambda: one_rule('p15', 'q15', doubled('N.1', '||', 15) + doubled('N.id', '||', 15, 'q')), count=MANY, most=1),
    accepted('whole_ports', lambda: ports(4096), count=MANY, most=1),
    accepted('whole_controls', lambda: distinct(4096, 4096), count=1),
    # and larger: there is no occurrence
    accepted('larger_chain', chain('p16 * 1', 'p15 * 1')),
    accepted('larger_star', star(f'N.({powers(ROWS - 1)})', f'N.({powers(ROWS - 2)})')),
    accepted('larger_link', link('p16', 'p15')),
    accepted('larger_regions', regions('p16', 'p15')),
    accepted('larger_by_one', lambda: one_rule(times('A', 12), times('A', 13))),
    accepted('larger_in_place', star(f'N.({times("A", 13)})', f'N.({times("A", 12)}) | {powers(1000)}')),
    accepted('other_control', lambda: distinct(4095, 4096)),
]
