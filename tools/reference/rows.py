"""Random listings: valid pairs of bigraphs that often compose, and listings of right form whose rows break rules."""

LABELS = ['A', 'B', "Ab_9'", 'K(3)', 'K(-1)', 'K("a b")', 'K("),(",0)', 'K("")', 'K("a,b",-9223372036854775808)',
          'K(9223372036854775807)', 'Z', 'C', 'D', 'E(1,2,3)', 'K(0)']
NAMES = ['x', 'y', 'z', 'a', 'begin', 'int', "aB_'", 'x1', 'x10', 'x2', '@0.0', '@2.0', '@10.0', '@2.10', '@2.9', '~0', '~10',
         '~9', '@2147483647.2147483647', '~2147483647']


def in_order(name):
    """The key by which names ascend."""
    if name[0] == '@':
        return (1, *map(int, name[1:].split('.')))
    return (2, int(name[1:])) if name[0] == '~' else (0, name)


def listing(regions, sites, inner, outer, edges, nodes):
    parts = zip(('sites', 'inner', 'outer', 'edges', 'nodes'), (sites, inner, outer, edges, nodes))
    return [f'bigraph {regions}'] + [line for word, rows in parts for line in (f'{word} {len(rows)}', *map(str, rows))]


EMPTY = listing(0, [], [], [], [], [])


def names_of(random, most):
    return sorted({random.choice(NAMES) for _ in range(random.randint(0, most))}, key=in_order)


def valid_bigraph(random, signature, regions, sites, inner, outer, nodes, edges):
    """A valid bigraph of that face, or None where rows have nowhere to go."""
    places, rows = [f'r{region}' for region in range(regions)], {}
    links = [f'#{edge}' for edge in sorted(edges)] + [f'={name}' for name in outer]
    for node in random.sample(nodes, len(nodes)) if places else []:
        label, arity, kind = random.choice(signature)
        if arity and not links:
            return None
        rows[node] = ' '.join([str(node), label, random.choice(places)] + [random.choice(links) for _ in range(arity)])
        if kind == 'normal':
            places.append(f'n{node}')
    if sites and not places or inner and not links:
        return None
    return listing(regions, [random.choice(places) for _ in range(sites)],
                   [f'{name} {random.choice(links)}' for name in inner], outer, sorted(edges),
                   [rows[node] for node in sorted(rows)])


def valid_pair(random):
    """The lines of a signature and of two bigraphs, which compose with good chance."""
    signature = [(label, random.choice([0, 0, 1, 2, 3]), random.choice(['normal', 'normal', 'atomic']))
                 for label in dict.fromkeys(random.choice(LABELS) for _ in range(random.randint(1, 4)))]
    nodes = random.sample([*range(12), 2147483647, 2147483646, 99, 100], 12)
    edges = random.sample([*range(8), 2147483647, 10, 9], 8)
    width, names, outer, inner = random.randint(0, 3), names_of(random, 3), None, None
    while outer is None:
        outer = valid_bigraph(random, signature, random.randint(0, 3), width, names, names_of(random, 3),
                              nodes[:random.randint(0, 4)], edges[:random.randint(0, 3)])
    for _ in range(50):
        first_node, first_edge = 4 - (random.random() < 0.05), 3 - (random.random() < 0.05)
        inner = inner or valid_bigraph(
            random, signature, width + (random.random() < 0.04), random.randint(0, 2), names_of(random, 2), names,
            nodes[first_node:first_node + random.randint(0, 4)], edges[first_edge:][:random.randint(0, 3)])
    lines = [f'signature {len(signature)}'] + [f'{label} {arity} {kind}' for label, arity, kind in signature]
    return lines + outer + (inner or EMPTY)


def faulty_bigraph(random, chance):
    """A bigraph of right form, each of whose rows may break a rule with some chance."""
    def is_bad():
        return random.random() < chance

    edges, outer = sorted(random.sample(range(4), random.randint(0, 2))), sorted(random.sample('xyz', random.randint(0, 2)))
    numbers = sorted(random.sample(range(6), random.randint(1, 5)))
    links = [f'#{edge}' for edge in edges] + [f'={name}' for name in outer] or ['#0']

    def place(most):
        if is_bad():
            return random.choice(['r0', 'r1', 'r2', 'n7'] + [f'n{node}' for node in range(6)])
        below = [f'n{node}' for node in numbers if node < most]
        return 'r0' if random.random() < 0.4 or not below else random.choice(below)

    def link():
        return random.choice(['#0', '#1', '#5', '=x', '=q'] if is_bad() else links)

    rows = []
    for node in numbers:
        label, arity = random.choice([('A', 0), ('A', 0), ('D', 2), ('D', 2), ('B', 0), ('E', 1)])
        label, arity = random.choice('ADEQ') if is_bad() else label, random.randint(0, 3) if is_bad() else arity
        rows.append(' '.join([str(node), label, place(node)] + [link() for _ in range(arity)]))
    for part in (rows, edges, outer):
        if random.random() < chance / 2:
            random.shuffle(part)
            part += part[:1]
    inner = [f'{name} {link()}' for name in random.sample('abc', random.choice([0, 0, 1, 2]))]
    if not is_bad():
        inner.sort()
    sites = [place(6) for _ in range(random.choice([0, 0, 1, 2, 3]))]
    return listing(random.choice([1, 1, 2]), sites, inner, outer, edges, rows)


def faulty_pair(random):
    chance = random.choice([0.03, 0.08, 0.2, 0.4])
    return (['signature 4', 'A 0 normal', 'B 0 atomic', 'D 2 normal', 'E 1 atomic'] + faulty_bigraph(random, chance)
            + faulty_bigraph(random, chance))
