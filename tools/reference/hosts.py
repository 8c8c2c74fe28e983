"""Random hosts, and redexes cut out of them and then changed a little, so that many of them occur."""

CONTROLS = [('A', 0, 'normal'), ('B', 1, 'normal'), ('C', 0, 'atomic'), ('D', 2, 'normal'), ('E', 1, 'atomic'),
            ('G', 2, 'atomic')]


def is_normal(control):
    return CONTROLS[control][2] == 'normal'


def host_of(random):
    """Nodes (control, place, link names, parents before children), the number of regions, and the names of edges."""
    regions = random.choice([1, 1, 1, 2, 3])
    controls = random.sample(range(6), random.choice([1, 2, 3, 3, 4]))
    if not any(map(is_normal, controls)):
        controls.append(random.choice([0, 1, 3]))
    names = ['a', 'b', 'c', 'd', 'e'][:random.choice([1, 2, 3, 5])]
    closed = {name for name in names if random.random() < 0.6}
    nodes = []
    for node in range(random.randint(1, 9)):
        control = random.choice(controls)
        normal = [('n', other) for other in range(node) if is_normal(nodes[other][0])]
        places = [('r', region) for region in range(regions)] + normal * random.choice([1, 3])
        nodes.append((control, random.choice(places), [random.choice(names) for _ in range(CONTROLS[control][1])]))
    return nodes, regions, closed


def text_inside(random, nodes, place, sites):
    """What lies in a place, as a text."""
    parts = ['id'] * sum(each == place for each in sites)
    for node, (control, above, names) in enumerate(nodes):
        if above == place:
            text = CONTROLS[control][0] + ('{' + ','.join(names) + '}' if names else '')
            parts.append(f'{text}.{text_inside(random, nodes, ("n", node), sites)}' if is_normal(control) else text)
    random.shuffle(parts)
    if not parts:
        return random.choice(['1', '1', '(1 | 1)'])
    if len(parts) == 1 and place[0] == 'n':
        return parts[0]
    return f'({" | ".join(parts)})' if place[0] == 'n' or random.random() < 0.3 else ' | '.join(parts)


def text_of(random, nodes, regions, sites, closed):
    text = ' || '.join(text_inside(random, nodes, ('r', region), sites) for region in range(regions))
    names = sorted({name for _, _, names in nodes for name in names} & closed)
    random.shuffle(names)
    return ' '.join(f'/{name}' for name in names) + f' ({text})' if names else text


def chosen_nodes(random, nodes):
    """Some nodes of a host, in ascending order, some below others."""
    chosen = set()
    for _ in range(random.choice([1, 1, 2, 2, 3])):
        waiting = [random.randrange(len(nodes))]
        chosen.add(waiting[0])
        while waiting and len(chosen) < 4:
            place = ('n', waiting.pop())
            below = [node for node, row in enumerate(nodes) if row[1] == place and random.random() < 0.4]
            chosen.update(below[:4 - len(chosen)])
            waiting += below
    return sorted(chosen)


def cut_out(random, nodes, chosen):
    """The chosen nodes as nodes of a pattern, the number of its regions, and the places that have a site."""
    numbers, regions, pattern, sites = {node: number for number, node in enumerate(chosen)}, {}, [], set()
    count = 0
    for node in chosen:
        control, place, names = nodes[node]
        if place[0] == 'n' and place[1] in numbers:
            place = ('n', numbers[place[1]])
        else:
            if place not in regions or random.random() < 0.15:
                regions[place] = count
                count += 1
            place = ('r', regions[place])
        pattern.append((control, place, list(names)))
        left = any(row[1] == ('n', node) and other not in numbers for other, row in enumerate(nodes))
        if is_normal(control) and random.random() < (0.9 if left else 0.4):
            sites.add(('n', numbers[node]))
    return pattern, count, sites


def names_changed(random, pattern, names, chance):
    for _, _, links in pattern:
        for place in range(len(links)):
            if random.random() < chance:
                links[place] = random.choice(names)


def redex_parts(random, nodes, closed):
    """A redex: its nodes, the number of its regions, the places that have a site, its edges and its outer names."""
    pattern, regions, sites = cut_out(random, nodes, chosen_nodes(random, nodes))
    if random.random() < 0.3:
        names_changed(random, pattern, ['x', 'y', 'z'], 0.4)
    used = sorted({name for _, _, names in pattern for name in names})
    if random.random() < 0.1 and used:
        names_changed(random, pattern, used[:1], 0.5)
    if random.random() < 0.1:
        number, control = random.randrange(len(pattern)), random.randrange(6)
        has_inside = ('n', number) in sites or any(row[1] == ('n', number) for row in pattern)
        if is_normal(control) or not has_inside:
            links = [random.choice(used or ['a']) for _ in range(CONTROLS[control][1])]
            pattern[number] = (control, pattern[number][1], links)
    used = sorted({name for _, _, names in pattern for name in names})
    edges = set()
    for name in used:
        all_points, points = (sum(names.count(name) for _, _, names in rows) for rows in (nodes, pattern))
        if name in closed and all_points == points and random.random() < 0.7 or random.random() < 0.08:
            edges.add(name)
    return pattern, regions, sites, edges, [name for name in used if name not in edges]


def beginning(random, nodes, regions, closed):
    """The lines of a model that define its controls and its host."""
    lines = [('atomic ' if kind == 'atomic' else '') + f'ctrl {name} = {arity};' for name, arity, kind in CONTROLS]
    idle = '{u} || ' if random.random() < 0.1 else ''
    return lines + [f'big s = {idle}{text_of(random, nodes, regions, set(), closed)};']


def host_model(random):
    """The lines of a model with a host and one to four redexes."""
    nodes, regions, closed = host_of(random)
    lines = beginning(random, nodes, regions, closed)
    count = random.randint(1, 4)
    for number in range(count):
        pattern, width, sites, edges, names = redex_parts(random, nodes, closed)
        redex = text_of(random, pattern, width, sites, edges)
        reactum = ' || '.join(['{' + ','.join(names) + '}'] + ['1'] * width)
        lines.append(f'react r{number} = {redex} --> {reactum} @ [];')
    rules = ', '.join(f'r{number}' for number in range(count))
    return lines + [f'begin brs init s; rules = [ {{{rules}}} ]; end']
