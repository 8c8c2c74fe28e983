"""Random models for `run`: rules that are cut out of a host and change it a little, with maps, conditions and classes."""
from .hosts import CONTROLS, beginning, cut_out, host_of, is_normal, redex_parts, text_of

NEW_NAMES = ['k', 'l']


def kept_rows(random, pattern, wild):
    """The nodes of a pattern, some of them left out together with what is in them; and the new number of each."""
    rows, numbers = [], {}
    for number, (control, place, names) in enumerate(pattern):
        if place[0] == 'n' and place[1] not in numbers or random.random() < wild / 2:
            continue
        numbers[number] = len(rows)
        rows.append((control, ('n', numbers[place[1]]) if place[0] == 'n' else place, list(names)))
    return rows, numbers


def places_in(rows, regions):
    normal = [('n', number) for number, row in enumerate(rows) if is_normal(row[0])]
    return [('r', region) for region in range(regions)] + normal


def names_for(random, control, names):
    return [random.choice([*names, *NEW_NAMES[:1 if names else 2]]) for _ in range(CONTROLS[control][1])]


def changed_rows(random, rows, regions, names, wild):
    """The nodes with some controls, places and names changed, and perhaps some more nodes."""
    for number, (control, place, links) in enumerate(rows):
        if random.random() < wild:
            other = random.choice([each for each in range(len(CONTROLS)) if is_normal(each) == is_normal(control)])
            rows[number] = other, place, names_for(random, other, names)
        if random.random() < wild:
            rows[number] = rows[number][0], random.choice(places_in(rows[:number], regions)), rows[number][2]
        if links and random.random() < wild:
            rows[number][2][-1:] = names_for(random, rows[number][0], names)[-1:]
    while random.random() < wild:
        control = random.randrange(len(CONTROLS))
        rows.append((control, random.choice(places_in(rows, regions)), names_for(random, control, names)))
    return rows


def entries_of(random, sites, wild):
    """The map: most often each site of the redex once."""
    entries = random.sample(range(sites), sites)
    if sites and random.random() < wild:
        entries.insert(random.randint(0, sites), random.randrange(sites))
    return [entry for entry in entries if random.random() >= wild / 2]


def reactum_of(random, redex, wild):
    """The texts of a reactum and of the map, for a redex with so many regions and sites and with these names."""
    pattern, regions, sites, edges, names = redex
    rows, numbers = kept_rows(random, pattern, wild)
    rows = changed_rows(random, rows, regions, [*names, *sorted(edges)], wild)
    entries = entries_of(random, len(sites), wild)
    usual = [('n', numbers[place[1]]) for place in sorted(sites) if place[1] in numbers]
    usual = [place for place in usual if is_normal(rows[place[1]][0])]
    places = [usual[each] if each < len(usual) and random.random() >= wild else random.choice(places_in(rows, regions))
              for each in range(len(entries))]
    used = {name for _, _, links in rows for name in links}
    text = text_of(random, rows, regions, places, used - set(names))
    idle = sorted(set(names) - used) or names[:random.random() < 0.05]
    text = f'{{{",".join(idle)}}} || {text}' if idle else text
    same = entries == list(range(len(sites))) and random.random() < 0.5
    return text, '' if same else f' @ [{", ".join(map(str, entries))}]'


def condition_of(random, nodes, closed):
    """A pattern of one or two nodes of the host, wanted or not, in the context or in the parameter."""
    chosen = sorted(random.sample(range(len(nodes)), min(len(nodes), random.choice([1, 1, 2]))))
    pattern, regions, sites = cut_out(random, nodes, chosen)
    used = {name for _, _, links in pattern for name in links}
    edges = {name for name in sorted(used & closed) if random.random() < 0.6}
    text = text_of(random, pattern, regions, sites, edges)
    return f'{random.choice(["", "! "])}({text}) in {random.choice(["ctx", "param"])}'


def rule_of(random, name, nodes, closed):
    redex = redex_parts(random, nodes, closed)
    pattern, regions, sites, edges, _ = redex
    reactum, entries = reactum_of(random, redex, random.choice([0, 0.1, 0.2, 0.4]))
    tests = [condition_of(random, nodes, closed) for _ in range(random.choice([0, 0, 0, 1, 1, 2]))]
    tail = [entries] + [' if ' + ', '.join(tests)] * bool(tests)
    random.shuffle(tail)
    return f'react {name} = {text_of(random, pattern, regions, sites, edges)} --> {reactum}{"".join(tail)};'


def run_model(random):
    """The lines of a model."""
    nodes, regions, closed = host_of(random)
    lines, names = beginning(random, nodes, regions, closed), ['r0', 'r1', 'r2', 'r3'][:random.randint(1, 4)]
    lines += [rule_of(random, name, nodes, closed) for name in names]
    lines.append(f'big p = {text_of(random, *cut_out(random, nodes, [random.randrange(len(nodes))]), set())};')
    classes = [[] for _ in range(random.choice([1, 1, 2, 3]))]
    for name in names + [names[0]] * (random.random() < 0.1):
        random.choice(classes).append(name)
    rules = ', '.join('{' + ', '.join(each) + '}' for each in classes)
    return lines + [f'begin brs init s; rules = [ {rules} ]; preds = {{p}}; end']
