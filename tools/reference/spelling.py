"""What is written of signatures, bigraphs and systems, by docs/FORMATS.md. Each function gives lines."""


def name_text(name):
    if name[0] == 0:
        return name[1]
    return f'@{name[1]}.{name[2]}' if name[0] == 1 else f'~{name[1]}'


def link_text(link):
    return f'#{link[1]}' if link[0] == '#' else '=' + name_text(link[1])


def place_text(place):
    return f'{place[0]}{place[1]}'


def numbers_line(word, numbers):
    return ' '.join([word] + [str(number) for number in numbers])


def bigraph_lines(labels, big):
    parts = [('sites', [place_text(place) for place in big.sites]),
             ('inner', [f'{name_text(name)} {link_text(big.inner[name])}' for name in sorted(big.inner)]),
             ('outer', [name_text(name) for name in sorted(big.outer)]),
             ('edges', [str(edge) for edge in sorted(big.edges)]),
             ('nodes', [node_line(labels, node, *big.nodes[node]) for node in sorted(big.nodes)])]
    lines = [f'bigraph {big.regions}']
    for word, rows in parts:
        lines += [f'{word} {len(rows)}'] + rows
    return lines


def node_line(labels, node, control, place, links):
    return ' '.join([str(node), labels[control], place_text(place)] + [link_text(link) for link in links])


def system_lines(system):
    labels = system.labels
    lines = [f'signature {len(labels)}']
    lines += [f'{label} {arity} {kind}' for label, (_, _, arity, kind) in zip(labels, system.signature)]
    lines += ['init'] + bigraph_lines(labels, system.host)
    for number, rule in enumerate(system.rules):
        lines += [f'rule {number} {rule.label} class {rule.its_class}']
        lines += ['redex'] + bigraph_lines(labels, rule.redex) + ['reactum'] + bigraph_lines(labels, rule.reactum)
        lines += [numbers_line('map', rule.entries), f'conditions {len(rule.conditions)}']
        for is_wanted, side, pattern in rule.conditions:
            lines += [f'{"+" if is_wanted else "-"} {side}'] + bigraph_lines(labels, pattern)
    lines += [f'preds {len(system.predicates)}']
    for label, pattern in system.predicates:
        lines += [f'pred {label}'] + bigraph_lines(labels, pattern)
    return lines
