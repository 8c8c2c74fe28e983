"""Models at each limit, and one past it."""
from .case import accepted, refused, too_long
from .texts import BYTES, ROWS, block, doubled, filled, joined, model, powers

TERMS = 1_048_576
DEPTH = 1024
MANY = 4096
BRACKETS = 255
GREATEST = 9_223_372_036_854_775_807


def expression(text):
    """A model with this bigraph, which a run begins with."""
    return model(f'big s = {text};\n')


def statements(text):
    """A model with these statements beside."""
    return model(f'{text}big s = A;\n')


def ports(arity):
    """A node with so many ports."""
    names = joined(',', lambda n: f'x{n}', arity)
    return statements(f'ctrl K = {arity};\nbig k = K{{{names}}}.1;\n')


def controls(count):
    """So many controls."""
    return joined('', lambda n: f'ctrl K{n} = 0;\n', count) + 'big s = 1;\n' + block()


def arguments(count):
    """A control with so many lists of arguments."""
    return f'fun atomic ctrl K(n) = 0;\nbig s = {joined(" | ", lambda n: f"K({n})", count)};\n' + block()


def listed(count):
    """A parameter with so many values, one after the other."""
    return statements(f'int n = {{{joined(",", str, count)}}};\n')


def ranged(count):
    """The same as a range."""
    return statements(f'int n = [1:1:{count}];\n')


def nodes(more=''):
    """As many nodes as there may be."""
    return doubled_host('A', '|', more)


def edges(more=''):
    """As many edges as there may be, none with a point."""
    return doubled_host('/x {x}', '||', more)


def regions(more=''):
    """As many regions as there may be."""
    return doubled_host('A', '||', more)


def doubled_host(first, operator, more):
    """As many of the first one as there may be of anything, and what is put behind."""
    return model(doubled(first, operator, 16) + f'big s = p16{more};\n')


def sites(count):
    """An identity of so many places, of which nothing is made."""
    return statements(f'big i = id({count});\n')


def terms(count):
    """A bigraph of so many terms: a reference counts one, and p0 another."""
    left, operands = count, []
    for k in range(18, -1, -1):
        # the reference, and what it refers to
        cost = 3 * 2**k - 1
        while left >= cost:
            operands.append(f'p{k}')
            left -= cost
    operands += ['1'] * left
    return model(doubled('1', '|', 18) + f'big s = {" | ".join(operands)};\n')


def references(count):
    """So many references, each in the definition before."""
    return model('big p0 = A;\n' + joined('', lambda n: f'big p{n + 1} = p{n};\n', count) + 'big s = 1;\n')


def rules(count):
    """So many references to a rule."""
    return model('big s = A;\nfun react r(n) = A --> A;\n', joined(',', lambda n: f'r({n})', count))


def predicates(count):
    """So many references to a predicate."""
    return model('big s = A;\nfun big p(n) = A;\n', preds=joined(',', lambda n: f'p({n})', count))


def around(front, inner, behind, count):
    """A bigraph with so many symbols around it."""
    return expression(front * count + inner + behind * count)


def signs(count):
    """A number with so many signs in front of it."""
    return statements(f'int n = {"-" * count}1;\n')


def padded(size):
    """A model with spaces behind it."""
    text = statements('')
    return text + ' ' * (size - len(text))


CASES = [
    accepted('arity', lambda: ports(16)),
    refused('arity_past', lambda: ports(17), '52 TooLarge arity'),
    accepted('controls', lambda: controls(MANY), said=f'ok controls {MANY} '),
    refused('controls_past', lambda: controls(MANY + 1), '52 TooLarge controls'),
    accepted('arguments', lambda: arguments(MANY), said=f'ok controls {MANY} '),
    refused('arguments_past', lambda: arguments(MANY + 1), '52 TooLarge controls'),
    accepted('values', lambda: listed(MANY)),
    refused('values_past', lambda: listed(MANY + 1), '52 TooLarge values'),
    accepted('range', lambda: ranged(MANY)),
    refused('range_past', lambda: ranged(MANY + 1), '52 TooLarge values'),
    refused('range_far_past', lambda: ranged(GREATEST), '52 TooLarge values'),
    accepted('nodes', nodes, said='ok controls 7 rules 0 classes 1 preds 0 nodes 65536 edges 0'),
    refused('nodes_past', lambda: nodes(' | A'), '52 TooLarge nodes'),
    accepted('edges', edges),
    refused('edges_past', lambda: edges(' || /x {x}'), '52 TooLarge edges'),
    accepted('regions', regions, said='ok controls 7 rules 0 classes 1 preds 0 nodes 65536 edges 0'),
    refused('regions_past', lambda: regions(' || 1'), '52 TooLarge places'),
    accepted('sites', lambda: sites(ROWS)),
    refused('sites_past', lambda: sites(ROWS + 1), '52 TooLarge places'),
    refused('sites_far_past', lambda: sites(GREATEST), '52 TooLarge places'),
    accepted('terms', lambda: terms(TERMS)),
    refused('terms_past', lambda: terms(TERMS + 1), '52 TooLarge terms'),
    accepted('depth', lambda: references(DEPTH - 1)),
    refused('depth_past', lambda: references(DEPTH), '52 TooLarge depth'),
    accepted('rules', lambda: rules(MANY), count=1),
    refused('rules_past', lambda: rules(MANY + 1), '52 TooLarge rules'),
    accepted('predicates', lambda: predicates(MANY)),
    refused('predicates_past', lambda: predicates(MANY + 1), '52 TooLarge preds'),
    accepted('brackets', lambda: around('(', '1', ')', BRACKETS)),
    refused('brackets_past', lambda: around('(', '1', ')', BRACKETS + 1), '32 TooDeep at 8:265'),
    accepted('nestings', lambda: around('N.', '1', '', BRACKETS)),
    refused('nestings_past', lambda: around('N.', '1', '', BRACKETS + 1), '32 TooDeep'),
    accepted('closures', lambda: around('/x ', '1', '', BRACKETS)),
    refused('closures_past', lambda: around('/x ', '1', '', BRACKETS + 1), '32 TooDeep'),
    accepted('signs', lambda: signs(BRACKETS)),
    refused('signs_past', lambda: signs(BRACKETS + 1), '32 TooDeep'),
    accepted('number', lambda: statements(f'int n = {GREATEST};\n')),
    refused('number_past', lambda: statements(f'int n = {GREATEST + 1};\n'), '23 NumberTooLarge'),
    accepted('bytes', lambda: padded(BYTES)),
    too_long('bytes_past', lambda: padded(BYTES + 1)),
    refused('spaces', lambda: BYTES * ' ', '53 NoBlock at 1:8388609'),
    # what a reference with several parameters would come to is not made first
    refused(
        'choices_far_past',
        lambda: model('big s = A;\nfun react r(a,b,c,d) = A --> A;\n' + joined('', lambda n: f'int n{n} = [1:1:4096];\n', 4), 'r(n0,n1,n2,n3)'),
        '52 TooLarge rules',
    ),
    accepted('classes', lambda: filled('atomic ctrl A = 0;\nbig s = A;\nreact r = A --> A;\nbegin brs init s; rules = [', '{},', '{r}]; end\n'), count=1),
    # each operator is within the limits, and the last is not
    refused('doublings', lambda: model(doubled('A', '|', 17) + f'big s = {powers(3)};\n'), '52 TooLarge nodes'),
]
