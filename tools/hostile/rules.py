"""Many rules, predicates and conditions, and large ones."""
from .case import accepted, refused
from .texts import BYTES, CONTROLS, MANY, POWER, block, doubled, joined, model, powers, times, up_to

CHOICES = ' int n = [0:1:63]; int m = [0:1:63];'
LARGE = 1024
# a text that is written 4,096 times
LABEL = 20_000


def many(rule, host, statements=''):
    """4,096 rules of one text, with two formals."""
    return lambda: model(f'{statements}big s = {host};\nfun react r(n, m) = {rule};\n', 'r(n, m)', params=CHOICES)


def watched(predicate, host, statements=''):
    """4,096 predicates of one text, with two formals."""
    return lambda: model(f'{statements}big s = {host};\nfun big p(n, m) = {predicate};\n', params=CHOICES, preds='p(n, m)')


def conditioned(condition, host, redex='N.id', statements='', **more):
    """A rule with a condition."""
    return lambda: model(f'{statements}big s = {host};\nreact r = {redex} --> {redex} if {condition};\n', 'r', **more)


def large(count):
    """64 rules with so many nodes on each side."""
    side = times('A', count)
    return lambda: model(f'big s = {side};\nfun react r(n) = B | {side} --> {side} | B;\n', 'r(n)', params='int n = [0:1:63];')


def each(statement):
    """As many rules as a text has room for, none of which is used."""
    return lambda: model(up_to(BYTES - 500, statement) + 'big s = A;\n')


def labels():
    """A long text in the labels of 4,096 rules."""
    texts = f'string t = "{"a" * LABEL}"; int n = [0:1:4095];'
    return model('big s = A;\nfun react r(t, n) = A --> A;\n', 'r(t, n)', params=texts)


def copies():
    """A rule whose reactum has 4,096 sites, each with a copy of what is in the one of the redex."""
    entries = ','.join(['0'] * 4096)
    return model(f'big s = N.({times("A", 16)});\n{doubled("M.id", "|", 12)}react r = N.id --> p12 @ [{entries}];\n', 'r')


def names():
    """A redex as large as the host, each node on a name of its own."""
    nodes = joined('|', lambda n: f'P{{x{n}}}', 2**15)
    return model(f'big s = {nodes};\nreact r = s --> s;\n', 'r')


def brackets():
    """4,096 operands, each in 250 brackets."""
    operand = '(' * 250 + 'A' + ')' * 250
    return model(f'big s = {times(operand, 4096)};\n')


def shared():
    """8 MB of references to a rule, each with the same list of 4,096 values."""
    values = f'int n = {{{joined(",", str, 4096)}}};\n'
    return f'{CONTROLS}big s = A;\nfun react r(n) = A --> A;\n{values}' + block(times('r(n)', 1_600_000, ','))


STAR = doubled('A', '|', POWER)
CHAIN = doubled('N.id', '*', POWER)

CASES = [
    accepted('rules_nowhere', many('B --> B', 'p16', STAR)),
    accepted('rules_everywhere', many('A --> A', times('A', 16)), count=16),
    accepted('rules_in_many', many('A --> A', times('A', 512)), count=512),
    accepted('rules_absent', many('A --> A if !B in ctx', times('A', 64)), count=64),
    accepted('rules_present', many('A --> A if B in ctx', f'{times("A", 64)} | B'), count=64),
    accepted('rules_failing', many('A --> A if B in ctx', times('A', 64)), count=64),
    accepted('rules_inside', many('N.id --> N.id if !B in param', times('N.A', 64)), count=64),
    accepted('rules_apart', many('N.id || M.id --> N.id || M.id', f'{times("N.A", 8)} | {times("M.A", 8)}'), count=64),
    accepted('rules_linked', many('P{x} | Q{x} --> P{x} | Q{x}', f'/x ({times("P{x}", 63)} | Q{{x}})'), count=63),
    accepted('large_rules', large(LARGE)),
    accepted('predicates_nowhere', watched('B', 'p16', STAR)),
    accepted('predicates_everywhere', watched('A', 'p16', STAR)),
    accepted('predicate_large', lambda: model(STAR + 'big s = p16;\n', preds='p16')),
    accepted('condition_absent', conditioned('!B in ctx', f'N.1 | N.({powers(60000)})', statements=STAR), count=2),
    accepted('condition_inside', conditioned('!B in param', f'N.1 | N.({powers(60000)})', statements=STAR), count=2),
    accepted('condition_chain', conditioned('!N.1 in ctx', 'p13 * 1', statements=CHAIN), count=2**13),
    accepted('condition_below', conditioned('N.1 in param', 'p13 * 1', statements=CHAIN), count=2**13),
    accepted('condition_large', conditioned('!p15 in ctx', f'N.1 | {powers(60000)}', statements=STAR), count=1),
    accepted('conditions', conditioned(','.join(['!B in ctx'] * 4096), times('N.A', 64)), count=64),
    accepted('copies', copies, count=1),
    accepted('labels', labels, count=1),
    accepted('definitions', each(lambda n: f'big room{n} = N.(A | P{{x}} | /y D{{x,y}});\n'), mebibytes=2048),
    accepted('statements', each(lambda n: f'react move{n} = A | N.(P{{x}} | id) --> N.(A | P{{x}} | id) if !D{{x,y}} in ctx;\n'), mebibytes=2048),
    accepted('ranges', each(lambda n: f'int n{n} = [0:1:4095];\n')),
    accepted('redex_names', names, count=MANY, most=1),
    accepted('brackets_many', brackets),
    refused('choices_shared', shared, '52 TooLarge rules', mebibytes=2048),
]
