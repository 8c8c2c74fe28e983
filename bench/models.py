#!/usr/bin/env python3
"""Writes a model at the limits: models.py KIND. `check` accepts all but those of the last group.

Expressions:
joined       65,536 operands joined by |
beside       65,536 operands joined by ||
named        65,536 operands joined by |, each with a name of its own
apart        65,536 operands joined by +, each with a name of its own
identities   65,536 identities joined by ||, each on a name of its own
composed     identities of 64 places joined by *, 16,384 of them
nested       330 nodes in one another, 197 nodes in each; three symbols K a level
closed       250 closures of names around 65,000 operands
doubled      a bigraph that is joined with itself 16 times over
referred     1,023 references, each in the definition before
arguments    4,000 controls with arguments, used a million times in all
brackets     4,096 operands, each in 250 brackets

Statements:
definitions  8 MB of definitions
rules        8 MB of rules without formals, each with a condition
values       2,048 parameters of 4,096 values each, in ranges
ranges       8 MB of parameters of 4,096 values each, in ranges
regions      a redex of 65,536 regions, joined with itself 16 times over
sites        a redex of 65,536 regions, each with a site in its node
ports        a redex of 65,536 nodes of 16 ports, each port with a name of its own

The block:
host         a run begins with 65,536 nodes, each with a name of its own
choices      a reference with 64 values for each of two parameters: 4,096 rules
references   4,096 references to a rule
predicates   4,096 predicates
large        64 rules with 1,024 nodes on each side
labels       a text of 1,000 bytes in 4,096 labels

Refused:
terms        a bigraph that is joined with itself until it has too many terms
toomany      a 4,097th rule
shared       8 MB of references to a rule, each with the same list of 4,096 values
spaces       8 MiB of spaces
"""
import sys

CONTROLS = 'atomic ctrl A = 0;\nctrl N = 0;\natomic ctrl P = 1;\natomic ctrl Q = 2;\n'
MEGABYTES = 8_000_000


def block(rules='', preds='', params='', init='start'):
    listed = f'  preds = {{{preds}}};\n' if preds else ''
    return f'begin brs\n{params}  init {init};\n  rules = [ {{{rules}}} ];\n{listed}end\n'


def model(statements, **parts):
    return CONTROLS + 'big start = A;\n' + statements + block(**parts)


def joined(operator, operand, count):
    return 'big s = ' + (' ' + operator + ' ').join(operand(n) for n in range(count)) + ';\n'


def mixed(n):
    return n * 40503 % 65536


def doubled(first, operator, count):
    return first + ''.join(f'big p{n + 1} = p{n} {operator} p{n};\n' for n in range(count))


def referred(count):
    return 'big p0 = A;\n' + ''.join(f'big p{n + 1} = p{n};\n' for n in range(count))


def nested(levels, width):
    operands = ' | '.join(['A'] * width)
    inner = ''.join(f'fun big q{n + 1}(n) = N.({operands} | q{n}(n));\n' for n in range(levels - 1))
    return f'fun big q0(n) = {operands};\n{inner}big s = q{levels - 1}(0);\n'


def arguments():
    # 4,000 nodes of controls with arguments in one bigraph, which 250 statements evaluate anew
    operands = ' | '.join(f'K(n + {m})' for m in range(4000))
    return f'fun ctrl K(n) = 0;\nfun big k(n) = {operands};\n' + ''.join(f'big s{n} = k(0);\n' for n in range(250))


def up_to(line):
    lines = []
    size = 0
    while size < MEGABYTES:
        lines.append(line(len(lines)))
        size += len(lines[-1])
    return ''.join(lines)


def letters(number):
    # short names: lower-case letters alone
    word = ''
    while True:
        word = chr(ord('a') + number % 26) + word
        number //= 26
        if number == 0:
            return 'x' + word


def ports(nodes):
    names = (letters(n) for n in range(16 * nodes))
    operands = ('W{' + ','.join(next(names) for _ in range(16)) + '}' for _ in range(nodes))
    return 'atomic ctrl W = 16;\nbig s = ' + '|'.join(operands) + ';\n'


def closed():
    return 'big s = ' + ' '.join(f'/x{n}' for n in range(250)) + ' (' + ' | '.join(f'P{{x{n % 300}}}' for n in range(65000)) + ');\n'


MOVE = 'fun react move(n, m) = A --> A;\n'
COUNTED = 'fun atomic ctrl K(n) = 0;\nfun react count(n, m) = K(n) --> K(m);\n'
LARGE = 'fun react large(n) = ' + ' | '.join(['A'] * 1024) + ' --> ' + ' | '.join(['A'] * 1024) + ';\n'

KINDS = {
    'joined': lambda: model(joined('|', lambda n: 'A', 65536)),
    'beside': lambda: model(joined('||', lambda n: 'A', 65536)),
    'named': lambda: model(joined('|', lambda n: f'P{{x{mixed(n)}}}', 65536)),
    'apart': lambda: model(joined('+', lambda n: f'P{{x{mixed(n)}}}', 65536)),
    'identities': lambda: model(joined('||', lambda n: f'id{{x{mixed(n)}}}', 65536)),
    'composed': lambda: model(joined('*', lambda n: 'id(64)', 16384)),
    'nested': lambda: model(nested(330, 197)),
    'closed': lambda: model(closed()),
    'doubled': lambda: model(doubled('big p0 = A;\n', '|', 16)),
    'referred': lambda: model(referred(1023)),
    'arguments': lambda: model(arguments()),
    'brackets': lambda: model(joined('|', lambda n: 250 * '(' + 'A' + 250 * ')', 4096)),
    'definitions': lambda: model(up_to(lambda n: f'big room{n} = N.(A | P{{x}} | /y Q{{x,y}});\n')),
    'rules': lambda: model(up_to(lambda n: f'react move{n} = A | N.(P{{x}} | id) --> N.(A | P{{x}} | id) if !Q{{x,y}} in ctx;\n')),
    'ranges': lambda: model(up_to(lambda n: f'int n{n} = [0:1:4095];\n')),
    'regions': lambda: model(doubled('big p0 = A;\n', '||', 16) + 'react r = p16 --> p16;\n', rules='r'),
    'sites': lambda: model(doubled('big p0 = N.id;\n', '||', 16) + 'react r = p16 --> p16;\n', rules='r'),
    'ports': lambda: model(ports(65536) + 'react r = s --> s;\n', rules='r'),
    'values': lambda: model(''.join(f'int n{k} = [0:1:4095];\n' for k in range(2048))),
    'host': lambda: model(joined('|', lambda n: f'P{{x{mixed(n)}}}', 65536), init='s'),
    'choices': lambda: model(COUNTED + 'int n = [0:1:63];\nint m = [0:1:63];\n', rules='count(n, m)'),
    'references': lambda: model(MOVE, rules=', '.join(f'move({k}, 0)' for k in range(4096))),
    'predicates': lambda: model('fun big b(n) = A;\n', preds=', '.join(f'b({k})' for k in range(4096))),
    'large': lambda: model(LARGE + 'int n = [0:1:63];\n', rules='large(n)'),
    'labels': lambda: model(f'fun react told(t, n) = A --> A;\nstring t = "{1000 * "a"}";\nint n = [0:1:4095];\n', rules='told(t, n)'),
    'terms': lambda: model(doubled('big p0 = 1;\n', '|', 19)),
    'toomany': lambda: model(MOVE, rules=', '.join(f'move({k}, 0)' for k in range(4097))),
    'shared': lambda: model(
        'fun react r(n) = A --> A;\nint n = {' + ', '.join(str(k) for k in range(4096)) + '};\n',
        rules=','.join(['r(n)'] * (MEGABYTES // 5)),
    ),
    'spaces': lambda: 8_388_608 * ' ',
}


def main():
    sys.stdout.write(KINDS[sys.argv[1]]())


main()
