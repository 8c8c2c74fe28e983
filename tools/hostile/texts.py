"""Parts of models."""

CONTROLS = '''atomic ctrl A = 0;
atomic ctrl B = 0;
atomic ctrl P = 1;
atomic ctrl Q = 1;
atomic ctrl D = 2;
ctrl N = 0;
ctrl M = 0;
'''
# The most bytes of an input, and of a host the most nodes, edges, regions and sites.
BYTES = 8_388_608
ROWS = 65_536
POWER = 16
# occurrences that are more than `match` may be asked for
MANY = ROWS * ROWS


def block(rules='', preds='', params='', init='s'):
    """The block of a model: all its rules in one class."""
    listed = f' preds = {{{preds}}};' if preds else ''
    return f'begin brs {params} init {init}; rules = [{{{rules}}}];{listed} end\n'


def model(statements, rules='', **parts):
    """A model with the controls above."""
    return CONTROLS + statements + block(rules, **parts)


def one_rule(host, redex, statements='', reactum=None, behind=''):
    """A model with one rule, whose sides are equal where no reactum is given."""
    return model(f'{statements}big s = {host};\nreact r = {redex} --> {reactum or redex}{behind};\n', 'r')


def doubled(first, operator, count, name='p'):
    """Bigraphs p0, p1 and so on, each the one before joined with itself."""
    return f'big {name}0 = {first};\n' + ''.join(f'big {name}{n + 1} = {name}{n} {operator} {name}{n};\n' for n in range(count))


def powers(number, operator='|', name='p'):
    """So many of p0, of the bigraphs of `doubled`."""
    return f' {operator} '.join(f'{name}{k}' for k in range(number.bit_length()) if number >> k & 1)


def times(operand, count, operator=' | '):
    """So many of one operand."""
    return operator.join([operand] * count)


def joined(operator, operand, count):
    """So many operands in one expression: the text of each by its number."""
    return operator.join(operand(n) for n in range(count))


def mixed(number):
    """The numbers below 65,536 in another order."""
    return number * 40503 % ROWS


def up_to(size, line):
    """Lines until there are so many bytes: the text of each by its number."""
    lines, length = [], 0
    while length < size:
        lines.append(line(len(lines)))
        length += len(lines[-1])
    return ''.join(lines)


def filled(before, word, behind, size=BYTES):
    """A word again and again between two others, so many bytes in all or a few less."""
    return before + word * ((size - len(before) - len(behind)) // len(word)) + behind
