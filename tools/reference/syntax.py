"""Models as plain values, made from derivation trees. Each value has the offset of its first token."""
from collections import namedtuple

from .tokens import LARGEST, number_of

# Arithmetic. An operation has items, with an operator (its spelling and its offset) between each two; operations and
# brackets are forms of expressions too.
Number = namedtuple('Number', 'start value')
Text = namedtuple('Text', 'start value')
Variable = namedtuple('Variable', 'start name')
Negation = namedtuple('Negation', 'start inside')
Brackets = namedtuple('Brackets', 'start inside')
Operation = namedtuple('Operation', 'start items operators')

# Expressions: b(1), K(1){x,y}, {x,y}, id(2,{x}), merge(2), 0, 1, /x F, F.G; the dot and the inner expression are None
# where a form stands alone.
Reference = namedtuple('Reference', 'start name arguments')
ControlSymbol = namedtuple('ControlSymbol', 'start name arguments names')
Idle = namedtuple('Idle', 'start names')
Identity = namedtuple('Identity', 'start width names')
Merger = namedtuple('Merger', 'start width')
Empty = namedtuple('Empty', 'start')
Barren = namedtuple('Barren', 'start')
Closure = namedtuple('Closure', 'start name inside')
Nesting = namedtuple('Nesting', 'start outer dot inner')

# Statements and the block. Formals are pairs of an offset and a name; a rule without a map has None for its entries.
Control = namedtuple('Control', 'start name formals arity_start arity kind')
Bigraph = namedtuple('Bigraph', 'start name formals expression')
Rule = namedtuple('Rule', 'start name formals redex reactum entries conditions')
Condition = namedtuple('Condition', 'is_wanted expression in_start side')
Parameter = namedtuple('Parameter', 'start name values')
Items = namedtuple('Items', 'items')
Range = namedtuple('Range', 'start ends')
Texts = namedtuple('Texts', 'values')
Block = namedtuple('Block', 'parameters init classes predicates')


class Reader:
    """Makes plain values from the trees of one text."""

    def __init__(self, text, found):
        self.text, self.found = text, found

    def word(self, token):
        return self.text[self.found[token].start:self.found[token].end].decode('latin1')

    def start(self, token):
        return self.found[token].start

    def chain(self, tree):
        """The parts of each item of a list that is written with itself at its end."""
        while tree.parts:
            yield tree.parts[:-1]
            tree = tree.parts[-1]

    def number(self, tree):
        return number_of(self.word(tree.parts[0]).encode(), LARGEST)

    def names(self, first, more):
        found = [first] + [item[1] for item in self.chain(more)]
        return [(self.start(token), self.word(token)) for token in found]

    def formals(self, tree):
        return self.names(tree.parts[1], tree.parts[2]) if tree.parts else []

    def name_list(self, tree):
        return [name for _, name in self.names(*tree.parts)] if tree.parts else []

    def in_braces(self, tree):
        return self.name_list(tree.parts[1]) if tree.parts else []

    # ---- arithmetic

    def formulas(self, first, more):
        return [self.formula(first)] + [self.formula(item[1]) for item in self.chain(more)]

    def arguments(self, tree):
        return self.formulas(tree.parts[1], tree.parts[2]) if tree.parts else []

    def operation(self, tree, inner):
        items, operators = [inner(tree.parts[0])], []
        for operator, item in self.chain(tree.parts[1]):
            operators.append((self.word(operator), self.start(operator)))
            items.append(inner(item))
        return Operation(items[0].start, items, operators) if operators else items[0]

    def formula(self, tree):
        return self.operation(tree, lambda product: self.operation(product, self.operand))

    def operand(self, tree):
        first = tree.parts[0]
        if tree.way == 0:
            return Number(self.start(first.parts[0]), self.number(first))
        if tree.way == 1:
            return Text(self.start(first), self.word(first)[1:-1])
        if tree.way == 2:
            return Variable(self.start(first), self.word(first))
        if tree.way == 3:
            return Negation(self.start(first), self.operand(tree.parts[1]))
        return Brackets(self.start(first), self.formula(tree.parts[1]))

    # ---- expressions

    def reference(self, tree):
        name, arguments = tree.parts
        return Reference(self.start(name), self.word(name), self.arguments(arguments))

    def references(self, tree):
        if not tree.parts:
            return []
        return [self.reference(each) for each in [tree.parts[0]] + [item[1] for item in self.chain(tree.parts[1])]]

    def expression(self, tree):
        if tree.symbol == 'K':
            return self.nesting(tree)
        return self.operation(tree, self.expression)

    def nesting(self, tree):
        if tree.way == 0:
            slash, name, inside = tree.parts
            return Closure(self.start(slash), self.word(name), self.nesting(inside))
        outer, rest = tree.parts[0].parts
        outer = self.form(outer)
        if rest.parts:
            return Nesting(outer.start, outer, self.start(rest.parts[0]), self.nesting(rest.parts[1]))
        return Nesting(outer.start, outer, None, None)

    def form(self, tree):
        parts = tree.parts
        if tree.way == 1:
            return self.reference(parts[0])
        start = self.start(parts[0])
        if tree.way == 0:
            return ControlSymbol(start, self.word(parts[0]), self.arguments(parts[1]), self.in_braces(parts[2]))
        if tree.way == 2:
            return Idle(start, self.name_list(parts[1]))
        if tree.way == 3:
            return self.identity(start, parts[1])
        if tree.way == 4:
            return Merger(start, self.number(parts[2]))
        if tree.way == 5:
            return Empty(start)
        if tree.way == 6:
            return Barren(start)
        return Brackets(start, self.expression(parts[1]))

    def identity(self, start, tail):
        if tail.way == 0:
            names = tail.parts[2]
            return Identity(start, self.number(tail.parts[1]), self.name_list(names.parts[2]) if names.parts else [])
        if tail.way == 1:
            return Identity(start, 0, self.name_list(tail.parts[1]))
        return Identity(start, 1, [])

    # ---- statements

    def statement(self, tree):
        if tree.way == 1:
            tree = tree.parts[1]
            way = tree.way
        else:
            way = tree.way - 1
        last = tree.parts[-1]
        if way in (-1, 0):
            return self.control(last, 'atomic')
        if way == 1:
            return self.control(last, 'normal')
        return [self.bigraph, self.rule, self.parameter][way - 2](last)

    def control(self, tree, kind):
        name, formals, _, arity, _ = tree.parts
        return Control(self.start(name), self.word(name), self.formals(formals), self.start(arity.parts[0]),
                       self.number(arity), kind)

    def bigraph(self, tree):
        name, formals, _, expression, _ = tree.parts
        return Bigraph(self.start(name), self.word(name), self.formals(formals), self.expression(expression))

    def rule(self, tree):
        name, formals, _, redex, _, reactum, tail, _ = tree.parts
        entries, conditions, left = None, [], list(tail.parts)
        while left:
            part = left.pop(0)
            if part.symbol in ('IfTail', 'EtaTail'):
                left += part.parts
            elif part.symbol == 'Eta':
                entries = self.entries(part.parts[2])
            else:
                tests = [part.parts[1]] + [item[1] for item in self.chain(part.parts[2])]
                conditions = [self.condition(test) for test in tests]
        return Rule(self.start(name), self.word(name), self.formals(formals), self.expression(redex),
                    self.expression(reactum), entries, conditions)

    def entries(self, tree):
        if not tree.parts:
            return []
        return [self.number(tree.parts[0])] + [self.number(item[1]) for item in self.chain(tree.parts[1])]

    def condition(self, tree):
        negation, expression, word, side = tree.parts
        return Condition(not negation.parts, self.expression(expression), self.start(word), self.word(side.parts[0]))

    def parameter(self, tree):
        _, name, _, values, _ = tree.parts
        return Parameter(self.start(name), self.word(name), self.values(values))

    def values(self, tree):
        parts = tree.parts
        if tree.symbol == 'TextSet':
            found = [parts[1]] + [item[1] for item in self.chain(parts[2])] if tree.way == 0 else parts
            return Texts([self.word(token)[1:-1] for token in found])
        if tree.way == 1:
            return Range(self.start(parts[0]), [self.formula(parts[place]) for place in (1, 3, 5)])
        return Items(self.formulas(parts[1], parts[2]) if tree.way == 0 else [self.formula(parts[0])])

    def block(self, tree):
        """The block, or None where there is none."""
        if not tree.parts:
            return None
        parts = tree.parts
        classes = parts[9].parts and [parts[9].parts[0]] + [item[1] for item in self.chain(parts[9].parts[1])]
        predicates = parts[12].parts
        return Block([self.parameter(item[0]) for item in self.chain(parts[2])], self.reference(parts[4]),
                     [self.references(each.parts[1]) for each in classes],
                     self.references(predicates[3]) if predicates else [])

    def model(self, tree):
        """The statements, one by one, and the block."""
        statements, block = tree.parts
        return [self.statement(item[0]) for item in self.chain(statements)], self.block(block)
