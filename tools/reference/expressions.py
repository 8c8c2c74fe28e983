"""Expressions: their names looked up, and their values, by docs/LANGUAGE.md, "Expressions"."""
from .bigraphs import Bigraph, atom, close, compose, identity, ion, merge, merger, nest, parallel, tensor, whole
from .refusals import Fault, Refusal
from .syntax import Barren, Brackets, Closure, ControlSymbol, Empty, Idle, Identity, Merger, Operation, Reference
from .values import look_up, value_of

MOST_CONTROLS = 4096
MOST_ROWS = 65536
MOST_TERMS = 1048576
MOST_OPEN = 1024
OPERATIONS = {'+': tensor, '||': parallel, '|': merge, '*': compose}


class Definitions:
    """What the statements before have defined, and what is counted while a value is found."""

    def __init__(self):
        self.controls, self.bigraphs, self.rules, self.parameters = {}, {}, {}, {}
        self.signature = []         # (name, arguments, arity, kind)
        self.numbers = {}           # (name, arguments): its position in the signature
        self.next_node = self.next_edge = self.terms = 0

    # ---- names

    def look_up_reference(self, reference, space, visible):
        if reference.name not in space:
            raise Refusal(41, reference.start)
        if len(reference.arguments) != len(space[reference.name].formals):
            raise Refusal(45, reference.start)
        for formula in reference.arguments:
            look_up(formula, visible)

    def look_up_expression(self, expression, visible):
        while isinstance(expression, Closure):
            expression = expression.inside
        if isinstance(expression, Operation):
            for item in expression.items:
                self.look_up_expression(item, visible)
            return
        self.look_up_form(expression.outer, visible)
        if expression.inner is not None:
            self.look_up_expression(expression.inner, visible)

    def look_up_form(self, form, visible):
        if isinstance(form, ControlSymbol):
            control = self.controls.get(form.name)
            if control is None:
                raise Refusal(41, form.start)
            if len(form.arguments) != len(control.formals):
                raise Refusal(45, form.start)
            if len(form.names) != control.arity:
                raise Refusal(43, form.start)
            for formula in form.arguments:
                look_up(formula, visible)
        elif isinstance(form, Reference):
            self.look_up_reference(form, self.bigraphs, visible)
        elif isinstance(form, Brackets):
            self.look_up_expression(form.inside, visible)

    # ---- values

    def enter(self, name, arguments, start):
        """The number in the signature of a control with these arguments, which enters it where it is new."""
        key = (name, tuple(arguments))
        if key not in self.numbers:
            if len(self.signature) >= MOST_CONTROLS:
                raise Refusal(52, start, 'controls')
            control = self.controls[name]
            self.numbers[key] = len(self.signature)
            self.signature.append((*key, control.arity, control.kind))
        return self.numbers[key]

    def made(self, start, operation, *operands):
        """What an operation makes, judged."""
        try:
            big = operation(*operands)
        except Fault as fault:
            raise Refusal(fault.code, start) from None
        for limit, count in (('nodes', len(big.nodes)), ('edges', len(big.edges)), ('places', big.regions),
                             ('places', len(big.sites))):
            if count > MOST_ROWS:
                raise Refusal(52, start, limit)
        return big

    def whole_value(self, expression, environment):
        self.next_node = self.next_edge = 0
        return whole(self.value(expression, environment, 0))

    def value(self, expression, environment, depth):
        """The value of an expression inside so many open nestings."""
        if isinstance(expression, Operation):
            left = self.value(expression.items[0], environment, depth)
            for (operator, place), item in zip(expression.operators, expression.items[1:]):
                right = self.value(item, environment, depth)
                left = self.made(place, OPERATIONS[operator], left, right)
            return left
        if depth + 1 > MOST_OPEN:
            raise Refusal(52, expression.start, 'depth')
        if isinstance(expression, Closure):
            return self.closed(expression, environment, depth + 1)
        outer = self.form_value(expression.outer, environment, depth + 1)
        if expression.inner is None:
            return outer
        inner = self.value(expression.inner, environment, depth + 1)
        if isinstance(expression.outer, ControlSymbol) and self.controls[expression.outer.name].kind == 'atomic':
            raise Refusal(44, expression.dot)
        return self.made(expression.dot, nest, outer, inner)

    def closed(self, expression, environment, depth):
        edge = self.next_edge
        self.next_edge += 1
        big = self.value(expression.inside, environment, depth)
        name = (0, expression.name)
        return self.made(expression.start, close, big, name, edge) if name in big.outer else big

    def form_value(self, form, environment, depth):
        self.terms += 1
        if self.terms > MOST_TERMS:
            raise Refusal(52, form.start, 'terms')
        if isinstance(form, ControlSymbol):
            return self.node(form, environment)
        if isinstance(form, Reference):
            definition = self.bigraphs[form.name]
            return self.value(definition.expression, self.bound(definition, form, environment), depth)
        if isinstance(form, Brackets):
            return self.value(form.inside, environment, depth)
        if isinstance(form, Idle):
            return Bigraph(outer=[(0, name) for name in form.names])
        if isinstance(form, (Identity, Merger)):
            if form.width > MOST_ROWS:
                raise Refusal(52, form.start, 'places')
            if isinstance(form, Merger):
                return merger(form.width)
            return identity(form.width, [(0, name) for name in form.names])
        assert isinstance(form, (Barren, Empty))
        return Bigraph(regions=1 if isinstance(form, Barren) else 0)

    def node(self, form, environment):
        arguments = [value_of(formula, environment) for formula in form.arguments]
        control = self.enter(form.name, arguments, form.start)
        node = self.next_node
        self.next_node += 1
        operation = atom if self.controls[form.name].kind == 'atomic' else ion
        return self.made(form.start, operation, control, node, [(0, name) for name in form.names])

    def bound(self, definition, reference, environment):
        """The formals of a definition with the values of a reference's arguments."""
        values = [value_of(formula, environment) for formula in reference.arguments]
        return dict(zip([name for _, name in definition.formals], values))
