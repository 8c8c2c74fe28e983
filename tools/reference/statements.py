"""Statements, the block and whole models, by docs/LANGUAGE.md, "Statements", "Rules" and "The block"."""
import itertools
from typing import NamedTuple

from .bigraphs import Bigraph, unsolid_clause
from .expressions import Definitions
from .grammar import parse
from .refusals import Refusal
from .syntax import Control, Parameter, Reader, Rule
from .syntax import Bigraph as BigraphStatement
from .tokens import tokens
from .values import names_in, value_of, values_of

MOST_PORTS = 16
MOST_USES = 4096


class RuleValue(NamedTuple):
    """A rule of a system; conditions are triples of whether it is wanted, the side and the pattern."""
    label: str
    its_class: int
    redex: Bigraph
    reactum: Bigraph
    entries: list
    conditions: list


class System(NamedTuple):
    """What a model describes; predicates are pairs of a label and a pattern."""
    signature: list
    labels: list
    host: Bigraph
    rules: list
    classes: int
    predicates: list


def label_of(name, arguments):
    written = [f'"{each}"' if isinstance(each, str) else str(each) for each in arguments]
    return f'{name}({",".join(written)})' if arguments else name


def define(definitions, statement):
    """Adds what a statement defines, or refuses it."""
    if isinstance(statement, Parameter):
        define_parameter(definitions, statement)
    elif isinstance(statement, Control):
        formals_of(statement, definitions.controls)
        if statement.arity > MOST_PORTS:
            raise Refusal(52, statement.arity_start, 'arity')
        definitions.controls[statement.name] = statement
        if not statement.formals:
            definitions.enter(statement.name, (), statement.start)
    elif isinstance(statement, BigraphStatement):
        visible = formals_of(statement, definitions.bigraphs)
        definitions.look_up_expression(statement.expression, visible)
        if not statement.formals:
            definitions.terms = 0
            definitions.whole_value(statement.expression, {})
        definitions.bigraphs[statement.name] = statement
    else:
        assert isinstance(statement, Rule)
        visible = formals_of(statement, definitions.rules)
        for expression in [statement.redex, statement.reactum] + [each.expression for each in statement.conditions]:
            definitions.look_up_expression(expression, visible)
        if not statement.formals:
            rule_value(definitions, statement, {})
        definitions.rules[statement.name] = statement


def formals_of(statement, space):
    """The names of the formals, where the statement's name is new in its space and no formal repeats."""
    if statement.name in space:
        raise Refusal(42, statement.start)
    names = set()
    for start, name in statement.formals:
        if name in names:
            raise Refusal(42, start)
        names.add(name)
    return names


def define_parameter(definitions, parameter):
    if parameter.name in definitions.parameters:
        raise Refusal(42, parameter.start)
    definitions.parameters[parameter.name] = values_of(parameter)


def rule_value(definitions, rule, environment):
    """The redex, the reactum, the map and the conditions of a rule, tested."""
    definitions.terms = 0
    redex = definitions.whole_value(rule.redex, environment)
    reactum = definitions.whole_value(rule.reactum, environment)
    patterns = [definitions.whole_value(each.expression, environment) for each in rule.conditions]
    if redex.regions != reactum.regions or redex.outer != reactum.outer or reactum.inner:
        raise Refusal(47, rule.start)
    entries = list(range(len(redex.sites))) if rule.entries is None else rule.entries
    if len(entries) != len(reactum.sites) or any(entry >= len(redex.sites) for entry in entries):
        raise Refusal(48, rule.start)
    solid(redex, rule.start)
    for condition, pattern in zip(rule.conditions, patterns):
        solid(pattern, condition.in_start)
    conditions = [(each.is_wanted, each.side, pattern) for each, pattern in zip(rule.conditions, patterns)]
    return redex, reactum, entries, conditions


def solid(pattern, start):
    clause = unsolid_clause(pattern)
    if clause:
        raise Refusal(49, start, f'clause {clause}')


def choices(definitions, reference):
    """The values of the parameters of a reference, one choice after the other, the first parameter slowest."""
    names = []
    for formula in reference.arguments:
        names_in(formula, names)
    for values in itertools.product(*[definitions.parameters[name] for name in names]):
        yield dict(zip(names, values))


def used(reference, space, environment):
    """The label of what a reference refers to, its definition, and the values of the formals."""
    values = [value_of(formula, environment) for formula in reference.arguments]
    definition = space[reference.name]
    return label_of(reference.name, values), definition, dict(zip([name for _, name in definition.formals], values))


def bigraph_value(definitions, reference, environment):
    label, definition, bound = used(reference, definitions.bigraphs, environment)
    definitions.terms = 0
    return label, definitions.whole_value(definition.expression, bound)


def block_value(definitions, block):
    """The host, the rules and the predicates of a block."""
    for parameter in block.parameters:
        define_parameter(definitions, parameter)
    definitions.look_up_reference(block.init, definitions.bigraphs, ())
    for reference in itertools.chain(*block.classes):
        definitions.look_up_reference(reference, definitions.rules, definitions.parameters)
    for reference in block.predicates:
        definitions.look_up_reference(reference, definitions.bigraphs, definitions.parameters)
    _, host = bigraph_value(definitions, block.init, {})
    if host.sites or host.inner:
        raise Refusal(46, block.init.start)
    rules, predicates = [], []
    for its_class, references in enumerate(block.classes):
        for reference in references:
            for environment in choices(definitions, reference):
                if len(rules) >= MOST_USES:
                    raise Refusal(52, reference.start, 'rules')
                label, rule, bound = used(reference, definitions.rules, environment)
                rules.append(RuleValue(label, its_class, *rule_value(definitions, rule, bound)))
    for reference in block.predicates:
        for environment in choices(definitions, reference):
            if len(predicates) >= MOST_USES:
                raise Refusal(52, reference.start, 'preds')
            label, pattern = bigraph_value(definitions, reference, environment)
            solid(pattern, reference.start)
            predicates.append((label, pattern))
    return host, rules, predicates


def system_of(text):
    """The system that a text describes, or its refusal."""
    found = tokens(text)
    statements, block = Reader(text, found).model(parse(found, len(text)))
    definitions = Definitions()
    for statement in statements:
        define(definitions, statement)
    if block is None:
        raise Refusal(53, len(text))
    host, rules, predicates = block_value(definitions, block)
    labels = [label_of(name, arguments) for name, arguments, _, _ in definitions.signature]
    return System(definitions.signature, labels, host, rules, len(block.classes), predicates)
