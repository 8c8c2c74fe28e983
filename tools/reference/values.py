"""Arithmetic and the values of parameters, by docs/LANGUAGE.md, "Values". A value is an int or a str."""
from .refusals import Refusal
from .syntax import Brackets, Items, Negation, Number, Operation, Text, Texts, Variable
from .tokens import LARGEST, SMALLEST

MOST_VALUES = 4096


def variables(formula):
    """The names of the formula where they stand, in the order of the text."""
    if isinstance(formula, Operation):
        for item in formula.items:
            yield from variables(item)
    elif isinstance(formula, (Negation, Brackets)):
        yield from variables(formula.inside)
    elif isinstance(formula, Variable):
        yield formula


def look_up(formula, visible):
    """Refuses the first name of the formula that is not visible."""
    for variable in variables(formula):
        if variable.name not in visible:
            raise Refusal(41, variable.start)


def names_in(formula, names):
    """Adds the names of the formula that are not there yet, in the order of the text."""
    for variable in variables(formula):
        if variable.name not in names:
            names.append(variable.name)


def value_of(formula, environment):
    """The value of a formula where names have the values of the environment."""
    if isinstance(formula, (Number, Text)):
        return formula.value
    if isinstance(formula, Variable):
        return environment[formula.name]
    if isinstance(formula, Brackets):
        return value_of(formula.inside, environment)
    if isinstance(formula, Negation):
        value = a_number(value_of(formula.inside, environment), formula.inside.start)
        return in_range(-value, formula.start)
    left = value_of(formula.items[0], environment)
    for (operator, place), item in zip(formula.operators, formula.items[1:]):
        right = value_of(item, environment)
        a_number(left, formula.start)
        a_number(right, item.start)
        left = in_range(result(operator, left, right, place), place)
    return left


def result(operator, left, right, place):
    if operator == '+':
        return left + right
    if operator == '-':
        return left - right
    if operator == '*':
        return left * right
    if right == 0:
        raise Refusal(51, place)
    quotient = abs(left) // abs(right)
    return quotient if (left < 0) == (right < 0) else -quotient


def in_range(value, place):
    if not SMALLEST <= value <= LARGEST:
        raise Refusal(50, place)
    return value


def a_number(value, start):
    if isinstance(value, str):
        raise Refusal(55, start)
    return value


def values_of(parameter):
    """The values of a parameter, looked up and found."""
    values = parameter.values
    if isinstance(values, Texts):
        found = values.values
    else:
        formulas = values.items if isinstance(values, Items) else values.ends
        for formula in formulas:
            look_up(formula, ())
        if isinstance(values, Items):
            found = [a_number(value_of(formula, {}), formula.start) for formula in formulas]
        else:
            found = numbers_of(values, parameter)
    if len(found) > MOST_VALUES:
        raise Refusal(52, parameter.start, 'values')
    return found


def numbers_of(values, parameter):
    """The numbers of a range. All three ends are found before one is judged."""
    ends = [value_of(formula, {}) for formula in values.ends]
    for value, formula in zip(ends, values.ends):
        a_number(value, formula.start)
    first, step, last = ends
    if step < 1 or first > last:
        raise Refusal(54, values.start)
    if (last - first) // step + 1 > MOST_VALUES:
        raise Refusal(52, parameter.start, 'values')
    return list(range(first, last + 1, step))
