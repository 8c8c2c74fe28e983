"""Which steps are legal in a host, by docs/DEFINITIONS.md. A step is the number of a rule and a map."""
import itertools

from .conditions import first_failing
from .occurrences import Search, decompose


def enabled_maps(host, rule):
    """The maps at which a rule is enabled, in ascending order."""
    for nodes in Search(host.index, rule.redex).maps():
        if not rule.conditions or first_failing(host, rule, decompose(host.big, rule.redex, nodes)) is None:
            yield nodes


def enabled_steps(host, rules):
    """The steps of some rules, given with their numbers, by rule and then by map."""
    return ((number, nodes) for number, rule in rules for nodes in enabled_maps(host, rule))


def legal_steps(host, system, most):
    """The first legal steps: those of the first class that has an enabled one."""
    for _, rules in itertools.groupby(enumerate(system.rules), lambda each: each[1].its_class):
        steps = list(itertools.islice(enabled_steps(host, rules), most))
        if steps:
            return steps
    return []


def decomposed(host, rule, nodes):
    """The decomposition of the host at a map, whatever numbers stand in it; None where the redex does not occur there."""
    if len(nodes) != len(rule.redex.nodes) or any(node not in host.big.nodes for node in nodes):
        return None
    parts = decompose(host.big, rule.redex, nodes)
    meets = Search(host.index, rule.redex).meets_conditions(nodes)
    assert meets == (parts is not None), 'the reference contradicts itself'
    return parts


def judged_step(host, system, number, nodes):
    """Why a step is not legal, in words, or None; and the decomposition at its map, where its redex occurs there."""
    if number >= len(system.rules):
        return 'NoRule', None
    rule = system.rules[number]
    parts = decomposed(host, rule, nodes)
    if parts is None:
        return 'NotEmbedding', None
    failing = first_failing(host, rule, parts)
    if failing is not None:
        return f'ConditionFails {failing}', parts
    higher = [each for each in enumerate(system.rules) if each[1].its_class < rule.its_class]
    for other, there in enabled_steps(host, higher):
        return f'HigherClass {other} {" ".join(map(str, there))}', parts
    return None, parts
