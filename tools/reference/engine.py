"""The commands: exit status and standard output for some words and some input, by docs/USAGE.md."""
import sys

from .bigraphs import compose
from .judging import judge_run
from .listings import Lines, read_bigraph, read_signature
from .occurrences import decompose, occurrences, occurrences_by_decomposition
from .refusals import LISTING_CODES, MODEL_CODES, BadListing, Fault, Refusal
from .replays import NoRun, journal_of, replay_lines
from .runs import drawn_run, run_lines
from .spelling import bigraph_lines, numbers_line, system_lines
from .statements import system_of
from .trials import trial_lines
from .words import request_of

MOST_BYTES = 8388608
MOST_TRIED = 1000

# A nesting of references is a nesting of calls here.
sys.setrecursionlimit(100000)


class TooMany(Exception):
    """A rule has more occurrences than are asked for."""


def engine(words, data, checks_itself=False):
    """The status and the bytes written; of `run`, whatever the number of workers is, the run of one. Where it checks itself,
    small searches are done a second way too, and a run is judged."""
    request = request_of(words)
    if request is None:
        return 2, b'words\n'
    if len(data) > MOST_BYTES and request.command != 'trial':
        return 8, b'too long\n'
    try:
        if request.command == 'trial':
            written = trial_lines(request.size)
        elif request.command == 'compose':
            written = composed(data)
        elif request.command == 'replay':
            entries, data = journal_of(data)
            written = replay_lines(system_of(data), entries)
        else:
            written = of_system(request, system_of(data), checks_itself)
    except BadListing as bad:
        return 1, f'refused {bad.code} {LISTING_CODES[bad.code]} at {bad.line}\n'.encode()
    except Fault as fault:
        return 1, f'refused {fault.code} {MODEL_CODES[fault.code]}\n'.encode()
    except Refusal as refusal:
        return 1, refusal.line(data).encode()
    except TooMany as many:
        return 6, f'{many}\n'.encode('latin1')
    except NoRun as none:
        return 7, f'{none}\n'.encode()
    return 0, ''.join(line + '\n' for line in written).encode('latin1')


def composed(data):
    """The lines of the composition of what was read."""
    lines = Lines(data)
    signature = read_signature(lines)
    outer = read_bigraph(lines, signature)
    inner = read_bigraph(lines, signature)
    if lines.at < len(data):
        raise BadListing(8, lines.line)
    return bigraph_lines([label for label, _, _ in signature], compose(outer, inner))


def of_system(request, system, checks_itself):
    """The lines that a command writes of a system."""
    if request.command == 'check':
        return [f'ok controls {len(system.signature)} rules {len(system.rules)} classes {system.classes} '
                f'preds {len(system.predicates)} nodes {len(system.host.nodes)} edges {len(system.host.edges)}']
    if request.command == 'show':
        return system_lines(system)
    if request.command == 'run':
        lines = run_lines(system, drawn_run(system, request.seed, request.steps))
        if checks_itself:
            judge_run(system, 1, request.steps, ''.join(line + '\n' for line in lines))
        return lines
    return match_lines(request, system, checks_itself)


def match_lines(request, system, checks_itself):
    lines = []
    for number, rule in enumerate(system.rules):
        found = occurrences(system.host, rule.redex, request.most)
        if len(found) > request.most:
            raise TooMany(f'too many {number} {rule.label} {request.most}')
        if checks_itself and len(system.host.nodes) ** len(rule.redex.nodes) <= MOST_TRIED:
            assert found == occurrences_by_decomposition(system.host, rule.redex), 'the reference contradicts itself'
        lines.append(f'rule {number} {rule.label} class {rule.its_class} count {len(found)}')
        for nodes in found:
            lines.append(' '.join(map(str, nodes)))
            if request.is_explained:
                context, edges, parameter = decompose(system.host, rule.redex, nodes)
                lines += [numbers_line('images', edges), 'context'] + bigraph_lines(system.labels, context)
                lines += ['parameter'] + bigraph_lines(system.labels, parameter)
    return lines
