"""Writes the proofs: see grammar.py."""

import re

from grammar_code import *

# ---- the proofs of the reading functions

MODULES = {
    'Rattle.std.proofs.Common': ['[]', '◌∷◌', '◌≡◌', '◌<◌', '◌≤◌', '◌+◌', '◌-◌', '◌*◌', 'length', 'refl', 'sym', 'ap', '◌∙◌', 'arith'],
    'Rattle.bg_syntax.specs.Grammar': ['model_ways', 'model_deepens', 'grammar'],
    'Rattle.bg_syntax.specs.Steps': ['opens'],
    'Rattle.bg_syntax.specs.Reading': ['fails_memory'],
    'Rattle.bg_syntax.proofs.Readings': ['Gathered', 'moves_none', 'moves_next', 'moves_open', 'moves_same', 'loops_same', 'loops_open', 'fails_here', 'fails_next', 'fails_open', 'err_exit',
                                         'err_item', 'gathered_none', 'gathered_more', 'gathered_end', 'gathered_fails', 'solid_ahead'],
}


def proof_file(folder, name, uses, lines):
    text = '\n'.join(lines)
    head = [f'use {module}.{{{", ".join(names)}}}' for module, names in list(MODULES.items()) + uses]
    head.append('use Rattle.bg_syntax.specs.declared.symbol.Symbol.TheVariants as symbols')
    goals = 'Given' if name == 'Invariants' else 'Goals'
    head.append(f'use Rattle.bg_syntax.proofs.{folder.replace("/", ".")}.{goals} as goal')
    put(f'proofs/{folder}/{name}.antt', f'-- {FIRST_LINE}.\n' + '\n'.join(head + lines))


class Arm:
    """The names of the facts in an arm, as the prover gives them."""

    def __init__(self, s, i, way, single, last):
        self.s, self.i = s, i
        self.rest = i == long_way(s)
        self.way = way[:GROUP] if self.rest else way
        self.suffix = '' if single else ('-in_default' if last else f'-in-{i}')
        self.choice = 'c.in_ok-choose' if single else 'c.in_ok-way'
        self.chosen = f'{self.choice}.ensures'
        value = f'{self.choice}.{"field-0" if single else "way"}'
        self.let = f'let known = {self.chosen}.known in let e : {value} ≡ {i} = omega arith in ' if single or last else ''
        self.same = 'e' if self.let else f'c.in-{i}.is'

    def fact(self, j, outcome='ok'):
        read = '.read' if not is_symbol(self.way[j]) else ''
        return f'c.in_{outcome}-part{j + 1}{self.suffix}.ensures{read}'

    def moves(self):
        facts = [self.fact(j) for j in range(len(self.way))]
        if self.rest:
            facts.append(f'c.in_ok-rest{self.suffix}.ensures')
        if not facts:
            return '(moves_none _ _ c.requires.inside)'
        term = facts[-1]
        for fact in facts[-2::-1]:
            term = f'(moves_next {fact} {term})'
        return term

    def fails(self, j):
        """That the arm fails at part j, or behind its own parts."""
        term = f'(fails_here _ {self.fact(j, "err")})' if j < len(self.way) else f'c.in_err-rest{self.suffix}.ensures'
        for k in range(j - 1, -1, -1):
            term = f'(fails_next {self.fact(k)} {term})'
        return term

    def last(self):
        """The last `?` of the arm."""
        if self.rest:
            return 'rest'
        if not self.way:
            return None
        j = len(self.way) - 1
        return f'box{j + 1}' if is_boxed(self.s, self.way[j]) else f'part{j + 1}'


def goal_lines(name, unfolding, body, cycle):
    prefix, arguments = (f'{cycle}-', 't c') if cycle else ('', 'c')
    opening = [f'unfolding {unfolding}'] if unfolding else []
    return ['', f'pub {prefix}{name} : goal.{prefix}{name}'] + opening + [f'{prefix}{name} {arguments} = {body}']


def arm_answers(s, arm, cycle, item):
    lines = []
    refuse = f'err_item (λ x. {item_name(s)} x c.args.depth) _ _ symbols.{s} (opens symbols.{s} {len(WAYS[s]) - 1} ∷ []) _ _' if item else 'err_exit _ _ _'
    grammar = 'grammar model_ways model_deepens'
    for j, p in enumerate(arm.way):
        name = f'in_err-part{j + 1}{arm.suffix}'
        lines += goal_lines(f'returns-{name}', grammar, f'{arm.let}{refuse} c.from_residual-{name}.ensures.1 (fails_open _ {arm.i} {arm.chosen} {arm.same} {arm.fails(j)})', cycle)
        if is_boxed(s, p):
            name = f'in_err-box{j + 1}{arm.suffix}'
            lines += goal_lines(f'returns-{name}', grammar, f'{refuse} c.from_residual-{name}.ensures.1 fails_memory', cycle)
    if arm.rest:
        name = f'in_err-rest{arm.suffix}'
        lines += goal_lines(f'returns-{name}', grammar, f'{arm.let}{refuse} c.from_residual-{name}.ensures.1 (fails_open _ {arm.i} {arm.chosen} {arm.same} {arm.fails(len(arm.way))})', cycle)
    return lines


def ok_name(arm):
    last = arm.last()
    if len(WAYS[arm.s]) == 1:
        return 'returns'
    return f'returns-in_ok-{last}{arm.suffix}' if last else f'returns{arm.suffix}'


def write_answers():
    done = set()
    for s in SYMBOLS:
        if s in CYCLE:
            if s not in done:
                cycle_answers(s)
                done |= CYCLE[s]
        elif is_list(s):
            name = snake(s)
            proof_file(f'reader/Reader/{name}_item', 'Answers', home(s), item_answers(s, None))
            proof_file(f'reader/Reader/{name}', 'Invariants', home(s), loop_invariant(s, None))
            proof_file(f'reader/Reader/{name}', 'Answers', home(s), loop_answers(s, None))
        else:
            proof_file(f'reader/Reader/{snake(s)}', 'Answers', home(s), symbol_answers(s, None))
            for start in starts_behind(s):
                proof_file(f'reader/Reader/{behind_name(s, start)}', 'Answers', home(s), behind_answers(s, start))


def home(s):
    return [(f'Rattle.bg_syntax.specs.{topic_of(s).capitalize()}Steps', step_names(s))]


def behind_answers(s, start):
    """The answers of the function that reads what stands behind the first parts of a long alternative."""
    grammar = 'grammar model_ways model_deepens'
    way = WAYS[s][long_way(s)][start:]
    names = [f'part{start + j + 1}' for j, _ in enumerate(way[:GROUP])] + (['rest'] if len(way) > GROUP else [])

    def fact(name, outcome):
        read = '.read' if name != 'rest' and not is_symbol(way[names.index(name)]) else ''
        return f'c.in_{outcome}-{name}.ensures{read}'

    lines, before = [], []
    for name in names:
        term = fact(name, 'err') if name == 'rest' else f'(fails_here _ {fact(name, "err")})'
        for passed in before[::-1]:
            term = f'(fails_next {fact(passed, "ok")} {term})'
        left = f'c.from_residual-in_err-{name}' if before else 'c.from_residual'
        lines += goal_lines(f'returns-in_err-{name}', grammar, f'err_exit _ _ _ {left}.ensures.1 {term}', None)
        before.append(name)
    term = fact(names[-1], 'ok')
    for name in names[-2::-1]:
        term = f'(moves_next {fact(name, "ok")} {term})'
    return lines + goal_lines('returns', f'{grammar} {behind_steps_name(s, start)}', term[1:-1] if len(names) > 1 else term, None)


def made(s, i, arm, term):
    """In a cycle the steps of a tree do not compute: a law says what they are."""
    if s not in CYCLE:
        return term
    boxes = [f'c.in_ok-box{j + 1}{arm.suffix}.ensures.ok' for j, p in enumerate(arm.way) if is_boxed(s, p)]
    plain = ['_'] * (len(arm.way) + len(boxes) + 1)
    return f'{"loops_same" if is_list(s) else "moves_same"} ({law_name(s, i)} {" ".join(plain + boxes)}) ({term})'


def symbol_answers(s, cycle):
    lines = []
    for i, w in enumerate(WAYS[s]):
        words = [] if s in CYCLE else step_names(s) if i == long_way(s) else [steps_name(s)]
        unfolding = ' '.join(['grammar model_ways model_deepens'] + words)
        arm = Arm(s, i, w, len(WAYS[s]) == 1, i == len(WAYS[s]) - 1)
        lines += arm_answers(s, arm, cycle, False)
        lines += goal_lines(ok_name(arm), unfolding, arm.let + made(s, i, arm, f'moves_open _ {i} {arm.chosen} {arm.same} {arm.moves()}'), cycle)
    return lines


def item_answers(s, cycle):
    unfolding = 'grammar model_ways model_deepens' + ('' if s in CYCLE else f' {item_name(s)}')
    lines = []
    ways = [w[:-1] for w in WAYS[s]]
    for i, w in enumerate(ways):
        arm = Arm(s, i, w, False, i == len(ways) - 1)
        lines += arm_answers(s, arm, cycle, True)
        if w:
            if is_symbol(w[0]):
                ahead = f'solid_ahead {arm.fact(0)} refl'
            else:
                ahead = 'omega (arith, ' + ', '.join([f'c.in_ok-part1{arm.suffix}.ensures.ahead'] + [f'{arm.fact(j)}.ahead' for j in range(1, len(w))]) + ')'
            body = made(s, i, arm, f'loops_open _ {i} {arm.chosen} {arm.same} {arm.moves()} refl')
            lines += goal_lines(ok_name(arm), unfolding, f'{arm.let}({body}, {ahead})', cycle)
        else:
            lines += goal_lines(ok_name(arm), unfolding, f'{arm.let}moves_open _ {i} {arm.chosen} {arm.same} {arm.moves()}', cycle)
    return lines


def loop_invariant(s, cycle):
    loop = f'{cycle}-loop-items' if cycle else 'loop-items'
    shallow = ' × (l.depth ≤ l.at)' if reaches_deep(s) else ''
    return ['', f'abbrev pub invariant-{loop} : goal.invariant-{loop}',
            f'invariant-{loop} l = Gathered {item_name(s)} l.self.tokens.now l.fn.at l.depth symbols.{s} l.items.items l.at × (l.at ≤ length l.self.tokens.now){shallow}',
            '', f'abbrev pub decreases-{loop} : goal.decreases-{loop}', f'decreases-{loop} l = length l.self.tokens.now - l.at']


def loop_answers(s, cycle):
    last = len(WAYS[s]) - 1
    inside = 'c.requires.inside'
    shallow = ', c.requires.shallow' if reaches_deep(s) else ''
    still = ', omega arith' if reaches_deep(s) else ''
    lines = goal_lines('loop-items-init', '', f'(gathered_none _ _ _ _ _ _ c.new-items.ensures.items {inside}, {inside}{shallow})', cycle)
    lines += goal_lines('returns-in_err-item', '', 'err_exit _ _ _ c.from_residual.ensures.1 (gathered_fails c.loop-items.invariant.0 c.in_err-item.ensures)', cycle)
    lines += goal_lines('returns-in_err-push', '', 'err_exit _ _ _ c.from_residual-in_err-push.ensures.1 fails_memory', cycle)
    lines += goal_lines('loop-items-preserved', '', 'let read = rw c.in-Some.is at c.in_ok-item.ensures in let next = read.0.within in let further = read.1 in '
                        f'(gathered_more _ c.loop-items.invariant.0 read.0 c.in_ok-push.ensures.items, next{still})', cycle)
    lines += goal_lines('returns', steps_name(s), f'let read = rw c.in_default.is at c.in_ok-item.ensures in gathered_end (opens symbols.{s} {last}) c.loop-items.invariant.0 read', cycle)
    return lines


def cycle_members(first):
    return [s for s in SYMBOLS if s in CYCLE[first]]


def cycle_ranks(first):
    """For each function of the cycle the longest chain of calls that take no token."""
    ranks = {}

    def rank(name, s, item):
        if name not in ranks:
            if is_list(s) and not item:
                called = [(f'{snake(s)}_item', s, True)]
            else:
                called = []
                for w in ways_of(s):
                    for p in w:
                        if not is_symbol(p):
                            break
                        if p in CYCLE[first]:
                            called.append((snake(p), p, False))
            ranks[name] = max([1 + rank(*c) for c in called], default=0)
        return ranks[name]

    for s in cycle_members(first):
        rank(snake(s), s, False)
    return ranks


def cycle_answers(first):
    ranks = cycle_ranks(first)
    factor = max(ranks.values()) + 2
    folder = f'reader/Reader/+{cycle_name(first)}'
    lines = []
    for name, rank in ranks.items():
        lines += ['', f'abbrev pub decreases-{name} : goal.decreases-{name}', f'decreases-{name} l = {factor} * (length l.self.now.tokens.now - l.at.now) + {rank}']
    answers, laws = [], []
    for s in cycle_members(first):
        name = snake(s)
        if is_list(s):
            lines += loop_invariant(s, name)
            answers += item_answers(s, f'{name}_item') + loop_answers(s, name)
        else:
            answers += symbol_answers(s, name)
        laws += [law_name(s, i) for i, _ in enumerate(ways_of(s))]
    words = [n for s in cycle_members(first) for n in home(s)[0][1]]
    uses = [(home(first)[0][0], words), (f'Rattle.bg_syntax.proofs.{topic_of(first).capitalize()}Trees', laws)]
    proof_file(folder, 'Invariants', uses, lines)
    proof_file(folder, 'Answers', uses, answers)


# ---- the laws of trees in cycles

def law_name(s, i):
    return f'{snake(s)}_made{i + 1}'


def write_laws():
    done = set()
    for s in SYMBOLS:
        if s in CYCLE and s not in done:
            done |= CYCLE[s]
            cycle_laws(s)


def cycle_laws(first):
    types = cycle_types(first)
    module = module_of(first)
    topic = topic_of(first)
    results = ' '.join(['Steps'] * len(types))
    layers = ' '.join(layer_name(t) for _, t, _ in types)
    opened = ' '.join(item_name(t) for _, t, _ in types) + ' ' + ' '.join(steps_name(t) for _, t, _ in types if is_list(t))
    lines = []
    records = [t for _, t, single in types if single and all(not is_symbol(p) or p not in CYCLE[first] or many(p) for p in ways_of(t)[0])]
    uses = Uses()
    for name, s, single in types:
        ways = ways_of(s)
        uses.add(type_module(s)[0], name)
        for i, w in enumerate(ways):
            binders, values, equations, terms, boxes = [], [], [], [], []
            for j, p in enumerate(w):
                v = f'part{j + 1}'
                if not is_symbol(p):
                    binders.append(f'({v} : ℕ)')
                    values.append(v)
                    terms.append((p, v))
                elif is_boxed(s, p):
                    uses.add(type_module(p)[0], f'Syn{p}')
                    binders.append(f'(box{j + 1} : Box Syn{p} Global) ({v} : Syn{p})')
                    values.append(f'box{j + 1}')
                    equations.append(f'box{j + 1}.value ≡ {v}')
                    boxes.append((j, p))
                    terms.append((p, v))
                else:
                    uses.add(*type_module(p))
                    binders.append(f'({v} : Vec {type_name(p)} Global)' if is_list(p) else f'({v} : {type_name(p)})')
                    values.append(v)
                    terms.append((p, v))

            def read(p, value, d):
                if topic_of(p) != topic:
                    uses.add(f'Rattle.bg_syntax.specs.{topic_of(p).capitalize()}Steps', steps_name(p))
                else:
                    uses.add(f'Rattle.bg_syntax.specs.{topic.capitalize()}Steps', steps_name(p))
                return f'{steps_name(p)} {value}{".items" if is_list(p) else ""} {d}'

            names = [v for _, v in terms]
            if single:
                layer = 'record { ' + '; '.join(f'part{j + 1} = {v}' for j, v in enumerate(values)) + ' }'
                if s in records:
                    value, start = f'({layer})', ''
                    law = f'fold_out-{name} {results} {layers} ({layer})'
                    uses.add(f'{module}.TheFolds', f'fold_out-{name}')
                else:
                    value, start = f'(roll-{name} ({layer}))', ''
                    law = f'fold-roll-{name} {results} {layers} ({layer})'
                    uses.add(f'{module}.TheViews', f'roll-{name}')
                    uses.add(f'{module}.TheFolds', f'fold-roll-{name}')
            else:
                arguments = ''.join(' ' + v for v in values)
                value = f'({snake(s)}_ways.Way{i + 1}{arguments})'
                start = f'ap (λ z. {item_name(s)} z d) (sym {f"({snake(s)}_ways.rolls-Way{i + 1}{arguments})" if values else f"{snake(s)}_ways.rolls-Way{i + 1}"}) ∙ '
                uses.add(f'{module}.TheOpen.{name}-F', f'{variant_name(s, i)} as {snake(s)}_{i + 1}')
                law = f'fold-roll-{name} {results} {layers} ' + (f'({snake(s)}_{i + 1}{arguments})' if values else f'{snake(s)}_{i + 1}')
                uses.add(f'{module}.TheFolds', f'fold-roll-{name}')
                uses.add(f'{type_module(s)[0]}.TheVariants', None)
            right = steps_term(s, i, w, names, read)
            end = ''
            for n, (j, p) in enumerate(boxes):
                # the boxes before this one have given way to their values, those behind it have not
                now = [f'box{k + 1}.value' if (k, w[k]) in boxes[n + 1:] else ('z' if k == j else v) for k, v in enumerate(names)]
                end += f' ∙ ap (λ z. {steps_term(s, i, w, now, read)}) e{j + 1}'
            head = ' '.join([law_name(s, i)] + [b.replace('(', '').replace(')', '').split(' : ')[0] for b in re.findall(r'\([^()]*\)', ' '.join(binders))] + ['d'] + [f'e{j + 1}' for j, _ in boxes])
            uses.add(f'Rattle.bg_syntax.specs.{topic.capitalize()}Steps', item_name(s))
            uses.add(f'Rattle.bg_syntax.specs.{topic.capitalize()}Steps', layer_name(s))
            if is_list(s):
                uses.add(f'Rattle.bg_syntax.specs.{topic.capitalize()}Steps', steps_name(s))
            lines += ['', f'pub {law_name(s, i)} : {" ".join(binders)}{" " if binders else ""}(d : ℕ) → {"".join(e + " → " for e in equations)}{item_name(s)} {value} d ≡ {right}',
                      f'unfolding {opened}', f'{head} = {start}ap (λ z. z d) ({law}){end}']
    head = ['use Rattle.std.proofs.Common.{◌≡◌, ℕ, ◌+◌, List, [], ◌∷◌, ◌++◌, Vec, Box, Global, refl, sym, ap, ◌∙◌}', 'use Rattle.bg_text.specs.declared.token.TokenKind.TheVariants as kinds',
            'use Rattle.bg_syntax.specs.declared.symbol.Symbol.TheVariants as symbols', 'use Rattle.bg_syntax.specs.Steps.{Steps, opens, takes, in_turn}']
    antt(f'proofs/{topic.capitalize()}Trees.antt', f'The steps of trees of a cycle of types: {topic}.', '\n'.join(head + uses.lines() + lines))


def write():
    write_answers()
    write_laws()
