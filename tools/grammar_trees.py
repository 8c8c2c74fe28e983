"""Writes the derivation trees that the typed trees are, and the proofs that they have the same steps: see grammar.py."""

from grammar_code import *

PRELUDE = 'use Rattle.std.specs.Prelude.{ℕ, List, [], ◌∷◌, map}'
NAMES = ['use Rattle.bg_text.specs.declared.token.TokenKind.TheVariants as kinds', 'use Rattle.bg_syntax.specs.declared.symbol.Symbol.TheVariants as symbols']


def tree_name(s):
    return f'{snake(s)}_tree'


def item_tree(s):
    return f'{snake(s)}_item_tree' if is_list(s) else tree_name(s)


def tree_layer(s):
    return f'{snake(s)}_item_tree_layer' if is_list(s) else f'{snake(s)}_tree_layer'


def growth(s):
    return 'ItemGrowth' if is_list(s) else 'Growth'


def arguments(s):
    return 'rest behind' if is_list(s) else 'behind'


def tree_term(s, i, way, names, read):
    """The tree of alternative i; `read` gives the tree of a part that is a symbol."""
    term = 'rest' if is_list(s) else 'no_tree'
    for p, name in list(zip(way, names))[::-1]:
        term = f'({read(p, name)} {term})' if is_symbol(p) else f'(token kinds.{KIND[p]} {name} {term})'
    return f'node symbols.{s} {i} {term} behind'


# ---- the definitions

def write_trees():
    for topic, about, _ in TOPICS:
        lines, uses, done = [], Uses(), set()

        def tree_of(p):
            if topic_of(p) != topic:
                uses.add(f'Rattle.bg_syntax.specs.{topic_of(p).capitalize()}Trees', tree_name(p))
            return tree_name(p)

        def read(p, value):
            return f'{tree_of(p)} {value}{".items" if is_list(p) else ""}'

        for s in ordered(topic):
            if s in CYCLE:
                if s not in done:
                    lines += cycle_trees(s, uses, read)
                    done |= CYCLE[s]
                continue
            module, name = type_module(s)
            uses.add(module, name)
            lines += ['', f'-- {rule(s)}', f'unfoldable pub {item_tree(s)} : {name} → {growth(s)}']
            if many(s):
                uses.add(f'{module}.TheVariants', None)
            for pattern, i, w, names in cases(s):
                lines.append(f'{item_tree(s)} {pattern} {arguments(s)} = {tree_term(s, i, w, names, read)}')
            if is_list(s):
                lines += list_tree(s, name)
        head = [PRELUDE] + NAMES + ['use Rattle.bg_grammar.specs.Trees.{no_tree}', 'use Rattle.bg_syntax.specs.Trees.{Growth, ItemGrowth, token, node, nested}']
        antt(f'specs/{topic.capitalize()}Trees.antt', f'The derivation trees that trees are: {topic}.', '\n'.join(head + uses.lines() + lines))


def list_tree(s, name):
    return ['', f'-- the derivation tree of the items of {s}', f'unfoldable pub {tree_name(s)} : List {name} → Growth',
            f'{tree_name(s)} items = nested symbols.{s} {len(WAYS[s]) - 1} (map {item_tree(s)} items)']


def cycle_results(first):
    return ' '.join(growth(t) for _, t, _ in cycle_types(first))


def cycle_trees(first, uses, read):
    def part(p, value):
        if p in CYCLE[first]:
            return f'nested symbols.{p} {len(WAYS[p]) - 1} {value}.items' if is_list(p) else f'{value}.value'
        return read(p, value)

    def equation(t, i, way, names):
        return f'{arguments(t)} = {tree_term(t, i, way, names, part)}'

    lines = ['', '-- the types of this cycle are read by folds; a layer has the trees of its parts in place of the parts']
    lines += cycle_folds(first, uses, cycle_results(first), tree_layer, item_tree, growth, equation, 'the derivation tree')
    for name, t, single in cycle_types(first):
        if is_list(t):
            lines += list_tree(t, name)
    return lines


# ---- the proofs: each tree is a tree of its symbol, and has the steps of the typed tree

def row_name(s):
    return f'{snake(s)}_row'


def item_row(s):
    return f'{snake(s)}_item_row' if is_list(s) else row_name(s)


def place(i):
    """That what is sought stands at place i."""
    term = 'at_here refl'
    for _ in range(i):
        term = f'at_there ({term})'
    return term


def row_term(s, i, way, names, row):
    """The proof for alternative i; `row` gives that of a part that is a symbol."""
    parts = list(zip(way, names))
    term = None
    for p, name in parts[::-1]:
        if is_symbol(p):
            term = row(p, name) if term is None else f'symbol_row ({row(p, name)}) ({term})'
        else:
            term = f'token_row kinds.{KIND[p]} {name} ({term or "none_row"})'
    if is_list(s):
        return f'item_opened symbols.{s} {i} ({place(i)}) (λ d. refl) ({term or "none_row"})'
    return f'row_opened symbols.{s} {i} ({place(i)}) ({term or "none_row"})'


def claim(s, value):
    if is_list(s):
        return f'ItemRow symbols.{s} ({item_name(s)} {value}) ({item_tree(s)} {value})'
    return f'Row (s symbols.{s} ∷ []) ({steps_name(s)} {value}) ({tree_name(s)} {value})'


GRAMMAR_WORDS = 'grammar model_ways model_deepens'


def write_rows():
    for topic, about, _ in TOPICS:
        lines, uses, done = [], Uses(), set()

        def row(p, value):
            if topic_of(p) != topic:
                uses.add(f'Rattle.bg_syntax.proofs.{topic_of(p).capitalize()}Rows', row_name(p))
            return f'{row_name(p)} {value}{".items" if is_list(p) else ""}'

        for s in ordered(topic):
            if s in CYCLE:
                if s not in done:
                    lines += cycle_rows(s, uses, row)
                    done |= CYCLE[s]
                continue
            module, name = type_module(s)
            uses.add(module, name)
            uses.add(f'Rattle.bg_syntax.specs.{topic.capitalize()}Steps', item_name(s))
            uses.add(f'Rattle.bg_syntax.specs.{topic.capitalize()}Trees', item_tree(s))
            lines += ['', f'pub {item_row(s)} : (x : {name}) → {claim(s, "x")}', f'unfolding {GRAMMAR_WORDS} {item_name(s)} {item_tree(s)}']
            if many(s):
                uses.add(f'{module}.TheVariants', None)
            for pattern, i, w, names in cases(s):
                lines.append(f'{item_row(s)} {pattern} = {row_term(s, i, w, names, row)}')
            if is_list(s):
                lines += list_row(s, name, uses, topic)
        head = ['use Rattle.std.proofs.Common.{◌≡◌, ℕ, List, [], ◌∷◌, map, refl, sym, ap, subst, ◌∙◌}'] + NAMES + [
            'use Rattle.bg_lists.specs.Lists.{at_here, at_there}',
            'use Rattle.bg_syntax.specs.Grammar.{s, model_ways, model_deepens, grammar}', 'use Rattle.bg_syntax.specs.Steps.{Steps}', 'use Rattle.bg_syntax.specs.Trees.{Growth, ItemGrowth}',
            'use Rattle.bg_syntax.proofs.Rows.{Row, ItemRow, none_row, token_row, symbol_row, row_opened, item_opened, row_same, item_same, nested_row, nested_items}']
        antt(f'proofs/{topic.capitalize()}Rows.antt', f'The derivation trees that trees are have their steps: {topic}.', '\n'.join(head + uses.lines() + lines))


def list_row(s, name, uses, topic):
    uses.add(f'Rattle.bg_syntax.specs.{topic.capitalize()}Steps', steps_name(s))
    uses.add(f'Rattle.bg_syntax.specs.{topic.capitalize()}Trees', tree_name(s))
    return ['', f'pub {row_name(s)} : (items : List {name}) → Row (s symbols.{s} ∷ []) ({steps_name(s)} items) ({tree_name(s)} items)',
            f'unfolding {GRAMMAR_WORDS} {steps_name(s)} {tree_name(s)}',
            f'{row_name(s)} items = nested_row symbols.{s} {len(WAYS[s]) - 1} ({place(len(WAYS[s]) - 1)}) {item_name(s)} {item_tree(s)} {item_row(s)} items']


def cycle_rows(first, uses, row):
    types = cycle_types(first)
    module = module_of(first)
    topic = topic_of(first)
    steps_results = ' '.join(['Steps'] * len(types))
    steps_layers = ' '.join(layer_name(t) for _, t, _ in types)
    tree_layers = ' '.join(tree_layer(t) for _, t, _ in types)
    opened = ' '.join(item_name(t) for _, t, _ in types) + ' ' + ' '.join(item_tree(t) for _, t, _ in types)
    pairs = ' '.join(f'With{name}' for name, _, _ in types)
    plain = ' '.join(name for name, _, _ in types)
    firsts = ' '.join('(λ w. w.0)' for _ in types)
    lines = ['']

    def part(p, value):
        if p in CYCLE[first]:
            if is_list(p):
                return f'nested_items symbols.{p} {len(WAYS[p]) - 1} ({place(len(WAYS[p]) - 1)}) {item_name(p)} {item_tree(p)} {value}.items'
            return f'{value}.value.1'
        return row(p, value)

    for name, t, single in types:
        uses.add(type_module(t)[0], name)
        uses.add(f'{module}.TheOpen', f'{name}-F')
        uses.add(f'{module}.TheFolds', f'map-{name}')
        uses.add(f'{module}.TheFolds', f'fold-roll-{name}')
        uses.add(f'{module}.TheFolds', f'ind-{name}')
        uses.add(f'{module}.TheViews', f'roll-{name}')
        for word in (item_name(t), layer_name(t)) + ((steps_name(t),) if is_list(t) else ()):
            uses.add(f'Rattle.bg_syntax.specs.{topic.capitalize()}Steps', word)
        for word in (item_tree(t), tree_layer(t)) + ((tree_name(t),) if is_list(t) else ()):
            uses.add(f'Rattle.bg_syntax.specs.{topic.capitalize()}Trees', word)
        lines += ['', f'abbrev {name}Row : {name} → Type 0', f'{name}Row x = {claim(t, "x")}', '', f'abbrev With{name} : Type 0', f'With{name} = (x : {name}) × {name}Row x']
    for name, t, single in types:
        same = 'item_same' if is_list(t) else 'row_same'
        bare = f'{snake(t)}_layer_of'
        lines += ['', f'abbrev {bare} : {name}-F {pairs} → {name}-F {plain}', f'{bare} = map-{name} {pairs} {plain} {firsts}']

        lines += ['', f'{snake(t)}_grown : (y : {name}-F {pairs}) → {name}Row (roll-{name} ({bare} y))', f'unfolding {GRAMMAR_WORDS} {opened}']
        for pattern, i, w, names in layer_cases(t, uses, 'y'):
            y = pattern if names else pattern.strip('()')
            mapped = f'({bare} {y})'
            lines.append(
                f'{snake(t)}_grown {y} = {same} (fold-roll-{name} {steps_results} {steps_layers} {mapped}) (fold-roll-{name} {cycle_results(first)} {tree_layers} {mapped}) '
                f'({row_term(t, i, w, names, part)})')
    motives = ' '.join(f'{name}Row' for name, _, _ in types)
    cases = ' '.join(f'(λ x y is. subst (λ z. {name}Row (roll-{name} z)) is ({snake(t)}_grown y))' for name, t, _ in types)
    for name, t, single in types:
        lines += ['', f'pub {item_row(t)} : (x : {name}) → {claim(t, "x")}', f'{item_row(t)} = ind-{name} {motives} {cases}']
    for name, t, single in types:
        if is_list(t):
            lines += list_row(t, name, uses, topic)
    return lines


def write():
    write_trees()
    write_rows()
