"""Writes the Rust files and the definitions: see grammar.py."""

import re
import textwrap

from grammar_sets import *

# ---- writing

FIRST_LINE = 'Written by tools/grammar.py'
FILES = {}


def put(path, text, crate='bg_syntax'):
    text = needed(text)
    FILES[f'crates/{crate}/{path}'] = text if text.endswith('\n') else text + '\n'


def needed(text):
    """The text without the imports that it does not use."""
    lines = text.split('\n')
    body = '\n'.join(line for line in lines if not line.lstrip().startswith(('use ', 'ghost use ')))
    words = set(re.findall(r'[^\s(){},;]+', re.sub(r'--.*|//.*', '', body)))
    words |= {part for word in words for part in word.split('.')}
    kept = []
    for line in lines:
        found = re.match(r'((?:ghost use|use Rattle)[^{]*)\{(.*)\}(;?)$', line)
        alias = re.match(r'(?:ghost )?use .* as (\w+);?$', line)
        if found:
            names = [n for n in found[2].split(', ') if n.split(' as ')[-1].strip('◌') in words]
            if names:
                kept.append(f'{found[1]}{{{", ".join(names)}}}{found[3]}')
        elif not alias or alias[1] in words:
            kept.append(line)
    return '\n'.join(kept)


def rust(path, about, text, crate='bg_syntax'):
    head = textwrap.wrap(f'{about} {FIRST_LINE}.', 116)
    put(path, ''.join(f'//! {line}\n' for line in head) + text, crate)


def antt(path, about, text):
    put(path, f'-- {about} {FIRST_LINE}.\n{text}')


def write_symbols():
    lines = ['', '/// A symbol of the grammar.', '#[derive(Clone, Copy, Debug, PartialEq, Eq)]', 'pub enum Symbol {']
    for s in SYMBOLS:
        lines += [f'    /// `{rule(s)}`', f'    {s},']
    rust('src/symbol.rt', 'The symbols of the grammar.', '\n'.join(lines + ['}']))


def write_table():
    lines = ['', '/// For each symbol a row: for each kind of token, and last for the end of input, one more than the number of the',
             '/// alternative to take there, or 0 for none.', f'pub const ROWS: [[u8; {END + 1}]; {len(SYMBOLS)}] = [']
    for s in SYMBOLS:
        lines += [f'    // {s}', '    [' + ', '.join(map(str, ROWS[s])) + '],']
    rust('src/table.rt', 'The table of the grammar.', '\n'.join(lines + ['];']))


def write_types():
    for topic, about, _ in TOPICS:
        lines, used = [], set()
        for s in symbols_of(topic):
            lines += type_lines(s, type_name(s), ways_of(s), f'An item of `{rule(s)}`' if is_list(s) else f'`{rule(s)}`')
            used |= {p for w in WAYS[s] for p in w if is_symbol(p) and topic_of(p) != topic}
        uses = {}
        for p in sorted(used, key=SYMBOL_NUMBER.get):
            uses.setdefault(topic_of(p), []).append(type_name(p))
        head = [f'use crate::{t}::{{{", ".join(sorted(names))}}};' for t, names in sorted(uses.items())]
        rust(f'src/{topic}.rt', about, '\n'.join(head + lines), 'bg_trees')


def type_lines(s, name, ways, doc):
    lines = ['', f'/// {doc}']
    if s in CYCLE:
        lines.append(f'#[cycle({cycle_name(s)})]')
    lines.append('#[derive(Drop)]')
    if len(ways) == 1:
        lines.append(f'pub struct {name} {{')
        lines += [f'    pub part{i + 1}: {type_of(s, p)},' for i, p in enumerate(ways[0])]
    else:
        lines.append(f'pub enum {name} {{')
        for i, w in enumerate(ways):
            parts = ', '.join(type_of(s, p) for p in w)
            lines += [f'    /// `{spelled(w)}`', f'    Way{i + 1}({parts}),' if w else f'    Way{i + 1},']
    return lines + ['}']


def write_numbers():
    lines = ['use Rattle.std.specs.Prelude.{ℕ}', 'use Rattle.bg_text.specs.declared.token.TokenKind.{TokenKind}',
             'use Rattle.bg_text.specs.declared.token.TokenKind.TheVariants as kinds',
             'use Rattle.bg_syntax.specs.declared.symbol.Symbol.{Symbol}', 'use Rattle.bg_syntax.specs.declared.symbol.Symbol.TheVariants as symbols', '',
             '-- the number of a kind of token', 'abbrev pub kind_number : TokenKind → ℕ']
    lines += [f'kind_number kinds.{v} = {n}' for v, n in KIND_NUMBER.items()]
    lines += ['', '-- the number of a symbol', 'abbrev pub symbol_number : Symbol → ℕ']
    lines += [f'symbol_number symbols.{s} = {n}' for s, n in SYMBOL_NUMBER.items()]
    antt('specs/Numbers.antt', 'The numbers of the kinds of tokens and of the symbols.', '\n'.join(lines))


def part_term(p):
    return f's symbols.{p}' if is_symbol(p) else f'k kinds.{KIND[p]}'


def chain(terms):
    return ' ∷ '.join(terms + ['[]'])


def write_grammar():
    lines = ['use Rattle.std.specs.Prelude.{ℕ, ◌==◌, ◌||◌, Bool, true, false, List, [], ◌∷◌}',
             'use Rattle.bg_text.specs.declared.token.TokenKind.{TokenKind}',
             'use Rattle.bg_text.specs.declared.token.TokenKind.TheVariants as kinds',
             'use Rattle.bg_syntax.specs.declared.symbol.Symbol.{Symbol}', 'use Rattle.bg_syntax.specs.declared.symbol.Symbol.TheVariants as symbols',
             'use Rattle.bg_grammar.specs.Grammar.{Part, kind, symbol, Grammar}', 'use Rattle.bg_syntax.specs.Numbers.{kind_number, symbol_number}', '',
             '-- a kind of token as a part', 'abbrev pub k : TokenKind → Part', 'k x = kind (kind_number x)', '',
             '-- a symbol as a part', 'abbrev pub s : Symbol → Part', 's x = symbol (symbol_number x)', '',
             '-- the alternatives of each symbol, in the order of the symbols', 'unfoldable pub model_ways : List (List (List Part))', 'model_ways =']
    for s in SYMBOLS:
        ways = chain(['(' + chain([part_term(p) for p in w]) + ')' if w else '[]' for w in WAYS[s]])
        lines += [f'    -- {rule(s)}', f'    ({ways}) ∷']
    lines += ['    []', '', f'-- what stands below {" and ".join(f"{name} (symbol {SYMBOL_NUMBER[name]})" for name in DEEPENS)} is one deeper: these are the true ones, from 0', 'unfoldable pub model_deepens : List Bool',
              'model_deepens = ' + chain(['true' if s in DEEPENS else 'false' for s in SYMBOLS]), '',
              '-- the grammar of the model language', 'unfoldable pub grammar : Grammar', 'grammar = record { ways = model_ways; deepens = model_deepens }']
    antt('specs/Grammar.antt', 'The grammar of the model language, as data.', '\n'.join(lines))


def write_plan():
    lines = ['use Rattle.std.specs.Prelude.{ℕ, List, [], ◌∷◌}', 'use Rattle.bg_grammar.specs.Plan.{Plan}', 'use Rattle.bg_syntax.specs.declared.table.TheConstants.{ROWS}', '',
             '-- 1 where the kind, or the end of input, may follow the symbol', 'unfoldable pub model_follows : List (List ℕ)', 'model_follows =']
    for s in SYMBOLS:
        lines += [f'    -- {s}', '    (' + chain(['1' if k in FOLLOW[s] else '0' for k in range(END + 1)]) + ') ∷']
    lines += ['    []', '', '-- some alternative of each symbol has only symbols of lower ranks', 'unfoldable pub model_ranks : List ℕ',
              'model_ranks = ' + chain([str(RANKS[s]) for s in SYMBOLS]), '', '-- the plan that the parser goes by; that it is right is computed',
              'unfoldable pub plan : Plan', f'plan = record {{ end = {END}; start = 0; rows = ROWS; follows = model_follows; ranks = model_ranks }}']
    antt('specs/Plan.antt', 'The plan of the grammar.', '\n'.join(lines))

# ---- the steps of the derivation that a tree is

def cycle_types(s):
    """The types of the symbol's cycle in the order of its folds: enums by name, then structs by name."""
    names = [(not many(t), type_name(t), t) for t in CYCLE[s]]
    return [(name, t, single) for single, name, t in sorted(names)]


def type_name(s):
    """The name of the symbol's type; of a list that of an item's."""
    return f'Syn{s}Item' if is_list(s) else f'Syn{s}'


def module_of(s):
    """The generated module of the symbol's type; a cycle's is that of its first enum."""
    name = cycle_types(s)[0][0] if s in CYCLE else type_name(s)
    return f'Rattle.bg_trees.specs.declared.{topic_of(s)}.{name}'


def type_module(s):
    name = type_name(s)
    return f'Rattle.bg_trees.specs.declared.{topic_of(s)}.{name}', name


def steps_name(s):
    return f'{snake(s)}_steps'


def item_name(s):
    return f'{snake(s)}_item_steps' if is_list(s) else steps_name(s)


def step_names(s):
    """The words for the symbol's steps."""
    return ([item_name(s)] if is_list(s) else []) + [steps_name(s)] + [behind_steps_name(s, start) for start in starts_behind(s)[::-1]]


def below(s, depth='d'):
    return f'({depth} + 1)' if s in DEEPENS else depth


def parts_term(s, way, names, read, last='[]'):
    """The steps of parts, and then the last ones; `read` gives the steps of a part that is a symbol."""
    d = below(s)
    for p, name in list(zip(way, names))[::-1]:
        if is_symbol(p):
            term = read(p, name, d)
            last = term if last == '[]' else f'({term} ++ {last})'
        else:
            last = f'(takes kinds.{KIND[p]} {d} {name} ∷ {last})'
    return last


def steps_term(s, i, way, names, read):
    """The steps of alternative i."""
    return f'opens symbols.{s} {i} ∷ {parts_term(s, way, names, read)}'


# ---- the parts of a long alternative behind its first group

def behind_name(s, start):
    return f'{snake(s)}_behind{start}'


def behind_steps_name(s, start):
    return f'{behind_name(s, start)}_steps'


def behind_type(s, start):
    return f'{s}Behind{start}'


def behind_steps(s, uses, read):
    """The steps of these parts, the last group first."""
    lines, last = [], '[]'
    for start in starts_behind(s):
        name = behind_type(s, start)
        uses.add(f'Rattle.bg_syntax.specs.declared.read.{topic_of(s)}.{name}', name)
        way = WAYS[s][long_way(s)][start:start + GROUP]
        names = [f'x.part{start + j + 1}' for j, _ in enumerate(way)]
        word = behind_steps_name(s, start)
        term = parts_term(s, way, names, read, last)
        term = term[1:-1] if term.startswith('(') else term
        lines += ['', f'-- {s} behind its first {start} parts: {spelled(way)}{" .." if last != "[]" else ""}', f'unfoldable pub {word} : {name} → Steps', f'{word} x d = {term}']
        last = f'{word} x.behind d'
    return lines


def behind_types(s):
    lines = []
    for start in starts_behind(s)[::-1]:
        way = WAYS[s][long_way(s)][start:]
        lines += ['', f'/// The parts of `{s}` behind its first {start}.', '#[derive(Drop)]', f'struct {behind_type(s, start)} {{']
        lines += [f'    part{start + j + 1}: {type_of(s, p)},' for j, p in enumerate(way[:GROUP])]
        if len(way) > GROUP:
            lines.append(f'    behind: {behind_type(s, start + GROUP)},')
        lines.append('}')
    return lines


def read_behind(s):
    """The functions that read these parts."""
    lines = []
    for start in starts_behind(s)[::-1]:
        i = long_way(s)
        way = WAYS[s][i][start:]
        contract = f'ReadsSymbol (λ x. {behind_steps_name(s, start)} x depth) self.now.tokens.now at.old (wants_behind depth symbols.{s} {i} {start}) at.new result'
        parts, values = read_parts(s, way[:GROUP], '        ', start)
        if len(way) > GROUP:
            parts.append(f'        let rest = self.{behind_name(s, start + GROUP)}(at, depth)?;')
            values.append('behind: rest')
        lines += [''] + read_head(s, behind_name(s, start), behind_type(s, start), contract, f'{s} behind its first {start} parts: {spelled(way)}') + parts
        lines += [f'        Ok({behind_type(s, start)} {{ {", ".join(values)} }})', '    }']
    return lines


def split_behind(s, indent):
    """Lines that read all these parts and take them out, and the names of the values."""
    starts, values = starts_behind(s)[::-1], []
    lines = [f'{indent}let rest = self.{behind_name(s, starts[0])}(at, depth)?;']
    holder = 'rest'
    for start in starts:
        names = [f'part{start + j + 1}' for j, _ in enumerate(WAYS[s][long_way(s)][start:start + GROUP])]
        values += names
        fields = names + (['behind'] if start != starts[-1] else [])
        lines.append(f'{indent}let {behind_type(s, start)} {{ {", ".join(fields)} }} = {holder};')
        holder = 'behind'
    return lines, values


def variant_name(s, i):
    """The name of a variant's layer: bare where no other enum of the cycle has one of that name."""
    owners = [t for _, t, single in cycle_types(s) if not single and len(ways_of(t)) > i]
    return f'Way{i + 1}' if len(owners) == 1 else f'{type_name(s)}::Way{i + 1}'


class Uses:
    """What a file imports, in the order in which it is asked for."""

    def __init__(self):
        self.modules = {}

    def add(self, module, name):
        """Imports a name of a module; without a name the module itself, of the variants of an enum."""
        names = self.modules.setdefault(module, [])
        if name not in names:
            names.append(name)

    def lines(self):
        found = []
        for module, names in self.modules.items():
            if names == [None]:
                found.append(f'use {module} as {snake(re.sub("^Syn|Item$", "", module.split(".")[-2]))}_ways')
            else:
                found.append(f'use {module}.{{{", ".join(names)}}}')
        return found


def part_names(way):
    return [f'part{i + 1}' for i in range(len(way))]


def record_case(s, x):
    """The one case of a struct, which is x."""
    way = ways_of(s)[0]
    return x, 0, way, [f'{x}.{name}' for name in part_names(way)]


def cases(s):
    """Of each alternative of the symbol's type: its pattern, its number, its parts and their names."""
    if not many(s):
        return [record_case(s, 'x')]
    return [(f'({" ".join([f"{snake(s)}_ways.Way{i + 1}"] + part_names(w))})', i, w, part_names(w)) for i, w in enumerate(ways_of(s))]


def layer_cases(s, uses, x='x'):
    """The same of a layer of a type in a cycle; each variant is imported when its case is asked for."""
    if not many(s):
        yield record_case(s, x)
        return
    for i, w in enumerate(ways_of(s)):
        uses.add(f'{module_of(s)}.TheOpen.{type_name(s)}-F', f'{variant_name(s, i)} as {snake(s)}_{i + 1}')
        yield f'({" ".join([f"{snake(s)}_{i + 1}"] + part_names(w))})', i, w, part_names(w)


def write_steps():
    for topic, about, _ in TOPICS:
        lines, uses, done = [], Uses(), set()

        def steps_of(p):
            if topic_of(p) != topic:
                uses.add(f'Rattle.bg_syntax.specs.{topic_of(p).capitalize()}Steps', steps_name(p))
            return steps_name(p)

        def read(p, value, d):
            return f'{steps_of(p)} {value}{".items" if is_list(p) else ""} {d}'

        for s in ordered(topic):
            if s in CYCLE:
                if s not in done:
                    lines += cycle_steps(s, uses, read)
                    done |= CYCLE[s]
                continue
            module, name = type_module(s)
            uses.add(module, name)
            lines += behind_steps(s, uses, read)
            lines += ['', f'-- {rule(s)}', f'unfoldable pub {item_name(s)} : {name} → Steps']
            for pattern, i, w, names in cases(s):
                lines.append(f'{item_name(s)} {pattern} d = {steps_term(s, i, w, names, read)}')
            if many(s):
                uses.add(f'{module}.TheVariants', None)
            if is_list(s):
                lines += list_steps(s, name)
        head = ['use Rattle.std.specs.Prelude.{ℕ, ◌+◌, List, [], ◌∷◌, ◌++◌, map}', 'use Rattle.bg_text.specs.declared.token.TokenKind.TheVariants as kinds',
                'use Rattle.bg_syntax.specs.declared.symbol.Symbol.TheVariants as symbols', 'use Rattle.bg_grammar.specs.Grammar.{GrammarStep}',
                'use Rattle.bg_syntax.specs.Steps.{Steps, opens, takes, in_turn}']
        antt(f'specs/{topic.capitalize()}Steps.antt', f'The steps of trees: {topic}.', '\n'.join(head + uses.lines() + lines))


def list_steps(s, name):
    return ['', f'-- the steps of the items of {s} in turn, and the step that ends the list', f'unfoldable pub {steps_name(s)} : List {name} → Steps',
            f'{steps_name(s)} items = in_turn (opens symbols.{s} {len(WAYS[s]) - 1}) (map {item_name(s)} items)']


def cycle_folds(first, uses, results, layer, word, kind, equation, what):
    """The layers of the types of a cycle, and the folds that they make, each of which gives `what`; `equation` gives what stands
    behind a layer's case."""
    types = cycle_types(first)
    module = module_of(first)
    layers = ' '.join(layer(t) for _, t, _ in types)
    lines = []
    for name, t, single in types:
        uses.add(f'{module}.TheOpen', f'{name}-F')
        lines += ['', f'-- {rule(t)}', f'abbrev pub {layer(t)} : {name}-F {results} → {kind(t)}']
        for pattern, i, w, names in layer_cases(t, uses):
            lines.append(f'{layer(t)} {pattern} {equation(t, i, w, names)}')
    for name, t, single in types:
        uses.add(type_module(t)[0], name)
        uses.add(f'{module}.TheFolds', f'fold-{name}')
        lines += ['', f'-- {what} of {"an item of " if is_list(t) else "a tree of "}{t}', f'unfoldable pub {word(t)} : {name} → {kind(t)}', f'{word(t)} = fold-{name} {results} {layers}']
    return lines


def cycle_steps(first, uses, read):
    types = cycle_types(first)

    def part(p, value, d):
        if p in CYCLE[first]:
            return f'in_turn (opens symbols.{p} {len(WAYS[p]) - 1}) {value}.items {d}' if is_list(p) else f'{value}.value {d}'
        return read(p, value, d)

    def equation(t, i, way, names):
        return f'd = {steps_term(t, i, way, names, part)}'

    lines = ['', '-- the types of this cycle are read by folds; a layer has the steps of its parts in place of the parts']
    lines += cycle_folds(first, uses, ' '.join(['Steps'] * len(types)), layer_name, item_name, lambda t: 'Steps', equation, 'the steps')
    for name, t, single in types:
        if is_list(t):
            lines += list_steps(t, name)
    return lines


def layer_name(s):
    return f'{snake(s)}_item_layer' if is_list(s) else f'{snake(s)}_layer'


def ordered(topic):
    """The symbols of a topic, each behind those that its type has parts of."""
    found = []

    def visit(s):
        if s in found or s in todo:
            return
        todo.append(s)
        group = CYCLE.get(s, {s})
        for t in sorted(group, key=SYMBOL_NUMBER.get):
            for w in WAYS[t]:
                for p in w:
                    if is_symbol(p) and p not in group and topic_of(p) == topic:
                        visit(p)
        found.append(s)

    todo = []
    for s in symbols_of(topic):
        visit(s)
    return found


# ---- the reading functions

def reaches_deep(s):
    return s in DEEPENS or any(d in REACH[s] for d in DEEPENS)


# what is read one deeper than its symbol before a token is taken, by K
BELOW_K = ['N', 'N1', 'A', 'Ref']


def read_head(s, name, result, contract, about=None, item=False):
    lines = [f'    // {about}' if about else f'    /// Reads {"an item of " if item else ""}`{rule(s)}`.']
    if s in CYCLE:
        lines.append(f'    #[cycle({cycle_name(s)})]')
    lines += [f'    {"" if about else "pub "}fn {name}(&self, at: &mut usize, depth: u32) -> Result<{result}, SyntaxFault>',
              '        requires inside { at.old ≤ length self.now.tokens.now }']
    if reaches_deep(s):
        lines.append(f'        requires shallow {{ depth ≤ at.old{" + 1" if s in BELOW_K else ""} }}')
    return lines + [f'        ensures {{ {contract} }}', '    {']


def read_parts(s, way, indent, start=0):
    """Lines that read the parts, and the names of the values."""
    lines, values = [], []
    for i, p in enumerate(way, start):
        name = f'part{i + 1}'
        if is_symbol(p):
            lines.append(f'{indent}let {name} = self.{snake(p)}(at, depth)?;')
        else:
            lines.append(f'{indent}let {name} = self.take(at, depth, TokenKind::{KIND[p]})?;')
        if is_boxed(s, p):
            lines.append(f'{indent}let box{i + 1} = Box::new(self.alloc, {name})?;')
            name = f'box{i + 1}'
        values.append(name)
    return lines, values


def value_of(type_name, ways, i, values):
    if len(ways) == 1:
        fields = ', '.join(f'part{j + 1}' if v == f'part{j + 1}' else f'part{j + 1}: {v}' for j, v in enumerate(values))
        return f'{type_name} {{ {fields} }}'
    return f'{type_name}::Way{i + 1}' + (f'({", ".join(values)})' if values else '')


def read_arms(s, type_name, ways, wrap):
    """The match on the alternative; `wrap` makes the answer of a value."""
    lines = ['        match way {']
    for i, w in enumerate(ways):
        label = '_' if i == len(ways) - 1 else str(i)
        parts, values = read_parts(s, w[:GROUP] if i == long_way(s) else w, '                ')
        if i == long_way(s):
            more, others = split_behind(s, '                ')
            parts, values = parts + more, values + others
        value = wrap(value_of(type_name, [v for v in ways if v] if is_list(s) else ways, i, values) if w or not is_list(s) else None)
        if parts:
            lines += [f'            {label} => {{'] + parts + [f'                {value}', '            }']
        else:
            lines.append(f'            {label} => {value},')
    return lines + ['        }']


def read_symbol(s):
    contract = f'ReadsSymbol (λ x. {steps_name(s)} x depth) self.now.tokens.now at.old (wants depth symbols.{s}) at.new result'
    lines = read_head(s, snake(s), f'Syn{s}', contract)
    deeper = ['        let depth = depth + 1;'] if s in DEEPENS else []
    if len(WAYS[s]) == 1:
        parts, values = read_parts(s, WAYS[s][0], '        ')
        lines += [f'        self.choose(*at, Symbol::{s})?;'] + deeper + parts
        lines.append(f'        Ok({value_of(f"Syn{s}", WAYS[s], 0, values)})')
    else:
        lines.append(f'        let way = self.choose(*at, Symbol::{s})?;')
        lines += deeper + read_arms(s, f'Syn{s}', WAYS[s], lambda v: f'Ok({v})')
    return lines + ['    }'] + read_behind(s)


def read_list(s):
    end = f'(opens symbols.{s} {len(WAYS[s]) - 1} ∷ [])'
    contract = f'ReadsItem (λ x. {item_name(s)} x depth) self.now.tokens.now at.old depth symbols.{s} {end} at.new result'
    lines = read_head(s, f'{snake(s)}_item', f'Option<Syn{s}Item>', contract, item=True)
    lines.append(f'        let way = self.choose(*at, Symbol::{s})?;')
    ways = [w[:-1] for w in WAYS[s]]
    lines += read_arms(s, f'Syn{s}Item', ways, lambda v: f'Ok(Some({v}))' if v else 'Ok(None)') + ['    }', '']
    contract = f'ReadsSymbol (λ x. {steps_name(s)} x.items depth) self.now.tokens.now at.old (wants depth symbols.{s}) at.new result'
    lines += read_head(s, snake(s), f'Vec<Syn{s}Item>', contract)
    lines += ['        let mut items = Vec::new(self.alloc);', f'        while let Some(item) = self.{snake(s)}_item(at, depth)? {{',
              '            items.push(item)?;', '        }', '        Ok(items)', '    }']
    return lines


def write_readers():
    for topic, about, _ in TOPICS:
        lines, names = [line for s in symbols_of(topic) for line in behind_types(s)] + ['', "impl Reader<'_> {"], []
        for s in symbols_of(topic):
            lines += (read_list(s) if is_list(s) else read_symbol(s)) + ['']
            names.append(type_name(s))
        lines[-1] = '}'
        words = [n for s in symbols_of(topic) for n in step_names(s)]
        head = ['ghost use Rattle.std.specs.Prelude.{◌+◌, ◌≤◌, [], ◌∷◌, length};',
                'ghost use Rattle.bg_syntax.specs.declared.symbol.Symbol.TheVariants as symbols;',
                'ghost use Rattle.bg_syntax.specs.Steps.{opens};',
                f'ghost use Rattle.bg_syntax.specs.{topic.capitalize()}Steps.{{{", ".join(words)}}};',
                'ghost use Rattle.bg_syntax.specs.Reading.{wants, wants_behind, ReadsSymbol, ReadsItem};', '',
                'use crate::fault::SyntaxFault;', 'use crate::reader::Reader;', 'use crate::symbol::Symbol;',
                'use bg_text::TokenKind;', f'use bg_trees::{topic}::{{{", ".join(sorted(names))}}};']
        rust(f'src/read/{topic}.rt', f'Reading. {about}', '\n'.join(head + lines))


def write():
    write_symbols()
    write_table()
    write_types()
    write_numbers()
    write_grammar()
    write_plan()
    write_steps()
    write_readers()
