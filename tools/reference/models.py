"""Random models. With some chance, `fault`, a part is made wrong; so most models are read to their end, and some are not."""
from .faults import formula

POOL = [('A', 0, 'normal'), ('B', 1, 'atomic'), ('C', 0, 'normal'), ('D', 2, 'atomic'), ('E', 1, 'normal')]
WRONG_PRIMES = ['0', 'id { x }', 'id ( 2 )', '( 1 || 1 )', 'id ( 1 , { y } )', 'id ( 65537 )', 'merge ( 65537 )',
                '( id { x } | id { x } )', '( id { x } || id )', '{ x , x }', '( id ( 1 , { x } ) )']


class ModelMaker:
    """Makes one model. Of an expression it answers the text and the outer names, of a pattern also regions and sites."""

    def __init__(self, random, faults):
        self.random, self.fault = random, random.choice(faults)
        self.names = ['x', 'y', 'z', 'w'][:random.randint(1, 4)]
        self.controls, self.bigraphs, self.rules, self.parameters, self.lines = [], [], [], [], []

    def pick(self, *choices):
        return self.random.choice(choices)

    def is_wrong(self, part=1.0):
        return self.random.random() < self.fault * part

    # ---- arithmetic

    def small_formula(self, visible):
        if visible and self.random.random() < 0.7:
            name = self.random.choice(visible)
            return self.pick('{0}', '{0}', '{0} + 1', '{0} - 1', '( {0} )', '{0} * 2', '1 - {0}', '{0} / 2').format(name)
        if self.random.random() < 0.06:
            return formula(self.random, 2, visible)
        return self.pick('0', '1', '2', '3', '0', '1', '2', '- 1', '1 + 1', self.pick('"a"', '0', '0'))

    def arguments(self, count, visible):
        if self.is_wrong(0.1):
            count = max(0, count + self.pick(-1, 1))
        if self.is_wrong(0.17):
            visible = [*visible, 'zz', 'n', 'a']
        return f' ( {" , ".join(self.small_formula(visible) for _ in range(count))} )' if count else ''

    # ---- expressions

    def node(self, control, visible):
        name, formals, arity, _ = control
        if self.is_wrong(0.1):
            arity = max(0, arity + self.pick(-1, 1))
        if self.is_wrong(0.1):
            name = self.pick('U', 'A', 'B')
        names = [self.random.choice(self.names) for _ in range(arity)]
        braces = ' { ' + ' , '.join(names) + ' }' if names or self.random.random() < 0.1 else ''
        return name + self.arguments(formals, visible) + braces, set(names)

    def shared(self, total, count):
        """The total, cut into so many numbers."""
        cuts = sorted(self.random.randint(0, total) for _ in range(count - 1))
        return [after - before for before, after in zip([0, *cuts], [*cuts, total])]

    def prime(self, sites, visible, depth):
        """An expression with one region and no inner names."""
        if self.is_wrong():
            sites = self.random.randint(0, 2)
        if self.is_wrong(0.5):
            return self.random.choice(WRONG_PRIMES), set()
        chance = self.random.random()
        if depth <= 0:
            atomic = [control for control in self.controls if control[3] == 'atomic']
            if sites == 0:
                return self.node(self.random.choice(atomic), visible) if atomic and chance < 0.7 else ('1', set())
            return 'id' if sites == 1 and chance < 0.7 else f'merge ( {sites} )', set()
        defined = [big for big in self.bigraphs if big[2] == sites]
        normal = [control for control in self.controls if control[3] == 'normal']
        if defined and chance < 0.15:
            name, formals, _, names = self.random.choice(defined)
            return name + self.arguments(formals, visible), set(names)
        if normal and chance < 0.5:
            outer, names = self.node(self.random.choice(normal), visible)
            inner, more = self.prime(sites, visible, depth - 1)
            return f'{outer} . {inner}', names | more
        if chance < 0.75:
            parts = [self.prime(each, visible, depth - 1) for each in self.shared(sites, self.pick(2, 2, 3))]
            if self.random.random() < 0.1:
                name = self.random.choice(self.names)
                parts.insert(self.random.randint(0, len(parts)), ('{ ' + name + ' }', {name}))
            return f'( {" | ".join(text for text, _ in parts)} )', set().union(*[names for _, names in parts])
        if chance < 0.88:
            name = self.random.choice(self.names)
            text, names = self.prime(sites, visible, depth - 1)
            return f'/ {name} {text}', names - {name}
        return self.composed(sites, visible, depth)

    def composed(self, sites, visible, depth):
        width = self.pick(1, 2) if sites else self.pick(0, 1, 2)
        inner, names = self.wide(width, sites, visible, depth - 1)
        outer, more = self.prime(width, visible, depth - 1)
        shared = self.random.sample(sorted(names), len(names))
        if shared and self.is_wrong():
            shared.pop()
        form = self.pick('id {{ {} }}', 'id ( 0 , {{ {} }} )') if shared else self.pick('0', 'id {{ }}', 'id ( 0 )', '{{ }}')
        return f'( ( {outer} || {form.format(" , ".join(shared))} ) * ( {inner} ) )', names | more

    def wide(self, regions, sites, visible, depth):
        """An expression with so many regions."""
        if regions == 0:
            name = self.random.choice(self.names)
            return ('{ ' + name + ' }', {name}) if self.random.random() < 0.3 else ('0', set())
        if regions == sites and self.random.random() < 0.2:
            return f'id ( {regions} )', set()
        parts = [self.prime(each, visible, depth) for each in self.shared(sites, regions)]
        operator = ' + ' if self.random.random() < 0.15 else ' || '
        return operator.join(text for text, _ in parts), set().union(*[names for _, names in parts])

    # ---- rules

    def pattern_node(self, visible, depth):
        control = self.random.choice(self.controls)
        text, names = self.node(control, visible)
        if control[3] == 'atomic':
            return text, names, 0
        if depth <= 0 or self.random.random() < 0.45:
            return (text + ' . id', names, 1) if self.random.random() < 0.75 else (text + ' . 1', names, 0)
        parts = [self.pattern_node(visible, depth - 1) for _ in range(self.pick(1, 1, 2))]
        if self.random.random() < 0.6 or self.is_wrong():
            parts.insert(self.random.randint(0, len(parts)), ('id', set(), 1))
        if self.is_wrong():
            parts.append(('id', set(), 1))
        inner = ' | '.join(part[0] for part in parts)
        return (f'{text} . {inner}' if len(parts) == 1 else f'{text} . ( {inner} )',
                names.union(*[part[1] for part in parts]), sum(part[2] for part in parts))

    def pattern(self, visible, depth=2):
        """A solid pattern: its text, its outer names, its regions and its sites."""
        regions, names, sites = [], set(), 0
        for _ in range(self.pick(1, 1, 1, 2, 2, 3)):
            parts = [self.pattern_node(visible, depth - 1) for _ in range(self.pick(1, 1, 2))]
            tops = [part[0] for part in parts]
            names, sites = names.union(*[part[1] for part in parts]), sites + sum(part[2] for part in parts)
            if self.is_wrong():
                tops = self.pick(['1'], tops + ['id'], ['0'], tops + ['{ x }'], ['id'], tops + ['id { x }'])
            regions.append(' | '.join(tops))
        text = ' || '.join(regions)
        for name in sorted(names):
            if self.random.random() < 0.3:
                text, names = f'/ {name} ( {text} )', names - {name}
        return text, names, len(regions), sites

    def reactum(self, names, regions, sites, visible):
        """A reactum for a redex with that face, and the map."""
        if self.is_wrong():
            regions = max(1, regions + self.pick(-1, 1))
        if self.is_wrong():
            names = set(sorted(names)[1:])
        copies = sites if self.random.random() < 0.5 else self.random.randint(0, 3 if sites else 0)
        usual, self.names = self.names, sorted(names) or ['x']
        text, used = self.wide(regions, copies, visible, 1)
        self.names = usual
        for name in sorted(used - names):
            text = f'/ {name} ( {text} )'
        if names - used or self.random.random() < 0.2:
            text = '{ ' + ' , '.join(sorted(names)) + ' } || ' + text
        entries = ''
        if copies != sites or self.random.random() < 0.3:
            copies, sites = copies + self.is_wrong(), sites + (self.is_wrong() or not sites)
            entries = '' if self.is_wrong() else f'@ [ {" , ".join(str(self.random.randrange(sites)) for _ in range(copies))} ]'
        return ('id { v } || ' if self.is_wrong(0.5) else '') + text, entries

    # ---- statements

    def head(self, word, name, most):
        """The beginning of a statement, and the names of its formals."""
        visible = ['a', 'b'][:self.pick(0, 0, 0, 1, most)]
        formals = f' ( {" , ".join(visible)} )' if visible else ''
        if visible and self.is_wrong(0.5):
            formals, visible = ' ( a , a )', ['a', 'a']
        fun = 'fun ' if visible or self.random.random() < 0.1 else ''
        return f'{fun}{word} {name}{formals} =', visible

    def control(self, name, arity, kind):
        if self.random.random() < 0.2:
            arity = self.random.randint(0, 3)
        if self.random.random() < 0.3:
            kind = self.pick('normal', 'atomic')
        head, visible = self.head('ctrl', name, 2)
        atomic = 'atomic ' if kind == 'atomic' else ''
        if head.startswith('fun ') and self.random.random() < 0.5:
            head, atomic = 'fun ' + atomic + head[4:], ''
        self.lines.append(f'{atomic}{head} {arity} ;')
        self.controls.append((name, len(visible), arity, kind))

    def parameter(self, name):
        self.parameters.append(name)
        chance, count = self.random.random(), self.random.randint(1, 3)
        if chance < 0.25:
            texts = [self.pick('"a"', '"b"', '"c d"', '")("', '""') for _ in range(count)]
            return f'string {name} = {{ {" , ".join(texts)} }} ;'
        if chance < 0.5:
            return f'int {name} = {{ {" , ".join(self.value() for _ in range(count))} }} ;'
        if chance < 0.8:
            first = self.random.randint(0, 3)
            ends = [first, self.pick(1, 1, 2, 3), first + self.random.randint(0, 4)]
            if self.is_wrong():
                ends = [formula(self.random, 1, []) for _ in ends]
            return 'int {} = [ {} : {} : {} ] ;'.format(name, *ends)
        return f'int {name} = {self.value()} ;'

    def value(self):
        if self.is_wrong():
            return formula(self.random, 3, ['n'] if self.is_wrong(0.3) else [])
        return self.pick('0', '1', '2', '1 + 1', '- 1', '3 * 2', '7 / 2', '- 7 / 2', '( 2 )', '01')

    def bigraph(self, name, sites):
        head, visible = self.head('big', 's' if self.is_wrong(0.5) else name, 2)
        if self.random.random() < 0.25:
            sites = None
            regions = self.pick(1, 1, 1, 2, 3)
            text, names = self.prime(0, visible, 3) if regions == 1 else self.wide(regions, 0, visible, 3)
        else:
            text, names = self.prime(sites, visible, self.random.randint(1, 3))
        self.lines.append(f'{head} {text} ;')
        self.bigraphs.append((name, len(visible), sites, names))

    def rule(self, name):
        head, visible = self.head('react', name, 2)
        redex, *face = self.pattern(visible)
        reactum, entries = self.reactum(*face, visible)
        tail = [entries]
        if self.random.random() < 0.3:
            tests = [f'{self.pick("", "! ")}{self.pattern(visible, 1)[0]} in {self.pick("ctx", "param")}'
                     for _ in range(self.pick(1, 1, 2))]
            tail.insert(self.random.randint(0, 1), 'if ' + ' , '.join(tests))
        self.lines.append(f'{head} {redex} --> {reactum} {" ".join(tail)} ;')
        self.rules.append((name, len(visible)))

    def block(self, predicates):
        parameters = self.parameter('k') if self.random.random() < 0.33 else ''
        ground = [big for big in self.bigraphs if not big[2]] or self.bigraphs
        name, formals, _, _ = self.random.choice(ground)
        init = name + self.arguments(formals, [])
        classes = []
        for _ in range(self.pick(1, 1, 2, 3)):
            rules = [self.random.choice(self.rules) for _ in range(self.pick(0, 1, 1, 2))]
            text = ' , '.join(rule + self.arguments(count, self.parameters) for rule, count in rules)
            classes.append(self.pick('{{ {} }}', '( {} )').format(text))
        watched = ' , '.join(name + self.arguments(count, self.parameters) for name, count in predicates)
        preds = f'preds = {{ {watched} }} ;' if watched or self.random.random() < 0.1 else ''
        return f'begin brs {parameters} init {init} ; rules = [ {" , ".join(classes)} ] ; {preds} end'

    def model(self):
        """The lines of a model."""
        for control in POOL[:self.pick(2, 3, 3, 4, 4, 5)]:
            self.control(*control)
        for name in ['n', 'm'][:self.pick(0, 0, 1, 2)]:
            self.lines.append(self.parameter(name))
        for name in ['s', 'p', 'q', 't'][:self.pick(1, 1, 2, 3, 4)]:
            self.bigraph(name, 0 if name == 's' else self.pick(0, 0, 0, 0, 1, 2))
        for name in ['r', 'hi', 'lo'][:self.pick(1, 1, 2, 3)]:
            self.rule(name)
        predicates = []
        if self.random.random() < 0.3:
            head, visible = self.head('big', 'pr', 1)
            self.lines.append(f'{head} {self.pattern(visible, 1)[0]} ;')
            predicates = [('pr', len(visible))]
        return self.lines + [self.block(predicates)] * (self.random.random() < 0.97)
