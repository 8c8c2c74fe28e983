"""Runs made by hand: tables of a host and a rule, three spaces between each two, each run for some seeds and numbers of
steps; models with classes; and hosts at the limits, which are run for one step or two."""
from .model_cases import ONE_RULE, entries

CONTROLS = ('ctrl A = 0; ctrl B = 1; atomic ctrl C = 0; ctrl D = 2; atomic ctrl E = 1; atomic ctrl G = 2; '
            'fun atomic ctrl N(x) = 0;\n')
COPIES = r"""
A./e (E{e} | B{e}.E{e}) : A.id --> id | id | id @ [0,0,0]
A.(/e (B{e}.(C | E{e}) | E{e}) | E{x}) | C : A.id --> A.id | /k (G{k,k} | id) @ [0,0]
A.C | A.A.(C | C) : A.id | A.id --> A.(id | id | id) | A.id @ [1,0,1,1]
A.(E{x} | A.E{y}) | B{y}.C : A.id | B{z}.id --> B{z}.(id | id) | A.id @ [1,0,0]
/e (A.E{e} | B{e}.1) : B{y}.id | A.id --> {y} | 1 @ []   /e (A.E{e}) | E{w} : A.id --> 1 @ []
A.A.A.C : A.A.id --> A.(C | id) | A.id @ [0,0]   A.C : A.id --> A.(id | id) @ [0,0]
A.(C | C) || A.1 : A.id || A.id --> A.(id | id) || A.1 @ [0,1]
(A.(id | A.id) || id{x}) * (E{x} || /e (E{e} | E{e})) : A.id --> id | id @ [0,0]
(A.(id | id) || id{x}) * (B{x}.C || E{x}) : B{u}.id --> B{u}.(id | A.id) @ [0,0]
"""
LINKS = r"""
/e (E{e} | E{e} | C) : E{x} | E{y} --> {x} | E{y}   /e (E{e} | E{e}) : /x (E{x} | E{x}) --> C | C
E{x} | E{y} | E{x} : E{a} | E{b} --> G{a,b}   /e E{e} : /x E{x} --> /k /l (G{k,l} | G{l,k} | E{k})
/e /f (G{e,f} | G{f,e}) : G{x,y} | G{y,x} --> /k (G{k,x} | G{y,k})   {u} | E{v} : E{v} --> {v} | C
/e (E{e} | B{e}.E{e}) : E{x} | B{x}.id --> {x} | /k (B{k}.id | E{k})   /e /f (D{e,f}.(E{e} | E{f})) : D{x,y}.id --> D{y,x}.id
/e D{e,e}.E{e} : D{x,y}.id --> {x,y} || id
"""
CONDITIONS = r"""
A.C | C : A.id --> A.A.id if C in ctx, !(A.1) in param   A.C : A.id --> id | C @ [0] if C in ctx
A.(C | C) : C --> 1 if A.C in ctx   A.(C | C) : C --> 1 if !(A.C) in ctx   A.C : C --> 1 if A.1 in ctx
A.C : C --> 1 if A.id in ctx   C : C --> C if C in param   A.(C | C | C) : C | C --> C if (C | C) in ctx
A.A.C : A.id --> id if A.id in param, A.id in ctx   A.A.C : A.id --> id if A.id in param
A.A.C : A.id --> id if !(A.id) in param, !(A.A.id) in ctx
A.A.(C | A.1) : A.A.id --> A.id if C in param, A.1 in param, !C in ctx
/e (A.(E{e} | E{e}) | C) : A.id --> id if (/x (E{x} | E{x})) in param
/e (A.(E{e} | E{e}) | E{e}) : A.id --> id if (/x (E{x} | E{x})) in param
/e (A.(E{e} | E{e}) | E{e}) : A.id --> id if (E{x} | E{x}) in param, (/x E{x}) in ctx
/e (A.(E{e} | E{e}) | E{e}) : A.id --> id if (E{x} | E{y}) in param, E{x} in ctx
/e (B{e}.E{e} | E{x}) : B{y}.id --> {y} | id if (/z E{z}) in param   A.A.1 : A.1 --> C if A.1 in ctx
A.(A.1 | A.1) : A.1 || A.1 --> C || C if !(A.1) in ctx   A.C || A.C || C : A.id --> C | id if (C || C) in ctx
A.(C | A.C) | A.C : A.id || A.id --> id || A.id if (C || C) in param   E{x} : E{y} --> C | {y} if !(E{z}) in ctx
"""
CLASSES = [
    ('A.C | C', 'react hi = A.id --> id if A.id in param; react lo = C --> 1;', '{hi}, {lo}', ''),
    ('A.(C | A.C)', 'react hi = A.id --> id if !(A.id) in param; react lo = C --> /x (E{x} | E{x});', '{}, {hi}, (), (lo)', ''),
    ('C | C | A.1', 'react hi = C | C --> C; react lo = A.1 --> C | A.1; react mid = C --> C;', '(hi), {lo, mid}', 'two'),
    ('C | C', 'react one = C --> A.1; react two = C --> A.A.1; react three = A.id --> id;', '{one, two, one}, {three}',
     'two, deep'),
    ('A.C || 1', 'react hi = C --> C;', '{hi}', 'two'),
    ('N(0) | N(5)', 'fun react up(n) = N(n) --> N(n + 1); fun react at(n, m) = N(n) | N(m) --> N(0) | N(0);',
     '{at(n, m)}, {up(n)}, {up(7)}', 'seen(n), seen(m)'),
    ('1', 'react r = C --> 1;', '', 'two'), ('1', 'react r = C --> 1;', '{}, ()', ''),
    ('A.A.A.C', 'react r = A.A.id --> A.id; react q = A.C --> C; react p = A.id --> id;', '(p, q, r)', 'deep, two')]
PREDICATES = 'big two = C || C; big deep = A.A.id; fun big seen(n) = N(n); '
PARAMETERS = 'int n = [0:1:5]; int m = {5, 4}; '
OPTIONS = ['--steps 0', '--steps 1 --seed 1', '--seed=18446744073709551615 --steps 2', '--steps 7',
           '--steps 7 --seed 5 --workers 01']


def doubled(first, times):
    """Bigraphs p0, p1 and so on, each of them twice the one before."""
    return f'big p0 = {first}; ' + ''.join(f'big p{place + 1} = p{place} | p{place}; ' for place in range(times))


def limit_cases():
    """Hosts at a limit and one past it, and more legal steps than candidates."""
    copies = ', '.join(['0'] * 16)
    sites = ' | '.join(['id'] * 16)
    items = f'{CONTROLS}{doubled("C", 12)}big s = A.p12; react r = A.id --> '
    found = [(f'run --steps {steps}', f'{items}{reactum} @ [{copies}]; {ONE_RULE}')
             for steps, reactum in ((1, f'A.({sites})'), (2, sites), (2, f'{sites} | C'))]
    pairs = CONTROLS + 'big s = ' + ' | '.join(['C'] * 65 + ['E{x}'] * 64) + '; react q = C | E{y} --> A.1 | {y}; '
    found += [(f'run --steps 3 --seed {seed}', pairs + ONE_RULE.replace('{r}', '{q}')) for seed in range(3)]
    pairs += 'react t = E{y} | C --> B{y}.1; '
    found += [(f'run --steps 2 --seed {seed}', pairs + ONE_RULE.replace('{r}', '{q, t}')) for seed in range(2)]
    return found


def run_cases():
    """Words and inputs."""
    models = []
    for each in entries(COPIES) + entries(LINKS) + entries(CONDITIONS):
        host, rule = each.split(' : ')
        models.append(f'{CONTROLS}big s = {host}; react r = {rule}; {ONE_RULE}')
    models += [f'{CONTROLS}{PREDICATES}big s = {init}; {rules} begin brs {PARAMETERS}init s; rules = [ {classes} ]; '
               f'preds = {{ {predicates} }}; end' for init, rules, classes, predicates in CLASSES]
    found = [(f'run {options}', model) for model in models for options in OPTIONS] + limit_cases()
    found += [('run', f'{CONTROLS}big s = A.A.C; react r = A.id --> id; {ONE_RULE}')]
    found += [(f'trial --size {size}', '') for size in (1, 2, 7)] + [('trial', 'ctrl'), ('trial --seed 3 --steps 1', '')]
    return [(words.split(), text.encode('latin1')) for words, text in found]
