"""Random models of a fixed outline: two faulty parts that meet, arithmetic, and beginnings of models."""
from .tokens import KEYWORDS, SYMBOLS

BASE = ('ctrl A = 0; atomic ctrl C = 0; ctrl P(x) = 0; ctrl B = 1; big s = A.1; big f(x) = P(x).1; big h = id; big g = id{x};\n'
        'react r = A.1 --> 1; react e(x) = P(6 / x).1 --> 1; big pa = A.1; big pf(x) = P(6 / x).1; int n = {2,3,2};\n')
BLOCK = '\nbegin brs init s; rules = [ {r} ]; end'
PARTS = ['Z', 'A{x}.1', 'A(1).1', 'P.1', 'id.id{x}', '(id{x}).1', 'A.(1 || 1)', '(id * 0)', '({x} + {x})', '(id{x} | id{x})',
         'C.1', 'C.0', 'C.Z', 'id(65537)', 'merge(65537)', 'P(1/0).1', 'P("a" + 1).1', 'P(9223372036854775807 + 1).1', 's(1)',
         'f', 'f(1/0)', 'P(y).1', 'f(y)', '{x}', 'id{x}', '1', 'A.1']
SIDES = ['Z.1', 'A.1', 'A.id', 'id', '1', '0', '{x}', 'id{x}', 'P(1/0).1', 'A.(1 || 1)', 'A.1 || A.1', 'B{x}.1', '/x B{x}.1',
         'B{x}.(id | id)', '{x} | A.1', 'P("a").1']
TAILS = ['', '@ [0]', '@ []', 'if A.1 in ctx', 'if ! 1 in param', 'if B{x}.1 in ctx, id in\nparam', '@ [0,0] if Z in ctx',
         'if P(1/0).1 in ctx @ [1]']
INITS = ['s', 'u', 's(1)', 'f(1/0)', 'f(n)', 'h', 'g', 'f', 'f(1)']
CLASSES = ['{r}', '{w}', '{r(1)}', '{e(1/0)}', '{e(n)}', '{e(m)}', '{e}', '{e(n / 0)}', '{e("a" + n)}', '{e(0)}']
PREDICATES = ['{pa}', '{pz}', '{s(1)}', '{pf(1/0)}', '{pf(n)}', '{pf(m)}', '{h}', '{}', '{pf(0)}']
NUMBERS = ['0', '1', '2', '3', '7', '10', '9223372036854775807', '9223372036854775806', '4611686018427387904', '3037000500',
           '4294967296', '2147483648', '4096', '00', '0012']
COVER = '''atomic fun ctrl A ( x , y ) = 2 ; fun atomic ctrl A = 0 ; fun ctrl B = 1 ; ctrl C = 0 ; fun big s ( x , y ) =
A ( x , y + 1 ) { a , b } . / z D { } | ( 1 || 0 ) * id ( 1 , { x , y } ) + id { x }
|| merge ( 2 ) . id . { } * t ( 1 , 2 ) . t ;
fun react r ( x ) = A --> B @ [ 0 , 1 ] if ! A in ctx , B in param ; react q = 1 --> 0 if 1 in ctx @ [ ] ;
react z = 1 --> 1 @ [ 2 ] ; int n = { 1 , 2 } ; int m = [ 1 : 2 : 3 ] ; int k = - ( 1 + 2 * 3 / x - "a" ) ;
string t = { "a" , "b" } ; string u = "c" ; begin brs int n = 1 ; string v = "b" ; init s ( 1 , 2 ) ;
rules = [ { r ( n ) , q } , ( z ) , { } ] ; preds = { p , q ( 1 ) } ; end'''.split()
WORDS = ['a', 'A', '0', '1', '2', '"t"', *KEYWORDS, *SYMBOLS]


def pair_of_faults(random):
    """A model with two parts, each of which may be refused."""
    chance = random.random()
    if chance < 0.4:
        one, two = random.choice(PARTS), random.choice(PARTS)
        return f'{BASE}big q = {one} {random.choice(["|", "||", "+", "*", "."])}\n{two};{BLOCK}'
    if chance < 0.7:
        return f'{BASE}react\nq = {random.choice(SIDES)}\n--> {random.choice(SIDES)} {random.choice(TAILS)};{BLOCK}'
    return (f'{BASE}begin brs\ninit {random.choice(INITS)};\nrules = [ {random.choice(CLASSES)} ];\n'
            f'preds = {random.choice(PREDICATES)};\nend')


def formula(random, depth, visible):
    chance = random.random()
    if depth == 0 or chance < 0.3:
        if visible and random.random() < 0.5:
            return random.choice(visible)
        if random.random() < 0.02:
            return random.choice(['"a"', '"-1"', '""'])
        return random.choice(NUMBERS if random.random() < 0.35 else ['1', '2', '3', '5', '7', '1', '2'])
    if chance < 0.4:
        return '-' + random.choice(['', ' ', '\n']) + formula(random, depth - 1, visible)
    if chance < 0.6:
        return f'({formula(random, depth - 1, visible)})'
    text = formula(random, depth - 1, visible)
    for _ in range(random.choice([1, 1, 2, 3])):
        gaps = [random.choice([' ', '\n', '']) for _ in range(2)]
        text += gaps[0] + random.choice('++--**/') + gaps[1] + formula(random, depth - 1, visible)
    return text


def arithmetic(random):
    """A model whose statements are arithmetic."""
    depth, lines = random.randint(1, 4), ['fun ctrl K(x,y) = 0;']

    def some(deep=depth, visible=()):
        return formula(random, deep, visible)

    for number in range(random.choice([1, 4, 8])):
        step = random.choice(['1', '2', some(1)])
        value = random.choice(['1', '0', '-3', '"t"', '9223372036854775807', some(1)])
        lines.append(random.choice([
            f'int n{number} = {some()};', f'int n{number} = {{{some()}, {some()}, {some()}}};',
            f'int n{number} = [{some(1)}:{step}:{some()}];', f'big b{number} = K({some()},{some()}).1;',
            f'big c{number}(a,b) = K({some(depth, "ab")},{some(depth, "ab")}).1;\nbig d{number} = c{number}({value},1);']))
    return '\n'.join(lines) + '\nbig s = K(1,2).1; begin brs init s; rules = []; end'


def beginning(random):
    """The beginning of a text that has every form of the grammar, then a word that may not fit."""
    return ' '.join(COVER[:random.randint(0, len(COVER))] + [random.choice(WORDS)] + ['end begin'] * random.randint(0, 1))
