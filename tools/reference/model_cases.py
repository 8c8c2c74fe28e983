"""Models made by hand, as tables: entries stand on one line, with three spaces between each two.

Not among them, since the reference takes long for them: models with too many nodes, edges or terms (52).
"""

TOKENS = r"""
"   "a   ""   "#   " $   $ "   "a"a"   1.1   1 .1   1. 1   1.a   1..1   1.1.1   0x10   12.34   1e5   A.1.1   1a   00
9223372036854775807   9223372036854775808   00009223372036854775807   00009223372036854775808   9223372036854775808.0
99999999999999999999.5   99999999999999999999.x   99999999999999999999 1.1   --   -->   --->   ---->   ->   |||   ||||   ctrlA
ctrl_   ctrl'   _   '   A_'9z   big1   # a   ~   `   ^   %   &   ?   \   <   >   ;   big s = 1 .1;   big s = 1.1;
big s = 1.0.1;   big s = A.1.1;
"""
GRAMMAR = r"""
fun fun ctrl A = 0;   atomic big s = 1;   int n = {1,};   int n = [1:2];   string s = x;   ctrl A() = 0;   ctrl A = 016;
ctrl A = 0   big s = 01;   big s = id();   big s = merge;   big s = 1 / 1;   big s = A{x}(1);   react r = 1 --> 1 @ [] @ [];
react r = 1 --> 1 if 1 in ctx @ [] if 1 in ctx;   react r = 1 --> 1 if !!1 in ctx;   begin brs init s; rules = [{},]; end
begin brs init s; rules = [{)]; end   begin brs rules = []; init s; end   begin brs init s(); rules = []; end
begin brs init s; rules = []; end;   int n = --1;
"""
EXPRESSIONS = r"""
1 | 1   1 || 1   1 + 1   0 || 0   {x} | {x}   {x} || {x}   {x} + {x}   {x,x}   id{x} | id{x}   id{x} || id{x}   id{x} + id{x}
id{x} | id{y}   id * id   id * 1   0 * 0   merge(2) * (1 || 1)   merge(2) * 1   merge(0)   id{x} * {x}   id{x} * 0   {x} * 0
id(0,{x}) * {x}   id(1,{x}) * (A.1 | {x})   id(1,{x}) * B{x}.1   id(1) * B{x}.1   /x B{x}.1   /y B{x}.1   /x id{x}
/x (id{x} | B{x}.1)   /x /x B{x}.1   /x /y D{x,y}.1   /x D{x,x}.1   /x (B{x}.1 | /x B{x}.1)   /x B{x}./x B{x}.1   A.0
A.(1 || 1)   A.(id | id)   A.id{x}   id{x}.0   id(1,{x}).1   1.0   1 .1   0.0   {x}.{y}   {x}.{x}   merge(2).(A.1 || A.1)
merge(2).A.1   C.1   C.0   (C).1   (C).0   c.1   c.0   C.Z   C{}.0   C.(C.0)   E{x}.0   E{x}.{x}   (E{x}).{x}   B{x}.B{y}.1
B{x}.(id | {y})   (B{x}.id).B{y}.1   (A.id || A.id).(A.1 || 1)   (A.id || A.id).(id || A.1)   (A.id || A.id).A.1
(id | A.id).(A.1 || C)   (A.id || id{y}).B{y}.1   (A.id || id{y}) * B{y}.1   (B{y}.id || id{y}) * B{y}.1
/y ((B{y}.id || id{y}) * B{y}.1)   (/y B{y}.id || id{y}) * B{y}.1   /y (B{y}.id || id{y}) * B{y}.1   B{x}.1 | B{x}.1
B{x}.1 + B{x}.1   /x B{x}.1 + B{x}.1   B{x}.1 * 0   B{x}.1 | B{y}.1 || B{z}.1 + B{w}.1   A.1 + A.1 || A.1 | A.1 * 0
A.id * A.id * A.1   A.1 | A.id * A.1   id * A.id.1   /x B{x}.1 | B{x}.1   A./x B{x}.1   1 | /x B{x}.1 | B{x}.1
/x (B{x}.1 | id{x})   id(65536)   id(65537)   merge(65536)   id(65536) || 1   merge(65536) | id   merge(65536) * id(65536)
merge(4294967296)   id(4294967296,{x})   id(00065536)   C.id(65537)   s1   s1 | s1   s2(1)   s3("a")   s3(1) | s3(2)   f(1)
f(0)   /e f(2)   g(1/0,2)   g("a",1)   h(0)   D{x,y}.1 | /y (D{y,x}.1 | /x D{x,y}.1)   /a /b /c (B{c}.1 | B{a}.1 | B{b}.1)
/a (1 | B{a}.1) | /b {b} | /c B{c}.1   (/a B{a}.1) | (/b (/c D{b,c}.1))   ({x} || id) * A.1   ({y} || id{y} || id) * B{y}.1
(id(1,{y}) || B{y}.1) * B{y}.1   id(2,{x,y}) * (B{x}.1 || B{y}.1)   id(2,{y,y,x}) * (B{x}.1 || B{y}.1)
(A.id || id) * (A.1 || C)   A.(merge(2) | A.id | id).1   (1 | (1 || 1))   /a F{a,b,c,d,e,f,g,h,i,a,k,l,m,n,o,p}.1
"""
FORMULAS = r"""
1 + 1   "a" + 1/0   0 / "a"   ("a") + 1   1 + ("a")   -"a"   -("a")   (("a"))   "a"   "a" * 2 + 1   2 * ("a" + 1)   1/0 - "a"
1/0 + 1/0   9223372036854775807 + 1   9223372036854775807 + 1 - 1   -9223372036854775807 - 1   -9223372036854775807 - 2
-(-9223372036854775807 - 1)   (-9223372036854775807 - 1) / -1   (-9223372036854775807 - 1) / 1
(-9223372036854775807 - 1) * -1   (-9223372036854775807 - 1) / 0   4294967296 * 2147483648   4294967296 * -2147483648
4294967296 * 4294967296   -7 / 2   7 / -2   -7 / -2   1--1   1 - -1   2 * - 3 / - 2   8 / 2 / 2   8 / (2 / 2)   2 + 3 * 4
10 / 3 * 3   1 / 0 * 0   0 * (1 / 0)   1 / (1 - 1)   3037000500 * 3037000500   3037000499 * 3037000499
-3037000500 * 3037000500   9223372036854775807 - -1   -2 - 9223372036854775807   0 - 9223372036854775807 - 1
(1 + 9223372036854775807)   "a" + (1/0)   1/0 + ("a" + 1)   "x" * "y" / 0   5 / -0   x   x + 1/0   1/0 + x
"""
SETS = r"""
[1:1:4097]   [0:1:4096]   [1:0:5]   [5:1:4]   [5:1:5]   [9223372036854775806:2:9223372036854775807]
[-9223372036854775807 - 1:2251799813685248:9223372036854775807]
[-9223372036854775807 - 1:4503599627370496:9223372036854775807]
[-9223372036854775807 - 1:4504699407433728:9223372036854775807]   [1:"a":1/0]   ["a":0:1]   [5:1:"a"]   [1/0:"a":"b"]
[5:0:"a"]   [0:3:10]   [0:3:9]   [1:x:"a"+1]   [2:1:1/0]   [10000:1:1/0]   {"a", 1/0}   {1/0, "a"}   {1,1,1}   {x, 1/0}
{1/0, x}   {-1, 01, 2*3}   {("a")}
"""
NAMES = r"""
ctrl A = 0; ctrl A = 17;   ctrl A(x,y,x,y) = 17;   ctrl A = 0; ctrl A(x,x) = 0;   big s = 1; big s(x,x) = Z;
react r = 1 --> 1; react r = Z --> 1;   int n = 1; int m = n;   int n = 1; ctrl A(x) = 0; big s = A(n).1;
ctrl A(x) = 1; big s = A{y,z}.1;   ctrl A(x) = 1; big s = A(1,2){y,z}.1;   ctrl A(x) = 1; big s = A(u){y}.B;
big s(x) = 1; big t = s(u,v);   big s(x) = 1; big t = s(u);   big s = 1; big t = s(u);   big s = t; big t = 1;
ctrl A(x) = 0; big s = A(1/0).1 | Z;   ctrl A(x) = 0; big s = A("a" + 1).1 | A(1/0).1;
ctrl A(x) = 0; big s = A(1/0).id(65537);   ctrl Z = 0; react r = Z.1 --> Z.1 @ [5] if Y in ctx;
ctrl Z = 0; react r = Z.1 --> Z.1 @ [5] if 1 in ctx;   react r = 1 --> 0 if 1 in ctx;   react r = id{x} --> id{x};
ctrl Z = 1; react r = id{y} || Z{x}.1 --> {x,y} | 1;   ctrl Z = 0; react r = Z.(id | id) --> Z.id @ [1];
ctrl Z = 0; react r = Z.1 || id --> Z.1 || id;   ctrl Z = 0; react r = Z.id --> id @ [4294967296];
ctrl Z = 0; react r = Z.id --> id | id @ [0,0,0];   ctrl Z = 0; react r = Z.id --> id @ [00];
big s(x) = 1; begin brs int u = 1; init s(u); rules = [{r}]; end   big s(x) = id; begin brs init s(1/0); rules = []; end
big s = id; begin brs init s; rules = []; preds = {p}; end   big s = id; begin brs init s; rules = []; preds = {s}; end
big s = 0; begin brs init s; rules = []; preds = {s}; end
big s = id; begin brs int n = 2; int n = "a"; init s; rules = []; end
"""
RULES = r"""
{r(n)}   {r(n),r(m)}   {q(n,m)}   {q(m,n)}   {q(n,n)}   {q(m + n, m)}   {q(t,n)}   {r(n - n)}   {r(1),r(1)}   {r(n / m)}
{r(t + 1)}   {r(1 + t)}   {},{r(1)}   (r(1)),{r(2)},()   {r(1)},{q(1,2),z},{z}   {r(k)}   {r(1/0),r(k)}   {r(1,2)}
{q(1/0, "a" + 1)}   {q("a" + 1, 1/0)}   {z(1)}
"""
PREDICATES = 'p(n)   pp(n,m)   pp(m,t)   p(1),p(2)   p(n / m)   s   p   p(k)   z   s,p(1/0)   p(1/0),s   p(t + 1)   pp(n,n)'
EMPTY_BLOCK = 'begin brs init s; rules = []; end'
ONE_RULE = 'begin brs init s; rules = [{r}]; end'
FORMS = ('ctrl A = 0; ctrl B = 1; atomic ctrl C = 0; ctrl D = 2; atomic ctrl E = 1; ctrl F = 16; ctrl K(x) = 0; big c = C; '
         'big s1 = /x (B{x}.1 | B{y}.id); fun big s2 = 1; fun big s3(x) = K(x + 1).1; '
         'big f(n) = /e (B{e}.1 | K(n * 2).B{e}.1); big g(a,b) = f(a) | K(b / 1).1; big h(a) = A.g(a, 2 / a);\n')
USES = ('ctrl K(x) = 0; ctrl L(x,y) = 0; big s = 1; react r(x) = K(x).1 --> 1; react q(x,y) = L(x,y).1 --> K(y).1; '
        'int n = {3,1,3}; int m = [0:1:1]; string t = {"u","v w"}; big p(x) = K(x).1; '
        'big pp(x,y) = L(x,y).1; react z = K(7).1 --> 1; ')
PAIRS = 'ctrl K(x) = 0; big s = 1; react r(x,y) = K(x).1 --> 1; big p(x,y) = K(1).1; int n = [1:1:{}]; int m = [1:1:64]; '
SHOWN = [
    "big s = {a', a0, aA, a_, aa, a, b, a1, a10, a2, a9, a''}; " + EMPTY_BLOCK,
    'ctrl K(x,y) = 1; atomic ctrl L(x) = 2; big s = K(3,"a"){u}.(L(-1){u,v} | L("(,) "){u,u}) | '
    'K(3,"a"){w}.1 | K("3","a"){w}.1; ' + EMPTY_BLOCK,
    'ctrl K(x) = 0; big s = K(1).1; big t = K(2).1; big f(x) = K(x + 10).1; react r = K(3).1 --> K(4).1 if K(5).1 in ctx; '
    'react g(x) = K(x).1 --> K(x + 1).1 if K(x + 2).1 in param; begin brs init t; rules = [{g(9), r}]; preds = {f(1)}; end',
    'ctrl A = 0; ctrl B = 0; ctrl C = 0; ctrl D = 2; big f(n) = /a (D{a,b}.B.1 | /b D{b,a}.id); '
    'big s = /b (((A.id || f(1) || id{b}) * ((C.1 | B.1) || /c D{c,b}.1)) | f(2) * A.1); ' + EMPTY_BLOCK,
    'ctrl D = 2; big s = /x (/x D{x,z}.1 | /x /x D{z,x}.1 | {x}) | /z (D{z,x}.1); ' + EMPTY_BLOCK,
    'ctrl A = 0; ctrl D = 2; big q = /k /x /y (D{y,y}.1 | D{x,y}.id); big s = A.1; react r = /k /x A.D{x,x}.1 --> /k /y /z '
    '(D{z,y}.1 | D{y,z}.1) if q in ctx, ! /k /x /y D{y,x}.A.id in param @ []; '
    'begin brs init s; rules = [{r}]; preds = {q}; end']
MATCHED = [
    'ctrl A = 3; big s = A{b,a\',a_}.A{a0,aA,aa}.1; react r = A{z,x\',x_}.id --> {z,x\',x_} | id; ' + ONE_RULE,
    'ctrl A = 0; atomic ctrl F = 16; big s = /e /f A.(A.1 | ' + ' | '.join(
        'F{' + ','.join('efg'[(node + port) % 3] for port in range(16)) + '}' for node in range(12)) + '); '
    'react r = A.id --> id; ' + ONE_RULE,
    'ctrl A = 1; ctrl B = 0; big s = ' + ' '.join(f'/e{edge}' for edge in range(12)) + ' (' + ' | '.join(
        f'A{{e{edge}}}.1 | B.A{{e{(edge + 1) % 12}}}.1' for edge in range(12)) + '); react r = /e (A{e}.1 | B.A{e}.1) --> 1; '
    + ONE_RULE,
    'ctrl A = 0; big s = 1 || A.1 || 1 || (A.1 | A.A.1); react r = A.id | A.id --> 1 @ []; ' + ONE_RULE,
    'ctrl A = 0; ctrl B = 1; big s = /x A.(B{x}.(A.1 | A.1) | B{x}.A.1 | A.1); '
    'react r = A.(B{u}.id | id | B{v}.id) --> {u,v} | 1 @ []; ' + ONE_RULE]


def entries(table):
    return [entry for line in table.split('\n') for entry in line.split('   ') if entry]


def deep(depth):
    """Texts with so many symbols K or U above a token, or one more or fewer."""
    opened, closed = '(' * depth, ')' * depth
    return [f'big s = {opened}1{closed}; {EMPTY_BLOCK}', 'big s = ' + '/x ' * depth + f'1; {EMPTY_BLOCK}',
            'big s = ' + '1 . ' * depth + f'1; {EMPTY_BLOCK}', f'int n = {opened}1{closed};', 'int n = ' + '- ' * depth + '1;',
            f'ctrl A(x) = 0; big s = A({opened}1{closed}).1; {EMPTY_BLOCK}', f'big s = {opened}!', f'big s = {opened}' + '{x}',
            'ctrl B(x) = 0; big s = ' + opened[::2] + 'B(' + '-' * (depth // 2) + '1).1' + closed[::2] + f'; {EMPTY_BLOCK}']


def model_cases():
    """Words and inputs."""
    found = [('check', text) for text in entries(TOKENS) + entries(GRAMMAR)]
    found += [('show', f'{FORMS}big s =\n{each}; {EMPTY_BLOCK}') for each in entries(EXPRESSIONS)]
    found += [('show', f'{FORMS}big s = A.1; react r =\n{each} --> {each}; {ONE_RULE}') for each in entries(EXPRESSIONS)[::3]]
    found += [('check', f'{FORMS}react r = A.1 --> 1 if {each} in ctx;') for each in entries(EXPRESSIONS)[1::3]]
    found += [('show', f'ctrl K(x) = 0; big s = K({each}).1; {EMPTY_BLOCK}') for each in entries(FORMULAS)]
    found += [('check', f'int n = [{each} : 1 : 3];') for each in entries(FORMULAS)]
    found += [('show', f'{USES}int j = {each}; begin brs init s; rules = [{{r(j)}}]; end') for each in entries(SETS)]
    found += [('check', f'{each} {EMPTY_BLOCK}' if 'begin' not in each else each) for each in entries(NAMES)]
    found += [('show', f'{USES}begin brs init s; rules = [ {each} ]; end') for each in entries(RULES)]
    found += [('show', f'{USES}begin brs init s; rules = []; preds = {{ {each} }}; end') for each in entries(PREDICATES)]
    found += [('check', text) for depth in (254, 255, 256, 257) for text in deep(depth)]
    found += [('show', text) for text in SHOWN] + [('match --explain', text) for text in MATCHED]
    for most in (64, 65):
        found.append(('check', PAIRS.format(most) + 'begin brs init s; rules = [{r(n,m)}]; end'))
        found.append(('check', PAIRS.format(most) + 'begin brs init s; rules = []; preds = {p(n,m)}; end'))
    for count in (4096, 4097):
        found.append(('check', ''.join(f'ctrl A{number} = 0;\n' for number in range(count)) + f'big s = 1; {EMPTY_BLOCK}'))
        found.append(('check', f'int n = {{{",".join(["1"] * count)},"a"}};'))
        found.append(('check', 'string n = {' + ','.join(['"q"'] * count) + '};'))
    referred = 'big p0(x) = 1;\n' + ''.join(f'big p{number}(x) = p{number - 1}(x);\n' for number in range(1, 1024))
    found += [('check', f'{referred}big s = p{number}(1); {EMPTY_BLOCK}') for number in (1022, 1023)]
    return [(words.split(), text.encode('latin1')) for words, text in found]
