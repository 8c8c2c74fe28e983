"""The cases made by hand: models, runs, listings and words."""
from .model_cases import EMPTY_BLOCK, entries, model_cases
from .mutations import listing_bytes
from .replay_cases import replay_cases
from .rows import EMPTY, listing
from .run_cases import run_cases

SMALL = ['signature 2', 'A 0 normal', 'B 0 atomic', *listing(1, ['n0'], [], [], [], ['0 A r0']),
         *listing(1, [], [], [], [], ['1 B r0'])]
LARGE = ['signature 4', 'K(3,"a b,(") 2 normal', 'K 1 atomic', 'A 0 normal', 'Z("") 16 normal',
         *listing(2, ['r1', 'n5'], ['begin #7', 'x =y', '@2.0 =y', '@10.0 #7', '~3 =@1.1'], ['y', '@1.1', '~2147483647'],
                  [7, 2147483647], ['0 K(3,"a b,(") r0 #7 =y', '5 A n0', '9 Z("") r1' + ' #7 =y' * 6
                                    + ' =~2147483647 #2147483647 =@1.1 =y']),
         *listing(2, ['n2147483647'], ['~0 =~3'], ['begin', 'x', '@2.0', '@10.0', '~3'], [8],
                  ['1 K r0 =x', '2 K(3,"a b,(") r1 #8 =begin', '2147483647 A n2'])]
LABELS = entries(r"""
K()   K(-0)   K(01)   K(1,)   K(,1)   K( 1)   K(1, 2)   K("a)   K("a"b)   K(a)   K(1   K(1))   K(+1)   K(-)
K(9223372036854775807)   K(9223372036854775808)   K(-9223372036854775808)   K(-9223372036854775809)   K(0)   K(1)(2)
K(1)x   k   _K   K.   K'_a0Z   K(" ")   K("","")   K(1;2)   K ("a")   "K"   K("a""b")   K(1"a")
K(999999999999999999999999999)   K(1,-1,"x",0)   K("normal 0")
""")
NAMES = entries("""
x   X   begin   x1   1x   _x   x'   x.y   @0.0   @0   @.0   @0.   @00.0   @0.0.0   @2147483648.0   ~0   ~   ~00   ~1.1
=x   #1   @1.1x
""")
ORDER = ['a', 'a0', "a'", 'aA', 'a_', 'aa', 'b', 'zz', '@0.5', '@0.10', '@2.0', '@10.0', '~1', '~2', '~10']
# Bigraphs whose rows break rules: sites; inner names; outer names; edges; nodes.
ROWS = entries("""
n3;;;;5 A r0,3 A r0   n5;;;;5 B r0,5 A r0   n5;;;;5 A r0,5 B r0   ;;;;0 A n1,1 A n9   ;;;;0 A n1,1 A n0   ;;;;0 A n0
;;;;0 B n0   ;;;;0 D r0 #1   ;;;;0 D r0   ;;;;0 D n0   ;;;;0 D n5   ;;;;0 A n1,1 A r1   ;;;;0 Q n0   n0;;;;0 Q r0
n0;;;;0 B n0   r0,n0,r1;;;;   ;;;;1 A r0,1 A n1   ;;;;1 A n1,1 A r0   ;;;;1 B r0,2 A n1,3 A n2   ;;;;0 A n2,1 A r0,2 B n0
;;;;0 A n2,1 A n9,2 A n1   ;;;1,2,2,1;   ;;y,x;;   ;;~1,x;;   ;x #1,x #1;;1;   ;y =x,x #9;x;;   ;x =y;y,y;;
;;x;0,1;0 D r0 #1 =x   ;;;1;0 D r0 =@0.0 #1   ;;;1;0 A r0 #1   ;;;;0 A r0 #1   ;;;;0 A r0,1 A n4,2 A n4,3 A n2,4 A n3
n1,n0;;;;0 A r0,1 B r0   ;;;;5 A n3,3 A r0,5 A r0   ;;;;2147483648 A r0
""")
WORDS = ['', 'check check', '-- check', 'check --', '-- -- check', '-- check --', '-', '--most 5 -- check', '--most -- check',
         'check --most', 'check --most=', 'check --most 05', 'check --most 0', 'check --most 1000001', 'check --workers 65',
         'check --steps 0', 'check --seed 18446744073709551616', 'check --seed 018446744073709551615', 'check --size 301',
         'check --most 000000000000001000000', 'check --explain --explain', 'check --explain=', 'check --help', 'check --mos 5',
         'check --most +5', 'check --most=5=6', '--most check 5', 'check -- --most 5', 'check --most --workers 5', 'run',
         'run --workers 64', 'run --workers 0', 'run --steps 100001', 'run --seed 18446744073709551616', 'run -- --seed 1', 'run run',
         'trial --size 0', 'trial --size 301', 'trial trial', 'trial --size 3 --workers 64 --explain',
         'Check', 'check --most 5 --workers 2 --steps 3 --seed 4 --size 5 --explain']
ROOMS = ('ctrl Building = 0; ctrl Room = 0; atomic ctrl Agent = 1; '
         'big s = Building.(Room.1 | Room.1 | Room.1 | Agent{a} | Agent{b}); react a = Building.id --> Building.id; '
         'react enter = Agent{x} | Room.id --> Room.(Agent{x} | id); begin brs init s; rules = [ {a}, {enter}, {enter} ]; end')


def changed(lines, place, new):
    return lines[:place] + new + lines[place + 1:]


def listing_cases():
    """The lines of listings; None takes the line feed before it."""
    found = [SMALL, LARGE, SMALL + ['x'], SMALL + [''], SMALL[:-1], SMALL + [None]]
    for place, line in enumerate(LARGE):
        found += [changed(LARGE, place, new) for new in ([], [line, line], [line + ' '], [line + '\r'], [''])]
        digits = line[len(line.rstrip('0123456789')):]
        if digits:
            found += [changed(LARGE, place, [line[:-len(digits)] + new])
                      for new in ('0', '0' + digits, '65536', '65537', '2147483648', str(int(digits) + 1))]
    for label in LABELS:
        text = '\n'.join(SMALL).replace('A 0 normal', label + ' 0 normal')
        found += [text.replace('0 A r0', f'0 {label} r0').split('\n'), text.split('\n')]
    for name in NAMES:
        found.append(['signature 0', *listing(0, [], [f'{name} =q'], ['q'], [], []), *listing(0, [], [], [name], [], [])])
        found.append(['signature 0', *listing(0, [], [f'z {name}'], ['x'], [1], []), *listing(0, [], [], ['z'], [], [])])
    for one in ORDER:
        found += [['signature 0', *listing(0, [], [f'{one} =q', f'{two} =q'], ['q'], [], []),
                   *listing(0, [], [], [one, two], [], [])] for two in ORDER[::2]]
    for parts in ROWS:
        big = listing(1, *[part.split(',') if part else [] for part in parts.split(';')])
        controls = ['signature 3', 'A 0 normal', 'B 0 atomic', 'D 2 normal']
        found += [controls + big + listing(0, [], [], [], [], []), controls + listing(1, ['r0'], [], [], [], []) + big]
    for word, most in (('signature', 4096), ('bigraph', 65536), ('sites', 65536), ('nodes', 65536)):
        found += [['signature 0' if word != 'signature' else f'{word} {count}'] + [
            f'{word} {count}' if line.startswith(word) else line for line in EMPTY] + EMPTY for count in (most, most + 1)]
    return found


def cases():
    """Each case: its words and its input."""
    found = model_cases() + run_cases() + replay_cases()
    found += [(['compose'], listing_bytes(lines)) for lines in listing_cases()]
    found += [(words.split(), f'big s = 1; {EMPTY_BLOCK}'.encode()) for words in WORDS]
    found += [(words, b'') for words in (['check', ''], ['', 'check'], ['check', '--most', ''], ['check', '--most', '\u0665'])]
    for most in range(1, 8):
        found += [(['match', '--most', str(most)], ROOMS.encode()), (['match', f'--most={most}', '--explain'], ROOMS.encode())]
    return found
