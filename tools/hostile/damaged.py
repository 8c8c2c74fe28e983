"""Texts that are no models: one token of 8 MiB, one again and again, bytes and tokens at random, models with damages."""
import pathlib
import random

from .case import accepted, damaged, refused
from .texts import ROWS, block, filled, joined

EXAMPLES = pathlib.Path(__file__).parents[2] / 'examples' / 'models'
TOKENS = (
    'atomic begin big brs ctrl ctx end fun id if in init int merge param preds react rules string --> || | + - * / . , ; : = '
    '{ } ( ) [ ] @ ! 0 1 7 42 "a" x y s A N P'
).split()


def before(front, word, behind=''):
    """A word again and again behind the beginning of a statement."""
    return lambda: filled(front, word, behind)


def alone(word):
    """A word again and again."""
    return before('', word)


def random_bytes(seed, bytes_of, size):
    """Bytes at random, from a few or from all."""
    return lambda: bytes(random.Random(seed).choices(bytes_of, k=size))


def random_tokens(seed, count):
    """Tokens at random."""
    return lambda: ' '.join(random.Random(seed).choices(TOKENS, k=count))


def with_damages(name, seed):
    """A model of the examples with one to three damages: bytes that are changed, taken away, put in, moved or doubled."""
    def make():
        draw = random.Random(f'{name} {seed}')
        text = bytearray((EXAMPLES / name).read_bytes())
        for _ in range(draw.randint(1, 3)):
            damage(draw, text)
        return bytes(text)

    return make


def damage(draw, text):
    """Changes the text at a place."""
    first = draw.randrange(len(text))
    last = min(len(text), first + draw.choice([1, 1, 2, 8, 40]))
    piece = bytes(text[first:last])
    kind = draw.randrange(5)
    if kind == 0:
        text[first:last] = b''
    elif kind == 1:
        text[first:last] = draw.choice(TOKENS).encode()
    elif kind == 2:
        text[first:last] = piece * draw.choice([2, 2, 20])
    elif kind == 3:
        text[first] = draw.randrange(256)
    else:
        at = draw.randrange(len(text))
        text[at:at] = piece


def long_names():
    """One name of 100,000 letters for a control, a name, a bigraph and a rule."""
    word = 'a' * 100_000
    return f'atomic ctrl X{word} = 1;\nbig {word} = X{word}{{{word}}};\nreact {word} = X{word}{{{word}}} --> {word};\n' + block(word, init=word)


def long_label():
    """A text of 8 MiB as the argument of a rule."""
    front = 'atomic ctrl A = 0; big s = A; fun react r(n) = A --> A; string n = "'
    return filled(front, 'a', '"; begin brs init s; rules = [{r(n)}]; end')


def names(count):
    """Names of a bigraph, each on its own."""
    return f'big s = {{{joined(",", lambda n: f"x{n}", count)}}};\n' + block()


SEEDS = range(4)

CASES = [
    # one token
    refused('token_name', alone('a'), '31 Unexpected at 1:1'),
    refused('token_control', alone('A'), '31 Unexpected at 1:1'),
    refused('token_number', alone('9'), '23 NumberTooLarge at 1:1'),
    refused('token_zeros', alone('0'), '31 Unexpected at 1:1'),
    refused('token_text', before('string s = "', 'a', '"'), '31 Unexpected at 1:8388609'),
    refused('token_open_text', before('string s = "', 'a'), '22 OpenString at 1:12'),
    refused('token_comment', alone('#'), '53 NoBlock at 1:8388609'),
    accepted('token_defined', before('ctrl A', 'a', ' = 0; big s = 1; begin brs init s; rules = []; end')),
    accepted('token_zeros_read', before('ctrl A = ', '0', '16; big s = 1; begin brs init s; rules = []; end')),
    accepted('token_argument', long_label, count=1),
    # one token again and again
    *(refused(f'many_{name}', alone(word), said) for name, word, said in [
        ('brackets', '(', '31 Unexpected at 1:1'),
        ('semicolons', ';', '31 Unexpected at 1:1'),
        ('quotes', '"', '31 Unexpected at 1:1'),
        ('zero_bytes', '\0', '21 BadByte at 1:1'),
        ('ends', 'end ', '31 Unexpected at 1:1'),
        ('lines', '\n', '53 NoBlock at 8388609:1'),
    ]),
    *(refused(f'opened_{name}', before(front, word), said, mebibytes=2048) for name, front, word, said in [
        ('brackets', 'big s = ', '(', '32 TooDeep at 1:265'),
        ('closures', 'big s = ', '/x ', '32 TooDeep'),
        ('signs', 'int n = ', '-', '32 TooDeep'),
        ('braces', 'big s = ', '{', '31 Unexpected at 1:10'),
        ('nestings', 'big s = ', '1 .', '32 TooDeep'),
        ('terms', 'big s = 1', '|1', '31 Unexpected'),
        ('controls', '', 'atomic ', '31 Unexpected at 1:8'),
    ]),
    refused('operands', before('atomic ctrl A = 0; big s = A', '|A', ';'), '52 TooLarge nodes', mebibytes=3072),
    refused('terms_in_one', before('big s = 1', '|1', ';'), '52 TooLarge terms', mebibytes=3072),
    refused('sums', before('int n = 1', '+1', ';'), '53 NoBlock', mebibytes=2048),
    refused('values_in_one', before('int n = {1', ',1', '};'), '52 TooLarge values', mebibytes=2048),
    refused('empty_classes', before('big s = 1; begin brs init s; rules = [{}', ',{}'), '31 Unexpected'),
    refused('equal_ports', before('ctrl A = 1; big s = A{x', ',x', '};'), '43 WrongPorts', mebibytes=2048),
    refused('equal_arguments', before('fun ctrl A(x) = 1; big s = A(1', ',1', ');'), '45 WrongArguments', mebibytes=2048),
    refused('equal_formals', before('fun ctrl A(x', ',x', ') = 1;'), '42 DuplicateName', mebibytes=2048),
    # names
    accepted('long_names', long_names, count=1),
    accepted('names', lambda: names(ROWS)),
    accepted('names_million', lambda: names(1_000_000)),
    accepted('equal_names', before('big s = {x', ',x', '}; begin brs init s; rules = []; end')),
    # at random
    *(refused(f'random_bytes_{seed}', random_bytes(seed, range(256), 1_000_000), '') for seed in SEEDS),
    *(refused(f'random_letters_{seed}', random_bytes(seed, b'abAB01 \n|;.(){}"#', 1_000_000), '') for seed in SEEDS),
    *(refused(f'random_tokens_{seed}', random_tokens(seed, 200_000), '31 Unexpected') for seed in SEEDS),
    *(damaged(f'damaged_{name}_{seed}', with_damages(f'{name}.model', seed))
      for name in ['agents', 'building', 'ccs', 'net', 'philosophers', 'wireless'] for seed in range(12)),
]
