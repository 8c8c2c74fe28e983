"""Small damage to models (as lists of words) and to listings (as lists of lines), and the layout of models."""
import re

from .tokens import KEYWORDS

OPERATORS = ['|', '||', '+', '*', '.']
NUMBERS = ['0', '1', '2', '3', '17', '16', '65536', '65537', '4097', '9223372036854775807', '00', '0', '1', '2',
           '9223372036854775808']
AROUND = [['(', ')'], ['/', 'x'], ['id', '|'], ['0', '||'], ['1', '|'], ['-'], ['id', '{', 'x', '}', '||'], ['A', '.'],
          ['merge', '(', '2', ')', '*']]
BEHIND = [['+', '1'], ['/', '0'], ['+', '"a"'], ['*', '9223372036854775807'], ['-', 'n'], ['|', 'id'], ['.', '1'],
          ['||', 'id', '{', 'y', '}'], ['(', '1', ')'], ['{', 'x', '}'], ['|', '/', 'x', '1'], ['@', '[', '0', ']'],
          ['*', 'id']]
STRANGE = ['$', '\x00', '\xff', '"', '1.5', '_', "'", '^', '\x0b', '#', '&', '<', '>']
WORD = re.compile(r'"[^"]*"|-->|\|\||[A-Za-z][A-Za-z0-9_\']*|[0-9]+|\S')


def words_of(lines):
    """The words of the lines of a model, with a line feed behind each line."""
    return [word for line in lines for word in WORD.findall(line) + ['\n']]


def of_same_kind(random, words, word):
    if word in KEYWORDS:
        return random.choice(KEYWORDS)
    if word[0].islower():
        return random.choice([each for each in words if each[0].islower() and each not in KEYWORDS] + ['u', 'x', 's', 'r', 'n'])
    if word[0].isupper():
        return random.choice([each for each in words if each[0].isupper()] + ['Z'])
    if word[0].isdigit():
        return random.choice(NUMBERS)
    for group in (OPERATORS, list('{(['), list('})]')):
        if word in group:
            return random.choice(group)
    return random.choice(['"a"', '0', '"', '"\x7f"', '"\t"'] if word[0] == '"' else words)


def damaged(random, words):
    """The words of a model with one change."""
    words = list(words)
    places = [place for place, word in enumerate(words) if word != '\n']
    place, other, chance = random.choice(places), random.choice(places), random.random()
    if chance < 0.55:
        words[place] = of_same_kind(random, words, words[place])
    elif chance < 0.62:
        del words[place]
    elif chance < 0.67:
        words.insert(place, words[place])
    elif chance < 0.72:
        words[place], words[other] = words[other], words[place]
    elif chance < 0.78:
        words.insert(place, words[other])
    elif chance < 0.83:
        lines = ' '.join(words).split('\n')
        one, two = random.randrange(len(lines)), random.randrange(len(lines))
        lines[one], lines[two] = lines[two], lines[one]
        words = words_of(lines)
    elif chance < 0.88:
        words[place:place] = random.choice(AROUND)
    elif chance < 0.93:
        words[place + 1:place + 1] = random.choice(BEHIND)
    elif chance < 0.96:
        words[place] = random.choice(STRANGE)
    else:
        words = words[:place]
    return words


def laid_out(random, words):
    """The bytes of a model, with gaps of one of three styles between its words."""
    style, written = random.random(), ''
    for word in words:
        if word == '\n':
            written += random.choice(['\n', '\r\n', '\n\n', '\t\n']) if style > 0.7 else '\n'
        elif style < 0.4:
            written += word + ' '
        elif style < 0.7:
            joins = word[-1].isalnum() or word[-1] in "_'"
            gaps = ['\n'] if random.random() < 0.1 else [' ', ' ', '\t', '  '] if joins else ['', ' ', '']
            written += word + random.choice(gaps)
        else:
            written += word + random.choice([' ', ' ', '\n', '\r', '\t', ' # c "\xe9 $\n', '#\n'])
    return (written.rstrip('\n ') if random.random() < 0.2 else written).encode('latin1')


FIELDS = [
    (r'\d+', ['0', '1', '2', '3', '5', '01', '65536', '65537', '2147483647', '2147483648', '4096', '4097', '-1', '', '16',
              '17', '4', '6', '00', '+1', '99999999999']),
    (r'[nr]\d+', ['r0', 'r1', 'r2', 'n0', 'n1', 'n3', 'n5', 'n9', 'r2147483647', 'n2147483648', 'r00', 'n', 'r']),
    (r'[#=].*', ['#0', '#1', '#10', '#x', '#', '#2147483648', '=x', '=y', '=@0.0', '=~0', '=@2.0', '=', '=X', '=@1', '=@01.0',
                 '=0']),
    (r'normal|atomic', ['normal', 'atomic', 'passive', 'Normal', '']),
    (r'[A-Z].*', ['A', 'B', 'K', 'K()', 'K(-0)', 'K(00)', 'K("")', 'K(1,)', 'K(9223372036854775808)', 'K(1 ,2)', 'a', 'K(1)x',
                  'K("\x7f")']),
    (r'(?s:.*)', ['x', 'X', '@0.0', '~1', '@1.00', '~', '@.1', 'sites', 'inner', 'outer', 'edges', 'nodes', 'bigraph', "x'",
                  '_x'])]


def damaged_listing(random, lines):
    """The lines of a listing with one change; the last line lacks its line feed where a None stands behind it."""
    lines = list(lines)
    place, chance = random.randrange(len(lines)), random.random()
    line = lines[place] or ''
    if chance < 0.15:
        del lines[place]
    elif chance < 0.22:
        lines.insert(place, line)
    elif chance < 0.30:
        other = min(place + 1, len(lines) - 1)
        lines[place], lines[other] = lines[other], line
    elif chance < 0.75:
        fields = line.split(' ')
        field = random.randrange(len(fields))
        choices = next(choices for form, choices in FIELDS if re.fullmatch(form, fields[field]))
        fields[field] = random.choice(choices)
        lines[place] = ' '.join(fields)
    elif chance < 0.80:
        lines[place] = random.choice([line + ' ', ' ' + line, line + '\r', line.replace(' ', '  ', 1),
                                      line.replace(' ', '\t', 1), line + '\x00', '', line + ' #0', line + ' =x'])
    elif chance < 0.85:
        lines.append(random.choice(['x', '', ' ', 'bigraph 0']))
    elif chance < 0.92:
        lines[place:] = [line[:random.randint(0, len(line))], None]
    else:
        fields = line.split(' ')
        random.shuffle(fields)
        lines[place] = ' '.join(fields)
    return lines


def listing_bytes(lines):
    """The bytes of lines, up to the first None, which takes the line feed before it."""
    if None in lines:
        return '\n'.join(lines[:lines.index(None)]).encode('latin1')
    return ''.join(line + '\n' for line in lines).encode('latin1')
