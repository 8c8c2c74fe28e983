"""The tokens of a text, by docs/LANGUAGE.md, "Tokens" and "Refused texts"."""
from typing import NamedTuple

from .refusals import Refusal

LOWER = b'abcdefghijklmnopqrstuvwxyz'
UPPER = b'ABCDEFGHIJKLMNOPQRSTUVWXYZ'
DIGITS = b'0123456789'
LATER = LOWER + UPPER + DIGITS + b"_'"
KEYWORDS = ('atomic begin big brs ctrl ctx end fun id if in init int merge param preds react rules string').split()
# The longer ones first.
SYMBOLS = ['-->', '||', '|', '+', '-', '*', '/', '.', ',', ';', ':', '=', '{', '}', '(', ')', '[', ']', '@', '!']
LARGEST = 9223372036854775807
SMALLEST = -9223372036854775808


class Token(NamedTuple):
    """A token. Its kind is lower, upper, zero, one, num, text, a keyword, or a symbol in quotes, as in the grammar."""
    kind: str
    start: int
    end: int


def end_of(text, start, allowed):
    """Where the bytes from `start` on that are all allowed end."""
    while start < len(text) and text[start] in allowed:
        start += 1
    return start


def number_of(digits, most):
    """The number that the digits spell, or None where it is above `most`."""
    shorter = digits.lstrip(b'0') or b'0'
    if len(shorter) > len(str(most)):
        return None
    value = int(shorter)
    return value if value <= most else None


def tokens(text):
    """The tokens of the whole text; a text that cannot be cut is refused."""
    found, at = [], 0
    while at < len(text):
        if text[at] in b' \t\r\n':
            at += 1
        elif text[at] == ord('#'):
            end = text.find(b'\n', at)
            at = len(text) if end < 0 else end
        else:
            found.append(token_at(text, at))
            at = found[-1].end
    return found


def token_at(text, start):
    """The token that begins there."""
    byte = text[start]
    if byte in LOWER or byte in UPPER:
        end = end_of(text, start, LATER)
        word = text[start:end].decode('ascii')
        return Token('upper' if byte in UPPER else word if word in KEYWORDS else 'lower', start, end)
    if byte in DIGITS:
        return number_at(text, start)
    if byte == ord('"'):
        return text_at(text, start)
    for symbol in SYMBOLS:
        if text.startswith(symbol.encode(), start):
            return Token(f'"{symbol}"', start, start + len(symbol))
    raise Refusal(21, start)


def number_at(text, start):
    end = end_of(text, start, DIGITS)
    if text[end:end + 1] == b'.' and end_of(text, end + 1, DIGITS) > end + 1:
        raise Refusal(24, start)
    digits = text[start:end]
    if number_of(digits, LARGEST) is None:
        raise Refusal(23, start)
    return Token('zero' if digits == b'0' else 'one' if digits == b'1' else 'num', start, end)


def text_at(text, start):
    end = start + 1
    while end < len(text) and text[end] not in b'"\n':
        end += 1
    if text[end:end + 1] != b'"':
        raise Refusal(22, start)
    for at in range(start + 1, end):
        if not 0x20 <= text[at] <= 0x7E:
            raise Refusal(21, at)
    return Token('text', start, end + 1)
