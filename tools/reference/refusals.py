"""What is refused: the codes and their names, by docs/REFUSALS.md."""

MODEL_CODES = {
    11: 'FacesDiffer', 12: 'SupportMeets', 13: 'NamesMeet', 14: 'InnerNamesMeet', 15: 'WidthsDiffer', 16: 'NoSuchName',
    17: 'HasInnerNames', 21: 'BadByte', 22: 'OpenString', 23: 'NumberTooLarge', 24: 'DecimalNumber', 31: 'Unexpected',
    32: 'TooDeep', 41: 'UnknownName', 42: 'DuplicateName', 43: 'WrongPorts', 44: 'AtomicHasChild', 45: 'WrongArguments',
    46: 'NotGround', 47: 'SidesDiffer', 48: 'BadMap', 49: 'NotSolid', 50: 'NumberOverflow', 51: 'ZeroDivisor',
    52: 'TooLarge', 53: 'NoBlock', 54: 'EmptyRange', 55: 'WrongKind'}
LISTING_CODES = {
    1: 'BadLine', 2: 'TooMany', 3: 'NotAscending', 4: 'Unknown', 5: 'WrongPorts', 6: 'AtomicHasChild', 7: 'Cycle',
    8: 'Extra', 9: 'DuplicateLabel'}


class Refusal(Exception):
    """A model is refused at an offset; the detail is the clause of 49 or the limit of 52."""

    def __init__(self, code, offset, detail=''):
        super().__init__(code, offset, detail)
        self.code, self.offset, self.detail = code, offset, detail

    def line(self, text):
        """The line that the program writes of it."""
        before = text[:self.offset]
        line, column = before.count(b'\n') + 1, self.offset - before.rfind(b'\n')
        detail = f' {self.detail}' if self.detail else ''
        return f'refused {self.code} {MODEL_CODES[self.code]}{detail} at {line}:{column}\n'


class BadListing(Exception):
    """A listing is refused at a line."""

    def __init__(self, code, line):
        super().__init__(code, line)
        self.code, self.line = code, line


class Fault(Exception):
    """An operation on bigraphs is not defined."""

    def __init__(self, code):
        super().__init__(code)
        self.code = code
