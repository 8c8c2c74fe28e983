"""Reads listings, by docs/FORMATS.md, and refuses them by docs/REFUSALS.md, "Codes of listings"."""
from .bigraphs import Bigraph
from .refusals import BadListing
from .tokens import DIGITS, LARGEST, LATER, LOWER, UPPER, end_of, number_of

MOST_CONTROLS = 4096
MOST_PORTS = 16
MOST_ROWS = 65536
LARGEST_NUMBER = 2147483647


class Lines:
    """The lines of the input, one after the other; `line` counts from 1."""

    def __init__(self, data):
        self.data, self.at, self.line = data, 0, 1

    def next(self):
        """The next line without its line feed, or None where it has none or nothing is left."""
        end = self.data.find(b'\n', self.at)
        if end < 0:
            return None
        found = self.data[self.at:end]
        self.at, self.line = end + 1, self.line + 1
        return found

    def count(self, word, most):
        """The number behind a word that has a line of its own."""
        line, found = self.line, self.next()
        front = word.encode() + b' '
        value = number_in(found[len(front):]) if found is not None and found.startswith(front) else None
        if value is None:
            raise BadListing(1, line)
        if value > most:
            raise BadListing(2, line)
        return value

    def rows(self, count, read):
        """So many lines, each read, with their numbers."""
        found = []
        for _ in range(count):
            line, text = self.line, self.next()
            row = None if text is None else read(text)
            if row is None:
                raise BadListing(1, line)
            found.append((line, row))
        return found


# ---- parts of lines; each function answers None where the bytes are not of the form


def number_in(text):
    if not text or end_of(text, 0, DIGITS) < len(text) or (len(text) > 1 and text[:1] == b'0'):
        return None
    return number_of(text, LARGEST_NUMBER)


def label_end(text, start):
    """Where the longest label that begins there ends."""
    if start >= len(text) or text[start] not in UPPER:
        return None
    name_end = end_of(text, start, LATER)
    at = name_end
    while text[at:at + 1] == (b'(' if at == name_end else b','):
        at = argument_end(text, at + 1)
        if at is None:
            return name_end
        if text[at:at + 1] == b')':
            return at + 1
    return name_end


def argument_end(text, start):
    if text[start:start + 1] == b'"':
        end = start + 1
        while end < len(text) and 0x20 <= text[end] <= 0x7E and text[end] != ord('"'):
            end += 1
        return end + 1 if text[end:end + 1] == b'"' else None
    first = start + (text[start:start + 1] == b'-')
    end = end_of(text, first, DIGITS)
    digits = text[first:end]
    if not digits or (len(digits) > 1 and digits[:1] == b'0') or (digits == b'0' and first > start):
        return None
    return None if number_of(digits, LARGEST + (first > start)) is None else end


def name_in(text):
    if text[:1] and text[0] in LOWER and end_of(text, 0, LATER) == len(text):
        return (0, text.decode())
    if text[:1] == b'@':
        node, dot, index = text[1:].partition(b'.')
        node, index = number_in(node), number_in(index)
        return (1, node, index) if dot and node is not None and index is not None else None
    edge = number_in(text[1:]) if text[:1] == b'~' else None
    return None if edge is None else (2, edge)


def place_in(text):
    number = number_in(text[1:]) if text[:1] in (b'n', b'r') else None
    return None if number is None else (text[:1].decode(), number)


def link_in(text):
    if text[:1] == b'#':
        edge = number_in(text[1:])
        return None if edge is None else ('#', edge)
    name = name_in(text[1:]) if text[:1] == b'=' else None
    return None if name is None else ('=', name)


def control_row(text):
    end = label_end(text, 0)
    fields = text[end:].split(b' ') if end else []
    if len(fields) != 3 or fields[0] or number_in(fields[1]) is None or fields[2] not in (b'normal', b'atomic'):
        return None
    return text[:end].decode('latin1'), number_in(fields[1]), fields[2].decode()


def inner_row(text):
    fields = text.split(b' ')
    name, link = (name_in(fields[0]), link_in(fields[1])) if len(fields) == 2 else (None, None)
    return None if name is None or link is None else (name, link)


def node_row(text):
    number, space, _ = text.partition(b' ')
    node, start = number_in(number), len(number) + 1
    end = label_end(text, start) if node is not None and space else None
    fields = text[end:].split(b' ') if end else []
    if len(fields) < 2 or fields[0]:
        return None
    place, links = place_in(fields[1]), [link_in(field) for field in fields[2:]]
    return None if place is None or None in links else (node, text[start:end].decode('latin1'), place, links)


# ---- signatures and bigraphs


def read_signature(lines):
    """The rows of a signature: label, arity, kind."""
    start = lines.line
    rows = []
    for _ in range(lines.count('signature', MOST_CONTROLS)):
        (line, row), = lines.rows(1, control_row)
        if row[1] > MOST_PORTS:
            raise BadListing(2, line)
        rows.append(row)
    labels = set()
    for place, row in enumerate(rows):
        if row[0] in labels:
            raise BadListing(9, start + 1 + place)
        labels.add(row[0])
    return rows


def read_bigraph(lines, signature):
    """The bigraph that stands there, in two passes."""
    regions = lines.count('bigraph', MOST_ROWS)
    parts = [lines.rows(lines.count(word, MOST_ROWS), read)
             for word, read in (('sites', place_in), ('inner', inner_row), ('outer', name_in), ('edges', number_in),
                                ('nodes', node_row))]
    return SecondPass(signature, regions, *parts).bigraph()


class SecondPass:
    """The rows of a bigraph, each with its line, judged one by one for the codes 3 to 7."""

    def __init__(self, signature, regions, sites, inner, outer, edges, nodes):
        self.signature, self.regions = signature, regions
        self.sites, self.inner, self.outer, self.edges, self.nodes = sites, inner, outer, edges, nodes
        self.controls = {}
        for number, row in enumerate(signature):
            self.controls.setdefault(row[0], number)
        self.first = {}
        for _, row in nodes:
            self.first.setdefault(row[0], row)
        self.edge_set, self.names = {edge for _, edge in edges}, {name for _, name in outer}
        self.reaching = {}

    def is_there(self, place):
        return place[1] < self.regions if place[0] == 'r' else place[1] in self.first

    def is_linked(self, link):
        return link[1] in (self.edge_set if link[0] == '#' else self.names)

    def is_atomic(self, place):
        if place[0] == 'r' or place[1] not in self.first:
            return False
        control = self.controls.get(self.first[place[1]][1])
        return control is not None and self.signature[control][2] == 'atomic'

    def reaches_a_region(self, place):
        """Whether the way up ends at a region that is there; the nodes on the way are noted."""
        way = []
        while place[0] == 'n' and place[1] in self.first and place[1] not in self.reaching:
            self.reaching[place[1]] = False
            way.append(place[1])
            place = self.first[place[1]][2]
        reached = place[1] < self.regions if place[0] == 'r' else self.reaching.get(place[1], False)
        self.reaching.update(dict.fromkeys(way, reached))
        return reached

    def faults_of_node(self, node, label, place, links):
        yield 4, label not in self.controls or not self.is_there(place) or not all(map(self.is_linked, links))
        yield 5, len(links) != self.signature[self.controls[label]][1]
        yield 6, self.is_atomic(place)
        yield 7, not self.reaches_a_region(place)

    def judge(self, rows, key, faults):
        """Refuses the first row that does not come behind the one before (where rows have a key), or has a fault."""
        before = None
        for line, row in rows:
            if key and before is not None and key(row) <= before:
                raise BadListing(3, line)
            for code, is_so in faults(row):
                if is_so:
                    raise BadListing(code, line)
            before = key and key(row)

    def bigraph(self):
        self.judge(self.sites, None, lambda place: [(4, not self.is_there(place)), (6, self.is_atomic(place))])
        self.judge(self.inner, lambda row: row[0], lambda row: [(4, not self.is_linked(row[1]))])
        self.judge(self.outer, lambda name: name, lambda name: [])
        self.judge(self.edges, lambda edge: edge, lambda edge: [])
        self.judge(self.nodes, lambda row: row[0], lambda row: self.faults_of_node(*row))
        nodes = {node: (self.controls[label], place, tuple(links)) for _, (node, label, place, links) in self.nodes}
        return Bigraph(nodes, self.edge_set, [place for _, place in self.sites], dict(row for _, row in self.inner),
                       self.regions, self.names)
