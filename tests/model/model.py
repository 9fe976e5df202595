"""What SPEC.md says, a second time: reading a tree, reading a policy, printing, canonicalising.

Written from the document alone, as a recursive descent over the text. It shares nothing with the definitions under crates/,
so what both get wrong is what the document says wrongly.
"""

import re

MOST_BYTES = 8192
MOST_DEPTH = 32
MOST_NODES = 256
NODE_WORDS = 2048
SPAN_WORDS = 512

STRING, ARRAY, OBJECT, FUNCTION = 1, 2, 3, 4
SKIP, RESPONSE_ONLY, FULL = 1, 2, 3
INCLUSIONS, EXCLUSIONS = 1, 2

# The number of a name is its place here.
NAMES = (
    None,
    b"default_certification",
    b"ValidationArgs",
    b"no_certification",
    b"certification",
    b"Certification",
    b"no_request_certification",
    b"request_certification",
    b"RequestCertification",
    b"certified_request_headers",
    b"certified_query_parameters",
    b"response_certification",
    b"ResponseCertification",
    b"certified_response_headers",
    b"response_header_exclusions",
    b"ResponseHeaderList",
    b"headers",
)

BLANKS = re.compile(rb"[ \t\n\r]*")
IDENTIFIER = re.compile(rb"[ \t\n\r]*([A-Za-z0-9_]*)[ \t\n\r]*")
CONTENT = re.compile(rb"([A-Za-z0-9-]*)[ \t\n\r]*")
STRING_BYTES = re.compile(rb"[A-Za-z0-9-]*")
WIDE = re.compile(rb"[\x80-\xff]")

KINDS = {b'"': STRING, b"[": ARRAY, b"{": OBJECT, b"(": FUNCTION}
CLOSERS = {ARRAY: b"]", OBJECT: b"}", FUNCTION: b")"}


class Refused(Exception):
    """The four numbers of an answer: refusal, name, expected kind, place."""

    def __init__(self, refusal, name=0, kind=0, place=0):
        self.numbers = (refusal, name, kind, place)


class Tree:
    """A text's tree: a row of eight words for each node, in the order of the openers."""

    def __init__(self, text):
        self.text = text
        self.rows = []
        self.depth = 0
        self.value(0, 0, 0, (0, 0))

    def value(self, place, around, parent, key):
        """Reads a value inside this many containers; gives the place after it."""
        found = IDENTIFIER.match(self.text, place)
        start, end = found.span(1)
        opener = found.end()
        kind = KINDS.get(self.text[opener:opener + 1])
        if kind is None or (kind < OBJECT and start < end):
            raise Refused(4, place=opener)
        if kind != STRING and around == MOST_DEPTH:
            raise Refused(5, place=opener)
        if len(self.rows) == MOST_NODES:
            raise Refused(6, place=opener)
        if kind == STRING:
            return self.string(opener + 1, parent, key)
        if kind == ARRAY:
            start = end = 0
        row = [kind, start, end, key[0], key[1], parent, 0, 0]
        self.rows.append(row)
        self.depth = max(self.depth, around + 1)
        after = self.members(opener + 1, row, around + 1)
        row[7] = len(self.rows)
        return after

    def string(self, place, parent, key):
        found = CONTENT.match(self.text, place)
        after = found.end()
        if self.text[after:after + 1] != b'"':
            raise Refused(4, place=after)
        number = len(self.rows)
        start, end = found.span(1)
        self.rows.append([STRING, start, end, key[0], key[1], parent, 0, number + 1])
        return after + 1

    def members(self, place, row, around):
        """Reads what a container holds, from the place after its opener; gives the place after its closer."""
        number = len(self.rows)
        closer = CLOSERS[row[0]]
        place = BLANKS.match(self.text, place).end()
        if self.text[place:place + 1] == closer:
            return place + 1
        key = (0, 0)
        while True:
            if row[0] == OBJECT:
                key, place = self.key(place)
            place = self.value(place, around, number, key)
            row[6] += 1
            place = BLANKS.match(self.text, place).end()
            byte = self.text[place:place + 1]
            if byte == closer:
                return place + 1
            if byte != b",":
                raise Refused(4, place=place)
            place += 1

    def key(self, place):
        found = IDENTIFIER.match(self.text, place)
        colon = found.end()
        if self.text[colon:colon + 1] != b":":
            raise Refused(4, place=colon)
        return found.span(1), colon + 1

    def name(self, node):
        row = self.rows[node]
        return self.text[row[1]:row[2]]

    def children(self, node):
        found = []
        child = node + 1
        while child < self.rows[node][7]:
            found.append(child)
            child = self.rows[child][7]
        return found

    def entries(self, node):
        """The last entry of each key."""
        return {self.text[self.rows[child][3]:self.rows[child][4]]: child for child in self.children(node)}


def read(text):
    """The tree of a text."""
    if len(text) > MOST_BYTES:
        raise Refused(2, place=MOST_BYTES)
    wide = WIDE.search(text)
    if wide:
        raise Refused(3, place=wide.start())
    return Tree(text)


class Policy:
    """A tree's policy. The three lists have the nodes of their strings."""

    def __init__(self, tree):
        self.tree = tree
        self.kind = 0
        self.request, self.query, self.response = [], [], []
        self.typed(0, FUNCTION, 1)
        if tree.rows[0][6] == 0:
            raise Refused(9, 2)
        self.typed(1, OBJECT, 2)
        skip, certification = self.one_of(1, 3, 4, 11, 12)
        if certification is None:
            self.form = SKIP
        else:
            self.typed(certification, OBJECT, 5)
            self.certification(certification)

    def typed(self, node, kind, name):
        if self.tree.rows[node][0] != kind:
            raise Refused(7, name, kind, node)
        if self.tree.name(node) != NAMES[name]:
            raise Refused(8, name, 0, node)

    def one_of(self, node, first, second, both, neither):
        """The values of the two keys, exactly one of which is there; None is the other."""
        entries = self.tree.entries(node)
        found = entries.get(NAMES[first]), entries.get(NAMES[second])
        if found == (None, None):
            raise Refused(neither, place=node)
        if None not in found:
            raise Refused(both, place=node)
        return found

    def property(self, entries, name, node):
        if NAMES[name] not in entries:
            raise Refused(10, name, 0, node)
        return entries[NAMES[name]]

    def strings(self, node, name):
        """The elements of an array of strings."""
        if self.tree.rows[node][0] != ARRAY:
            raise Refused(7, name, ARRAY, node)
        elements = self.tree.children(node)
        for element in elements:
            if self.tree.rows[element][0] != STRING:
                raise Refused(7, name, STRING, element)
        return elements

    def certification(self, node):
        nothing, request = self.one_of(node, 6, 7, 13, 14)
        self.form = RESPONSE_ONLY if request is None else FULL
        if request is not None:
            self.typed(request, OBJECT, 8)
            entries = self.tree.entries(request)
            self.request = self.strings(self.property(entries, 9, request), 9)
            self.query = self.strings(self.property(entries, 10, request), 10)
        response = self.property(self.tree.entries(node), 11, node)
        self.typed(response, OBJECT, 12)
        entries = self.tree.entries(response)
        inclusions = self.header_list(entries, 13)
        exclusions = self.header_list(entries, 14)
        if inclusions is not None and exclusions is not None:
            raise Refused(15, place=response)
        if inclusions is None and exclusions is None:
            raise Refused(16, place=response)
        self.kind = EXCLUSIONS if inclusions is None else INCLUSIONS
        self.response = exclusions if inclusions is None else inclusions

    def header_list(self, entries, name):
        node = entries.get(NAMES[name])
        if node is None:
            return None
        self.typed(node, OBJECT, 15)
        headers = self.tree.entries(node).get(NAMES[16])
        return None if headers is None else self.strings(headers, name)

    def counts(self):
        return len(self.request), len(self.query), len(self.response)

    def spans(self):
        rows = self.tree.rows
        return [word for node in self.request + self.query + self.response for word in rows[node][1:3]]


def well_shaped(form, kind, counts):
    """Whether a form, a list kind and three counts are those of a printable policy."""
    if form == SKIP:
        return kind == 0 and counts == (0, 0, 0)
    if kind not in (INCLUSIONS, EXCLUSIONS):
        return False
    if form == RESPONSE_ONLY:
        return counts[:2] == (0, 0) and counts[2] <= 249
    return form == FULL and sum(counts) <= 247


def strings_of(text, total, table):
    """The strings that the first spans of a table give; every one is checked for its place before any for its bytes."""
    strings = []
    for index in range(total):
        span = table[2 * index:2 * index + 2]
        if len(span) < 2 or not span[0] <= span[1] <= len(text):
            raise Refused(21, place=index)
        strings.append(text[span[0]:span[1]])
    for index, string in enumerate(strings):
        if not STRING_BYTES.fullmatch(string):
            raise Refused(22, place=index)
    return strings


def quoted(strings):
    return b",".join([b'"%s"' % string for string in strings])


def written(form, kind, request, query, response):
    """The bytes that create_cel_expr writes."""
    if form == SKIP:
        return b"default_certification(ValidationArgs{no_certification:Empty{}})"
    if form == RESPONSE_ONLY:
        first = b"no_request_certification:Empty{}"
    else:
        first = b"request_certification:RequestCertification{certified_request_headers:[%s],certified_query_parameters:[%s]}" % (
            quoted(request), quoted(query))
    return (
        b"default_certification(ValidationArgs{certification:Certification{%s,response_certification:ResponseCertification{"
        b"%s:ResponseHeaderList{headers:[%s]}}}})"
    ) % (first, NAMES[13 if kind == INCLUSIONS else 14], quoted(response))


def printed_length(form, lists):
    """The length by the document's sums."""
    length = {SKIP: 63, RESPONSE_ONLY: 204, FULL: 274}[form]
    for strings in lists:
        if strings:
            length += sum(map(len, strings)) + 3 * len(strings) - 1
    return length


def print_policy(text, form, kind, counts, table, room):
    """The printed text of a policy whose strings stand in a text."""
    if not well_shaped(form, kind, counts):
        raise Refused(20)
    strings = strings_of(text, sum(counts), table)
    request, query = counts[0], counts[0] + counts[1]
    lists = strings[:request], strings[request:query], strings[query:]
    length = printed_length(form, lists)
    if length > MOST_BYTES:
        raise Refused(23)
    if length > room:
        raise Refused(24)
    printed = written(form, kind, *lists)
    assert len(printed) == length, "the document's sums are not the length of the text"
    return printed
