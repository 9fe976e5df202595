"""Texts to ask, the same for the same seed: policies, policies with slips, damaged ones, junk, and texts at the limits.

A text is made of tokens between which the grammar allows blanks; a string is the token of its opening quote and content, and the
token of its closing quote.
"""

from random import Random

from model import MOST_BYTES, NAMES

STRING_LETTERS = b"abcdefghijklmnopqrstuvwxyzABCDEFGHIJKLMNOPQRSTUVWXYZ0123456789-"
KNOWN_STRINGS = [b"ETag", b"Cache-Control", b"Set-Cookie", b"foo", b"-", b"0", b"", b"x"]
IDENTIFIERS = [b"", b"a", b"_", b"Z9_", b"0", b"Empty", b"headers_", b"Headers", b"certification_", b"defaultcertification"]
BLANKS = [b"", b"", b"", b" ", b"\t", b"\n", b"\r", b" \t\n\r"]
ODD_BYTES = b" \t\n\r\"[](){}:,_-\\aZzA09/@^`~.;'!\0\x08\x0b\x0c\x0e\x1f\x7f"
LETTERS = b'[]](){}}"":a, -_\\'
MARKS = [b"(", b")", b"[", b"]", b"{", b"}", b":", b",", b'"', b'""', b'"a"', b" ", b"\n", b"{}"]
TAILS = [b" ", b"\n", b")", b'"', b"x", b"[", b",", b"\0", b"\\", b"default_certification()", b"\x7f"]
LEVELS = [(b"[", b"]"), (b"(", b")"), (b"{:", b"}"), (b'f("",', b")"), (b" Empty { a : ", b"\n}"), (b"{:\"\",b:", b"}")]


class Texts:
    def __init__(self, seed):
        self.chance = Random(seed).random
        self.rate = 0

    # ---- Choices ----

    def below(self, bound):
        return int(self.chance() * bound)

    def pick(self, choices):
        return choices[int(self.chance() * len(choices))]

    def slip(self):
        return self.chance() < self.rate

    # ---- Trees as tokens ----

    def string(self):
        if self.chance() < 0.5:
            return [b'"' + self.pick(KNOWN_STRINGS), b'"']
        start = self.below(len(STRING_LETTERS))
        return [b'"' + STRING_LETTERS[start:start + self.below(14)], b'"']

    def listed(self, opener, members, closer):
        tokens = [opener]
        for member in members:
            tokens += member
            tokens.append(b",")
        if members:
            tokens.pop()
        tokens.append(closer)
        return tokens

    def junk(self, levels):
        """Any value with at most this many levels of containers."""
        kind = self.below(4) if levels else 0
        if kind == 0:
            return self.string()
        members = [self.junk(levels - 1) for _ in range(self.pick((0, 1, 1, 2, 3)))]
        if kind == 1:
            return self.listed(b"[", members, b"]")
        if kind == 2:
            return [self.identifier()] + self.listed(b"(", members, b")")
        return [self.identifier()] + self.listed(b"{", [[self.identifier(), b":"] + member for member in members], b"}")

    def identifier(self):
        return self.pick(NAMES[1:]) if self.chance() < 0.5 else self.pick(IDENTIFIERS)

    def empty(self):
        return [b"Empty", b"{", b"}"] if self.chance() < 0.7 else self.junk(3)

    def name(self, number):
        return self.identifier() if self.slip() else NAMES[number]

    def strings(self):
        """A list of strings; a slip puts another value among them, or for the whole."""
        if self.slip():
            return self.junk(2)
        members = [self.string() for _ in range(self.pick((0, 0, 1, 1, 2, 3, 5)))]
        if self.slip():
            members.insert(self.below(len(members) + 1), self.junk(2))
        return self.listed(b"[", members, b"]")

    def object(self, name, entries, rival=0):
        """An object of entries with numbered keys; a slip drops one, or adds the rival key that may not stand beside them."""
        if self.slip():
            return self.junk(2)
        if self.slip() and entries:
            entries.pop(self.below(len(entries)))
        if rival and self.slip():
            entries.append((rival, self.suiting(rival)))
        members = [[self.name(key), b":"] + value for key, value in entries]
        if len(members) > 1 and self.chance() < 0.2:
            members.reverse()
        if self.chance() < 0.1:
            self.hide(members)
        return [self.name(name)] + self.listed(b"{", members, b"}")

    def hide(self, members):
        """Puts in front an entry that a later one hides, or that nothing asks for."""
        key = self.pick(members)[0] if members and self.chance() < 0.7 else self.pick(IDENTIFIERS)
        members.insert(0, [key, b":"] + self.junk(2))

    def suiting(self, key):
        if key == 4:
            return self.certification(False)
        if key == 7:
            return self.request()
        if key in (13, 14):
            return self.header_list()
        return self.empty()

    def header_list(self):
        return self.object(15, [(16, self.strings())])

    def request(self):
        return self.object(8, [(9, self.strings()), (10, self.strings())])

    def response(self):
        key = self.pick((13, 14))
        entries = [(key, self.header_list())]
        if self.chance() < 0.1:
            entries.append((27 - key, [NAMES[15], b"{", b"}"]))
        return self.object(12, entries, 27 - key)

    def certification(self, full):
        first = (7, self.request()) if full else (6, self.empty())
        return self.object(5, [first, (11, self.response())], 13 - first[0])

    def policy(self, rate):
        self.rate = rate
        form = self.below(5)
        if self.slip():
            return self.junk(3)
        if form == 0:
            argument = self.object(2, [(3, self.empty())], 4)
        else:
            argument = self.object(2, [(4, self.certification(form > 2))], 3)
        arguments = [argument] if self.chance() < 0.9 else [argument, self.junk(2)]
        if self.slip():
            arguments.pop(0)
        return [self.name(1)] + self.listed(b"(", arguments, b")")

    def spelled(self, tokens):
        way = self.below(4)
        if way < 2:
            return b"".join(tokens)
        if way == 2:
            return self.pick(BLANKS[3:]).join(tokens)
        return b"".join([self.blanks() + token for token in tokens])

    def blanks(self):
        """None, some, or those of a new line."""
        if self.chance() < 0.9:
            return self.pick(BLANKS)
        return b"\n" + self.below(24) * b" "

    # ---- Kinds of texts ----

    def sound(self):
        text = self.spelled(self.policy(0))
        return text if self.chance() < 0.8 else text + self.pick(TAILS) + self.pick(TAILS)

    def slipped(self):
        return self.spelled(self.policy(self.pick((0.03, 0.1, 0.3))))

    def tree(self):
        return self.spelled(self.junk(self.below(6)))

    def damaged(self):
        text = bytearray(self.pick((self.sound, self.slipped, self.tree))())
        for _ in range(self.pick((1, 1, 1, 2, 3))):
            self.hurt(text)
        return bytes(text)

    def hurt(self, text):
        place = self.below(len(text) + 1)
        way = self.below(6)
        if way == 0:
            del text[place:place + self.pick((1, 1, 2, 9))]
        elif way == 1:
            text[place:place] = text[place:place + self.pick((1, 1, 2, 9))]
        elif way == 2:
            text[place:place + 1] = bytes((self.pick(ODD_BYTES),))
        elif way == 3:
            text.insert(place, self.pick(ODD_BYTES))
        elif way == 4:
            del text[place:]
        else:
            text[place:place + 6] = text[place:place + 6][::-1]

    def wide_bytes(self):
        text = bytearray(self.pick((self.sound, self.tree, self.damaged, self.letters))())
        for _ in range(self.pick((1, 1, 2))):
            text.insert(self.below(len(text) + 1), self.pick((128, 160, 195, 255, 128 + self.below(128))))
        return bytes(text)

    def letters(self):
        return bytes([self.pick(LETTERS) for _ in range(self.below(10))])

    def soup(self):
        begun = self.pick((b"", b"default_certification(", b"default_certification(ValidationArgs{"))
        return begun + b"".join([self.pick((self.pick(MARKS), self.identifier())) for _ in range(self.below(12))])

    # ---- Texts at the limits ----

    def deep(self):
        levels = self.pick((29, 30, 31, 32, 33, 34))
        begun, closers = b"", []
        if self.chance() < 0.3:
            begun, closers = b"default_certification(ValidationArgs{no_certification:", [b")", b"}"]
        only = self.pick(LEVELS) if self.chance() < 0.5 else None
        while len(closers) < levels:
            opener, closer = only or self.pick(LEVELS)
            begun += opener
            closers.append(closer)
        inner = self.pick((b'""', b'"a "', b"[]", b"{}", b"f ( )", b""))
        left_open = self.below(3) if self.chance() < 0.25 else 0
        return begun + inner + b"".join(reversed(closers[left_open:]))

    def many(self):
        """About 256 nodes, in arrays as deep as the limit allows or one deeper."""
        levels = self.pick((1, 1, 2, 31, 32, 33))
        nodes = self.pick((254, 255, 256, 257, 258))
        row = (nodes - levels) * [self.pick((b'""', b'"a"', b"[]", b"f()", b"{}"))]
        if self.chance() < 0.3:
            row.append(self.pick((b"[]", b'""', b"(")))
        return levels * b"[" + b",".join(row) + levels * b"]"

    def many_strings(self):
        """A policy of about 256 nodes."""
        full = self.chance() < 0.5
        most = 247 if full else 249
        cuts = sorted([self.below(most), self.below(most)]) if full else [0, 0]
        ends = cuts + [most + self.pick((-1, 0, 1, 2))]
        lists = [(end - start) * b'"",' for start, end in zip([0] + cuts, ends)]
        lists = [strings[:-1] for strings in lists]
        return self.plain_policy(lists if full else lists[2:], self.pick(NAMES[13:15]), b"Empty{}")

    def plain_policy(self, lists, key, nothing):
        first = b"no_request_certification:" + nothing
        if len(lists) == 3:
            first = b"request_certification:RequestCertification{certified_request_headers:[%s],certified_query_parameters:[%s]}" % (
                lists[0], lists[1])
        return b"%s(%s{%s:%s{%s,%s:%s{%s:%s{headers:[%s]}}}})" % (
            NAMES[1], NAMES[2], NAMES[4], NAMES[5], first, NAMES[11], NAMES[12], key, NAMES[15], lists[-1])

    def long(self):
        """A text of about 8,192 bytes, by a row of one byte in it."""
        text = self.pick((self.sound, self.slipped, self.wide_bytes))()
        missing = MOST_BYTES + self.pick((-2, -1, 0, 1, 2)) - len(text)
        place = self.pick((0, len(text) // 2, len(text)))
        return text[:place] + max(missing, 0) * self.pick((b" ", b"\n", b"a", b"\xc3")) + text[place:]

    def long_printed(self):
        """A policy whose text, printed or as it stands, has about 8,192 bytes."""
        string = b'"%s"' % (self.pick((7984, 7985, 7986, 7987, 7990, 7991, 7992)) * b"x")
        return self.plain_policy([string], self.pick(NAMES[13:15]), self.pick((b"Empty{}", b'""')))

    def limit(self):
        ways = self.deep, self.deep, self.deep, self.many, self.many_strings, self.long, self.long_printed
        return self.pick(ways)()

    def text(self):
        """Any text. Those at the limits are few because they are long."""
        share = self.below(100)
        if share < 30:
            return self.sound()
        if share < 60:
            return self.slipped()
        if share < 78:
            return self.damaged()
        if share < 82:
            return self.wide_bytes()
        if share < 88:
            return self.letters()
        if share < 94:
            return self.tree()
        return self.soup() if share < 98 else self.limit()

    # ---- What is lent ----

    def lent(self, usual, printed):
        """Numbers of node words, span words and output bytes to ask with, the last around the printed length; perhaps none."""
        if self.chance() < 0.6:
            return ()
        nodes = usual[0] if self.chance() < 0.8 else self.pick((0, 1, 8, 2047, 2048, 2049, 4096))
        spans = usual[1] if self.chance() < 0.8 else self.pick((0, 1, 511, 512, 513, 4096))
        around = printed + self.pick((-1, -1, 0, 0, 1))
        room = self.pick((around, around, around, 0, self.below(500), 8191, 8192, 8193, 16384))
        return (nodes, spans, max(room, 0))[:self.pick((1, 2, 3, 3, 3, 3))]
