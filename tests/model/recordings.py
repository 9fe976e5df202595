"""What SPEC.md says of recordings, a second time: what a replay writes. And recordings to replay, the same for the same seed.

A recording is taken apart by patterns, whole, into records and what is left; the lines are written after that. Nothing here knows
of windows. What a body is answered is the model's.
"""

import re
from functools import lru_cache

import lines
from model import FULL, MOST_BYTES, RESPONSE_ONLY, SKIP
from texts import Texts

# ---- The model ----

HEADING = b"record answer kind nodes depth\n"
WORDS = {0: "none", SKIP: "skip", RESPONSE_ONLY: "response", FULL: "full"}

# A length in its shortest form: a group without the top bit, which is not 0 where one or two with it stand before.
LENGTH = re.compile(rb"[\x00-\x7f]|[\x80-\xff]{1,2}[\x01-\x7f]")

# Every way in which bytes, to the recording's end, do not begin with a length.
BROKEN_LENGTHS = {
    "cut after one group": re.compile(rb"[\x80-\xff]"),
    "cut after two groups": re.compile(rb"[\x80-\xff]{2}"),
    "two groups, the last 0": re.compile(rb"[\x80-\xff]\x00.*", re.S),
    "three groups, the last 0": re.compile(rb"[\x80-\xff]{2}\x00.*", re.S),
    "more than three groups": re.compile(rb"[\x80-\xff]{3}.*", re.S),
}


@lru_cache(1000)
def number(groups):
    """The number that groups of seven bits, the lowest first, are the digits of."""
    return int("".join(format(group, "08b")[1:] for group in reversed(groups)), 2)


@lru_cache(200)
def answered(body):
    """Answer, word, nodes and depth."""
    numbers = lines.Reading(body).policy_numbers(*lines.USUAL[:2])
    return numbers[0], WORDS[numbers[6]], numbers[4], numbers[5]


class Replay:
    """A recording taken apart: where its whole records begin, what each is answered, and how it ends."""

    def __init__(self, recording):
        self.starts, self.answers = [], []
        place = 0
        while found := LENGTH.match(recording, place):
            end = found.end() + number(found[0])
            if end > len(recording):
                break
            self.starts.append(place)
            self.answers.append(answered(recording[found.end():end]))
            place = end
        self.ending = ending(recording[place:])

    def output(self):
        written = [b"%d %d %s %d %d\n" % (index, answer, word.encode(), nodes, depth)
                   for index, (answer, word, nodes, depth) in enumerate(self.answers)]
        if self.ending[0] == "complete":
            last = b"%d records %d refused" % (len(self.answers), sum(answer[0] > 0 for answer in self.answers))
        else:
            last = self.ending[0].encode()
        return HEADING + b"".join(written) + last + b"\n"


def ending(left):
    """How a recording ends in which this is left after the last whole record, and in which way."""
    if not left:
        return "complete", ""
    found = LENGTH.match(left)
    if not found:
        return "broken length", next(way for way, pattern in BROKEN_LENGTHS.items() if pattern.fullmatch(left))
    part = "none" if found.end() == len(left) else "some"
    return "broken body", "%s of a %s one there" % (part, "long" if number(found[0]) > MOST_BYTES else "short")


def replayed(recording):
    """All that a replay writes."""
    return Replay(recording).output()


# ---- Recordings ----

MOST_LENGTH = 2**21 - 1

SHORT = (b"f()", b"f()", b"a", b"{}", b'""', b"\0", b"\x80", b"\xff\xff\xff", b"\x80\0")
TINY = (b"\0", b"\0", b"\0", b"\3f()", b"\1a", b"\2{}", b"\1\xff", b"\2\x80\0")
SIZES = (1, 2, 126, 127, 128, 129, 255, 256, 8190, 8191, 8192, 8192, 8193, 8193, 8194)
LONG_SIZES = (8193, 16383, 16384, 16385, 32768, 65533, 65534, 65535, 65536, 65537, 131072)


def grouped(length):
    """A length in its shortest form."""
    if length < 128:
        return bytes((length,))
    if length < 16384:
        return bytes((128 + length % 128, length // 128))
    return bytes((128 + length % 128, 128 + length // 128 % 128, length // 16384))


class Recordings:
    def __init__(self, seed):
        self.texts = Texts(seed)
        self.chance, self.below, self.pick = self.texts.chance, self.texts.below, self.texts.pick

    # ---- Records ----

    def body(self):
        share = self.below(100)
        if share < 62:
            return self.texts.text()
        if share < 70:
            return b""
        if share < 82:
            return self.pick(SHORT)
        if share < 88:
            return self.any_bytes(self.below(300))
        return self.sized(self.pick(SIZES)) if share < 97 else self.long()

    def any_bytes(self, length):
        return bytes([self.below(256) for _ in range(length)])

    def sized(self, length):
        """A text brought to a length by a row of one byte in front of it or behind."""
        text = self.pick((self.texts.sound, self.texts.slipped))()[:length]
        row = (length - len(text)) * self.pick((b" ", b"\n", b"a", b"\0", b"\xff"))
        return self.pick((row + text, text + row))

    def long(self):
        """A body to be skipped. What it holds looks like records, so that a byte too few or too many is seen."""
        length = self.pick(LONG_SIZES) if self.chance() < 0.5 else MOST_BYTES + 1 + self.below(50000)
        if self.chance() < 0.05:
            length = MOST_LENGTH - self.pick((0, 0, 1, self.below(1000000)))
        row = self.pick((b"\0", b"\3f()", b"\1a", b"\x80", b"\xff\x7f", grouped(200) + 200 * b" "))
        return ((length // len(row) + 1) * row)[:length]

    def record(self):
        body = self.body()
        return grouped(len(body)) + body

    # ---- Endings ----

    def high(self, count):
        """Groups with the top bit set."""
        return bytes([self.pick((128, 129, 131, 255, 128 + self.below(128))) for _ in range(count)])

    def anything(self):
        """What may follow a fault, and is not to be looked at."""
        return self.pick((b"", b"", b"\0", b"\1", b"\3f()", self.record(), self.any_bytes(self.below(9)), 70000 * b"\0"))

    def padded(self, groups):
        """A length whose last group is 0, perhaps with as many bytes as it would tell, and a record."""
        length = groups + b"\0"
        return length + (self.anything() if self.chance() < 0.5 else number(length) * b"a" + self.record())

    def cut_body(self):
        length = len(body := self.pick((self.texts.text, self.body, self.long))()) or 1
        return grouped(length) + body[:self.pick((0, 0, length // 2, length - 1, length - 1, self.below(length)))]

    def ending(self):
        way = self.below(12)
        if way < 4:
            return b""
        if way == 4:
            return self.high(1)
        if way == 5:
            return self.high(2)
        if way < 8:
            return self.padded(self.high(way - 5))
        return self.high(3) + self.anything() if way == 8 else self.cut_body()

    # ---- Recordings ----

    def tiny(self):
        """So many records of so few bytes that the lines of one window fill the output several times."""
        return b"".join([self.pick(TINY) for _ in range(20000 + self.below(30000))])

    def laid(self):
        """A long record after which the next begins near the end of a window."""
        length = 65536 - 3 + self.pick((-300, -4, -3, -2, -1, 0, 1, 2, 3, 4, -self.below(8300)))
        return grouped(length) + length * b"\3"

    def recording(self):
        share = self.below(100)
        front = self.tiny() if share == 0 else self.laid() if share < 10 else b""
        return front + b"".join([self.record() for _ in range(self.pick((0, 1, 2, 3, 5, 9, 20, 30)))]) + self.ending()
