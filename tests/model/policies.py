"""Policies to ask the printer, sound or not, as no reader need have made them: the same for the same seed."""

from random import Random

from texts import STRING_LETTERS

MOST_WORD = 2**32 - 1
OUTSIDE = b" \t\n\"\\_,.:/@[`{\0\x7f\x80\xff"
LARGE = [248, 250, 255, 256, 65536, 2**31, 2**32 - 250, MOST_WORD - 1, MOST_WORD]


class Policies:
    def __init__(self, seed):
        self.chance = Random(seed).random

    def below(self, bound):
        return int(self.chance() * bound)

    def pick(self, choices):
        return choices[int(self.chance() * len(choices))]

    def policy(self):
        """Text, form, list kind, counts and span table; the room depends on what is printed."""
        form = self.pick((1, 2, 2, 2, 3, 3, 3, 3))
        kind = 0 if form == 1 else self.pick((1, 2))
        counts = self.counts(form)
        if self.chance() < 0.03:
            text, table = self.long_strings(form, kind, sum(counts))
        else:
            text, table = self.strings(sum(counts))
        if self.chance() < 0.3:
            table += [self.word(len(text)) for _ in range(self.pick((1, 2, 3, 8)))]
        faults = self.pick((0, 0, 1, 1, 1, 2, 3))
        for fault in [self.pick((self.spoil_shape, self.spoil_span, self.spoil_byte)) for _ in range(faults)]:
            text, form, kind, counts, table = fault(text, form, kind, counts, table)
        return text, form, kind, tuple(counts), table

    def counts(self, form):
        if form == 1:
            return [0, 0, 0]
        if self.chance() < 0.03:
            return self.many(form)
        counts = [self.pick((0, 0, 1, 2, 3, 5)) for _ in range(3)]
        return counts if form == 3 else [0, 0, counts[2]]

    def many(self, form):
        """About as many strings as may be."""
        total = (249 if form == 2 else 247) + self.pick((-1, 0, 0, 1))
        if form == 2:
            return [0, 0, total]
        request = self.below(total)
        query = self.below(total - request)
        return [request, query, total - request - query]

    def word(self, length):
        return self.pick((0, length, length + 1, self.below(length + 1), MOST_WORD, self.below(MOST_WORD)))

    def strings(self, total):
        """Strings anywhere in a text: side by side, with other bytes between them, or over one another."""
        if self.chance() < 0.3:
            text = STRING_LETTERS[self.below(40):]
            return text, [end for _ in range(total) for end in sorted((self.below(len(text) + 1), self.below(len(text) + 1)))]
        parts, table, place = [], [], 0
        for _ in range(total):
            between = self.pick((b"", b"", b",", b'"', b"\xff\0"))
            start = self.below(len(STRING_LETTERS))
            string = STRING_LETTERS[start:start + self.below(9)]
            parts += [between, string]
            place += len(between)
            table += [place, place + len(string)]
            place += len(string)
        parts.append(self.pick((b"", b"x", b"\xff", b'"})')))
        return b"".join(parts), table

    def long_strings(self, form, kind, total):
        """About as many bytes as may be printed, by long strings over one another."""
        if not total:
            return self.strings(total)
        text = self.pick((400, 4096, 8192, 12000)) * self.pick((b"a", b"-", b"7"))
        left = 8192 - (204 if form == 2 else 274) - 3 * total + self.pick((0, 0, 1, 1, 2, 3, 4))
        table = []
        for index in range(total):
            length = max(0, min(left, len(text) if self.chance() < 0.8 else self.below(len(text))))
            if index == total - 1:
                length = max(0, min(left, len(text)))
            start = self.below(len(text) - length + 1)
            table += [start, start + length]
            left -= length
        return text, table

    # ---- Faults ----

    def spoil_shape(self, text, form, kind, counts, table):
        way = self.below(4)
        if way == 0:
            form = self.pick((0, 1, 2, 3, 4, 5, MOST_WORD))
        elif way == 1:
            kind = self.pick((0, 1, 2, 3, 4, MOST_WORD))
        else:
            counts = list(counts)
            counts[self.below(3)] = self.pick(LARGE) if way == 2 else self.below(6)
        return text, form, kind, counts, table

    def spoil_span(self, text, form, kind, counts, table):
        table = list(table)
        place = self.below(len(table) + 1)
        if self.chance() < 0.3:
            del table[place:]
        elif place < len(table):
            table[place] = self.word(len(text))
        elif self.chance() < 0.5:
            text = text[:self.below(len(text) + 1)]
        return text, form, kind, counts, table

    def spoil_byte(self, text, form, kind, counts, table):
        place = self.below(len(text) + 1)
        return text[:place] + bytes((self.pick(OUTSIDE),)) + text[place + 1:], form, kind, counts, table

    def room(self, length):
        """An output to ask with, where this many bytes would be printed; 0 bytes stands for a refusal."""
        if not length:
            return self.pick((0, 1, 8, 62, 300, 8192)) if self.chance() < 0.1 else self.below(64)
        if self.chance() < 0.02:
            return self.pick((8191, 8192, 8193, 16384))
        return max(0, length + self.pick((-length, -1, -1, 0, 0, 0, 0, 1, 2, 40)))
