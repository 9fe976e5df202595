"""The lines that the program `ask` writes for `answers` and `prints`, as the model has them."""

import model
from model import Refused

# What is lent where a request for answers does not say.
USUAL = (model.NODE_WORDS, model.SPAN_WORDS, model.MOST_BYTES)

FILLED = b"\xa5"


class Reading:
    """A text read once: what each entry answers then depends on what it is lent alone."""

    def __init__(self, text):
        self.text = text
        self.tree = self.policy = self.printed = None
        self.refused = (0, 0, 0, 0)
        try:
            self.tree = model.read(text)
            self.policy = model.Policy(self.tree)
        except Refused as refused:
            self.refused = refused.numbers
        if self.policy is not None:
            self.print()

    def print(self):
        policy = self.policy
        self.spans = policy.spans()
        try:
            self.printed = model.print_policy(self.text, policy.form, policy.kind, policy.counts(), self.spans, model.MOST_BYTES)
        except Refused as refused:
            self.unprinted = refused.numbers[0]

    def tree_fields(self, node_words):
        if node_words < model.NODE_WORDS:
            return "1,0,0,0,0,0\t\tclean"
        if self.tree is None:
            return "%d,%d,%d,%d,0,0\t\tclean" % self.refused
        words = [word for row in self.tree.rows for word in row]
        return "0,0,0,0,%d,%d\t%s\tclean" % (len(self.tree.rows), self.tree.depth, ",".join(map(str, words)))

    def policy_numbers(self, node_words, span_words):
        if node_words < model.NODE_WORDS or span_words < model.SPAN_WORDS:
            return (1,) + 10 * (0,)
        if self.tree is None:
            return self.refused + 7 * (0,)
        figures = len(self.tree.rows), self.tree.depth
        if self.policy is None:
            return self.refused + figures + 5 * (0,)
        return self.refused + figures + (self.policy.form, self.policy.kind) + self.policy.counts()

    def policy_fields(self, node_words, span_words):
        numbers = self.policy_numbers(node_words, span_words)
        words = self.spans if numbers[6] else []
        return "%s\t%s\tclean" % (",".join(map(str, numbers)), ",".join(map(str, words)))

    def canonical(self, room):
        """The host entry's number."""
        if self.policy is None:
            return 65536 + self.refused[0]
        if self.printed is None:
            return 65536 + self.unprinted
        return len(self.printed) if len(self.printed) <= room else 65536 + 24

    def line(self, lent):
        node_words, span_words, room = lent
        number = self.canonical(room)
        printed = self.printed.hex() if number < 65536 else ""
        fields = self.tree_fields(node_words), self.policy_fields(node_words, span_words), str(number), printed
        return "\t".join(fields) + "\tclean"


def print_answer(text, form, kind, counts, table, room):
    """The five numbers of printing, and all of the output."""
    try:
        printed = model.print_policy(text, form, kind, counts, table, room)
    except Refused as refused:
        return refused.numbers + (0,), room * FILLED
    return (0, 0, 0, 0, len(printed)), printed + (room - len(printed)) * FILLED


def print_line(numbers, output):
    return "%d,%d,%d,%d,%d\t%s" % (numbers + (output.hex(),))
