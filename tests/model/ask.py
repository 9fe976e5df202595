"""Asks the program `ask` what the model knows, and compares every field of every line.

ask.py PROGRAM SEED TEXTS POLICIES, or ask.py PROGRAM all LENGTH LETTERS; tests/second-opinion checks the words. Fails at the first field that differs and, but for `all`, where an outcome that should occur never did.
"""

import itertools
import subprocess
import sys
import tempfile
from collections import Counter

import lines
from policies import Policies
from texts import Texts

CHUNK = 10000

ANSWER_FIELDS = (
    "the tree's numbers", "the tree's rows", "the rest of its table",
    "the policy's numbers", "the policy's spans", "the rest of its tables",
    "the canonical number", "the canonical text", "the rest of the output",
)
PRINT_FIELDS = ("the numbers", "the output")

FORMS = {(1, 0): "Skip", (2, 1): "ResponseOnly inclusions", (2, 2): "ResponseOnly exclusions",
         (3, 1): "Full inclusions", (3, 2): "Full exclusions"}

# What can be refused with more than one name or kind: refusal, name, kind.
TYPES = [(7, 1, 4)] + [(7, name, 3) for name in (2, 5, 8, 12, 15)] + [(7, name, kind) for name in (9, 10, 13, 14) for kind in (1, 2)]
NAMED = TYPES + [(8, name, 0) for name in (1, 2, 5, 8, 12, 15)] + [(9, 2, 0)] + [(10, name, 0) for name in (9, 10, 11)]
UNNAMED = [(number, 0, 0) for number in range(11, 17)]

TEXT_ENTRIES = ("read_tree", "read_policy", "canonicalise")

SHOULD_OCCUR = {
    "read_tree": ["accepted"] + [(number, 0, 0) for number in range(1, 7)],
    "read_policy": list(FORMS.values()) + [(number, 0, 0) for number in range(1, 7)] + NAMED + UNNAMED,
    "canonicalise": ["accepted"] + [number for number in range(2, 17)] + [23, 24],
    "print_policy": list(FORMS.values()) + [(number, 0, 0) for number in range(20, 25)],
}


def fail(why):
    print("second-opinion: " + why, file=sys.stderr)
    sys.exit(1)


def start(program, requests):
    """A program at work on requests, and the file of its answers."""
    asked = tempfile.TemporaryFile()
    asked.write("".join(requests).encode())
    asked.seek(0)
    answers = tempfile.TemporaryFile()
    return subprocess.Popen([program], stdin=asked, stdout=answers), answers


def compare(requests, expected, running, answers, fields):
    """Holds every line that a program writes to the model's."""
    if running.wait() != 0:
        fail("%s ends with status %d" % (running.args[0], running.returncode))
    answers.seek(0)
    given = answers.read().decode("latin-1").split("\n")
    answers.close()
    if given == expected + [""]:
        return
    if len(given) != len(expected) + 1:
        fail("%d requests, %d lines" % (len(requests), len(given) - 1))
    for request, theirs, ours in zip(requests, given, expected):
        if theirs != ours:
            differs(request, theirs.split("\t"), ours.split("\t"), fields)
    fail("bytes after the last line")


def differs(request, theirs, ours, fields):
    request = request.rstrip("\n").replace("\t", " ")
    if len(theirs) != len(ours):
        fail("the request %s: %d fields, not %d" % (request, len(theirs), len(ours)))
    for name, field, right in zip(fields, theirs, ours):
        if field != right:
            fail("the request %s: %s: the program says %s, the model %s" % (request, name, field, right))


def mixed(seed, count):
    """Generated texts as they were read, and numbers to lend; each chunk has a seed of its own."""
    for index in range(count):
        if index % CHUNK == 0:
            texts = Texts(seed * 1000000 + index // CHUNK)
        reading = lines.Reading(texts.text())
        yield reading, texts.lent(lines.USUAL, len(reading.printed or b""))


def swept(length, letters):
    """Every text of at most this many letters."""
    for number in range(length + 1):
        for text in itertools.product(letters, repeat=number):
            yield lines.Reading(bytes(text)), ()


def ask_texts(texts, program, seen):
    """Asks a chunk at a time; gives the number of texts."""
    asked = 0
    while chunk := list(itertools.islice(texts, CHUNK)):
        requests = ["\t".join(["answers", reading.text.hex()] + [str(number) for number in lent]) + "\n" for reading, lent in chunk]
        running, answers = start(program, requests)
        chunk = [(reading, lent + lines.USUAL[len(lent):]) for reading, lent in chunk]
        compare(requests, [reading.line(lent) for reading, lent in chunk], running, answers, ANSWER_FIELDS)
        for reading, lent in chunk:
            count_answers(seen, reading, lent)
        asked += len(chunk)
    return asked


def count_answers(seen, reading, lent):
    if lent[0] < lines.USUAL[0]:
        seen["read_tree", (1, 0, 0)] += 1
    else:
        seen["read_tree", "accepted" if reading.tree else reading.refused[:3]] += 1
    numbers = reading.policy_numbers(lent[0], lent[1])
    seen["read_policy", FORMS[numbers[6:8]] if numbers[6] else numbers[:3]] += 1
    number = reading.canonical(lent[2])
    seen["canonicalise", "accepted" if number < 65536 else number - 65536] += 1


def foreign(seed, count):
    """Requests to print generated policies, with outputs about as long as what is printed, and their answers."""
    for index in range(count):
        if index % CHUNK == 0:
            policies = Policies(seed * 1000000 + index // CHUNK)
        text, form, kind, counts, table = policies.policy()
        needed = lines.print_answer(text, form, kind, counts, table, lines.USUAL[2])[0][4]
        room = policies.room(needed)
        numbers, output = lines.print_answer(text, form, kind, counts, table, room)
        fields = ("prints", text.hex(), form, kind) + counts + (",".join(map(str, table)), room)
        outcome = numbers[:3] if numbers[0] else FORMS[form, kind]
        yield "\t".join(map(str, fields)) + "\n", lines.print_line(numbers, output), outcome


def ask_policies(policies, program, seen):
    """Asks a chunk at a time."""
    while chunk := list(itertools.islice(policies, CHUNK)):
        requests, expected, outcomes = zip(*chunk)
        running, answers = start(program, requests)
        compare(requests, list(expected), running, answers, PRINT_FIELDS)
        seen.update(("print_policy", outcome) for outcome in outcomes)


def shown(outcome):
    """An outcome in words: a form, or a refusal with its name and kind where it has them."""
    if not isinstance(outcome, tuple):
        return "with %d" % outcome if isinstance(outcome, int) else outcome
    refusal, name, kind = outcome
    return "with %d" % refusal + (" name %d" % name if name else "") + (" kind %d" % kind if kind else "")


def report(entry, seen):
    """Shows how often each outcome of an entry was seen; gives those that never were."""
    counts = {outcome: seen[entry, outcome] for outcome in SHOULD_OCCUR[entry]}
    unknown = [outcome for asked, outcome in seen if asked == entry and outcome not in counts]
    if unknown:
        fail("%s: an outcome that should not occur: %s" % (entry, shown(unknown[0])))
    print("%s: %s" % (entry, ", ".join("{:,} {}".format(number, shown(outcome)) for outcome, number in counts.items() if number)))
    return ["%s %s" % (entry, shown(outcome)) for outcome, number in counts.items() if not number]


def ask_every(length, letters, program):
    seen = Counter()
    asked = ask_texts(swept(length, letters), program, seen)
    for entry in TEXT_ENTRIES:
        report(entry, seen)
    print("second-opinion: {:,} texts, every field as the model has it".format(asked))


def ask_mix(seed, texts, policies, program):
    seen = Counter()
    ask_texts(mixed(seed, texts), program, seen)
    ask_policies(foreign(seed, policies), program, seen)
    never = [outcome for entry in SHOULD_OCCUR for outcome in report(entry, seen)]
    if never:
        fail("never occurred: " + ", ".join(never))
    print("second-opinion: {:,} texts and {:,} policies, every field as the model has it, every outcome occurred".format(texts, policies))


def main(program, arguments):
    if arguments[0] == "all":
        ask_every(int(arguments[1]), arguments[2].encode(), program)
    else:
        ask_mix(*map(int, arguments), program)


if __name__ == "__main__":
    main(sys.argv[1], sys.argv[2:])
