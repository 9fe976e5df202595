"""Replays generated recordings by the program `replay`, and holds all that it writes to the model, byte for byte.

replay.py PROGRAM SEED COUNT, or replay.py show SEED NUMBER; tests/recordings/compare checks the words. Each recording is
handed over as a file, and once more in pieces of which each read gets one. Fails at the first difference, and where an outcome
that should occur never did.
"""

import socket
import subprocess
import sys
import tempfile
from collections import Counter

from recordings import BROKEN_LENGTHS, Recordings, Replay

# What a read does not take of a piece is lost, so no piece is longer than what the program always has room for.
MOST_PIECE = 32768
MOST_SINGLE = 2000
MOST_PIECES = 500
SECONDS = 20

SHOULD_OCCUR = {
    "answers": [0] + list(range(2, 17)),
    "kinds": ["none", "skip", "response", "full"],
    "endings": [("complete", "")] + [("broken length", way) for way in BROKEN_LENGTHS] + [
        ("broken body", "%s of a %s one there" % (part, size)) for part in ("none", "some") for size in ("short", "long")],
    "ways": ["as a file", "byte by byte", "in pieces", "cut where records begin"],
}


def fail(why):
    print("recordings/compare: " + why, file=sys.stderr)
    sys.exit(1)


def generated(seed, index):
    """Each recording has a seed of its own."""
    recordings = Recordings(seed * 1000000 + index)
    return recordings, recordings.recording()


# ---- Ways to hand a recording over ----

def between(recording, places):
    """The pieces between these places; a long one is cut further."""
    places = sorted({place for place in places if 0 < place < len(recording)} | set(range(0, len(recording), MOST_PIECE)))
    return [recording[start:end] for start, end in zip(places, places[1:] + [len(recording)])]


def cut(recordings, recording, starts):
    """A way to cut a recording, and its pieces."""
    way = recordings.below(3)
    if way == 0 and len(recording) <= MOST_SINGLE:
        return "byte by byte", between(recording, range(len(recording)))
    if way == 1:
        starts = starts[-200:] + [len(recording)]
        return "cut where records begin", between(recording, [start + recordings.pick((-2, -1, 0, 1, 1, 2, 2, 3, 4)) for start in starts])
    most = recordings.pick((2, 9, 100, 8192, 60000))
    places, place = [], 0
    while place < len(recording) and len(places) < MOST_PIECES:
        place += 1 + recordings.below(most)
        places.append(place)
    return "in pieces", between(recording, places)


def whole(recording):
    """A file with the recording."""
    given = tempfile.TemporaryFile()
    given.write(recording)
    given.seek(0)
    return given, None


def paired():
    """The two ends of a socket that keeps pieces apart."""
    sender, receiver = socket.socketpair(socket.AF_UNIX, socket.SOCK_SEQPACKET)
    sender.settimeout(SECONDS)
    return receiver, sender


def send(sender, pieces):
    """One piece for each read. A program that has ended leaves the rest."""
    try:
        for piece in pieces:
            sender.send(piece)
    except (BrokenPipeError, ConnectionResetError):
        pass
    sender.close()


def run(what, program, recording, pieces):
    """What the program writes, on standard output and on standard error, and its status."""
    given, sender = whole(recording) if pieces is None else paired()
    with given, tempfile.TemporaryFile() as out, tempfile.TemporaryFile() as err:
        running = subprocess.Popen([program], stdin=given, stdout=out, stderr=err)
        given.close()
        try:
            if sender:
                send(sender, pieces)
            status = running.wait(SECONDS)
        except (socket.timeout, subprocess.TimeoutExpired):
            running.kill()
            fail("%s: the program does not come to its end" % what)
        out.seek(0)
        err.seek(0)
        return out.read(), err.read(), status


# ---- Comparing ----

def shown(line):
    return line[:80].decode("ascii", "backslashreplace")


def hold(what, expected, written, complaint, status):
    if status != 0:
        fail("%s: the program ends with status %d" % (what, status))
    if complaint:
        fail("%s: the program says on standard error: %s" % (what, shown(complaint.split(b"\n")[0])))
    if written == expected:
        return
    if written.startswith(expected):
        fail("%s: bytes after the last line" % what)
    if expected.startswith(written):
        fail("%s: the program stops after %d bytes, the model after %d" % (what, len(written), len(expected)))
    theirs, ours = written.split(b"\n"), expected.split(b"\n")
    index = next(index for index, (left, right) in enumerate(zip(theirs, ours)) if left != right)
    fail("%s: line %d: the program says %s, the model %s" % (what, index + 1, shown(theirs[index]), shown(ours[index])))


def words(outcome):
    """An outcome in words."""
    if isinstance(outcome, tuple):
        return outcome[0] + (" (%s)" % outcome[1] if outcome[1] else "")
    return "with %d" % outcome if isinstance(outcome, int) else outcome


def report(what, seen):
    """Shows how often each outcome was seen; gives those that never were."""
    counts = {outcome: seen[what, outcome] for outcome in SHOULD_OCCUR[what]}
    print("%s: %s" % (what, ", ".join("{:,} {}".format(number, words(outcome)) for outcome, number in counts.items() if number)))
    return ["%s %s" % (what, words(outcome)) for outcome, number in counts.items() if not number]


def compare(program, seed, count):
    seen = Counter()
    for index in range(count):
        recordings, recording = generated(seed, index)
        replay = Replay(recording)
        expected = replay.output()
        way, pieces = cut(recordings, recording, replay.starts)
        for handed, parts in (("as a file", None), (way, pieces)):
            what = "recording %d of seed %d, %s" % (index, seed, handed)
            hold(what, expected, *run(what, program, recording, parts))
            seen["ways", handed] += 1
        seen.update(("answers", answer[0]) for answer in replay.answers)
        seen.update(("kinds", answer[1]) for answer in replay.answers)
        seen["endings", replay.ending] += 1
    never = [outcome for what in SHOULD_OCCUR for outcome in report(what, seen)]
    if never:
        fail("never occurred: " + ", ".join(never))
    records = sum(seen["answers", answer] for answer in SHOULD_OCCUR["answers"])
    print("recordings/compare: {:,} recordings with {:,} whole records, each as a file and in pieces, every byte as the model has it, "
          "every outcome occurred".format(count, records))


def main(first, *numbers):
    if first == "show":
        sys.stdout.buffer.write(generated(*map(int, numbers))[1])
    else:
        compare(first, *map(int, numbers))


if __name__ == "__main__":
    main(*sys.argv[1:])
