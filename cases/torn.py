"""Recordings that are made by the slow model of a node, whole and then damaged: what the slow reader finds of them, and
what the program says beside the slow judge."""

import random
from dataclasses import replace

from fuzzing import lives
from fuzzing.known import NEWS, ROUND_END
from fuzzing.member import Health
from fuzzing.recording import SHORT, read_file, spelled_chunk, spelled_entry, spelled_file, spelled_head
from fuzzing.recording_rows import wrong_rows
from fuzzing.replay import DONE, FAULTY, Window, replayed
from fuzzing.wire import ALIVE, PULL, THREE, Claim, Packet
from recorded import misjudged_files

# How many cuts and turned bits the program is asked about.
SAMPLE = 60
# How many events a life that is made has behind its opening, and how many one of a small file.
EVENTS, FEW = 25, 8
NAMES = [b"b", b"a", b"c"]
PLACE = bytes([127, 0, 0, 1, 27, 89])


def made(seed=1, count=EVENTS):
    """A node that is made, with its entries."""
    node = lives.Node(random.Random(seed), NAMES, 20)
    node.live(count)
    return node


def file_from(node, start, end=None):
    """The bytes of a file with some entries of a node."""
    return spelled_file(node.head(start), node.entries[start:end])


def rows_of_the_format(program):
    """The worked rows of docs/RECORDINGS.md, and that what is spelled is read again."""
    wrong = wrong_rows()
    for seed in range(30):
        node = made(seed)
        for start in (0, 7):
            head = node.head(start)
            read = read_file(spelled_file(head, node.entries[start:]))
            if (read.head, read.entries, read.fault) != (head, node.entries[start:], None):
                wrong.append(f"the file of the seed {seed} from entry {start} is read as another")
    return next(iter(wrong), None)


def cut_anywhere(program):
    """A file that is cut off behind any byte has its whole entries, and is short unless it ends with one. A replay of
    it is right, as of each node that was killed."""
    node = made()
    data = file_from(node, 0)
    ends = read_file(data).ends
    for end in range(len(data)):
        read = read_file(data[:end])
        whole = sum(it <= end for it in ends)
        wanted = node.entries[:max(0, whole - 1)], None if end in ends else SHORT, whole > 0
        if (read.entries, read.fault, read.head is not None) != wanted:
            return f"cut behind byte {end}, the reader finds {len(read.entries)} entries and {read.fault}"
    dice = random.Random(1)
    for end in [*dice.sample(range(len(data)), SAMPLE), *(it + 1 for it in ends[:5]), *ends[:5]]:
        files = [(1, data[:end])]
        _, came_to = replayed(files)
        told = f"the slow judge says {came_to}" if came_to != DONE else misjudged_files(program, files)
        if told:
            return f"cut behind byte {end}: {told}"
    return None


def turned_bits(program):
    """A file of which one bit is another has a fault, whichever it is."""
    data = file_from(made(count=FEW), 0)
    for place in range(8 * len(data)):
        if read_file(turned(data, place)).fault is None:
            return f"bit {place} is turned, and the reader finds nothing"
    places = [*range(0, 32, 5), *random.Random(1).sample(range(8 * len(data)), SAMPLE)]
    faults = (misjudged_files(program, [(1, turned(data, place))]) for place in places)
    return next((f"bit {place} is turned: {told}" for place, told in zip(places, faults) if told), None)


def turned(data, place):
    """Some bytes with one bit turned."""
    byte, bit = divmod(place, 8)
    return data[:byte] + bytes([data[byte] ^ 1 << bit]) + data[byte + 1:]


def other_replies(reply):
    """Replies that differ from one in a single part each."""
    claim = Claim(ALIVE, b"x", PLACE, 7)
    yield replace(reply, next=reply.next + 1)
    yield replace(reply, ousted=not reply.ousted)
    yield replace(reply, answer=Health(1, 2, 3))
    yield replace(reply, forgotten=[*reply.forgotten, b"x"])
    yield replace(reply, changed=[*reply.changed, claim][-12:])
    yield replace(reply, sends=[*reply.sends, (PLACE, Packet(THREE, PULL, b"b"))])
    if reply.fired:
        kind, subject, deadline = reply.fired
        yield replace(reply, fired=(kind, subject, deadline + 1))
        yield replace(reply, fired=(ROUND_END if kind == NEWS else NEWS, 0, deadline))
    for part in ("fired", "answer"):
        if getattr(reply, part):
            yield replace(reply, **{part: None})
    for part in ("sends", "changed"):
        if getattr(reply, part):
            yield replace(reply, **{part: getattr(reply, part)[1:]})


def changed_replies(program):
    """A reply that is changed, with a right digest: the replay says that it differs, in its place, and ends with 1."""
    node = made()
    for place, entry in enumerate(node.entries):
        for reply in other_replies(entry.reply):
            entries = [*node.entries[:place], replace(entry, reply=reply), *node.entries[place + 1:]]
            files = [(1, spelled_file(node.head(0), entries))]
            lines, end = replayed(files)
            is_found = end == FAULTY and lines.count("differs") == 1 and " differing 1 " in lines[-1]
            told = misjudged_files(program, files) if is_found else f"the slow judge says {end}: {lines[-1]}"
            if told:
                return f"entry {place} has another reply: {told}"
    return None


def gaps_and_lives(program):
    """Files that go on with one another, lack entries between them, begin another life, or are empty."""
    node, other = made(1), made(2)
    first, last, anew = file_from(node, 0, 9), file_from(node, 9), file_from(other, 0)
    torn = first[:-1]
    rows = {"two files": [first, last], "the last file": [last], "the first twice": [first, first],
            "a gap": [file_from(node, 0, 8), last], "entries twice": [file_from(node, 0, 10), last],
            "two lives": [first, last, anew], "a life behind a gap": [last, anew], "a torn life": [torn, anew],
            "a torn file in a life": [torn, last], "a torn head": [first, last[:9]],
            "an empty file": [first, b""], "an empty file in a life": [first, b"", last],
            "a file of another format": [first, b"LGR\2", anew]}
    for what, files in rows.items():
        for window in (Window(), Window(only=b"a"), Window(1, 300)):
            told = misjudged_files(program, [(3 * place, data) for place, data in enumerate(files, 1)], window)
            if told:
                return f"{what}: {told}"
    return None


def changed_heads(program):
    """A head is judged whole, also where it says what was known before the first entry."""
    node = made()
    body = spelled_head(node.head(7))
    entries = b"".join(spelled_chunk(spelled_entry(it)) for it in node.entries[7:])
    for place in range(len(body)):
        data = spelled_file(node.head(7))[:4] + spelled_chunk(body[:place] + b"\xff" + body[place + 1:]) + entries
        if place % 3 == 0 and (told := misjudged_files(program, [(1, file_from(node, 0, 7)), (2, data)])):
            return f"byte {place} of a head is another: {told}"
    return None


MADE_CHECKS = [rows_of_the_format, cut_anywhere, turned_bits, changed_replies, gaps_and_lives, changed_heads]
