"""Nodes of the built program that record, and what their folders have: read by the slow reader of recordings, and
replayed by the program and by the slow judge."""

import pathlib
import re
import socket
import subprocess
import tempfile
from collections import Counter
from contextlib import contextmanager

from fuzzing.recording import FILE_NAME, HEARD, SHORT, Before, file_name, files_of, read_file
from fuzzing.replay import STATUSES, Life, Window, replayed
from fuzzing.runs import text_of
from packets import HOST
from running import Node, file_of, free_ports, wait_until

# What a node tells on standard error if entries aren't written: once, until a batch was written whole.
GAP_LINE = re.compile(r"^(lg: )?the recording has a gap: ", re.MULTILINE)
# The address of all nodes, as packets have it.
OWN_HOST = socket.inet_aton(HOST)
# The bytes that a recording may take for each `record_mb`.
MEGABYTE = 1_000_000
# Rounds are short, so that much happens. Version 3 has a node say that it leaves.
QUICK = "wire = 3\ninterval_ms = 100\ntimeout_ms = 50\nalpha = 2\npull_ms = 500\n"
SECONDS = 20


class Recorded:
    """A node whose events are recorded in a folder, which may not be there, unless it is one that isn't recorded. It
    ends with its input."""

    def __init__(self, program, name, port, seeds, folder, lines="", begin=None, is_recorded=True):
        self.name, self.port, self.folder = name, port, pathlib.Path(folder)
        record = f'record = "{folder}"\n' if is_recorded else ""
        self.text = file_of(name, port, seeds, f"{QUICK}{record}{lines}")
        self.node = Node(program, self.text, "--until-input-ends", has_input=True, begin=begin)

    def leave(self):
        """Ends it in good order. Gives its status, what it wrote, and what it told."""
        self.node.close_input()
        return self.node.end()

    def gaps_told(self):
        """How often it has told so far that entries weren't written."""
        return len(GAP_LINE.findall(self.node.told_so_far()))


def group_of(program, names, room):
    """Nodes of these names that know each other, each with a folder of its own in a room."""
    places = list(zip(names, free_ports(len(names))))
    nodes = []
    for name, port in places:
        folder = pathlib.Path(room, name)
        folder.mkdir(exist_ok=True)
        nodes.append(Recorded(program, name, port, [it for it in places if it[0] != name], folder))
    return nodes


def have_heard(nodes, others):
    """Waits until each of some nodes has recorded in its last life that it heard each of some others, and gives whether
    they have."""
    def has(node, other):
        return node is other or any(packet.sender == other.name.encode() for packet in heard_lately(node.folder))

    return wait_until(lambda: all(has(node, other) for node in nodes for other in others), SECONDS) is not None


def first_fault(*steps):
    """What is wrong with the first step that isn't right. The steps behind it aren't made."""
    return next(filter(None, (step() for step in steps)), None)


# ---- Replays


def replay(program, folder, window=None):
    """What the program writes of a folder, and its status."""
    words = [program, "replay", str(folder), *(window or Window()).options()]
    ran = subprocess.run(words, capture_output=True, stdin=subprocess.DEVNULL, timeout=SECONDS, check=False)
    return ran.returncode, ran.stdout


def first_difference(got, wanted):
    """Where two texts differ first, in words."""
    pairs = enumerate(zip(got.splitlines() + [b""], wanted.splitlines() + [b""]), 1)
    return next((f"line {place} is {mine[:200]}, wanted {its[:200]}" for place, (mine, its) in pairs if mine != its),
                f"{len(got)} bytes, wanted {len(wanted)}")


def misjudged(program, folder, window=None):
    """What the program says otherwise of a folder than the slow judge."""
    lines, end = replayed(files_of(pathlib.Path(folder)), window)
    wanted = STATUSES[end], text_of(lines)
    got = replay(program, folder, window)
    if got == wanted:
        return None
    told = f"status {got[0]}, wanted {wanted[0]} for {end}"
    return f"{window or 'all'}: {told if got[0] != wanted[0] else first_difference(got[1], wanted[1])}"


@contextmanager
def folder_of(files):
    """A folder with files that are made: of each its number and its bytes."""
    with tempfile.TemporaryDirectory(prefix="lg-recording-") as folder:
        for number, data in files:
            pathlib.Path(folder, file_name(number)).write_bytes(data)
        yield folder


def misjudged_files(program, files, window=None):
    """What the program says otherwise of such files than the slow judge."""
    with folder_of(files) as folder:
        return misjudged(program, folder, window)


# ---- What a folder has


def files_read(folder):
    """The files of a folder as they are read: of each its number, and what it has."""
    return [(number, read_file(data)) for number, data in files_of(pathlib.Path(folder))]


def numbers_in(folder):
    """The numbers of the files of a folder, in order."""
    return sorted(int(match[1]) for it in folder.iterdir() if (match := FILE_NAME.fullmatch(it.name)))


def copied(folder, room):
    """A copy of the files of a folder, which may be one that only a node sees."""
    copy = pathlib.Path(tempfile.mkdtemp(dir=room))
    for number, data in files_of(folder):
        (copy / file_name(number)).write_bytes(data)
    return copy


def has_gap(folder):
    """Whether the head of a file says that entries are missing before it."""
    due = 0
    for _, read in files_read(folder):
        if read.head and read.head.count > due:
            return True
        due = read.head.count + len(read.entries) if read.head else due
    return False


def lives_in(folder):
    """The lives of a folder: of each the files."""
    lives = []
    for _, read in files_read(folder):
        if not lives or read.head and read.head.count == 0:
            lives.append([])
        lives[-1].append(read)
    return lives


def model_of(files):
    """The slow model of a node behind the files of a life."""
    life = Life(True)
    for entry in (it for read in files for it in read.entries):
        life.due(entry.event)
    return life.member


def known_by(member):
    return Before(member.score, member.number, member.ousted, tuple(member.view()))


def fault_of_life(files, may_break_off):
    """What is wrong with the files of a life: with a fault, with numbers that don't follow one another, or with a head
    that doesn't say what was known. The last one may break off if the node was killed."""
    count = 0
    for place, read in enumerate(files):
        is_last = place == len(files) - 1
        if read.fault and not (is_last and may_break_off and read.fault == SHORT):
            return f"file {place} of a life has the fault {read.fault}"
        if read.head is None:
            break
        if read.head.count != count:
            return f"file {place} of a life begins with entry {read.head.count}, wanted {count}"
        if place and read.head.before != known_by(model_of(files[:place])):
            return f"file {place} of a life says that {read.head.before} was known"
        count += len(read.entries)
    return None if count else "there is no entry"


def entries_in(folder):
    """All entries of a folder."""
    return [entry for _, read in files_read(folder) for entry in read.entries]


def moment_of_last(folder):
    """When the last recorded entry happened, in seconds since 1970, by the head of its file."""
    read = [it for _, it in files_read(folder) if it.entries][-1]
    return (read.head.begun + read.entries[-1].event.moment - read.head.moment) / 1000


def heard_lately(folder):
    """The packets that the last life of a folder tells to have been heard."""
    files = next(reversed(lives_in(folder)), [])
    return [it.event.packet for read in files for it in read.entries if it.event.kind == HEARD]


def has_heard(folder, number):
    """Whether the last life of a folder tells of a packet with a number."""
    return any(it.number == number for it in heard_lately(folder))


def unsent(hearer, sender, port):
    """The packets that a folder tells to have been heard from a port, and the folder of who is there doesn't tell to
    have been sent."""
    address = OWN_HOST + port.to_bytes(2, "big")
    sent = Counter(packet for entry in entries_in(sender) for _, packet in entry.reply.sends)
    heard = Counter(it.event.packet for it in entries_in(hearer) if it.event.kind == HEARD
                    and it.event.address == address)
    return heard - sent
