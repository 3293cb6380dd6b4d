"""Nodes whose entries can't be written: the folder isn't there, is taken away or is on a full disk. They go on, say it
once, and the next file tells of the gap. And nodes whose recording is as long as it may be."""

import pathlib
import subprocess
import tempfile
import time
from contextlib import contextmanager

from checks import NOTES, Skipped
from fuzzing.recording import SHORT, files_of, spelled_chunk, spelled_entry
from fuzzing.replay import UNCHECKED, replayed
from packets import HOST, long_ping_req, ping
from recorded import (
    MEGABYTE, Recorded, copied, entries_in, fault_of_life, files_read, first_fault, has_gap, has_heard, lives_in,
    misjudged, numbers_in)
from running import asked, bound_socket, free_ports, wait_for, wait_until
from spaces import small_disk

SECONDS = 20
# How many datagrams of some 1,200 bytes come each second while a node is flooded.
RATE = 120
# The most milliseconds between the first and the last entry of a batch: a second, on a machine that does much else.
BATCH_MS = 2000
# The bytes of a disk that is full soon, and how many of them something else takes.
DISK, BALLAST = 400_000, 200_000
# How long a node is watched that has told of a fault, in seconds: further batches aren't written meanwhile.
WATCHED = 2.5
# Files of an eighth of a megabyte, so that one is begun soon.
SMALL = "record_mb = 1\n"


# ---- Nodes that are alone


@contextmanager
def alone(program, folder, lines="", begin=None):
    """A node that has no other, and answers."""
    [port] = free_ports(1)
    node = Recorded(program, "b", port, [], folder, lines, begin)
    try:
        wait_for("b", port)
        yield node
    finally:
        node.node.kill()


def flood(node, until, seconds=SECONDS):
    """Sends a node long packets until something holds. Gives whether it does in time."""
    begun, sent = time.monotonic(), 0
    with bound_socket() as sender:
        while time.monotonic() - begun < seconds:
            while sent < RATE * (time.monotonic() - begun):
                sender.sendto(long_ping_req(sent, node.name), (HOST, node.port))
                sent += 1
            if until():
                return True
            time.sleep(0.02)
    return False


def flooded_until_told(node):
    """Floods a node until it tells that entries aren't written. Gives what is wrong if it doesn't."""
    is_told = flood(node, lambda: node.gaps_told() > 0)
    return None if is_told else f"it told {node.node.told_so_far()!r}"


# ---- What such a node has to do


def told_once(node):
    """What is wrong with what a node tells and does whose entries can't be written: it tells so once, however many
    batches come, and goes on."""
    if wait_until(lambda: node.gaps_told() > 0, SECONDS) is None:
        return f"it told {node.node.told_so_far()!r}"
    end = time.monotonic() + WATCHED
    while time.monotonic() < end:
        if not asked(ping(9, node.name), node.port):
            return "it doesn't answer"
        time.sleep(0.1)
    told = node.gaps_told()
    return None if told == 1 else f"it told {told} times: {node.node.told_so_far()!r}"


def goes_on(node, folder):
    """What is wrong with what a node writes that can write again: it tells of later events, behind a gap."""
    heard = asked(ping(4711, node.name), node.port)
    if not heard or wait_until(lambda: has_heard(folder, 4711), SECONDS) is None:
        return f"no later event is recorded; it told {node.node.told_so_far()!r}"
    return None if has_gap(folder) else "no file says that entries are missing before it"


def left_with_gap(program, node):
    """What is wrong with the end of a node whose recording has a gap, and with its replay."""
    status, _, errors = node.leave()
    if status:
        return f"it ended with status {status} and {errors!r}"
    _, end = replayed(files_of(node.folder))
    return misjudged(program, node.folder) or (None if end == UNCHECKED else f"the slow judge says {end}")


# ---- The checks


def missing_folder(program):
    """A node whose folder isn't there tells so once, goes on, and records once the folder is there."""
    with tempfile.TemporaryDirectory(prefix="lg-recording-") as room:
        folder = pathlib.Path(room, "missing")

        def recorded_later():
            folder.mkdir()
            return goes_on(node, folder)

        with alone(program, folder) as node:
            return first_fault(lambda: told_once(node), recorded_later, lambda: left_with_gap(program, node))


def taken_folder(program):
    """A node whose folder is taken away while it runs tells so once it begins a file, and records again when there is a
    folder. What it wrote before is whole in the one that was taken."""
    with tempfile.TemporaryDirectory(prefix="lg-recording-") as room:
        folder, taken = pathlib.Path(room, "folder"), pathlib.Path(room, "taken")
        folder.mkdir()

        def is_missed():
            asked(ping(17, node.name), node.port)
            if wait_until(lambda: has_heard(folder, 17), SECONDS) is None:
                return "nothing is recorded"
            folder.rename(taken)
            return flooded_until_told(node)

        def recorded_later():
            folder.mkdir()
            return goes_on(node, folder)

        def taken_files():
            """What was written before is whole, and the entries since then are missing."""
            fault, written = fault_of_life(lives_in(taken)[0], may_break_off=False), len(entries_in(taken))
            first = files_read(folder)[0][1].head.count
            is_missing = None if first > written else f"entry {first} follows {written} entries that were taken away"
            return fault or misjudged(program, taken) or is_missing

        with alone(program, folder, SMALL) as node:
            return first_fault(is_missed, lambda: told_once(node), recorded_later, taken_files,
                               lambda: left_with_gap(program, node))


def full_disk(program):
    """A node whose disk is full tells so once, goes on, and records again when the disk has room. It needs a mount of
    its own."""
    with tempfile.TemporaryDirectory(prefix="lg-recording-") as room:
        folder = pathlib.Path(room, "disk")
        folder.mkdir()

        def begin():
            small_disk(folder, DISK)
            (folder / "ballast").write_bytes(bytes(BALLAST))

        try:
            with alone(program, folder, SMALL, begin) as node:
                return fault_of_full(program, node, room)
        except subprocess.SubprocessError as error:
            raise Skipped("no process can have a disk of its own") from error


def fault_of_full(program, node, room):
    """What is wrong with a node whose disk will be full."""
    # The folder as the node sees it.
    disk = pathlib.Path(f"/proc/{node.node.process.pid}/root{node.folder}")

    def recorded_later():
        (disk / "ballast").unlink()
        return goes_on(node, disk)

    def is_judged():
        """A file may break off where the disk was full."""
        wrong = [read.fault for _, read in files_read(disk) if read.fault not in (None, SHORT)]
        return misjudged(program, copied(disk, room)) or (f"a file has the fault {wrong[0]}" if wrong else None)

    return first_fault(lambda: flooded_until_told(node), lambda: told_once(node), recorded_later, is_judged)


# ---- As long as it may be


def size_of(folder):
    """How many bytes the files of a folder have. One may be deleted meanwhile."""
    total = 0
    for it in folder.iterdir():
        try:
            total += it.stat().st_size
        except FileNotFoundError:
            pass
    return total


def longest_batch(folder):
    """The most bytes that a batch can have had, by the moments of the entries."""
    sizes = [(it.event.moment, len(spelled_chunk(spelled_entry(it)))) for it in entries_in(folder)]
    longest = start = total = 0
    for moment, size in sizes:
        total += size
        while sizes[start][0] < moment - BATCH_MS:
            total -= sizes[start][1]
            start += 1
        longest = max(longest, total)
    return longest


def bounded(program):
    """A recording never has more than `record_mb` but for one batch. The oldest files are deleted for that, and no
    others. Before any is, each head tells what was known."""
    with tempfile.TemporaryDirectory(prefix="lg-recording-") as room:
        folder, most = pathlib.Path(room, "folder"), 0
        folder.mkdir()

        def is_whole():
            if not flood(node, lambda: len(numbers_in(folder)) > 2):
                return f"there are {numbers_in(folder)}"
            lives = lives_in(copied(folder, room))
            return fault_of_life(lives[0], may_break_off=True) if len(lives) == 1 else f"there are {len(lives)} lives"

        def has_deleted():
            nonlocal most
            most = max(most, size_of(folder))
            return numbers_in(folder)[0] > 2

        def is_flooded():
            return None if flood(node, has_deleted, 2 * SECONDS) else f"there are {numbers_in(folder)}"

        def is_bounded():
            found, batch = numbers_in(folder), longest_batch(folder)
            NOTES.append(f"at most {most:,} bytes, with batches of at most {batch:,}")
            if most > MEGABYTE + batch:
                return f"the files had {most:,} bytes, with batches of at most {batch:,}"
            return None if found == list(range(found[0], found[-1] + 1)) else f"there are {found}"

        with alone(program, folder, SMALL) as node:
            return first_fault(is_whole, is_flooded, lambda: left_with_gap(program, node), is_bounded)


UNWRITTEN_CHECKS = [missing_folder, taken_folder, full_disk, bounded]
