"""Whether a node whose lines nobody reads goes on as before."""

import fcntl
import os
import statistics
import struct
import termios
import threading
import time

from checks import NOTES
from host import moment
from packets import HOST, IN_A_PACKET, claim, ping
from running import (
    LIFE_MS, PATIENCE, Node, asked, bound_socket, faults_of_lines, file_of, free_ports, table_of, wait_for, wait_until)

TOLD = 200
UNREAD_SECONDS = 15


class Stranger:
    """It tells a node of members that aren't there, ten times a second, each time at a greater incarnation."""

    def __init__(self, port):
        self.port, self.incarnation, self.is_on = port, 0, True
        # What the node sends to those members comes here, and stays unread.
        self.silent = bound_socket()
        self.thread = threading.Thread(target=self.run)
        self.thread.start()

    def run(self):
        place = self.silent.getsockname()[1]
        with bound_socket() as sender:
            while self.is_on:
                self.incarnation += 1
                claims = [claim(1, f"t{number:03}", place, self.incarnation) for number in range(TOLD)]
                for start in range(0, TOLD, IN_A_PACKET):
                    sender.sendto(ping(5, "nobody", claims[start:start + IN_A_PACKET]), (HOST, self.port))
                    time.sleep(0.001)
                time.sleep(0.1)

    def end(self):
        self.is_on = False
        self.thread.join()


def times_of_acks(port, seconds):
    """The milliseconds from a Ping to its Ack, for fifty Pings a second; a lost one takes a second."""
    times, end = [], time.monotonic() + seconds
    while time.monotonic() < end:
        begun = time.monotonic()
        heard = asked(ping(9, "b"), port, 1.0)
        times.append((time.monotonic() - begun) * 1000 if heard else 1000.0)
        time.sleep(0.02)
    return sorted(times)


class Reading:
    """Reads the output of a node in a thread, as long as it is wanted or until it ends."""

    def __init__(self, source):
        self.source, self.parts, self.is_on = source, [], True
        self.thread = threading.Thread(target=self.run)
        self.thread.start()

    def run(self):
        while self.is_on:
            part = os.read(self.source.fileno(), 65_536)
            if not part:
                return
            self.parts.append(part)

    def text(self):
        return b"".join(self.parts).decode()

    def pause(self):
        """Stops to read: the part that comes next is the last one."""
        self.is_on = False
        self.thread.join()


def unread_bytes(source):
    """How many bytes wait in a pipe, by its reading end."""
    return struct.unpack("i", fcntl.ioctl(source, termios.FIONREAD, bytes(4)))[0]


def fills_up(source, least=None):
    """Waits until a pipe takes no more: at least so many bytes wait in it, or else more than half of its room is taken,
    and no byte comes for a second. The rest of the room may lie behind the ends of single writes."""
    seen = [0.0, 0]
    least = least or fcntl.fcntl(source, fcntl.F_GETPIPE_SZ) // 2 + 1

    def is_full():
        waiting = unread_bytes(source)
        if waiting != seen[1]:
            seen[:] = [time.monotonic(), waiting]
        return waiting >= least and time.monotonic() - seen[0] > 1

    return wait_until(is_full, PATIENCE)


def faults_of_unread(node, port):
    """What goes wrong with a node b at a port while its lines are read, then unread, then read again."""
    pipe, stranger = node.process.stdout, Stranger(port)
    reading = Reading(pipe)
    try:
        before = times_of_acks(port, 3)
        reading.pause()
        filled, paused_at = fills_up(pipe), stranger.incarnation
        waiting = unread_bytes(pipe)
        during = times_of_acks(port, UNREAD_SECONDS)
        grew = unread_bytes(pipe) - waiting
    finally:
        stranger.end()
    if filled is None or grew:
        return f"the pipe wasn't full: {waiting} bytes waited, and then {grew} more"
    return faults_of_times(before, during) or faults_of_the_rest(node, port, reading.text(), paused_at)


def faults_of_times(before, during):
    """What is wrong if the times of Acks grew: three times as much is taken as the machine's load."""
    medians = [statistics.median(it) for it in (before, during)]
    tenths = [it[len(it) * 9 // 10] for it in (before, during)]
    NOTES.append(f"milliseconds to an Ack, median and nine of ten: {medians[0]:.2f} and {tenths[0]:.2f} while the lines"
                 f" are read, {medians[1]:.2f} and {tenths[1]:.2f} while they aren't")
    if medians[1] > 3 * medians[0] + 2 or tenths[1] > 3 * tenths[0] + 20:
        return f"the Acks got slower: medians {medians}, nine of ten within {tenths}"
    return None


def faults_of_the_rest(node, port, text, paused_at):
    """What is wrong with the lines that come once they are read again, behind this text: they have to tell at last what
    the node knows, and it knows more than when they weren't read any more."""
    table = table_of(port)
    if min(record.incarnation for name, record in table.items() if name.startswith("t")) <= paused_at:
        return f"nothing changed while the lines weren't read: {table}"
    reading = Reading(node.process.stdout)
    told_all = wait_until(lambda: not faults_of_lines(text + reading.text(), table), PATIENCE)
    node.close_input()
    reading.thread.join(PATIENCE)
    return None if told_all is not None else faults_of_lines(text + reading.text(), table)


def unread_lines_slow_no_ack(program):
    """A node is followed by a pipe that nobody reads for 15 seconds, so that it is full, while a stranger changes 2,000
    records a second. Its Acks come as soon as before. Once the pipe is read again, the newest of each member comes."""
    names = ["a", "b"]
    ports = dict(zip(names, free_ports(2)))
    other = Node(program, file_of("a", ports["a"], [("b", ports["b"])]), "--for-ms", str(LIFE_MS))
    node = Node(program, file_of("b", ports["b"], [("a", ports["a"])]), "--for-ms", str(LIFE_MS), "--follow",
                "--until-input-ends", has_input=True)
    try:
        for name, port in ports.items():
            wait_for(name, port)
        return faults_of_unread(node, ports["b"])
    finally:
        for it in (other, node):
            it.kill()


# ---- A node that is to end while nobody reads

# The smallest pipe that the system makes, so that it is soon full.
SMALL_PIPE = 4096
# How long a node has that is to end by its time: long enough for the pipe to be full before.
LIFE_SECONDS = 8
# How long its output may take nothing once it was told to end, and a second and a half for a busy machine.
GRACE, BEHIND = 2, 1.5
CUT = "lg: write\nstandard output took nothing for 2 s\n"


def fault_of_a_stuck_reader(program, option):
    """What is wrong with how a node ends that is told to by an option, while its pipe is full."""
    [port] = free_ports(1)
    begun = moment()
    life = ["--for-ms", str(1000 * LIFE_SECONDS)] if option == "--for-ms" else [option]
    node = Node(program, file_of("b", port, keys="interval_ms = 60000\n"), "--follow", *life, has_input=True)
    fcntl.fcntl(node.process.stdout, fcntl.F_SETPIPE_SZ, SMALL_PIPE)
    wait_for("b", port)
    stranger = Stranger(port)
    try:
        # Pieces of up to a page are written whole or not at all, so the first line alone may be in the pipe.
        filled = fills_up(node.process.stdout, least=1)
    finally:
        stranger.end()
    if filled is None or not node.is_running():
        return f"{option}: the pipe wasn't full: {node.kill()}"
    told_at = begun + LIFE_SECONDS
    if option != "--for-ms":
        node.close_input()
        told_at = moment()
    wait_until(lambda: not node.is_running(), 4 * LIFE_SECONDS)
    took = moment() - told_at
    status, output, errors = node.end(0)
    if status != 1 or not took < GRACE + BEHIND or not output.endswith("\n") or not errors.endswith(CUT):
        return f"{option}: after {took:.1f} s it ended with {status}, {output[-200:]!r} and {errors!r}"
    NOTES.append(f"{option}: ended after {took:.1f} s")
    return faults_of_lines(output, {})


def stuck_reader_holds_no_end(program):
    """A node is followed by a pipe that nobody reads. Once it is told to end, by the end of its input or since its time
    is over, it does so within two seconds. Its last line is whole, and it says that it couldn't write the others."""
    faults = (fault_of_a_stuck_reader(program, it) for it in ("--until-input-ends", "--for-ms"))
    return next(filter(None, faults), None)
