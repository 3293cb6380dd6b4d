"""Nodes of the built program that run, what they answer to a stranger, and the lines that they write.

All sockets are UDP ports of 127.0.0.1, and TCP ports for status servers.
"""

import ctypes
import os
import pathlib
import random
import select
import signal
import socket
import subprocess
import tempfile
import time

from host import moment
from packets import HOST, IN_A_PACKET, LONGEST, Record, ping, pull, read

SECONDS = 30
# The longest that a node of a group runs, in milliseconds, and that a check waits for what it isn't about, in seconds.
LIFE_MS = 140_000
PATIENCE = 60
ANY = (HOST, 0)

LIBC = ctypes.CDLL(None)
PR_SET_PDEATHSIG = 1
# The sockets that stand for the ports which this process has taken.
HELD = []


# ---- Ports


def bound_socket(place=ANY):
    """A UDP socket at a place."""
    opened = socket.socket(socket.AF_INET, socket.SOCK_DGRAM)
    opened.bind(place)
    return opened


def socket_at(port, kind):
    """A socket of a kind that is bound to a port. None if the port is taken."""
    opened = socket.socket(socket.AF_INET, kind)
    try:
        opened.bind((HOST, port))
    except OSError:
        opened.close()
        return None
    return opened


def is_taken(port, kind=socket.SOCK_DGRAM):
    """Whether a socket of a kind is bound to a port."""
    opened = socket_at(port, kind)
    if opened:
        opened.close()
    return opened is None


def is_reserved(port, kind):
    """Takes a port of a kind for this process until its end, and says so, unless it is taken.

    The port of the same number and of the other kind stands for it: of the ports of these tests none of UDP has the
    number of one of TCP.
    """
    other = socket.SOCK_STREAM if kind == socket.SOCK_DGRAM else socket.SOCK_DGRAM
    holder = socket_at(port, other)
    if not holder:
        return False
    HELD.append(holder)
    return not is_taken(port, kind)


def reserved(count, kind, least, most):
    """Ports of a kind that are free, all different, from the least number on and below the greatest."""
    found = []
    while len(found) < count:
        port = random.randrange(least, most)
        if port not in found and is_reserved(port, kind):
            found.append(port)
    return found


def free_ports(count):
    """UDP ports that are free, all different, and that the machine hands out to nobody: those are from 32768 on."""
    return reserved(count, socket.SOCK_DGRAM, 20_000, 32_000)


def free_status_ports(count):
    """The same of TCP, for status servers."""
    return reserved(count, socket.SOCK_STREAM, 12_000, 16_000)


# ---- Nodes


def file_of(name, port, seeds=(), keys=""):
    """The configuration of a member, by the names and ports of its seeds, with their addresses if these are others, and
    by lines of further keys."""
    known = ", ".join(f'"{seed}@{address[0] if address else HOST}:{place}"' for seed, place, *address in seeds)
    return f'name = "{name}"\nport = {port}\nseeds = [{known}]\n{keys}'


def end_with_parent():
    """Lets the system kill this process once the one that started it has ended, however that was."""
    LIBC.prctl(PR_SET_PDEATHSIG, signal.SIGKILL)


class Node:
    """A node of a configuration that runs, with these options of the command line.

    Its input is empty unless it is to stay open until `end` or `close_input`. What it writes goes to a pipe, or to a
    file that is open. `variables` are added to those of its environment. Its process calls `begin` before the program.
    """

    def __init__(self, program, text, *options, has_input=False, output=subprocess.PIPE, variables=None, begin=None):
        with tempfile.NamedTemporaryFile("w", prefix="lg-node-", suffix=".toml", delete=False) as file:
            file.write(text)
        self.path = pathlib.Path(file.name)
        self.ended, self.errors = None, ""

        def at_start():
            end_with_parent()
            if begin:
                begin()

        self.process = subprocess.Popen(
            [program, "node", "--config", file.name, *options], stdout=output, stderr=subprocess.PIPE,
            stdin=subprocess.PIPE if has_input else subprocess.DEVNULL, text=True, preexec_fn=at_start,
            env={**os.environ, **(variables or {})})

    def is_running(self):
        return self.process.poll() is None

    def close_input(self):
        self.process.stdin.close()
        # What reads the output later has nothing to write then.
        self.process.stdin = None

    def told_so_far(self):
        """What it has told until now on standard error. It may still run."""
        while not self.ended and select.select([self.process.stderr], [], [], 0)[0]:
            part = os.read(self.process.stderr.fileno(), 65_536)
            if not part:
                break
            self.errors += part.decode()
        return self.errors

    def end(self, seconds=SECONDS):
        """Its status, what it wrote and what it told, once it has ended; one that doesn't end is killed."""
        if self.ended:
            return self.ended
        limit = moment() + seconds
        while True:
            try:
                output, errors = self.process.communicate(timeout=max(0.1, limit - moment()))
                break
            except subprocess.TimeoutExpired:
                if moment() >= limit:
                    self.process.kill()
        self.path.unlink()
        self.errors += errors
        self.ended = self.process.returncode, output, self.errors
        return self.ended

    def kill(self):
        """Ends it at once, without a word to the others."""
        self.process.kill()
        return self.end()


# ---- A stranger's questions


def asked(data, port, seconds=2.0):
    """What the sender of a packet hears of the node at the port, within two seconds unless it says otherwise."""
    with bound_socket() as sender:
        sender.sendto(data, (HOST, port))
        sender.settimeout(seconds)
        try:
            return sender.recv(LONGEST)
        except TimeoutError:
            return b""


def wait_until(holds, seconds):
    """Waits until something holds. Gives how many seconds that took, or None if it still doesn't hold after so many. What
    the host kept of the processors meanwhile doesn't count."""
    begun = moment()
    while not holds():
        if moment() - begun > seconds:
            return None
        time.sleep(0.05)
    return moment() - begun


def wait_for(name, port, group=""):
    """Waits until the node of a name, and of a group if one is named, answers at a port. One that doesn't in twenty
    seconds fails the check."""
    knock = ping(1, name, version=3, group=group) if group else ping(1, name)
    if wait_until(lambda: asked(knock, port, 0.05), 20) is None:
        raise RuntimeError(f"{name} doesn't answer at port {port}")


def table_of(port):
    """What the node at a port knows: the record of each member by its name. Nothing if it doesn't answer."""
    known, after = {}, ""
    while True:
        records, _ = read(asked(pull(after), port))
        known |= {it.member: it for it in records}
        if len(records) < IN_A_PACKET:
            return known
        after = records[-1].member


def statuses(port):
    """What the node at a port knows: the status of each member by its name."""
    return {name: record.status for name, record in table_of(port).items()}


# ---- What a node writes


def record_of(words):
    """The record that the words `NAME STATUS INCARNATION ADDRESS` of a line tell, and perhaps `by ACCUSER`."""
    name, status, incarnation, address, *by = words
    return Record(name, status, int(incarnation), int(address.rpartition(":")[2]), by[1] if by else None)


def told(text):
    """What the whole lines of a node that is followed tell of its members, from the first to the last: the moment in
    milliseconds, and the record."""
    lines = [line.split() for line in text[:text.rfind("\n") + 1].splitlines()]
    return [(int(words[0]), record_of(words[2:])) for words in lines if words[1] == "record"]


def faults_of_lines(text, at_the_end):
    """What is wrong with the lines of a node: its last ones are older than its table, or one goes back."""
    latest, last = {}, 0
    for moment, record in told(text):
        if moment < last:
            return f"a line of {moment} ms came behind one of {last}"
        last = moment
        before = latest.get(record.member)
        if before and record.incarnation < before.incarnation:
            return f"{record} came behind {before} at {moment}"
        latest[record.member] = record
    older = [it for it in at_the_end.values() if it.member not in latest or latest[it.member].rank() < it.rank()]
    return f"{older} were known, and its last lines are {latest}" if older else None
