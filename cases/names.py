"""A server of names (DNS over UDP) on a host that is a network namespace of a check, and hosts whose programs ask it.

These programs see files of the check in the place of the machine's, which keeps its own: no other program asks the
server, and theirs ask no other one.
"""

import ipaddress
import pathlib
import sys
import tempfile
import threading
from collections import Counter
from contextlib import contextmanager

from packets import LONGEST, name_at
from running import bound_socket

PORT = 53
# The kinds of records that tell an address of IPv4 and one of IPv6, by the bytes of the address, and what they are
# called.
A, AAAA = 1, 28
KINDS = {4: A, 16: AAAA}
CALLED = {A: "A", AAAA: "AAAA"}
INTERNET = b"\0\x01"
# The bytes of the header, and its flags: that it is an answer, of whoever knows, to a question that may be passed on.
HEADER, ANSWER = 12, 0x8580
NO_SUCH_NAME = 3
# In place of a name: it stands at the end of the header.
SAME_NAME = (0xC000 | HEADER).to_bytes(2, "big")
# No answer may be kept: the name may have another address right after it.
NO_SECONDS = bytes(4)
# How many questions a server counts in all, so that a program which asks without a pause gets no answer in the end.
MOST = 20_000

RESOLVER, SOURCES = "/etc/resolv.conf", "/etc/nsswitch.conf"
# What a program does without an answer: it soon asks again, or it waits for longer than a check takes.
SOON, LATE = "timeout:2 attempts:3", "timeout:30 attempts:5"
DOMAIN = "invalid"
LOOKUP = "import socket, sys; print(*sorted({it[4][0] for it in socket.getaddrinfo(sys.argv[1], None)}))"


# ---- The server


def question_of(data):
    """The name in the question of a query, in small letters, the kind that it asks for, and the question's bytes."""
    labels, place = [], HEADER
    while data[place]:
        label, place = name_at(data, place)
        labels.append(label.lower())
    return ".".join(labels), int.from_bytes(data[place + 1:place + 3], "big"), data[HEADER:place + 5]


def answer_to(data, addresses):
    """The answer to a query whose name has these addresses: those of the kind that is asked for. None are a name that
    doesn't exist."""
    _, kind, question = question_of(data)
    packed = [ipaddress.ip_address(it).packed for it in addresses or ()]
    rows = [SAME_NAME + kind.to_bytes(2, "big") + INTERNET + NO_SECONDS + len(it).to_bytes(2, "big") + it
            for it in packed if KINDS[len(it)] == kind]
    flags = ANSWER | (NO_SUCH_NAME if addresses is None else 0)
    counts = b"".join(it.to_bytes(2, "big") for it in (1, len(rows), 0, 0))
    return data[:2] + flags.to_bytes(2, "big") + counts + question + b"".join(rows)


class Names:
    """A server of names that runs until it is closed, in a thread of its own, at an address of a host.

    `records` has the addresses of each name, of both families, and may be changed at any moment. A name that isn't
    there doesn't exist. While it `is_silent` it counts what it is asked, and never answers.
    """

    def __init__(self, space, address, records):
        self.records, self.is_silent, self.asked = dict(records), False, Counter()
        with space.entered():
            self.socket = bound_socket((address, PORT))
        self.socket.settimeout(0.1)
        self.is_open = True
        self.thread = threading.Thread(target=self.run, daemon=True)
        self.thread.start()

    def run(self):
        while self.is_open and self.asked.total() < MOST:
            try:
                data, place = self.socket.recvfrom(LONGEST)
                name, kind, _ = question_of(data)
            except (TimeoutError, IndexError, UnicodeDecodeError):
                # Nothing came, or no query.
                continue
            self.asked[name, kind, place[0]] += 1
            if not self.is_silent:
                self.socket.sendto(answer_to(data, self.records.get(name)), place)

    def times_asked(self, name, asker):
        """How often the host at an address has asked for the addresses of a name. It asks for each family by itself, so
        what counts is how often it asked for those of IPv4."""
        return self.asked[name, A, asker]

    def counts(self, left_out):
        """How often the records of each kind of a name were asked for until now, by each address, but for one name."""
        return {f"{name} {CALLED.get(kind, kind)} by {asker}": count
                for (name, kind, asker), count in self.asked.copy().items() if name != left_out}

    def __enter__(self):
        return self

    def __exit__(self, *_):
        self.is_open = False
        self.thread.join()
        self.socket.close()


# ---- Hosts that ask it


@contextmanager
def resolving(spaces, address, options):
    """Lets the programs of some hosts ask the server of names at an address, with these options of a resolver. Their
    machine's list of hosts still counts. If programs can't have files of their own, the check is skipped."""
    # A name that doesn't exist is asked for once more within a domain, which would be the machine's if none is named.
    texts = {RESOLVER: f"nameserver {address}\nsearch {DOMAIN}\noptions {options}\n", SOURCES: "hosts: files dns\n"}
    with tempfile.TemporaryDirectory(prefix="lg-names-") as folder:
        files = {}
        for path, text in texts.items():
            # Not each machine has the second one.
            if path == RESOLVER or pathlib.Path(path).exists():
                files[path] = pathlib.Path(folder, pathlib.Path(path).name)
                files[path].write_text(text, encoding="ascii")
        for space in spaces:
            space.show(files)
        yield


def looked_up(space, name):
    """The addresses of a name that a program of a host finds, which isn't this project's."""
    return space.run([sys.executable, "-c", LOOKUP, name]).split()
