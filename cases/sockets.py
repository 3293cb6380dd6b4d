"""The sockets of a process and of this machine, as the system tells them in /proc (IPv4)."""

import pathlib
import socket
import sys
from contextlib import suppress

# The state of a TCP socket that listens, and of a UDP socket that is bound and not connected.
LISTENS, BOUND = "0A", "07"


def rows_of(kind):
    """The rows of a table of the system, `tcp` or `udp`: of each socket its words."""
    lines = pathlib.Path(f"/proc/net/{kind}").read_text(encoding="ascii").splitlines()
    return [line.split() for line in lines[1:]]


def place_of(text):
    """The address and the port of a word such as `0100007F:1F0A`, the address in the machine's order of bytes."""
    address, _, port = text.partition(":")
    return socket.inet_ntoa(int(address, 16).to_bytes(4, sys.byteorder)), int(port, 16)


def own_inodes(process):
    """The numbers of the sockets that a process has open."""
    found = set()
    for it in pathlib.Path(f"/proc/{process}/fd").iterdir():
        # One may be closed meanwhile.
        with suppress(FileNotFoundError):
            kind, _, number = str(it.readlink()).partition(":[")
            found |= {number.removesuffix("]")} if kind == "socket" else set()
    return found


def places_of(process, kind, state):
    """The local addresses and ports of the sockets of a process that are of a kind and in a state, in order."""
    own = own_inodes(process)
    return sorted(place_of(row[1]) for row in rows_of(kind) if row[3] == state and row[9] in own)


def listening(process):
    """Where a process listens for connections."""
    return places_of(process, "tcp", LISTENS)


def bound(process):
    """Where a process has its UDP sockets."""
    return places_of(process, "udp", BOUND)


def udp_drops():
    """How many datagrams the system threw away for each UDP socket, by its address and port."""
    return {place_of(row[1]): int(row[12]) for row in rows_of("udp")}
