"""Packets for what is no node: written and read by the table of docs/FORMATS.md, apart from the program's own code.

What is written is of version 1, and its sender is called z, unless it says otherwise. All versions are read.
"""

import socket
from dataclasses import dataclass

HOST = "127.0.0.1"
# More than a node reads of a datagram, which is 1,280 bytes. The longest packet has 1,207, and 1,226 if it is sealed.
LONGEST = 1500
# The most claims of a packet of version 1, so the most records of a Page of it.
IN_A_PACKET = 6
PING, PING_REQ, ACK, NACK, PULL, PAGE, GOSSIP = range(1, 8)
STATUSES = {1: "alive", 2: "suspect", 3: "failed", 4: "left"}


def name_bytes(text):
    """A name in a packet."""
    return bytes([len(text)]) + text.encode()


def packet(kind, body, claims=(), sender="z", version=1, group=""):
    """A packet of a kind. One of version 3 may name a group."""
    front = name_bytes(group) if version == 3 else b""
    return (b"SL" + bytes([version, kind]) + front + name_bytes(sender) + body + bytes([len(claims)])
            + b"".join(claims))


def ping(number, target, claims=(), version=1, group=""):
    """A Ping."""
    return packet(PING, number.to_bytes(4, "big") + name_bytes(target), claims, version=version, group=group)


def long_ping_req(number, target, group=""):
    """A PingReq of version 3 with twelve claims, in which all is as long as it can be but for these two names: that
    somebody is suspected at an address of IPv6."""
    name, address = name_bytes(32 * "n"), b"\x06" + bytes(15) + b"\x01\x1b\x5b"
    suspect = b"\x02" + name + address + bytes(4) + name
    body = number.to_bytes(4, "big") + name_bytes(target) + address
    return packet(PING_REQ, body, [suspect] * 12, 32 * "z", 3, group)


def pull(after=""):
    """A Pull for the records after a name. It has no claim, so nobody learns of z."""
    return packet(PULL, name_bytes(after))


def claim(kind, member, port, incarnation, accuser=b"", version=1):
    """A claim about a member at a port of 127.0.0.1: 1 Alive, 2 Suspect, which has an accuser, or 3 Failed."""
    place = (b"\x04" if version == 3 else b"") + socket.inet_aton(HOST) + port.to_bytes(2, "big")
    return bytes([kind]) + name_bytes(member) + place + incarnation.to_bytes(4, "big") + accuser


# ---- Reading


@dataclass(frozen=True)
class Record:
    """A member as a claim or a line of a node tells it."""

    member: str
    status: str
    incarnation: int
    port: int
    # Who accuses a suspect.
    accuser: str | None = None

    def rank(self):
        """Which of two records of a member is the later one: the one of the greater rank."""
        return self.incarnation, list(STATUSES.values()).index(self.status)


def name_at(data, place):
    """The name at a place, and the place behind it."""
    end = place + 1 + data[place]
    return data[place + 1:end].decode(), end


def port_at(data, place):
    """The place of the port in the address at a place. In version 3 a byte for the family stands before the address."""
    if data[2] != 3:
        return place + 4
    return place + (5 if data[place] == 4 else 17)


def body_at(data, place):
    """The places of the ports in the body at a place, and the place behind the body."""
    kind = data[3]
    if kind == PULL:
        return [], name_at(data, place)[1]
    if kind in (PAGE, GOSSIP):
        return [], place
    if kind in (ACK, NACK):
        return [], name_at(data, place + 4)[1] if data[2] == 3 else place + 4
    _, end = name_at(data, place + 4)
    if kind == PING:
        return [], end
    port = port_at(data, end)
    return [port], port + 2


def read(data):
    """The records that a packet claims, and the places of all ports in it. No bytes are a packet without claims."""
    if not data:
        return [], []
    _, place = name_at(data, name_at(data, 4)[1] if data[2] == 3 else 4)
    ports, place = body_at(data, place)
    count, place = data[place], place + 1
    records = []
    for _ in range(count):
        kind = data[place]
        member, place = name_at(data, place + 1)
        place = port_at(data, place)
        ports.append(place)
        port, incarnation = (int.from_bytes(data[place + start:place + end], "big") for start, end in ((0, 2), (2, 6)))
        accuser, place = name_at(data, place + 6) if kind == 2 else (None, place + 6)
        records.append(Record(member, STATUSES[kind], incarnation, port, accuser))
    return records, ports
