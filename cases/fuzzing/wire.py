"""A slow judge of packets, by the table of docs/FORMATS.md: their first fault, what they say, and their bytes.

It reads the bytes from the first on, and shares nothing with the program.
"""

import ipaddress
from dataclasses import dataclass

ONE, TWO, THREE = VERSIONS = range(1, 4)
PING, PING_REQ, ACK, NACK, PULL, PAGE, GOSSIP = range(1, 8)
ALIVE, SUSPECT, FAILED, LEFT = range(1, 5)
STATUS_WORDS = {ALIVE: "alive", SUSPECT: "suspect", FAILED: "failed", LEFT: "left"}
SHORT, MAGIC, VERSION, KIND, NAME, COUNT, CLAIM_KIND, INCARNATION, TRAILING, FAMILY = range(1, 11)
FAULT_WORDS = {SHORT: "Short", MAGIC: "Magic", VERSION: "Version", KIND: "Kind", NAME: "Name", COUNT: "Count",
               CLAIM_KIND: "ClaimKind", INCARNATION: "Incarnation", TRAILING: "Trailing", FAMILY: "Family"}
# The kinds of packets and of claims that a version has.
KINDS = {ONE: range(PING, GOSSIP), TWO: range(PING, GOSSIP), THREE: range(PING, GOSSIP + 1)}
CLAIM_KINDS = {ONE: (ALIVE, SUSPECT, FAILED), TWO: (ALIVE, SUSPECT, FAILED), THREE: (ALIVE, SUSPECT, FAILED, LEFT)}
# How many bytes the IP address has that stands behind a family byte.
FAMILIES = {4: 4, 6: 16}

MAGIC_BYTES = b"SL"
NAME_BYTES = frozenset(b"ABCDEFGHIJKLMNOPQRSTUVWXYZabcdefghijklmnopqrstuvwxyz0123456789._-")
MOST_NAME = 32
MOST_CLAIMS = {ONE: 6, TWO: 6, THREE: 12}
MOST_INCARNATION = 1_000_000_000


class Fault(Exception):
    """The first fault of some bytes, by its number."""

    def __init__(self, number):
        super().__init__(FAULT_WORDS[number])
        self.number = number


@dataclass(frozen=True)
class Claim:
    """What a packet says of a member. The address has six bytes, or 18 if it is one of IPv6, the port last. Who accuses
    is there for a suspect."""

    status: int
    member: bytes
    address: bytes
    incarnation: int
    accuser: bytes | None = None

    def rank(self):
        """A claim overrides the record of its member if its rank is the greater one."""
        return self.incarnation, self.status

    def text(self):
        """The record in the lines of a script."""
        by = f" by {self.accuser.decode()}" if self.status == SUSPECT else ""
        return f"{self.member.decode()} {STATUS_WORDS[self.status]} {self.incarnation} {address_text(self.address)}{by}"


@dataclass(frozen=True)
class Packet:
    """A packet. A Pull for the first records has an empty target; the parts that its kind or its version doesn't have
    are empty."""

    version: int
    kind: int
    sender: bytes
    number: int = 0
    target: bytes = b""
    address: bytes = b""
    claims: tuple = ()
    group: bytes = b""
    receiver: bytes = b""


def is_name(text):
    """Whether some bytes are a name."""
    return 1 <= len(text) <= MOST_NAME and NAME_BYTES.issuperset(text)


def ip_text(address):
    """The IP address of an address as it is written, that of IPv6 as RFC 5952 has it."""
    if len(address) == 6:
        return ".".join(map(str, address[:4]))
    ip = ipaddress.IPv6Address(address[:16])
    return f"::ffff:{ip.ipv4_mapped}" if ip.ipv4_mapped else str(ip)


def port_of(address):
    return int.from_bytes(address[-2:], "big")


def address_text(address):
    """An address with its port as it is written."""
    ip = ip_text(address)
    return f"{ip if len(address) == 6 else f'[{ip}]'}:{port_of(address)}"


def is_told(version, address):
    """Whether a version has a spelling for an address: the first two have none for one of IPv6."""
    return version == THREE or len(address) == 6


# ---- Reading


class Reader:
    """Takes the bytes of a packet from the first on."""

    def __init__(self, data):
        self.data, self.place = data, 0

    def byte(self):
        if self.place == len(self.data):
            raise Fault(SHORT)
        self.place += 1
        return self.data[self.place - 1]

    def one_of(self, allowed, fault):
        """The next byte, which has to be one of some."""
        byte = self.byte()
        if byte not in allowed:
            raise Fault(fault)
        return byte

    def name(self, least=1):
        """A name, or no name at all if it may have a length of 0."""
        length = self.one_of(range(least, MOST_NAME + 1), NAME)
        # A bad byte that is there comes before the one that is missing.
        if not NAME_BYTES.issuperset(self.data[self.place:self.place + length]):
            raise Fault(NAME)
        return self.raw(length)

    def raw(self, count):
        """So many bytes, whatever they are."""
        self.place += count
        if self.place > len(self.data):
            raise Fault(SHORT)
        return self.data[self.place - count:self.place]

    def number(self):
        return int.from_bytes(self.raw(4), "big")

    def address(self, version):
        length = FAMILIES[self.one_of(FAMILIES, FAMILY)] if version == THREE else 4
        return self.raw(length + 2)

    def claim(self, version):
        status = self.one_of(CLAIM_KINDS[version], CLAIM_KIND)
        member, address, incarnation = self.name(), self.address(version), self.number()
        if incarnation > MOST_INCARNATION:
            raise Fault(INCARNATION)
        return Claim(status, member, address, incarnation, self.name() if status == SUSPECT else None)


def read(data):
    """The packet that some bytes are. Raises their first fault if they are none."""
    reader = Reader(data)
    for byte in MAGIC_BYTES:
        reader.one_of((byte,), MAGIC)
    version = reader.one_of(VERSIONS, VERSION)
    kind = reader.one_of(KINDS[version], KIND)
    group = reader.name(0) if version == THREE else b""
    sender = reader.name()
    number = reader.number() if kind in (PING, PING_REQ, ACK, NACK) else 0
    target = reader.name(0 if kind == PULL else 1) if kind in (PING, PING_REQ, PULL) else b""
    receiver = reader.name() if version == THREE and kind in (ACK, NACK) else b""
    address = reader.address(version) if kind == PING_REQ else b""
    count = reader.one_of(range(MOST_CLAIMS[version] + 1), COUNT)
    claims = tuple([reader.claim(version) for _ in range(count)])
    if reader.place != len(data):
        raise Fault(TRAILING)
    return Packet(version, kind, sender, number, target, address, claims, group, receiver)


# ---- Writing


def spelled_name(name):
    return bytes([len(name)]) + name


def spelled_address(version, address):
    family = bytes([4 if len(address) == 6 else 6]) if version == THREE else b""
    return family + address


def spelled_claim(version, claim):
    accuser = spelled_name(claim.accuser) if claim.status == SUSPECT else b""
    return (bytes([claim.status]) + spelled_name(claim.member) + spelled_address(version, claim.address)
            + claim.incarnation.to_bytes(4, "big") + accuser)


def spelled(packet):
    """The bytes of a packet."""
    version, kind = packet.version, packet.kind
    body = packet.number.to_bytes(4, "big") if kind in (PING, PING_REQ, ACK, NACK) else b""
    if kind in (PING, PING_REQ, PULL):
        body += spelled_name(packet.target)
    if version == THREE and kind in (ACK, NACK):
        body += spelled_name(packet.receiver)
    if kind == PING_REQ:
        body += spelled_address(version, packet.address)
    group = spelled_name(packet.group) if version == THREE else b""
    head = MAGIC_BYTES + bytes([version, kind]) + group + spelled_name(packet.sender)
    claims = b"".join(spelled_claim(version, claim) for claim in packet.claims)
    return head + body + bytes([len(packet.claims)]) + claims
