"""Random values for the cases, and damage to bytes. All come from a generator with a seed, here called the dice."""

from fuzzing.wire import (
    ACK, ALIVE, FAILED, GOSSIP, LEFT, MOST_CLAIMS, MOST_INCARNATION, NACK, ONE, PAGE, PING, PING_REQ, PULL, SUSPECT,
    THREE, TWO, Claim, Packet, spelled)

HOST = bytes([127, 0, 0, 1])
# Names that are short, long, the first and last by their bytes, and that begin others.
NAMES = [b"b", b"a", b"c", b"d", b"bb", b"-", b"z", b"_", b"A.z_-9", b"n" * 32, b"n" * 31, b"9"]
EDGES = [0, 1, 2, 3, 63, 64, 65, 255, 256, 65_535, 999_999_999, 1_000_000_000, 1_000_000_001, 2**32 - 1]
# With the bytes about the ends of kinds, counts and lengths, and those of families of addresses.
BYTES = bytes([*range(9), 12, 13, 32, 33, 127, 128, 255])


def names_of(dice):
    """The names of a case: a few, or more than a member can know."""
    few = dice.sample(NAMES, dice.randrange(3, len(NAMES) + 1))
    many = [b"m%d" % number for number in range(dice.choice([20, 300, 600]))]
    return few + many if dice.random() < 0.1 else few


def incarnation_of(dice):
    return dice.choice([0, 0, 0, 1, 1, 2, 3, dice.randrange(10), MOST_INCARNATION - dice.randrange(3)])


def address_of(dice, version):
    """An address, which is seldom far away. Of those of version three some are of IPv6."""
    how = dice.random()
    if version == THREE and how < 0.2:
        return dice.randbytes(18) if how < 0.05 else bytes(15) + b"\x01" + dice.choice(EDGES[:8]).to_bytes(2, "big")
    if how < 0.1 or version == THREE and how < 0.25:
        return dice.randbytes(6)
    return HOST + (7000 + dice.randrange(8)).to_bytes(2, "big")


def claim_of(dice, names, version):
    status = dice.choice([ALIVE, ALIVE, SUSPECT, SUSPECT, FAILED] + [LEFT] * (version == THREE))
    accuser = dice.choice(names) if status == SUSPECT else None
    return Claim(status, dice.choice(names), address_of(dice, version), incarnation_of(dice), accuser)


def number_of(dice):
    """A number of a probe: small ones are those of relays."""
    return dice.choice([dice.randrange(8), dice.randrange(80), dice.choice(EDGES[:-3]), dice.randrange(2**32)])


def packet_of(dice, names, usual=PING):
    """A packet of any version, between members of these names, often of the usual kind. One of version three names a
    group at times, and as its receiver mostly the first of the names."""
    kind = dice.choice([usual] * 6 + [PING, PING_REQ, ACK, ACK, NACK, PULL, PAGE])
    version = THREE if kind == GOSSIP else dice.choice([ONE, ONE, TWO, THREE, THREE])
    most = MOST_CLAIMS[version]
    count = dice.choice([0, 0, 1, 1, 2, dice.randrange(most + 1), dice.choice([most, most // 2])])
    claims = tuple([claim_of(dice, names, version) for _ in range(count)])
    target = dice.choice([*names[:3], dice.choice(names)]) if kind in (PING, PING_REQ) else b""
    target = dice.choice([b"", dice.choice(names)]) if kind == PULL else target
    has_group, has_receiver = version == THREE and dice.random() < 0.15, version == THREE and kind in (ACK, NACK)
    return Packet(version, kind, dice.choice(names), number_of(dice) if kind in (PING, PING_REQ, ACK, NACK) else 0,
                  target, address_of(dice, version) if kind == PING_REQ else b"", claims,
                  dice.choice(NAMES) if has_group else b"",
                  dice.choice([*names[:3], dice.choice(names)]) if has_receiver else b"")


# ---- Damage


def changed_bit(dice, data, place):
    return data[:place] + bytes([data[place] ^ 1 << dice.randrange(8)]) + data[place + 1:]


def changed_byte(dice, data, place):
    return data[:place] + bytes([dice.choice(BYTES)]) + data[place + 1:]


def cut(dice, data, place):
    return data[:place]


def left_out(dice, data, place):
    return data[:place] + data[place + dice.randrange(1, 5):]


def put_in(dice, data, place):
    return data[:place] + dice.randbytes(dice.randrange(1, 5)) + data[place:]


def doubled(dice, data, place):
    end = place + dice.randrange(1, 9)
    return data[:end] + data[place:]


def lengthened(dice, data, place):
    return data + dice.randbytes(dice.randrange(1, 3))


DAMAGE = [changed_bit, changed_bit, changed_byte, changed_byte, cut, left_out, put_in, doubled, lengthened]


def damaged(dice, data, other=b""):
    """Some bytes with one or a few places damaged, or spliced with others."""
    if other and dice.random() < 0.1:
        return data[:dice.randrange(len(data) + 1)] + other[dice.randrange(len(other) + 1):]
    for _ in range(dice.choice([1, 1, 1, 2, 4])):
        if data:
            data = dice.choice(DAMAGE)(dice, data, dice.randrange(len(data)))
    return data


def damaged_packet(dice, names, usual, share):
    """The bytes of a packet, often of the usual kind. A share of 1 of all is damaged, or nothing like a packet."""
    data = spelled(packet_of(dice, names, usual))
    if dice.random() >= share:
        return data
    if dice.random() < 0.9:
        return damaged(dice, data, spelled(packet_of(dice, names, usual)))
    return dice.randbytes(dice.randrange(40))
