"""Cases of packets: many lines of hex for `lg answer`, of which the detector hears those that are packets."""

from fuzzing import answering, known, member, wire
from fuzzing.kinds import RunKind
from fuzzing.making import NAMES, damaged_packet, names_of
from fuzzing.runs import Case, Outcome, text_of
from fuzzing.script import lines_of
from fuzzing.wire import FAILED, GOSSIP, MOST_CLAIMS, ONE, PING, THREE

MOST_LINES = 600


def damaged_hex(dice, line):
    """A line that is hex, or seldom no longer is."""
    how = dice.random()
    if how < 0.04:
        return line.upper()
    if how < 0.05:
        place = dice.randrange(len(line) + 1)
        return line[:place] + dice.choice([b"", b" ", b"\r", b"g", b"0x", b"\0", b"\xff", b"F"]) + line[place + 1:]
    return line


class Packets(RunKind):
    """Each line is a case."""

    name = "packets"
    # Some are of version three. There twelve claims aren't read, no Gossip and no Left, and Left is told as it is by a
    # member of version one, which tells addresses of IPv6 too; what names a group is heard, an Ack for another receiver
    # counts, and a Page of six is full.
    wrong_rules = (
        (wire, "MOST_CLAIMS", MOST_CLAIMS | {ONE: 5}), (wire, "MOST_CLAIMS", MOST_CLAIMS | {THREE: 11}),
        (wire, "MOST_NAME", 31), (wire, "MOST_INCARNATION", 999_999_999),
        (wire, "NAME_BYTES", wire.NAME_BYTES - set(b"_")), (wire, "TRAILING", 1), (wire, "FAMILY", 9),
        (wire, "KINDS", wire.KINDS | {THREE: wire.KINDS[ONE]}),
        (wire, "CLAIM_KINDS", wire.CLAIM_KINDS | {THREE: wire.CLAIM_KINDS[ONE]}), (member, "MOST_RELAYS", 65),
        (known, "MOST_OTHERS", 254), (known, "GONE", (FAILED,)), (member.Member, "accuse", lambda *_: None),
        (member.Member, "as_told", lambda it, claim: claim), (member.Member, "can_tell", lambda *_: True),
        (member.Member, "drops", lambda *_: False), (member.Member, "is_meant", lambda *_: True),
        (member, "MOST_CLAIMS", MOST_CLAIMS | {THREE: 6}),
        (wire.Claim, "rank", lambda it: (it.status, it.incarnation)))

    def make(self, dice):
        names = names_of(dice)
        own = dice.choice([b"b", dice.choice(NAMES)])
        # The detector's own name comes often, so that it is asked and accused.
        known = [own, own, *names]
        count = dice.choice([1, 10, dice.randrange(MOST_LINES)])
        usual, share = dice.randint(PING, GOSSIP), dice.choice([0.2, 0.7])
        lines = [damaged_hex(dice, damaged_packet(dice, known, usual, share).hex().encode()) for _ in range(count)]
        return Case(("answer", f"--name={own.decode()}"), b"\n".join(lines) + dice.choice([b"", b"\n", b"\n", b"\n\n"]))

    def wanted(self, case):
        lines, is_faulty = answering.written(case.given, case.words[1].removeprefix("--name=").encode())
        return Outcome(3 if is_faulty else 0, text_of(lines))

    def count(self, case):
        return len(lines_of(case.given))
