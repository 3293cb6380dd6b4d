"""A slow model of a detector: what it replies to each event, by the rules of docs/PROTOCOL.md and docs/DECISIONS.md.

It keeps plain lists and dictionaries, and looks through all of them each time.
"""

from dataclasses import dataclass, field, replace

from fuzzing.known import DIRECT, FORGET, GONE, NEWS, RELAY_END, RELAY_NACK, ROUND_END, ROUND_START, SUSPICION, Known
from fuzzing.wire import (
    ACK, ALIVE, FAILED, GOSSIP, MOST_CLAIMS, NACK, PAGE, PING, PING_REQ, PULL, SUSPECT, THREE, Claim, Packet)

MOST_RELAYS = 64
# The greatest number of a probe or a relay, behind which comes 1.
MOST_NUMBER = 4_294_967_295
WORDS = 8
# To how many a member says that it leaves.
MOST_TOLD = 8
# With whose record an Ack to such a member begins, in version three.
ACK_BUDDIES = (SUSPECT, FAILED)


@dataclass
class Probe:
    """The probe of a round: its number and target, whether an Ack counted, and the helpers that were asked."""

    number: int
    target: bytes
    is_acked: bool = False
    helpers: list = field(default_factory=list)
    nacks: set = field(default_factory=set)


@dataclass(frozen=True)
class Unknown:
    """The answer to who asks for a record that isn't there."""

    def text(self):
        return "none"


@dataclass(frozen=True)
class Health:
    """The answer to who asks for a member's health."""

    score: int
    number: int
    members: int

    def text(self):
        return f"score {self.score} number {self.number} members {self.members}"


@dataclass
class Reply:
    """What an event gives. A timer that fired is its kind, whom it is about and its deadline; an answer is a record, or
    one of the two above."""

    fired: tuple | None = None
    answer: Claim | Unknown | Health | None = None
    sends: list = field(default_factory=list)
    changed: list = field(default_factory=list)
    forgotten: list = field(default_factory=list)
    ousted: bool = False
    next: int = 0


def picked(words, names):
    """Those of some names that random words pick, each of those that are left. They are as many as there are words, or
    all."""
    left = list(names)
    return [left.pop(word % len(left)) for word in words[:len(left)]]


class Member(Known):
    """A detector that was opened. Seeds are pairs of a name and an address."""

    def __init__(self, name, address, now, config, seeds=()):
        super().__init__(name, address, now, config)
        self.number_due, self.probe, self.relays, self.chosen = config["first"], None, {}, set()
        self.group = config.get("group", b"")
        for seed, place in seeds:
            self.take(Claim(ALIVE, seed, place, 0), is_told=False)
        self.tell_arrival()
        self.set_news()
        self.reply = Reply()

    # ---- Packets

    def send(self, to, kind, number=0, target=b"", address=b"", claims=(), receiver=b""):
        """Sends a packet. In version three alone it names a receiver, and this member's group if that has one."""
        version, claims = self.config["wire"], tuple(map(self.as_told, claims))
        packet = Packet(version, kind, self.name, number, target, address, claims, self.group,
                        receiver if version == THREE else b"")
        self.reply.sends.append((to, packet))

    def send_ping(self, to, number, target):
        self.send(to, PING, number, target, claims=self.claims_for(target, (SUSPECT,)))

    def send_ack(self, to, number, receiver):
        buddies = ACK_BUDDIES if self.has_version_three() else ()
        self.send(to, ACK, number, claims=self.claims_for(receiver, buddies), receiver=receiver)

    def own_claims(self):
        """The claims of a packet that has this member's own record alone, if that can be told."""
        return (self.own(),) if self.can_tell(self.address) else ()

    def send_pull(self, to, after):
        self.send(to, PULL, target=after, claims=self.own_claims())

    def send_page(self, to, after):
        rest = [record for record in self.view() if record.member > after and self.can_tell(record.address)]
        self.send(to, PAGE, claims=tuple(rest[:self.room()]))

    # ---- Events

    def least_deadline(self):
        return min(self.timers.values())

    def event(self, now, does, *words):
        """Takes an event of this moment, and gives the reply."""
        self.now = max(self.now, now)
        self.reply, self.forgotten, before, own = Reply(), [], dict(self.records), self.own()
        does(*words)
        self.set_news()
        changed = [record for name, record in self.records.items() if before.get(name) != record]
        changed += [self.own()] if self.own() != own else []
        self.reply.changed, self.reply.forgotten = sorted(changed, key=lambda it: it.member), self.forgotten
        self.reply.ousted, self.reply.next = self.ousted, self.least_deadline()
        return self.reply

    def tick(self, now, words):
        return self.event(now, self.fire_one, [*words, *[0] * (WORDS - len(words))])

    def hear(self, now, source, packet):
        return self.event(now, self.respond, source, packet)

    def ask(self, now, name):
        return self.event(now, self.answer_status, name)

    def health(self, now):
        return self.event(now, self.answer_health)

    def pull(self, now, peer):
        return self.event(now, self.send_pull, peer, b"")

    def leave(self, now, words):
        return self.event(now, self.leave_once, [*words, *[0] * (WORDS - len(words))])

    def answer_status(self, name):
        record = self.own() if name == self.name else self.records.get(name)
        self.reply.answer = record or Unknown()

    def answer_health(self):
        self.reply.answer = Health(self.score, self.number, self.live())

    # ---- Timers

    def fire_one(self, words):
        """Fires the first timer that is due: by its deadline, then its kind, then its name or number."""
        due = min(((deadline, *timer) for timer, deadline in self.timers.items()), default=None)
        if due is None or due[0] > self.now:
            return
        deadline, kind, subject = due
        del self.timers[kind, subject]
        self.reply.fired = kind, subject, deadline
        {ROUND_START: self.start_round, DIRECT: self.ask_helpers, ROUND_END: self.end_round,
         SUSPICION: self.end_suspicion, RELAY_NACK: self.send_nack, RELAY_END: self.end_relay,
         FORGET: self.forget_due, NEWS: self.tell_news}[kind](subject, words)

    def next_number(self):
        """The number of the next probe or relay."""
        number = self.number_due
        self.number_due = 1 if number == MOST_NUMBER else number + 1
        return number

    def scaled(self, key):
        return self.config[key] * (self.score + 1)

    def candidates(self):
        """Whom rounds may choose: nobody once this member has left."""
        return [] if self.has_left else self.others()

    def start_round(self, _, words):
        candidates = [name for name in self.candidates() if name not in self.chosen]
        if not candidates:
            self.chosen = set()
            candidates = self.candidates()
        if not candidates:
            self.timers[ROUND_START, 0] = self.now + self.scaled("interval_ms")
            return
        target = candidates[words[0] % len(candidates)]
        self.chosen.add(target)
        self.probe = Probe(self.next_number(), target)
        self.timers[DIRECT, 0] = self.now + self.scaled("timeout_ms")
        self.timers[ROUND_END, 0] = self.now + self.scaled("interval_ms")
        self.send_ping(self.records[target].address, self.probe.number, target)

    def ask_helpers(self, _, words):
        """Asks helpers about the target, and nobody if it was forgotten or a PingReq can't tell where it is."""
        target, others = self.records.get(self.probe.target), []
        if target and self.can_tell(target.address):
            others = [name for name in self.others() if name != target.member]
        self.probe.helpers = picked(words[:self.config["indirect"]], others)
        for helper in self.probe.helpers:
            to = self.records[helper].address
            self.send(to, PING_REQ, self.probe.number, target.member, target.address, self.queued())

    def end_round(self, *_):
        probe, self.probe = self.probe, None
        self.timers.pop((DIRECT, 0), None)
        if not probe.is_acked:
            self.mark(1 if probe.nacks.issuperset(probe.helpers) else 2)
            record = self.records.get(probe.target)
            if record and record.status not in GONE:
                self.take(replace(record, status=SUSPECT, accuser=self.name))
        self.timers[ROUND_START, 0] = self.now

    def end_suspicion(self, name, _):
        self.take(replace(self.records[name], status=FAILED, accuser=None))

    def forget_due(self, name, _):
        self.forget(name)

    def forget(self, name):
        """Forgets a name, so that a round may choose it again if it is known again."""
        super().forget(name)
        self.chosen.discard(name)

    def send_nack(self, relay, _):
        _, asker, number, name = self.relays[relay]
        self.send(asker, NACK, number, receiver=name)

    def end_relay(self, relay, _):
        del self.relays[relay]
        self.timers.pop((RELAY_NACK, relay), None)
        self.timers.pop((RELAY_END, relay), None)

    # ---- Leaving

    def drop_probe(self):
        """Ends the probe that runs, if one does. It accuses nobody."""
        self.probe = None
        self.timers.pop((DIRECT, 0), None)
        self.timers.pop((ROUND_END, 0), None)

    def leave_once(self, words):
        """Leaves, unless this member has left. It tells some members by packets that take nothing of the queue."""
        if self.has_left:
            return
        self.has_left = True
        self.tell(self.own())
        self.drop_probe()
        self.timers.setdefault((ROUND_START, 0), self.now + self.scaled("interval_ms"))
        kind = GOSSIP if self.has_version_three() else PAGE
        for name in picked(words[:MOST_TOLD], self.others()):
            self.send(self.records[name].address, kind, claims=self.own_claims())

    # ---- News

    def hearers(self):
        """Who may be sent news."""
        return self.others()

    def set_news(self):
        """Sets the timer of news, unless it is set, if there is any and somebody to hear it."""
        wait = self.config["gossip_ms"] if self.has_version_three() else 0
        if wait and (NEWS, 0) not in self.timers and self.live() > 1 and self.has_news():
            self.timers[NEWS, 0] = self.now + wait

    def tell_news(self, _, words):
        """Sends news to some members, one after another, as long as there is any."""
        for name in picked(words[:self.config["gossip_to"]], self.hearers()):
            claims = self.queued()
            if not claims:
                break
            self.send(self.records[name].address, GOSSIP, claims=claims)

    # ---- Hearing

    def respond(self, source, packet):
        """Takes the claims of a packet in their order, and then its body. One of another group is dropped."""
        if self.drops(packet):
            return
        for claim in packet.claims:
            self.hear_claim(claim, packet)
        if packet.kind == PING and packet.target == self.name:
            self.send_ack(source, packet.number, packet.sender)
        elif packet.kind == PING_REQ:
            self.relay(source, packet)
        elif packet.kind == ACK and self.is_meant(packet):
            self.hear_ack(packet)
        elif packet.kind == NACK and self.is_meant(packet):
            self.hear_nack(packet)
        elif packet.kind == PULL:
            self.send_page(source, packet.target)
        elif packet.kind == PAGE and len(packet.claims) == MOST_CLAIMS[packet.version]:
            self.send_pull(source, packet.claims[-1].member)

    def hear_claim(self, claim, packet):
        """Hears a claim of a packet."""
        self.take(self.merged(claim, packet.sender) if packet.kind == PAGE else claim)

    def merged(self, claim, sender):
        """How a claim of a Page is heard. In version three the claim that a member failed which isn't gone is heard as
        an accusation by the Page's sender, unless it is about the sender itself. Else two sides of a network that is
        whole again would fail each other's members by their tables."""
        record = self.records.get(claim.member)
        is_doubt = claim.status == FAILED and claim.member != sender and record and record.status not in GONE
        return replace(claim, status=SUSPECT, accuser=sender) if is_doubt and self.has_version_three() else claim

    def drops(self, packet):
        """Whether a packet isn't of this member's group. Those who have none hear what names none, so all of the first
        two versions."""
        return packet.group != self.group

    def is_meant(self, packet):
        """Whether an Ack or a Nack is for this member: one that names no receiver is."""
        return packet.receiver in (b"", self.name)

    def relay(self, source, packet):
        if packet.target == self.name:
            self.send_ack(source, packet.number, packet.sender)
        elif len(self.relays) == MOST_RELAYS:
            self.send(source, NACK, packet.number, receiver=packet.sender)
        else:
            number = self.next_number()
            self.relays[number] = packet.target, source, packet.number, packet.sender
            wait = self.config["timeout_ms"] * self.config["nack_thousandths"] // 1000
            self.timers[RELAY_NACK, number] = self.now + wait
            self.timers[RELAY_END, number] = self.now + self.config["interval_ms"]
            self.send_ping(packet.address, number, packet.target)

    def hear_nack(self, packet):
        probe = self.probe
        if probe and packet.number == probe.number and packet.sender in probe.helpers:
            probe.nacks.add(packet.sender)

    def hear_ack(self, packet):
        probe = self.probe
        if probe and packet.number == probe.number and packet.sender in (probe.target, *probe.helpers):
            if not probe.is_acked:
                probe.is_acked = True
                self.mark(-1)
                self.timers.pop((DIRECT, 0), None)
        elif packet.number in self.relays and self.relays[packet.number][0] == packet.sender:
            _, asker, number, name = self.relays[packet.number]
            self.end_relay(packet.number, None)
            self.send_ack(asker, number, name)
