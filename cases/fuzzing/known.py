"""What a slow model of a detector knows of its group, and what it has to tell: the part of it that is about claims."""

from dataclasses import dataclass, replace

from fuzzing.numbers import MOST_OTHERS, suspicion_range, timeout
from fuzzing.wire import ALIVE, FAILED, LEFT, MOST_CLAIMS, MOST_INCARNATION, SUSPECT, THREE, Claim, is_told

ROUND_END, SUSPICION, DIRECT, RELAY_NACK, RELAY_END, ROUND_START, FORGET, NEWS = range(1, 9)
TIMER_WORDS = {ROUND_END: "round-end", SUSPICION: "suspicion", DIRECT: "direct", RELAY_NACK: "relay-nack",
               RELAY_END: "relay-end", ROUND_START: "round-start", FORGET: "forget", NEWS: "gossip"}
# The statuses of a member that is gone.
GONE = (FAILED, LEFT)


@dataclass
class Suspicion:
    """When a suspicion was raised, its least and greatest timeout, and the accusers that count."""

    raised: int
    least: int
    most: int
    counted: int
    accusers: list

    def confirmations(self):
        return len(self.accusers) - 1

    def lasts(self):
        """Its timeout, after the confirmations so far."""
        return timeout(self.least, self.most, self.counted, self.confirmations())

    def deadline(self):
        return self.raised + self.lasts()


class Known:
    """What a member knows of itself and of others, with the timers that it has set."""

    def __init__(self, name, address, now, config):
        self.name, self.address, self.config, self.now = name, address, config, now
        self.number = self.score = 0
        self.ousted = self.has_left = False
        self.records, self.queue, self.suspicions = {}, {}, {}
        # The names that the event forgot, in order.
        self.forgotten = []
        # The deadline of each timer that is set, by its kind and by whom it is about.
        self.timers = {(ROUND_START, 0): now}

    # ---- What is known

    def own(self):
        return Claim(LEFT if self.has_left else ALIVE, self.name, self.address, self.number)

    def view(self):
        """All records, in the order of names."""
        return sorted([self.own(), *self.records.values()], key=lambda it: it.member)

    def others(self):
        """The names of the others that aren't gone, in order."""
        return sorted(name for name, record in self.records.items() if record.status not in GONE)

    def live(self):
        return 1 + sum(record.status not in GONE for record in self.records.values())

    def suspicion_of(self, name):
        """A member's suspicion as it is now. None if there is none."""
        found = self.suspicions.get(name)
        return found and replace(found, accusers=list(found.accusers))

    def mark(self, points):
        self.score = max(0, min(self.config["max_score"], self.score + points))

    # ---- Claims

    def tell(self, claim):
        """Queues a claim with no sends."""
        self.queue[claim.member] = (claim, 0)

    def take(self, claim, is_told=True):
        """Hears a claim."""
        if claim.member == self.name:
            return self.take_own(claim)
        if self.passes_over(claim) or not self.make_place(claim.member):
            return None
        record = self.records.get(claim.member)
        if record and claim.rank() <= record.rank():
            return self.accuse(claim, record)
        self.records[claim.member] = claim
        if is_told:
            self.tell(claim)
        self.set_forget(claim)
        self.suspicions.pop(claim.member, None)
        self.timers.pop((SUSPICION, claim.member), None)
        if claim.status == SUSPECT:
            bounds = suspicion_range(self.config, self.live())
            self.suspicions[claim.member] = Suspicion(self.now, *bounds, [claim.accuser])
            self.set_suspicion(claim.member)
        return None

    def accuse(self, claim, record):
        """Hears a claim that doesn't override: it may be a further accusation, or suspect a member that left."""
        if claim.status == SUSPECT and record.status == LEFT:
            self.repeat(record)
        if claim.status != SUSPECT or claim.rank() != record.rank():
            return
        suspicion = self.suspicions[claim.member]
        if claim.accuser not in suspicion.accusers and len(suspicion.accusers) <= suspicion.counted:
            suspicion.accusers.append(claim.accuser)
            self.tell(claim)
            self.set_suspicion(claim.member)

    def repeat(self, record):
        """Tells of a leave again, unless it waits to be told: somebody hasn't heard of it."""
        if self.has_version_three() and record.member not in self.waiting():
            self.tell(record)

    def set_suspicion(self, name):
        self.timers[SUSPICION, name] = self.suspicions[name].deadline()

    def doubts(self, claim):
        """Whether a claim about this member says that it is suspected or has failed at a smaller incarnation."""
        return claim.status in (SUSPECT, FAILED) and claim.incarnation < self.number

    def take_own(self, claim):
        """Hears a claim about this member."""
        return self.stay_left(claim) if self.has_left else self.refute(claim)

    def stay_left(self, claim):
        """Hears a claim about this member after it left. A greater incarnation becomes its own."""
        if claim.incarnation > self.number:
            self.number = claim.incarnation
            self.tell(self.own())

    def refute(self, claim):
        """Hears a claim about this member, which hasn't left."""
        if self.doubts(claim):
            return self.oppose()
        is_older = claim.incarnation <= self.number if claim.status == ALIVE else claim.incarnation < self.number
        if is_older:
            return None
        if claim.incarnation == MOST_INCARNATION:
            self.ousted = True
            return None
        self.number = claim.incarnation + 1
        self.tell(self.own())
        if claim.status == SUSPECT:
            self.mark(1)
        return None

    def oppose(self):
        """Tells those who are behind what this member is, unless that waits to be told."""
        if self.has_version_three() and self.name not in self.waiting():
            self.tell(self.own())

    # ---- Forgetting

    def passes_over(self, claim):
        """Whether a claim is ignored, since it says that a member is gone whose name isn't known. If it weren't, those
        who forget a name early would hear of it again from those who forget it late, for ever."""
        return self.config["forget_ms"] > 0 and claim.status in GONE and claim.member not in self.records

    def make_place(self, name):
        """Forgets the name that is due to be forgotten first, if all places are taken and this name has none. Gives
        whether it has a place or can have one."""
        if name in self.records or len(self.records) < MOST_OTHERS:
            return True
        due = self.first_to_forget()
        if due is not None:
            self.forget(due)
        return due is not None

    def first_to_forget(self):
        """The name that is to be forgotten first, and of those at one moment the least. None if none is to be."""
        due = min(((deadline, name) for (kind, name), deadline in self.timers.items() if kind == FORGET), default=None)
        return due and due[1]

    def set_forget(self, claim):
        """Sets anew when a name is forgotten whose record has become this one: not at all if it isn't gone."""
        self.timers.pop((FORGET, claim.member), None)
        if self.config["forget_ms"] > 0 and claim.status in GONE:
            self.timers[FORGET, claim.member] = self.now + self.config["forget_ms"]

    def forget(self, name):
        """Forgets a name: its record, its claim in the queue and its timers. What a probe, a suspicion of another or a
        relay has of it stays, since that is the name alone."""
        self.forgotten.append(name)
        for kept in (self.records, self.queue, self.suspicions):
            kept.pop(name, None)
        for kind in (SUSPICION, FORGET):
            self.timers.pop((kind, name), None)

    # ---- What is told

    def has_version_three(self):
        """Whether this member sends version three. News goes with that alone."""
        return self.config["wire"] == THREE

    def room(self):
        """How many claims a packet of this member has at most."""
        return MOST_CLAIMS[self.config["wire"]]

    def can_tell(self, address):
        """Whether an address has a spelling in the version in which this member sends."""
        return is_told(self.config["wire"], address)

    def as_told(self, claim):
        """A claim as this member tells it: the first two versions say that one who left has failed."""
        is_left = claim.status == LEFT and self.config["wire"] != THREE
        return replace(claim, status=FAILED) if is_left else claim

    def waiting(self):
        """The names about which a claim of the queue may still be sent, those first that were told the least often."""
        limit = self.config["lambda"] * len(str(self.live()))
        rows = sorted((sends, name) for name, (claim, sends) in self.queue.items()
                      if sends < limit and self.can_tell(claim.address))
        return [name for _, name in rows]

    def queued(self, room=None, without=None):
        """The claims that a packet takes of the queue, which are counted as sent."""
        taken = [name for name in self.waiting() if name != without][:room or self.room()]
        for name in taken:
            claim, sends = self.queue[name]
            self.queue[name] = claim, sends + 1
        return tuple(self.queue[name][0] for name in taken)

    def claims_for(self, name, statuses):
        """The claims of a packet to a member, which begins with its record if that has one of these statuses
        (Lifeguard's buddy system)."""
        record = self.records.get(name)
        if record and record.status in statuses and self.can_tell(record.address):
            return record, *self.queued(self.room() - 1, name)
        return self.queued()

    def tell_arrival(self):
        """Queues what the others are to hear of a member that is opened."""
        if self.has_version_three():
            self.tell(self.own())

    def has_news(self):
        """Whether a claim of the queue may still be sent."""
        return self.waiting() != []
