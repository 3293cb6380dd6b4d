"""A slow judge of explanations: what `lg explain` writes of a member, by docs/EXPLANATIONS.md.

It goes over the whole lists of entries again and again. The model of a detector gives what the definitions say.
"""

from dataclasses import dataclass, field

from fuzzing.explain_text import lines_of
from fuzzing.known import DIRECT, GONE, ROUND_END, ROUND_START, SUSPICION, Suspicion
from fuzzing.member import Reply
from fuzzing.recording import LEAVE, OPEN, Event, Head, read_file
from fuzzing.replay import Life
from fuzzing.runs import text_of
from fuzzing.wire import ACK, FAILED, LEFT, NACK, PING, PING_REQ, STATUS_WORDS, SUSPECT, Claim, address_text

# The status of `lg explain`, by whether an account is told.
STATUSES = {True: 0, False: 1}
# The records that make an episode an account.
VERDICTS = (SUSPECT, FAILED, LEFT)
# How many milliseconds before an entry another doesn't count any more.
MINUTE = 60_000
# The latest wall time, and the longest time for which a clock is said to have stood still.
MOST_WALL = MOST_STANDSTILL = 2**64 - 1


@dataclass(frozen=True)
class Asked:
    """What is asked for: the member, the moment at which the first verdict comes at the latest, whether each account is
    told, and the form."""

    name: bytes
    at: int | None = None
    is_all: bool = False
    has_entries: bool = False
    is_json: bool = False

    def words(self, folder="FOLDER"):
        """It as words behind the program's name."""
        at = [] if self.at is None else ["--at", str(self.at)]
        flags = {"--all": self.is_all, "--entries": self.has_entries, "--json": self.is_json}
        return ("explain", self.name.decode(), "--record", folder, *at, *(it for it, is_set in flags.items() if is_set))


# ---- The entries


@dataclass(frozen=True)
class Facts:
    """What the definitions say behind some events: the health score, the table, and the suspicion of the member."""

    score: int
    table: tuple
    suspicion: Suspicion | None


@dataclass(frozen=True)
class Placed:
    """An entry with its number in its life, the head of its file, and for how long it says that the clock stood still.
    The facts before its event and after it are there if all events since the opening are known, and accepted."""

    number: int
    head: Head
    event: Event
    reply: Reply
    stood_still: int
    before: Facts | None
    after: Facts | None

    def are_known(self):
        """Whether the facts before and after are there."""
        return self.before is not None and self.after is not None

    def wall(self):
        """The wall time, in milliseconds since 1970, of 64 bits."""
        return min(max(0, self.head.begun + self.event.moment - self.head.moment), MOST_WALL)


@dataclass
class Stretch:
    """Entries of a life between which none is missing. `record` is the member's before them, if their head has one."""

    record: Claim | None
    entries: list = field(default_factory=list)

    def greatest(self, place):
        """The greatest moment up to the entry at a place."""
        return max(it.event.moment for it in self.entries[:place + 1])


def facts_of(life, name):
    """The facts of a life. None if they aren't known."""
    member = life.member
    return member and Facts(member.score, tuple(member.view()), member.suspicion_of(name))


def goes_on(first, due):
    """Whether a file whose first entry has this number goes on with the entries so far, which are as many as `due`."""
    return first == due and first > 0


def record_of_head(name, head):
    """The member's record in a head: the first one."""
    table = head.before.table if head.before else ()
    return next((it for it in table if it.member == name), None)


def stretches_of(files, name):
    """The entries of some files."""
    stretches, life, due = [], Life(False), None
    for read in (read_file(data) for _, data in files):
        if read.head is None:
            continue
        first = read.head.count
        if first == 0:
            life = Life(True)
        life.go_on(first)
        if not goes_on(first, due):
            stretches.append(Stretch(record_of_head(name, read.head)))
        for number, entry in enumerate(read.entries, first):
            before = facts_of(life, name)
            life.due(entry.event)
            stretches[-1].entries.append(Placed(
                number, read.head, entry.event, entry.reply, entry.stood_still, before, facts_of(life, name)))
        due = first + len(read.entries)
    return stretches


# ---- What is said of an entry


def has_fired(it, kind):
    """Whether a timer of this kind fired."""
    return it.reply.fired is not None and it.reply.fired[0] == kind


def change_of(name, it):
    """The member's record among those that changed: the first one. None if there is none."""
    return next((record for record in it.reply.changed if record.member == name), None)


def has_verdict(name, it):
    """Whether an entry changed the member's record to suspect, failed or left."""
    record = change_of(name, it)
    return record is not None and record.status in VERDICTS


def ping_of(name, it):
    """Where a Ping of the member was sent to, and the Ping, if an entry is the start of a round with it."""
    if not has_fired(it, ROUND_START) or not it.reply.sends:
        return None
    to, packet = it.reply.sends[0]
    return (to, packet) if packet.kind == PING and packet.target == name else None


def packet_heard(it):
    """The packet that was heard. None if there is none of the node's group."""
    packet = it.event.packet
    return packet if packet and packet.group == it.head.config["group"] else None


def sender_of(it):
    """Who sent the packet that was heard. None if none was."""
    packet = packet_heard(it)
    return packet and packet.sender.decode()


def is_meant(it, packet):
    """Whether a packet doesn't tell another receiver."""
    return packet.receiver in (b"", it.head.name)


# ---- Episodes


def record_behind(name, record, entries):
    """The member's last record behind some entries, before which it had this one."""
    for it in reversed(entries):
        changed = change_of(name, it)
        if changed or name in it.reply.forgotten:
            return changed
    return record


def ends_probe(it):
    """Whether no probe runs any more behind an entry."""
    return has_fired(it, ROUND_END) or it.event.kind in (OPEN, LEAVE)


def start_behind(name, entries):
    """The place of the start of the probe of the member that runs behind some entries. None if none runs."""
    for place, it in reversed(list(enumerate(entries))):
        if has_fired(it, ROUND_START):
            return place if ping_of(name, it) else None
        if ends_probe(it):
            return None
    return None


def is_calm(name, record, entries):
    """Whether the member is neither suspected nor probed behind some entries, before which it had this record."""
    last = record_behind(name, record, entries)
    is_suspected = last is not None and last.status == SUSPECT
    return not is_suspected and start_behind(name, entries) is None


def episodes_of(name, stretch):
    """The first place of each episode, and the one behind its last. One begins with each entry before which the member
    is calm or entries are missing, since each ends with the first entry after which it is calm."""
    entries = stretch.entries
    begins = [it for it in range(len(entries)) if it == 0 or is_calm(name, stretch.record, entries[:it])]
    return list(zip(begins, [*begins[1:], len(entries)]))


# ---- The steps of an entry


def has_ended_with_suspicion(it):
    """Whether the end of a round changed some record to suspect."""
    return has_fired(it, ROUND_END) and any(record.status == SUSPECT for record in it.reply.changed)


def is_within_minute(now, before):
    """Whether a moment is less than a minute before another."""
    return now - before < MINUTE


def standing_of(suspicion):
    """How a suspicion stands: when it was raised, its timeouts, and how many confirmations came."""
    return suspicion and (suspicion.raised, suspicion.least, suspicion.most, suspicion.counted,
                          suspicion.confirmations())


def live_of(table):
    """How many records of a table are neither failed nor left."""
    return sum(record.status not in GONE for record in table)


def record_step(step, record):
    accuser = record.accuser and record.accuser.decode()
    return {"step": step, "status": STATUS_WORDS[record.status], "incarnation": record.incarnation,
            "address": address_text(record.address), "accuser": accuser}


class Note:
    """An entry of an episode, behind those of its stretch before it, and what there is to tell of it. Each kind of step
    is given as a list."""

    def __init__(self, name, stretch, place):
        self.name, self.it, self.earlier = name, stretch.entries[place], stretch.entries[:place]
        self.stretch, self.place = stretch, place
        self.record, self.packet = change_of(name, self.it), packet_heard(self.it)
        # The start of the probe that runs before this entry, by its place.
        self.start = start_behind(name, self.earlier)

    def is_probed(self):
        return self.start is not None

    def has_new_suspect(self):
        return self.record is not None and self.record.status == SUSPECT

    def greatest_moment(self):
        """The greatest moment so far when the probe began."""
        return self.stretch.greatest(self.start)

    def scores(self):
        """The health scores before and after, if they are known."""
        it = self.it
        return (it.before.score, it.after.score) if it.are_known() else (0, 0)

    def has_other_suspicion(self):
        """Whether the suspicion of the member stands otherwise than before, or is there no longer."""
        return self.it.are_known() and standing_of(self.it.before.suspicion) != standing_of(self.it.after.suspicion)

    def pinged(self):
        found = ping_of(self.name, self.it)
        return [{"step": "pinged", "probe": found[1].number, "address": address_text(found[0])}] if found else []

    def unanswered(self):
        if not self.is_probed() or not has_fired(self.it, DIRECT):
            return []
        within = max(0, self.it.reply.fired[2] - self.greatest_moment())
        asked = [self.helper(to) for to, packet in self.it.reply.sends if packet.kind == PING_REQ]
        return [{"step": "unanswered", "within": within}, {"step": "asked", "helpers": asked}]

    def helper(self, address):
        """A helper at an address, by the first name of the table that is there."""
        table = self.it.after.table if self.it.after else ()
        name = next((record.member.decode() for record in table if record.address == address), None)
        return {"member": name, "address": address_text(address)}

    def has_answer(self, kind):
        """Whether a packet of this kind was heard that answers the probe."""
        packet = self.packet
        if not self.is_probed() or not packet or packet.kind != kind or not is_meant(self.it, packet):
            return False
        return packet.number == ping_of(self.name, self.earlier[self.start])[1].number

    def answered(self):
        words = {NACK: "nack", ACK: "ack"}
        return [{"step": word, "by": sender_of(self.it)} for kind, word in words.items() if self.has_answer(kind)]

    def ended(self):
        if not self.is_probed() or not has_fired(self.it, ROUND_END):
            return []
        before, after = self.scores()
        return [{"step": "ended", "failed": self.has_new_suspect() or after > before}]

    def score(self):
        before, after = self.scores()
        is_told = before != after and (self.has_answer(ACK) or self.ended())
        return [{"step": "score", "before": before, "after": after}] if is_told else []

    def told(self):
        if not self.packet or self.record is None and not self.has_other_suspicion():
            return []
        return [record_step("told", claim) for claim in self.packet.claims if claim.member == self.name]

    def time_over(self):
        fired = self.it.reply.fired
        return [{"step": "time_over"}] if fired and fired[:2] == (SUSPICION, self.name) else []

    def changed(self):
        return [record_step("changed", self.record)] if self.record else []

    def timeout(self):
        suspicion = self.it.after.suspicion if self.it.after else None
        if suspicion is None or not self.has_other_suspicion():
            return []
        return [{"step": "timeout", "live": live_of(self.it.after.table), "confirmations": suspicion.confirmations(),
                 "most": suspicion.counted, "timeout": suspicion.lasts()}]

    def earlier_of_minute(self):
        """The entries before this one that came in the minute before it, by the greatest moments so far."""
        greatest, now = self.stretch.greatest, self.stretch.greatest(self.place)
        return [it for place, it in enumerate(self.earlier) if is_within_minute(now, greatest(place))]

    def standstills(self):
        """For how long this entry and those of the minute before say that the clock stood still."""
        return [it.stood_still for it in [*self.earlier_of_minute(), self.it]]

    def minute(self):
        if not self.ended() or not self.has_new_suspect():
            return []
        ended = [it for it in self.earlier_of_minute() if has_fired(it, ROUND_END)]
        return [{"step": "minute", "ended": len(ended), "suspected": sum(map(has_ended_with_suspicion, ended)),
                 "stood_still": min(sum(self.standstills()), MOST_STANDSTILL)}]

    def steps(self):
        """All of them, in the order of the table."""
        kinds = [self.pinged, self.unanswered, self.answered, self.ended, self.score, self.told, self.time_over,
                 self.changed, self.timeout, self.minute]
        return [step for kind in kinds for step in kind()]

    def data(self):
        it = self.it
        return {"entry": it.number, "moment": it.event.moment, "wall": it.wall(), "told_by": sender_of(it),
                "steps": self.steps()}


# ---- Accounts


@dataclass(frozen=True)
class Account:
    """An account as data, and the moment of its first verdict."""

    first: int
    data: dict


def account_of(name, stretch, begin, end):
    """The account of an episode, by its first place and the one behind its last. None if it has no verdict."""
    entries = stretch.entries[begin:end]
    verdicts = [it for it in entries if has_verdict(name, it)]
    if not verdicts:
        return None
    notes = [Note(name, stretch, place).data() for place in range(begin, end)]
    last = verdicts[-1]
    data = {"status": STATUS_WORDS[change_of(name, last).status], "moment": last.event.moment, "wall": last.wall(),
            "told_by": sender_of(last), "known": entries[-1].after is not None,
            "notes": [note for note in notes if note["steps"]]}
    return Account(verdicts[0].event.moment, data)


def is_in_time(account, at):
    return at is None or account.first <= at


def accounts_of(files, asked):
    """The accounts that are told, as data."""
    accounts = [account_of(asked.name, stretch, *episode) for stretch in stretches_of(files, asked.name)
                for episode in episodes_of(asked.name, stretch)]
    told = [it.data for it in accounts if it and is_in_time(it, asked.at)]
    return told if asked.is_all else told[-1:]


def explained(files, asked):
    """What `lg explain` writes of files, of each its number and its bytes, and its status."""
    accounts = accounts_of(files, asked)
    return text_of(lines_of(accounts, asked)), STATUSES[bool(accounts)]
