"""Cases of explanations: the files of a random node, for `lg explain` of one of the members that it knows."""

from dataclasses import dataclass, replace

from fuzzing import explain, lives, recording, wire
from fuzzing.explain import Asked, Note, explained
from fuzzing.known import ROUND_END
from fuzzing.making import address_of, claim_of, number_of
from fuzzing.of_recordings import Recordings
from fuzzing.recording import HEARD, LEAVE, MOST_MOMENT, Event, numbered, read_file, spelled_entry
from fuzzing.runs import Case, Outcome
from fuzzing.wire import ACK, FAILED, GOSSIP, LEFT, NACK, SUSPECT, THREE, Packet


@dataclass(frozen=True)
class ExplanationCase(Case):
    """The files of a recording, and what is asked of it."""

    asked: Asked = Asked(b"a")


class WatchedNode(lives.Node):
    """A node that hears much about few members, and mostly answers to the probe that runs. Its rounds may last a part
    of a minute, and its clock often stands still."""

    def __init__(self, dice, names, now, _):
        starts = {dice.randrange(1, lives.MOST_EVENTS) for _ in range(dice.choice([0, 1, 2]))}
        super().__init__(dice, names, now, starts)

    def config_of(self):
        dice = self.dice
        rounds = {"interval_ms": dice.choice([100, 100, 1000, 20_000, 60_000]), "max_score": dice.choice([0, 8, 8]),
                  "gossip_ms": dice.choice([0, 0, 200])}
        return super().config_of() | rounds

    def stood_still(self):
        return self.clock.choice([1, 30, 1500, *lives.NUMBER_EDGES]) if self.clock.random() < 0.3 else 0

    def question(self):
        """Another event, which is a Leave more often once much has happened."""
        if len(self.entries) > 10 and self.dice.random() < 0.1:
            return Event(LEAVE, self.moment(), words=self.words())
        return super().question()

    def claims(self):
        """A few claims, mostly about the same two members and with small incarnations."""
        dice = self.dice
        found = [claim_of(dice, self.names[1:3], THREE) for _ in range(dice.choice([0, 1, 1, 2]))]
        return tuple([replace(it, incarnation=dice.choice([0, 0, 1, 2])) for it in found])

    def heard(self):
        """A packet. An answer may have another number, another receiver or another group."""
        dice, probe = self.dice, self.life.member.probe
        if dice.random() < 0.3:
            return super().heard()
        group = self.config["group"] if dice.random() < 0.85 else dice.choice([b"", b"g"])
        packet = Packet(THREE, GOSSIP, dice.choice(self.names[1:]), claims=self.claims(), group=group)
        if probe and dice.random() < 0.6:
            packet = replace(packet, kind=dice.choice([ACK, NACK, NACK]),
                             sender=dice.choice([probe.target, *probe.helpers, *self.names]),
                             number=probe.number if dice.random() < 0.9 else number_of(dice),
                             receiver=dice.choice([*self.names[:1] * 4, *self.names]))
        return Event(HEARD, self.moment(), address=address_of(dice, THREE), packet=packet)


# ---- What may be wrong


def entries_in(bodies):
    """The entries of a file that can be read, each with its place."""
    found = []
    for place, body in enumerate(bodies):
        try:
            found.append((place, recording.whole(body, recording.FieldReader.entry)))
        except (recording.RecordingFault, wire.Fault):
            pass
    return found


def change_twice(dice, files, names):
    """Has an entry of a file change a record twice, the second time to another status."""
    _, bodies = dice.choice(files)
    changing = [(place, it) for place, it in entries_in(bodies) if 0 < len(it.reply.changed) < recording.MOST_RECORDS]
    if changing:
        place, entry = dice.choice(changing)
        record = replace(dice.choice(entry.reply.changed), status=dice.choice([wire.ALIVE, FAILED, LEFT]), accuser=None)
        reply = replace(entry.reply, changed=[*entry.reply.changed, record])
        bodies[place] = spelled_entry(replace(entry, reply=reply))


def change_moment(dice, files, names):
    """Has an entry of a file happen at another moment: one in which a round ended, about a minute before another."""
    _, bodies = dice.choice(files)
    entries = entries_in(bodies)
    ended = [(place, it) for place, it in entries if it.reply.fired and it.reply.fired[0] == ROUND_END]
    if entries:
        later = dice.choice(ended or entries)[1].event.moment
        place, entry = dice.choice(ended or entries)
        moment = later - 60_000 + dice.choice([-1, 0, 0, 1]) if dice.random() < 0.7 else later + dice.choice([-3000, 1])
        event = replace(entry.event, moment=min(MOST_MOMENT, max(0, moment)))
        bodies[place] = spelled_entry(replace(entry, event=event))


def forget_otherwise(dice, files, names):
    """Has an entry of a file forget a name that was suspected."""
    _, bodies = dice.choice(files)
    entries = entries_in(bodies)
    suspected = [(place, record.member) for place, it in entries for record in it.reply.changed
                 if record.status == SUSPECT]
    if suspected:
        first, name = dice.choice(suspected)
        place, entry = dice.choice([row for row in entries if row[0] >= first][:6])
        bodies[place] = spelled_entry(replace(entry, reply=replace(entry.reply, forgotten=[name])))


def suspect_before(dice, files, names):
    """Has an entry be missing before a file, whose head says of each other member that it is suspected."""
    later = [it for it in files if it[0].before]
    if later:
        file = dice.choice(later)
        head, own = file[0], names[0]
        table = [it if it.member == own else replace(it, status=SUSPECT, accuser=own) for it in head.before.table]
        file[0] = replace(head, count=head.count + 1, before=replace(head.before, table=tuple(table)))


CHANGES = [*lives.CHANGES, *[forget_otherwise, change_twice, change_moment, suspect_before, lives.lose_file] * 2]


# ---- What is asked


def asked_of(dice, files, names):
    """What is asked of files: mostly about a member of which there is an account, and often each account. No name is
    asked for that begins like an option."""
    entries = [it for _, data in files for it in read_file(data).entries]
    told = {record.member for it in entries for record in it.reply.changed if record.status in (SUSPECT, FAILED, LEFT)}
    names = sorted(told) if told and dice.random() < 0.9 else names
    name = dice.choice([it for it in names if not it.startswith(b"-")] or [b"other"])
    asked = Asked(name, None, dice.random() < 0.6, dice.random() < 0.4, dice.random() < 0.3)
    if dice.random() < 0.7:
        return asked
    moments = [0, MOST_MOMENT, *(it.event.moment for it in entries)]
    return replace(asked, at=min(MOST_MOMENT, max(0, dice.choice(moments) + dice.choice([-1, 0, 0, 1]))))


# ---- Changed rules


def last_change(name, it):
    """What isn't told of an entry: the last record of the member among those that changed."""
    return next((record for record in reversed(it.reply.changed) if record.member == name), None)


def by_last_verdict(account, at):
    """What isn't compared with the moment that is asked for: when the last verdict came."""
    return at is None or account.data["moment"] <= at


def goes_on_anyhow(first, due):
    """What isn't done at a file: it goes on whatever the number of its first entry is."""
    return due is not None and first > 0


def never_forgotten(name, record, entries):
    """What isn't the record of the member: that before its name was forgotten."""
    return next((found for it in reversed(entries) if (found := explain.change_of(name, it))), record)


def ended_by_record(it):
    """What isn't said of the end of a round: by the record alone whether an Ack came."""
    is_end = it.is_probed() and explain.has_fired(it.it, ROUND_END)
    return [{"step": "ended", "failed": it.has_new_suspect()}] if is_end else []


def last_helper(it, address):
    """What isn't told of a helper: the last name that has its address."""
    table = it.it.after.table if it.it.after else ()
    name = next((record.member.decode() for record in reversed(table) if record.address == address), None)
    return {"member": name, "address": wire.address_text(address)}


def others_standstills(it):
    """What isn't told of a clock: what the entries before say alone."""
    return [earlier.stood_still for earlier in it.earlier_of_minute()]


def standstills_of_rounds(it):
    """What isn't told of a clock: what the entries say that are counted as ends of rounds, and this one."""
    ended = [earlier for earlier in it.earlier_of_minute() if explain.has_fired(earlier, ROUND_END)]
    return [earlier.stood_still for earlier in [*ended, it.it]]


def all_standstills(it):
    """What isn't told of a clock: what all entries before say, however long before."""
    return [earlier.stood_still for earlier in [*it.earlier, it.it]]


class Explanations(Recordings):
    """Each explanation is a case."""

    name = "explanations"
    # An episode ends when the member is calm; an answer is for this member, and of its group; what is within a minute,
    # and what came in time; which record an entry has; where a file goes on, and where a probe ends; for how long the
    # clock stood still.
    wrong_rules = (
        (explain, "is_calm", lambda *_: False), (explain, "is_meant", lambda *_: True),
        (explain, "packet_heard", lambda it: it.event.packet), (explain, "VERDICTS", (FAILED, LEFT)),
        (explain, "MINUTE", explain.MINUTE + 1), (explain, "is_in_time", by_last_verdict),
        (explain, "is_in_time", lambda it, at: at is None or it.first < at),
        (explain, "change_of", last_change), (explain, "goes_on", goes_on_anyhow),
        (explain, "record_behind", never_forgotten), (explain, "live_of", len),
        (explain, "ends_probe", lambda it: explain.has_fired(it, ROUND_END)),
        (explain, "has_ended_with_suspicion", lambda it: explain.has_fired(it, ROUND_END)),
        (explain.Placed, "wall", lambda it: it.head.begun + it.event.moment), (Note, "ended", ended_by_record),
        (Note, "greatest_moment", lambda it: it.earlier[it.start].event.moment), (Note, "helper", last_helper),
        (Note, "has_other_suspicion", lambda it: it.it.are_known() and it.record is not None),
        (Note, "standstills", others_standstills), (Note, "standstills", standstills_of_rounds),
        (Note, "standstills", all_standstills), (explain, "MOST_STANDSTILL", 2**70))

    def make(self, dice):
        files, names = lives.recording_of(dice, WatchedNode, CHANGES)
        asked = asked_of(dice, numbered(files), names)
        return ExplanationCase(asked.words(), folder=tuple(files), asked=asked)

    def wanted(self, case):
        output, status = explained(numbered(case.folder), case.asked)
        return Outcome(status, output)
