"""Random recordings: lives of a node that hears, asks and waits, in files, and what may have become of these."""

import random
from dataclasses import replace

from fuzzing import recording, wire
from fuzzing.making import EDGES, NAMES, address_of, claim_of, damaged, names_of, packet_of
from fuzzing.numbers import DEFAULTS, NUMBERS
from fuzzing.recording import (
    ASK, HEALTH, HEARD, LEAVE, OPEN, PULL, TICK, TIMERS, Before, Entry, Event, Head, file_name, read_file,
    spelled_chunk, spelled_count, spelled_entry, spelled_file, spelled_records)
from fuzzing.replay import Life
from fuzzing.wire import ACK, GOSSIP, PAGE, PING, PING_REQ, THREE, Packet, spelled, spelled_name

MOST_EVENTS = 30
MOST_SEATS = 4
LAST = 10**15
# The names of files that aren't of a recording.
OTHER_FILES = ["notes", "1.lgr", "0000000001.lgr~", "00000000010.lgr", "000000000a.lgr", "0000000001.LGR"]
NUMBER_EDGES = [0, 127, 128, 2**32, LAST, LAST + 1, 2**64 - 1]


class Node:
    """A node that is recorded, by its slow model: its entries since its start, and what it knew before those at which a
    file may begin: before each, if it isn't said."""

    def __init__(self, dice, names, now, starts=None):
        self.dice, self.names, self.now, self.starts = dice, names, now, starts
        self.life, self.entries, self.known = Life(True), [], {}
        self.clock = random.Random(f"{names} {now}")
        self.pace = dice.choice([1, 30, 300])
        self.usual = dice.choice([PING, PING_REQ, ACK, PAGE, GOSSIP])
        self.config = self.config_of()
        self.add(Event(OPEN, now, self.config))

    def config_of(self):
        """A configuration, mostly of version three, with short times so that much happens."""
        dice, own = self.dice, self.names[0]
        config = DEFAULTS | {"interval_ms": dice.choice([100, 1000]), "timeout_ms": dice.choice([20, 50]),
                             "alpha": dice.choice([1, 2]), "beta": dice.choice([1, 3]),
                             "wire": dice.choice([1, 2, 3, 3, 3]), "forget_ms": dice.choice([0, 1000]),
                             "first": dice.choice([1, 7, 4_294_967_290])}
        group = dice.choice(NAMES) if config["wire"] == THREE and dice.random() < 0.1 else b""
        seeds = [(name, address_of(dice, 1)) for name in dice.sample(self.names[1:], min(2, len(self.names) - 1))]
        return config | {"name": own, "address": address_of(dice, config["wire"]), "group": group,
                         "seeds": tuple(seeds)}

    def add(self, event):
        """Lets an event happen. What was known before it is kept, for the head of a file that begins with it."""
        member, place = self.life.member, len(self.entries)
        if member and (self.starts is None or place in self.starts):
            self.known[place] = Before(member.score, member.number, member.ousted, tuple(member.view()))
        reply = self.life.due(event)
        self.entries.append(Entry(self.dice.randrange(MOST_SEATS), event, reply, self.stood_still()))

    def stood_still(self):
        """For how long the clock stood still before an entry: mostly not at all. It has dice of its own, so that
        nothing else that happens depends on it."""
        return self.clock.choice(NUMBER_EDGES) if self.clock.random() < 0.1 else 0

    def moment(self):
        self.now = max(0, self.now + self.dice.choice([0, 1, -1, self.dice.randrange(self.pace + 1)]))
        return self.now

    def words(self):
        return tuple([self.dice.choice([0, 1, self.dice.randrange(2**32)]) for _ in range(8)])

    def tick(self):
        """A tick, mostly once a timer is due."""
        if self.dice.random() < 0.8:
            self.now = max(self.now, self.life.member.least_deadline())
        return Event(TICK, self.moment(), words=self.words())

    def heard(self):
        """A packet, which may be the Ack to the probe that runs, and is mostly of this member's group."""
        dice, probe = self.dice, self.life.member.probe
        if probe and dice.random() < 0.4:
            packet = Packet(THREE, ACK, probe.target, probe.number, receiver=self.names[0], group=self.config["group"])
        else:
            packet = packet_of(dice, self.names, self.usual)
        if packet.version == THREE and dice.random() < 0.8:
            packet = replace(packet, group=self.config["group"])
        return Event(HEARD, self.moment(), address=address_of(dice, THREE), packet=packet)

    def question(self):
        how = self.dice.choice([ASK, HEALTH, PULL, LEAVE if self.dice.random() < 0.2 else ASK])
        now = self.moment()
        if how == LEAVE:
            return Event(how, now, words=self.words())
        return Event(how, now, address=address_of(self.dice, THREE) if how == PULL else b"",
                     name=self.dice.choice(self.names) if how == ASK else b"")

    def live(self, count):
        """Lets so many events happen."""
        for _ in range(count):
            self.add(self.dice.choice([self.tick, self.tick, self.heard, self.heard, self.question])())

    def head(self, place):
        """The head of a file that begins with the entry at a place."""
        dice, moment = self.dice, min(LAST, self.entries[place].event.moment if place < len(self.entries) else self.now)
        file = dice.choice([b"", b"name = ", dice.randbytes(5)])
        return Head(self.names[0], self.config, file, b"0.9.0", dice.choice([1000, dice.randrange(2**41)]), moment,
                    place, self.known.get(place))

    def files(self):
        """Its entries in files: of each the head, and the bodies of the entries."""
        places = sorted({0, *(it for it in self.known if it < len(self.entries))})
        ends = [*places[1:], len(self.entries)]
        return [[self.head(place), [spelled_entry(it) for it in self.entries[place:end]]]
                for place, end in zip(places, ends)]


# ---- What may be wrong with an entry


def without_end(body, part):
    """A body without a part that it ends with."""
    return body[:len(body) - len(part)]


def long_number(dice, entry, names):
    """An entry of whose last two numbers one isn't in its least form, or is too great."""
    last = dice.choice([b"\x80\x00", b"\x80" * 9 + b"\x00", b"\x80" * 9 + b"\x02", b"\xff" * 10 + b"\x01"])
    stood_still = spelled_count(entry.stood_still)
    before = without_end(spelled_entry(entry), stood_still)
    if dice.random() < 0.5:
        return before + last
    return without_end(before, spelled_count(entry.reply.next)) + last + stood_still


def with_reply(dice, entry, names):
    """An entry with another reply."""
    reply, name, kind, edge = entry.reply, dice.choice(names), dice.choice(TIMERS), dice.choice(NUMBER_EDGES)
    send = address_of(dice, THREE), packet_of(dice, names)
    changes = [
        {"next": dice.choice([reply.next + 1, edge])}, {"ousted": not reply.ousted},
        {"sends": reply.sends[1:]}, {"sends": [*reply.sends, send][:8]},
        {"changed": reply.changed[1:]}, {"changed": [claim_of(dice, names, THREE)] * dice.choice([1, 12])},
        {"forgotten": [name]}, {"answer": None},
        {"answer": claim_of(dice, names, THREE)}, {"answer": recording.Unknown()},
        {"answer": recording.Health(edge, dice.choice(EDGES), dice.choice(EDGES))},
        {"fired": None}, {"fired": (kind, name if kind in recording.OF_A_MEMBER else dice.choice(EDGES), edge)}]
    if reply.fired:
        kind, subject, deadline = reply.fired
        changes += [{"fired": (kind, subject, deadline + 1)}] * 3
    return spelled_entry(replace(entry, reply=replace(reply, **dice.choice(changes))))


def with_many(dice, entry, names):
    """An entry whose reply has as many packets or forgotten names as are allowed, or one too many."""
    sends = [(address_of(dice, THREE), Packet(THREE, PAGE, names[0]))] * dice.choice([8, 9])
    changes = {"sends": sends} if dice.random() < 0.5 else {"forgotten": names[-1:] * dice.choice([12, 13])}
    return spelled_entry(replace(entry, reply=replace(entry.reply, **changes)))


def with_event(dice, entry, names):
    """An entry of another event, which may be one that nobody accepts."""
    event, edge = entry.event, dice.choice(NUMBER_EDGES)
    if event.kind == OPEN:
        key = dice.choice(recording.KEYS)
        seeds = [(b"s%d" % number, address_of(dice, 1)) for number in range(dice.choice([16, 17]))]
        config = event.config | dice.choice([{key: dice.choice([NUMBERS[key][1], NUMBERS[key][1] + 1, edge])},
                                             {"seeds": tuple(seeds)}, {"seeds": ((event.config["name"], bytes(6)),)}])
        event = replace(event, config=config)
    elif dice.random() < 0.5:
        event = replace(event, moment=dice.choice([LAST, LAST + 1, edge]))
    else:
        config = DEFAULTS | {"name": dice.choice(NAMES), "address": bytes(6), "group": b"", "seeds": ()}
        event = Event(OPEN, event.moment, config)
    return spelled_entry(replace(entry, event=event))


def with_records(dice, entry, names):
    """An entry whose records are those of a packet that is none of theirs, or whose answer has none or two."""
    claims = tuple(claim_of(dice, names, THREE) for _ in range(2))
    page = Packet(THREE, PAGE, claims[0].member, claims=claims)
    wrong = dice.choice([replace(page, kind=GOSSIP), replace(page, group=b"g"), replace(page, sender=b"other"),
                         replace(page, claims=()), replace(page, version=1), replace(page, version=2), page])
    data = recording.spelled_text(spelled(wrong))
    if dice.random() < 0.5:
        answered = replace(entry, reply=replace(entry.reply, answer=claims[0]))
        return spelled_entry(answered).replace(spelled_records([claims[0]]), dice.choice([data, b"\x00"]))
    changed = replace(entry, reply=replace(entry.reply, changed=[claims[0]]))
    return spelled_entry(changed).replace(spelled_records([claims[0]]), data)


def with_byte(dice, entry, names):
    """An entry of which a byte is another, or is left out or put in."""
    return damaged(dice, spelled_entry(entry))


def with_seat(dice, entry, names):
    return bytes([dice.choice([0, 32, 33, 255])]) + spelled_entry(entry)[1:]


def with_kind(dice, entry, names):
    """An entry whose kind of event is another."""
    body = spelled_entry(entry)
    return body[:1] + bytes([dice.choice([0, 8, *recording.EVENTS])]) + body[2:]


def with_flag(dice, entry, names):
    """An entry whose flag is none, or none that fits."""
    last = spelled_count(entry.reply.next) + spelled_count(entry.stood_still)
    return without_end(spelled_entry(entry), last)[:-1] + bytes([dice.choice([0, 1, 2])]) + last


def with_timer(dice, entry, names):
    """An entry whose kind of timer is none, or one that fired for somebody while nothing else happened."""
    if dice.random() < 0.3:
        place = 1 + len(recording.spelled_event(entry.event))
        body = spelled_entry(entry)
        return body[:place] + bytes([dice.choice([0, 9, 255])]) + body[place + 1:]
    reply = recording.Reply((dice.choice(recording.OF_A_MEMBER), names[-1], entry.event.moment), next=entry.reply.next)
    return spelled_entry(replace(entry, reply=reply))


def with_health(dice, entry, names):
    """An entry that is answered by a health, whose incarnation may be too great."""
    answer = recording.Health(0, wire.MOST_INCARNATION + dice.choice([0, 1]), 1)
    return spelled_entry(replace(entry, reply=replace(entry.reply, answer=answer)))


def with_more(dice, entry, names):
    return spelled_entry(entry) + dice.randbytes(1)


def with_family(dice, entry, names):
    """An entry of a Pull to an address of a family that there isn't."""
    event = Event(PULL, entry.event.moment, address=bytes(6))
    body = spelled_entry(replace(entry, event=event))
    return body.replace(b"\x04" + bytes(6), b"\x05" + bytes(6), 1)


def with_name(dice, entry, names):
    """An entry that asks for a name with a bad byte."""
    body = spelled_entry(replace(entry, event=Event(ASK, entry.event.moment, name=b"other")))
    return body.replace(spelled_name(b"other"), dice.choice([b"\x05ot!er", b"\x00", b"\x21"]), 1)


WRONG_ENTRIES = [long_number, *[with_reply] * 4, with_many, with_many, with_event, with_records, with_byte, with_byte,
                 with_seat, with_kind, with_flag, with_timer, with_timer, with_health, with_more, with_family,
                 with_name]


# ---- What may be wrong with a recording


def change_entry(dice, files, names):
    """Changes the body of an entry, often of an opening. Its digest is made right."""
    is_first = dice.random() < 0.15
    _, bodies = files[0] if is_first else dice.choice(files)
    if bodies:
        place = 0 if is_first else dice.randrange(len(bodies))
        try:
            entry = recording.whole(bodies[place], recording.FieldReader.entry)
        except (recording.RecordingFault, wire.Fault):
            return
        change = with_event if is_first else dice.choice(WRONG_ENTRIES)
        bodies[place] = change(dice, entry, names)


def lose_entry(dice, files, names):
    """Leaves an entry out, or has it twice."""
    _, bodies = dice.choice(files)
    if bodies:
        place = dice.randrange(len(bodies))
        bodies[place:place + 1] = dice.choice([[], [bodies[place]] * 2])


def lose_file(dice, files, names):
    """Leaves a file out."""
    if len(files) > 1:
        del files[dice.randrange(len(files))]


def count_otherwise(dice, files, names):
    """Changes how many entries there were before a file. What was known then stays, whether it fits or not."""
    file = dice.choice(files)
    count = dice.choice([0, 1, max(0, file[0].count - 1), file[0].count + 1, 2**32])
    file[0] = replace(file[0], count=count)


def know_otherwise(dice, files, names):
    """Changes what was known before a file, which may be out of its ranges, or not to be there."""
    file = dice.choice(files)
    table = [claim_of(dice, names, THREE) for _ in range(dice.choice([0, 1, 1, 2, 256, 257]))]
    before = Before(dice.choice(NUMBER_EDGES), wire.MOST_INCARNATION + dice.choice([-1, 0, 1]), True, tuple(table))
    file[0] = replace(file[0], before=dice.choice([None, before, before]))


CHANGES = [*[change_entry] * 4, lose_entry, lose_file, count_otherwise, know_otherwise]


def cut(dice, data):
    """The beginning of a file. Many cuts are within or about its last chunk."""
    ends = read_file(data).ends
    near = dice.choice(ends) + dice.choice([-1, 0, 1, 5]) if ends else 0
    return data[:dice.choice([dice.randrange(len(data) + 1), max(0, near)])]


def with_head(dice, data):
    """A file whose head has another byte, and a right digest."""
    reader = recording.FieldReader(data[4:])
    try:
        body = reader.chunk()
    except (recording.RecordingFault, wire.Fault):
        return data
    return data[:4] + spelled_chunk(damaged(dice, body)) + reader.data[reader.place:]


def damaged_file(dice, data):
    """The bytes of a file, damaged somewhere."""
    if not data:
        return data
    how = dice.random()
    if how < 0.4:
        return cut(dice, data)
    if how < 0.6:
        return with_head(dice, data)
    return damaged(dice, data) if how < 0.9 else damaged(dice, data[:4]) + data[4:]


def named_files(dice, files):
    """Files by their heads and bodies, of each its name and its bytes. Some numbers may be missing between theirs."""
    number, found = dice.choice([-1, 0, 1, 9_999_999_000]), []
    for head, bodies in files:
        number += dice.choice([1, 1, 1, 5])
        found.append((file_name(number), spelled_file(head) + b"".join(map(spelled_chunk, bodies))))
    return found


def recording_of(dice, kind_of_node=Node, changes=CHANGES):
    """The files of a recording, of each its name and its bytes: lives of nodes of a kind, with some of these changes."""
    names, now, files = names_of(dice)[:8], dice.choice([0, 20, 10**6]), []
    for _ in range(dice.choice([1, 1, 1, 2, 3])):
        count = dice.choice([3, 12, MOST_EVENTS])
        node = kind_of_node(dice, names, now, {dice.randrange(1, count) for _ in range(dice.choice([0, 0, 1, 3]))})
        node.live(count)
        files += node.files()
    for _ in range(dice.choice([0, 1, 1, 1, 1, 2])):
        dice.choice(changes)(dice, files, names)
    found = named_files(dice, files)
    for _ in range(dice.choice([0, 0, 0, 1, 1, 2])):
        place = dice.randrange(len(found))
        found[place] = found[place][0], damaged_file(dice, found[place][1])
    others = [(dice.choice(OTHER_FILES), found[0][1])] if dice.random() < 0.1 else []
    return [*found, *others], names
