"""A slow judge of replays: what `lg replay` writes of the files of a recording, by docs/RECORDINGS.md.

The model of a detector says which reply is due.
"""

from dataclasses import dataclass, replace

from fuzzing.known import FORGET, SUSPICION
from fuzzing.member import Member, Reply
from fuzzing.numbers import fault_of
from fuzzing.recording import (
    ASK, HEALTH, HEARD, LEAVE, MOST_MOMENT, OPEN, PULL, SHORT, TICK, read_file, spelled_entry)
from fuzzing.script import reply_lines
from fuzzing.wire import ACK, NACK, PING, PING_REQ, address_text, spelled

DONE, FAULTY, UNCHECKED = "Done", "Faulty", "Unchecked"
# The status of `lg replay`, by how the replay ends.
STATUSES = {DONE: 0, FAULTY: 1, UNCHECKED: 1}
# A detector accepts at most so many events.
MOST_EVENTS = 4_000_000_000
EVENT_WORDS = {OPEN: "open", TICK: "tick", HEARD: "heard", ASK: "ask", HEALTH: "health", PULL: "pull", LEAVE: "leave"}
# The packets that ask for their target, those that answer a receiver, and the timers that are about a member.
ASKS, ANSWERS, OF_A_MEMBER = (PING, PING_REQ), (ACK, NACK), (SUSPICION, FORGET)


@dataclass(frozen=True)
class Window:
    """Which entries are told."""

    start: int = 0
    end: int = MOST_MOMENT
    only: bytes | None = None

    def options(self):
        """It as options of `lg replay`."""
        options = ["--from", str(self.start)] if self.start > 0 else []
        options += ["--to", str(self.end)] if self.end < MOST_MOMENT else []
        return [*options, *([] if self.only is None else ["--only", self.only.decode()])]

    def tells(self, event, *replies):
        """Whether an entry is told, by the replies that are due and recorded."""
        is_within = self.start <= event.moment <= self.end
        return is_within and (self.only is None or is_about(self.only, event)
                              or any(is_reply_about(self.only, it) for it in replies))


# ---- Which entries are about a member


def asks_about(name, packet):
    """Whether a packet asks for a member, or answers it."""
    return packet.kind in ASKS and packet.target == name or packet.kind in ANSWERS and packet.receiver == name


def is_about(name, event):
    """Whether an event is about a member: a packet is heard of it, with a claim about it, or one that asks for it or
    answers it; or its record is asked for."""
    if event.kind != HEARD:
        return event.kind == ASK and event.name == name
    packet = event.packet
    return packet.sender == name or any(it.member == name for it in packet.claims) or asks_about(name, packet)


def is_reply_about(name, reply):
    """Whether a reply is about a member. The claims that ride on packets which are sent don't count."""
    return (reply.fired is not None and reply.fired[0] in OF_A_MEMBER and reply.fired[1] == name
            or any(asks_about(name, packet) for _, packet in reply.sends)
            or any(it.member == name for it in reply.changed) or name in reply.forgotten)


# ---- The lines of an entry


def event_line(event):
    """The line of an event."""
    about = {OPEN: lambda: [event.config["name"].decode(), address_text(event.config["address"])],
             HEARD: lambda: [address_text(event.address), spelled(event.packet).hex()],
             ASK: lambda: [event.name.decode()], PULL: lambda: [address_text(event.address)]}
    words = about.get(event.kind, list)()
    return " ".join(["at", str(event.moment), EVENT_WORDS[event.kind], *words])


def lines_of_reply(event, reply, first_packet):
    """The lines of a reply. Only a tick fires timers, and has a line for that."""
    lines = reply_lines(reply, first_packet)
    if event.kind != TICK:
        return lines[1:] if reply.fired else lines
    return lines if reply.fired else ["idle", *lines]


# ---- A life


def is_well_opened(config):
    """Whether a configuration opens a detector."""
    return fault_of(config, config["name"], [name for name, _ in config["seeds"]]) is None


class Life:
    """What is known of a life: how many events, and the model behind them. Nothing is known if some are missing. The
    packets that were sent are counted all the same."""

    def __init__(self, is_known):
        self.count, self.member, self.sent = 0 if is_known else None, None, 0

    def is_known(self):
        return self.count is not None

    def lose(self):
        self.count, self.member = None, None

    def go_on(self, first):
        """Goes on at a file whose first entry has this number."""
        if self.count != first:
            self.lose()

    def send(self, told):
        """Counts the packets of the reply that is told."""
        self.sent += len(told.sends)

    def accepts(self, event):
        """Whether a detector accepts an event here."""
        if not self.is_known() or self.count == MOST_EVENTS:
            return False
        is_opening = event.kind == OPEN
        return is_well_opened(event.config) if is_opening and self.count == 0 else is_opening == (self.count == 0)

    def due(self, event):
        """The reply that is due. If there is none, nothing is known any more."""
        if not self.accepts(event):
            self.lose()
            return None
        self.count += 1
        return self.replied(event)

    def replied(self, event):
        """What the model replies."""
        if event.kind == OPEN:
            config = event.config
            self.member = Member(config["name"], config["address"], event.moment, config, config["seeds"])
            return Reply(next=self.member.least_deadline())
        does, words = {TICK: (self.member.tick, [event.words]), LEAVE: (self.member.leave, [event.words]),
                       HEARD: (self.member.hear, [event.address, event.packet]), ASK: (self.member.ask, [event.name]),
                       HEALTH: (self.member.health, []), PULL: (self.member.pull, [event.address])}[event.kind]
        return does(event.moment, *words)


# ---- A replay


class Replay:
    """The replay of some files: its lines, and what came of it so far."""

    def __init__(self, window=None):
        self.window, self.lines, self.life = window or Window(), [], Life(False)
        self.entries = self.differing = self.unchecked = 0
        # Whether something is wrong with a file, and whether the last one breaks off.
        self.is_amiss = self.is_torn = False

    def take(self, number, data):
        """Replays a file behind those before it."""
        read = read_file(data)
        self.note(read)
        if read.head is None:
            self.lines.append(f"file {number} fault {read.fault}")
            return
        head = read.head
        self.lines.append(f"file {number} of {head.name.decode()} first {head.count} moment {head.moment} "
                          f"begun {head.begun}")
        self.enter(head.count)
        for place, entry in enumerate(read.entries, head.count):
            self.take_entry(place, entry)
        if read.fault:
            self.lines.append(f"fault {read.fault} at entry {head.count + len(read.entries)}")

    def note(self, read):
        """Notes whether something is wrong with a file or with the one before it, which may break off only if a life
        begins here."""
        begins = read.head is not None and read.head.count == 0
        self.is_amiss |= self.is_torn and not begins or read.fault not in (None, SHORT)
        self.is_torn = read.fault == SHORT

    def enter(self, first):
        """Enters a file whose first entry has this number."""
        if first == 0:
            self.life = Life(True)
        self.life.go_on(first)
        if not self.life.is_known():
            self.lines.append(f"unchecked from entry {first}")

    def take_entry(self, number, entry):
        """Checks an entry, and tells it if it is in the window."""
        was_known, due = self.life.is_known(), self.life.due(entry.event)
        if was_known and due is None:
            self.lines.append(f"unchecked from entry {number}")
        told = due or entry.reply
        differs = spelled_entry(replace(entry, reply=told)) != spelled_entry(entry)
        self.entries, self.differing = self.entries + 1, self.differing + differs
        self.unchecked += due is None
        if self.window.tells(entry.event, told, entry.reply):
            first = self.life.sent + 1
            self.lines += [event_line(entry.event), *lines_of_reply(entry.event, told, first)]
            if differs:
                recorded = lines_of_reply(entry.event, entry.reply, first)
                self.lines += ["differs", *(f"recorded {line}" for line in recorded)]
        self.life.send(told)

    def end(self):
        """How it ends."""
        if self.differing or self.is_amiss:
            return FAULTY
        return UNCHECKED if self.unchecked else DONE

    def last_line(self):
        return (f"entries {self.entries} checked {self.entries - self.unchecked} differing {self.differing} "
                f"unchecked {self.unchecked}")


def replayed(files, window=None):
    """The lines of a replay of files, of each its number and its bytes, and how it ends."""
    replay = Replay(window)
    for number, data in files:
        replay.take(number, data)
    return [*replay.lines, replay.last_line()], replay.end()
