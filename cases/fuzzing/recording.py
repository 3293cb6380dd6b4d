"""A slow reader and a writer of recordings, by docs/RECORDINGS.md: heads, entries and files, and their first faults.

It reads the bytes from the first on, and shares nothing with the program.
"""

import hashlib
import re
from dataclasses import dataclass, field

from fuzzing import wire
from fuzzing.known import DIRECT, FORGET, NEWS, RELAY_END, RELAY_NACK, ROUND_END, ROUND_START, SUSPICION
from fuzzing.member import WORDS, Health, Reply, Unknown
from fuzzing.numbers import MOST_SEEDS, NUMBERS
from fuzzing.wire import PAGE, THREE, Claim, Packet, spelled_address, spelled_name

# The words for the faults.
SHORT, MAGIC, VERSION, CHECK, NUMBER, NAME = "short", "magic", "version", "check", "number", "name"
FAMILY, INCARNATION, KIND, COUNT, PACKET, TRAILING = "family", "incarnation", "kind", "count", "packet", "trailing"
# Those of the fields that packets have too.
FIELD_FAULTS = {wire.SHORT: SHORT, wire.NAME: NAME, wire.FAMILY: FAMILY, wire.INCARNATION: INCARNATION}

MAGIC_BYTES, FORMAT = b"LGR", 1
FILE_NAME = re.compile(r"([0-9]{10})\.lgr", re.ASCII)
CHECK_BYTES = 4
MOST_NUMBER_BYTES, MOST_NUMBER = 10, 2**64 - 1
MOST_MOMENT = 10**15
MOST_SEAT = 32
MOST_SENT, MOST_FORGOTTEN, MOST_RECORDS, MOST_TABLE = 8, 12, 12, 256
OPEN, TICK, HEARD, ASK, HEALTH, PULL, LEAVE = EVENTS = range(1, 8)
NO_TIMER, TIMERS = 0, (ROUND_END, SUSPICION, DIRECT, RELAY_NACK, RELAY_END, ROUND_START, FORGET, NEWS)
OF_A_MEMBER, OF_A_RELAY = (SUSPICION, FORGET), (RELAY_NACK, RELAY_END)
NO_ANSWER, NO_RECORD, A_RECORD, A_HEALTH = ANSWERS = range(4)
# The keys of a configuration that are numbers, in the order of its table.
KEYS = tuple(NUMBERS)


class RecordingFault(Exception):
    """The first fault of some bytes, by its word."""

    def __init__(self, word):
        super().__init__(word)
        self.word = word


@dataclass(frozen=True)
class Event:
    """What happened: its kind, the moment that was handed in, and what it has besides."""

    kind: int
    moment: int
    # The numbers of an opening by their keys, and its name, address, group and seeds.
    config: dict | None = None
    # The random words of a tick or a leave.
    words: tuple = ()
    # Who sent the packet that is heard, or who is asked for its table; and the packet.
    address: bytes = b""
    packet: Packet | None = None
    # Whose record is asked for.
    name: bytes = b""


@dataclass(frozen=True)
class Entry:
    """What happened, by which seat, and what was replied; and for how many milliseconds the node's clock stood still
    since the entries that were taken before it."""

    seat: int
    event: Event
    reply: Reply
    stood_still: int = 0


@dataclass(frozen=True)
class Before:
    """What was known before the first entry of a file."""

    score: int
    number: int
    ousted: bool
    table: tuple


@dataclass(frozen=True)
class Head:
    """The head of a file. `count` is how many entries the node had made before the first one here."""

    name: bytes
    config: dict
    file: bytes
    program: bytes
    begun: int
    moment: int
    count: int
    before: Before | None = None


@dataclass
class Recording:
    """What is read of a file: its head, its entries up to the first fault, that fault, and where the chunks end that
    were read. Of a file whose head is faulty that is all."""

    head: Head | None = None
    entries: list = field(default_factory=list)
    fault: str | None = None
    ends: list = field(default_factory=list)


# ---- Reading


class FieldReader(wire.Reader):
    """Takes the fields of a recording from the first on."""

    def count(self):
        """A number of 7 bits a byte."""
        value = 0
        for place in range(MOST_NUMBER_BYTES):
            byte = self.byte()
            value |= (byte & 127) << 7 * place
            if value > MOST_NUMBER or byte == 0 and place > 0:
                raise RecordingFault(NUMBER)
            if byte < 128:
                return value
        raise RecordingFault(NUMBER)

    def moment(self):
        moment = self.count()
        if moment > MOST_MOMENT:
            raise RecordingFault(NUMBER)
        return moment

    def few(self, most, least=0):
        """How many of something there are."""
        count = self.count()
        if not least <= count <= most:
            raise RecordingFault(COUNT)
        return count

    def text(self):
        """Some bytes behind their number."""
        return self.raw(self.count())

    def flag(self):
        return self.one_of((0, 1), wire.KIND) == 1

    def place_told(self):
        return self.address(THREE)

    def incarnation(self):
        number = self.number()
        if number > wire.MOST_INCARNATION:
            raise wire.Fault(wire.INCARNATION)
        return number

    def packet(self):
        return packet_of(self.text())

    def records(self):
        """Some records, of which there may be none."""
        data = self.text()
        if not data:
            return ()
        page = packet_of(data)
        is_theirs = page.claims and page.sender == page.claims[0].member
        if page.version != THREE or page.kind != PAGE or page.group or not is_theirs:
            raise RecordingFault(PACKET)
        return page.claims

    def record(self):
        """A record alone."""
        records = self.records()
        if len(records) != 1:
            raise RecordingFault(COUNT)
        return records[0]

    def config(self):
        config = {key: self.count() for key in KEYS}
        config |= {"name": self.name(), "address": self.place_told(), "group": self.name(0)}
        seeds = [(self.name(), self.place_told()) for _ in range(self.few(MOST_SEEDS))]
        return config | {"seeds": tuple(seeds)}

    def event(self):
        kind, moment = self.one_of(EVENTS, wire.KIND), self.moment()
        if kind == OPEN:
            return Event(kind, moment, self.config())
        if kind in (TICK, LEAVE):
            return Event(kind, moment, words=tuple([self.number() for _ in range(WORDS)]))
        if kind == HEARD:
            return Event(kind, moment, address=self.place_told(), packet=self.packet())
        if kind == PULL:
            return Event(kind, moment, address=self.place_told())
        return Event(kind, moment, name=self.name() if kind == ASK else b"")

    def timer(self):
        kind = self.one_of((NO_TIMER, *TIMERS), wire.KIND)
        if kind == NO_TIMER:
            return None
        subject = self.name() if kind in OF_A_MEMBER else self.number() if kind in OF_A_RELAY else 0
        return kind, subject, self.count()

    def answer(self):
        kind = self.one_of(ANSWERS, wire.KIND)
        if kind == A_RECORD:
            return self.record()
        if kind == A_HEALTH:
            return Health(self.count(), self.incarnation(), self.count())
        return Unknown() if kind == NO_RECORD else None

    def reply(self):
        """A reply, whose parts stand in the order of these lines."""
        reply = Reply(self.timer())
        reply.sends = [(self.place_told(), self.packet()) for _ in range(self.few(MOST_SENT))]
        reply.changed = list(self.records())
        reply.forgotten = [self.name() for _ in range(self.few(MOST_FORGOTTEN))]
        reply.answer, reply.ousted, reply.next = self.answer(), self.flag(), self.count()
        return reply

    def entry(self):
        seat = self.byte()
        if seat > MOST_SEAT:
            raise RecordingFault(NUMBER)
        return Entry(seat, self.event(), self.reply(), self.count())

    def first_fields(self):
        """The fields of a head up to the number of entries before it."""
        name, config, file, program = self.name(), self.config(), self.text(), self.text()
        return Head(name, config, file, program, self.count(), self.moment(), self.count())

    def head(self):
        """A whole head."""
        head = self.first_fields()
        if self.flag() != (head.count > 0):
            raise RecordingFault(COUNT)
        if not head.count:
            return head
        score, number, ousted = self.count(), self.incarnation(), self.flag()
        table = tuple([self.record() for _ in range(self.few(MOST_TABLE, 1))])
        return Head(*list(vars(head).values())[:-1], Before(score, number, ousted, table))

    def chunk(self):
        """The body of a chunk that is there whole."""
        body, check = self.text(), self.raw(CHECK_BYTES)
        if check != check_of(body):
            raise RecordingFault(CHECK)
        return body

    def begin(self):
        """What a file begins with, before the chunk of its head."""
        for byte in MAGIC_BYTES:
            self.one_of((byte,), wire.MAGIC)
        self.one_of((FORMAT,), wire.VERSION)


def check_of(body):
    return hashlib.sha256(body).digest()[:CHECK_BYTES]


def packet_of(data):
    """The packet that some bytes are."""
    try:
        return wire.read(data)
    except wire.Fault as fault:
        raise RecordingFault(PACKET) from fault


def named(fault):
    """The word for the fault of a field."""
    words = FIELD_FAULTS | {wire.KIND: KIND, wire.MAGIC: MAGIC, wire.VERSION: VERSION}
    return fault.word if isinstance(fault, RecordingFault) else words[fault.number]


def whole(body, part):
    """What a body is, by the reader of it as a whole."""
    reader = FieldReader(body)
    found = part(reader)
    if reader.place < len(body):
        raise RecordingFault(TRAILING)
    return found


def read_file(data):
    """What is read of the bytes of a file."""
    found, reader = Recording(), FieldReader(data)
    try:
        reader.begin()
        found.head = whole(reader.chunk(), FieldReader.head)
        found.ends.append(reader.place)
        while reader.place < len(data):
            found.entries.append(whole(reader.chunk(), FieldReader.entry))
            found.ends.append(reader.place)
    except (wire.Fault, RecordingFault) as fault:
        found.fault = named(fault)
    return found


# ---- Writing


def spelled_count(value):
    """A number of 7 bits a byte."""
    rest = value >> 7
    return bytes([value & 127 | 128]) + spelled_count(rest) if rest else bytes([value])


def spelled_text(data):
    return spelled_count(len(data)) + data


def spelled_place(address):
    return spelled_address(THREE, address)


def spelled_words(numbers):
    return b"".join(it.to_bytes(4, "big") for it in numbers)


def spelled_records(records):
    if not records:
        return spelled_count(0)
    return spelled_text(wire.spelled(Packet(THREE, PAGE, records[0].member, claims=tuple(records))))


def spelled_config(config):
    numbers = b"".join(spelled_count(config[key]) for key in KEYS)
    seeds = b"".join(spelled_name(name) + spelled_place(address) for name, address in config["seeds"])
    return (numbers + spelled_name(config["name"]) + spelled_place(config["address"]) + spelled_name(config["group"])
            + spelled_count(len(config["seeds"])) + seeds)


def spelled_event(event):
    front = bytes([event.kind]) + spelled_count(event.moment)
    if event.kind == OPEN:
        return front + spelled_config(event.config)
    if event.kind == HEARD:
        return front + spelled_place(event.address) + spelled_text(wire.spelled(event.packet))
    if event.kind == PULL:
        return front + spelled_place(event.address)
    return front + (spelled_name(event.name) if event.kind == ASK else spelled_words(event.words))


def spelled_timer(fired):
    if fired is None:
        return bytes([NO_TIMER])
    kind, subject, deadline = fired
    about = spelled_name(subject) if kind in OF_A_MEMBER else spelled_words([subject] if kind in OF_A_RELAY else [])
    return bytes([kind]) + about + spelled_count(deadline)


def spelled_answer(answer):
    if isinstance(answer, Claim):
        return bytes([A_RECORD]) + spelled_records([answer])
    if isinstance(answer, Health):
        return (bytes([A_HEALTH]) + spelled_count(answer.score) + spelled_words([answer.number])
                + spelled_count(answer.members))
    return bytes([NO_RECORD if isinstance(answer, Unknown) else NO_ANSWER])


def spelled_reply(reply):
    sends = b"".join(spelled_place(to) + spelled_text(wire.spelled(packet)) for to, packet in reply.sends)
    forgotten = b"".join(map(spelled_name, reply.forgotten))
    return (spelled_timer(reply.fired) + spelled_count(len(reply.sends)) + sends + spelled_records(reply.changed)
            + spelled_count(len(reply.forgotten)) + forgotten + spelled_answer(reply.answer) + bytes([reply.ousted])
            + spelled_count(reply.next))


def spelled_entry(entry):
    """The body of an entry."""
    return (bytes([entry.seat]) + spelled_event(entry.event) + spelled_reply(entry.reply)
            + spelled_count(entry.stood_still))


def spelled_head(head):
    """The body of a head."""
    front = (spelled_name(head.name) + spelled_config(head.config) + spelled_text(head.file)
             + spelled_text(head.program) + spelled_count(head.begun) + spelled_count(head.moment)
             + spelled_count(head.count) + bytes([head.before is not None]))
    if head.before is None:
        return front
    return (front + spelled_count(head.before.score) + spelled_words([head.before.number])
            + bytes([head.before.ousted]) + spelled_count(len(head.before.table))
            + b"".join(spelled_records([record]) for record in head.before.table))


def spelled_chunk(body):
    return spelled_text(body) + check_of(body)


def spelled_file(head, entries=()):
    """The bytes of a file of a recording."""
    bodies = [spelled_head(head), *map(spelled_entry, entries)]
    return MAGIC_BYTES + bytes([FORMAT]) + b"".join(map(spelled_chunk, bodies))


def file_name(number):
    return f"{number:010}.lgr"


def numbered(files):
    """Those of some files that are of a recording, by their names: of each its number and its bytes, in the order of
    the numbers."""
    return sorted((int(match[1]), data) for name, data in files if (match := FILE_NAME.fullmatch(name)))


def files_of(folder):
    """The files of the recording in a folder. Whatever else lies there isn't of it."""
    return numbered((it.name, it.read_bytes()) for it in folder.iterdir() if FILE_NAME.fullmatch(it.name))
