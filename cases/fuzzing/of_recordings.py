"""Cases of recordings: the files of a random node, mostly with something wrong, for `lg replay`."""

from dataclasses import dataclass, replace

from fuzzing import lives, recording, wire
from fuzzing import replay as judge
from fuzzing.kinds import RunKind
from fuzzing.known import FORGET, SUSPICION
from fuzzing.recording import MOST_MOMENT, numbered, read_file
from fuzzing.replay import STATUSES, Window, replayed
from fuzzing.runs import Case, Outcome, first_difference, text_of
from fuzzing.wire import PING, PING_REQ

# The most bytes of files that are shown.
MOST_SHOWN = 4000


@dataclass(frozen=True)
class RecordingCase(Case):
    """The files of a recording, and which entries are told."""

    window: Window = Window()


def window_of(dice, names):
    """Which entries are told: all, or those of some moments or about one name, often the last."""
    moments, window = [0, 1, 20, dice.randrange(3000), 10**6, MOST_MOMENT], Window()
    if dice.random() < 0.3:
        window = replace(window, start=dice.choice(moments))
    if dice.random() < 0.3:
        window = replace(window, end=dice.choice(moments))
    return replace(window, only=dice.choice([*names, *names[-1:] * 4])) if dice.random() < 0.5 else window


def pieces_of(data):
    """The pieces of a file: what it begins with, its chunks, and what is behind the last one that can be read."""
    ends = [0, *read_file(data).ends, len(data)]
    return [data[start:end] for start, end in zip(ends, ends[1:]) if start < end]


# ---- Changed rules


def any_flag(it):
    """What isn't read as a flag: any byte."""
    return it.byte() > 0


def any_records(it):
    """What aren't records: the claims of any packet."""
    data = it.text()
    return recording.packet_of(data).claims if data else ()


def last_record(it):
    """What is no record alone: the last of some."""
    records = it.records()
    return records[-1] if records else None


def long_count(it, count=recording.FieldReader.count):
    """What isn't read as a number: one that isn't in its least form."""
    start = it.place
    while it.byte() > 127:
        pass
    value = sum((byte & 127) << 7 * place for place, byte in enumerate(it.data[start:it.place]))
    if value > recording.MOST_NUMBER:
        raise recording.RecordingFault(recording.NUMBER)
    return value


def unended(body, part):
    """What isn't done with a body: what follows its last part is passed over."""
    return part(recording.FieldReader(body))


def front_of_head(it):
    """What isn't read of a head: its beginning alone."""
    head = it.first_fields()
    it.place = len(it.data)
    return head


def without_deadline(entry):
    """Entries that aren't compared as a whole: without the deadline of the timer that fired."""
    fired = entry.reply.fired
    return recording.spelled_entry(replace(entry, reply=replace(entry.reply, fired=fired and (*fired[:2], 0))))


def short_standstill(it, entry=recording.FieldReader.entry):
    """What isn't read of an entry: that the clock stood still for longer than there are moments."""
    found = entry(it)
    if found.stood_still > MOST_MOMENT:
        raise recording.RecordingFault(recording.NUMBER)
    return found


def unhalted(entry, **changes):
    """Entries that aren't compared: the one with the due reply as if the clock didn't stand still before it."""
    return replace(entry, stood_still=0, **changes)


def rides_with(name, reply, is_reply_about=judge.is_reply_about):
    """What isn't told: a packet that is sent and has a claim about the member."""
    return is_reply_about(name, reply) or any(it.member == name for _, packet in reply.sends for it in packet.claims)


def opens_anew(it, event):
    """What isn't accepted: a further opening."""
    return it.is_known() and (event.kind == judge.OPEN or it.count > 0)


def goes_on_always(it, first):
    """What isn't done at a file: it goes on whatever the number of its first entry is."""
    it.count = first if it.is_known() else None


def notes_faults(it, read):
    """What isn't noted of a file: that it breaks off, and isn't the last of its life."""
    it.is_amiss |= read.fault not in (None, recording.SHORT)


def notes_no_end(it, read, note=judge.Replay.note):
    """What isn't noted of a file: it is amiss if it breaks off, though it is the last of its life."""
    note(it, read)
    it.is_amiss |= read.fault is not None


def no_number(it, told):
    """What isn't counted: the packets of what can't be checked."""
    it.sent += len(told.sends) if it.is_known() else 0


def strict_start(it, event, *replies, tells=Window.tells):
    return event.moment > it.start and tells(it, event, *replies)


def strict_end(it, event, *replies, tells=Window.tells):
    return event.moment < it.end and tells(it, event, *replies)


def due_alone(it, event, told, recorded, tells=Window.tells):
    """Which entries aren't told: those by the reply that is due alone."""
    return tells(it, event, told)


class Recordings(RunKind):
    """Each recording is a case."""

    name = "recordings"
    has_small_lines = False
    # First the rules of the format, and then those of the replay.
    wrong_rules = (
        (recording, "MOST_SEAT", 33), (recording, "MOST_MOMENT", MOST_MOMENT + 1), (recording, "MOST_SENT", 9),
        (recording, "MOST_FORGOTTEN", 13), (recording, "MOST_SEEDS", 17), (recording, "MOST_NUMBER", 2**64),
        (recording, "MOST_TABLE", 257), (recording, "FORMAT", 2), (recording, "EVENTS", range(1, 7)),
        (recording, "TIMERS", recording.TIMERS[:-1]), (recording, "OF_A_RELAY", ()), (recording, "CHECK_BYTES", 3),
        (recording, "FIELD_FAULTS", recording.FIELD_FAULTS | {wire.FAMILY: recording.KIND}),
        (recording.FieldReader, "flag", any_flag), (recording.FieldReader, "records", any_records),
        (recording.FieldReader, "record", last_record), (recording.FieldReader, "count", long_count),
        (recording.FieldReader, "incarnation", wire.Reader.number), (recording, "whole", unended),
        (recording.FieldReader, "head", front_of_head), (judge, "spelled_entry", without_deadline),
        (recording.FieldReader, "entry", short_standstill), (judge, "replace", unhalted),
        (judge, "ASKS", (PING,)), (judge, "ASKS", (PING_REQ,)), (judge, "ANSWERS", ()),
        (judge, "OF_A_MEMBER", (FORGET,)), (judge, "OF_A_MEMBER", (SUSPICION,)),
        (judge, "is_reply_about", rides_with), (judge, "is_well_opened", lambda _: True),
        (judge.Life, "accepts", opens_anew), (judge.Life, "go_on", goes_on_always), (judge.Life, "send", no_number),
        (judge.Replay, "note", notes_faults), (judge.Replay, "note", notes_no_end),
        (Window, "tells", strict_start), (Window, "tells", strict_end), (Window, "tells", due_alone))

    def make(self, dice):
        files, names = lives.recording_of(dice)
        window = window_of(dice, names)
        return RecordingCase(("replay", "FOLDER", *window.options()), folder=tuple(files), window=window)

    def wanted(self, case):
        lines, end = replayed(numbered(case.folder), case.window)
        return Outcome(STATUSES[end], text_of(lines))

    def difference(self, case, programs):
        """Where the program differs from the judge. What it tells on standard error isn't judged here, nor what it does
        without any file, which a smaller case may come to."""
        if not numbered(case.folder):
            return None
        return first_difference(replace(programs.run(case), errors=()), self.wanted(case))

    def lines(self, case):
        return [(name, piece) for name, data in case.folder for piece in pieces_of(data)]

    def with_lines(self, case, lines):
        names = dict.fromkeys(name for name, _ in lines)
        files = [(name, b"".join(piece for other, piece in lines if other == name)) for name in names]
        return replace(case, folder=tuple(files))

    def shown(self, case, programs, title):
        size = sum(len(data) for _, data in case.folder)
        rows = [f"{name}: {data.hex()}" for name, data in case.folder] if size <= MOST_SHOWN else [
            f"The recording has {size} bytes; the number of the case gives it again."]
        return "\n".join([str(self.difference(case, programs)), f"# {title}", f"$ {' '.join(case.words)}", *rows])
