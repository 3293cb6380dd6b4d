"""Small recordings with the explanations that docs/EXPLANATIONS.md wants of them, for the slow judge of explanations.

Node b tells of c. What a detector replies in a whole life is the model's; behind missing entries it is made by hand.
"""

from dataclasses import dataclass, replace

from fuzzing.explain import Asked, explained
from fuzzing.known import DIRECT, ROUND_END, ROUND_START, SUSPICION
from fuzzing.member import Reply
from fuzzing.numbers import DEFAULTS
from fuzzing.recording import HEARD, LEAVE, OPEN, TICK, Before, Entry, Event, Head, spelled_file
from fuzzing.replay import Life
from fuzzing.runs import text_of
from fuzzing.wire import (
    ACK, ALIVE, FAILED, GOSSIP, LEFT, NACK, PAGE, PING, PING_REQ, SUSPECT, THREE, Claim, Packet)

# 2001-09-09 01:46:40 in UTC, in milliseconds since 1970, and the moment at which the first file is begun.
BEGUN, FIRST = 1_000_000_000_000, 20
NOBODY = "c has not been suspected, and has neither failed nor left."
MISSING = "  Some of the past is missing, so scores and timeouts may not be told."


@dataclass(frozen=True)
class Row:
    """The files of a recording, what is asked of it, and the lines and the status that are wanted."""

    what: str
    files: tuple
    asked: Asked
    lines: tuple
    status: int = 0


# ---- Makers


def minute_text(ended, suspected, stood_still=0):
    return (f"In the minute before, {ended} of our rounds ended, {suspected} of them with a suspicion, and our clock "
            f"stood still for {stood_still} ms.")


NO_ROUNDS = minute_text(0, 0)


def place(port):
    return bytes([127, 0, 0, 1]) + port.to_bytes(2, "big")


PLACES = {name: place(port) for port, name in enumerate([b"a", b"b", b"c", b"d", b"e"], 7001)}


def config_of(*others, **keys):
    """A configuration of b that has these others as its seeds. It sends no news by itself."""
    numbers = DEFAULTS | {"wire": THREE, "gossip_ms": 0, "indirect": 2, "first": 7}
    seeds = tuple((name, PLACES[name]) for name in others)
    return numbers | {"name": b"b", "address": PLACES[b"b"], "group": b"", "seeds": seeds} | keys


FIVE, TWO_OF_THEM = config_of(b"a", b"c", b"d", b"e"), config_of(b"c")


def claim(status, incarnation=0, accuser=None, member=b"c", at=None):
    return Claim(status, member, at or PLACES[member], incarnation, accuser)


def tick(moment, *words):
    return Event(TICK, moment, words=(*words, *[0] * (8 - len(words))))


def heard(moment, sender, *claims, kind=GOSSIP, number=0, receiver=b"", group=b""):
    packet = Packet(THREE, kind, sender, number, claims=claims, group=group, receiver=receiver)
    return Event(HEARD, moment, address=PLACES[sender], packet=packet)


def lived(config, *events):
    """The entries of a life that is opened first, with the replies of the model."""
    life = Life(True)
    return [Entry(1, event, life.due(event)) for event in [Event(OPEN, FIRST, config), *events]]


def fired(moment, kind, subject=0, deadline=0, sends=(), changed=()):
    """An entry in which a timer fired, whose reply is made by hand."""
    return Entry(1, tick(moment), Reply((kind, subject, deadline), sends=list(sends), changed=list(changed)))


def ping(number):
    """What is sent to c by the start of a round."""
    return PLACES[b"c"], Packet(THREE, PING, b"b", number, b"c")


def ping_req(helper, number=7):
    return PLACES[helper], Packet(THREE, PING_REQ, b"b", number, b"c", PLACES[b"c"])


def file_of(entries, count=0, begun=BEGUN, moment=FIRST, records=(), config=FIVE):
    """A file. If entries stand before it, its head has a record of b and these."""
    own = claim(ALIVE, member=b"b")
    before = Before(0, 0, False, tuple(sorted([own, *records], key=lambda it: it.member))) if count else None
    return spelled_file(Head(b"b", config, b"", b"0.9.0", begun, moment, count, before), entries)


def row(what, files, lines, **asked):
    return Row(what, tuple(enumerate(files, 1)), Asked(b"c", **asked), tuple(lines))


def untold(what, files, line=NOBODY, **asked):
    """A row that has no account."""
    return replace(row(what, files, [line], **asked), status=1)


# ---- A member that was killed

# The Nack of e is for d, and one is of another group. The round then begins with a, which isn't told.
SUSPECTED = [
    tick(20, 1), tick(520, 0, 1), heard(905, b"a", kind=NACK, number=7, receiver=b"b"),
    heard(906, b"e", kind=NACK, number=7, receiver=b"d"),
    heard(907, b"e", kind=NACK, number=7, receiver=b"b", group=b"g"),
    heard(908, b"e", kind=NACK, number=8, receiver=b"b"), tick(1020)]
KILLED = [*SUSPECTED, heard(1940, b"d", claim(SUSPECT, accuser=b"d")), tick(18520), tick(18520)]
LINE_OF_END = (
    "The round ended without an Ack. Our health score rose from 0 to 2. We suspected it at incarnation 0. We knew 5 "
    f"live members. After 0 of 3 confirmations the timeout was 30000 ms. {NO_ROUNDS}")
LINES_OF_SUSPICION = [
    "  20  We pinged it (probe 7, at 127.0.0.1:7003).",
    "  520  No Ack came within 500 ms. We asked a and e to ping it.",
    "  905  a sent a Nack: no Ack of it had come.",
    f"  1020  {LINE_OF_END}"]
KILLED_LINES = [
    "c failed at 18520 ms (2001-09-09 01:46:58), here.",
    *LINES_OF_SUSPICION,
    "  1940  d told us that d suspects it at incarnation 0. We knew 5 live members. After 1 of 3 confirmations the "
    "timeout was 17500 ms.",
    "  18520  The time was over, and no refutation had come. We took it as failed."]
KILLED_NUMBERED = [
    "c failed at 18520 ms (2001-09-09 01:46:58), here.",
    "  20 [1]  We pinged it (probe 7, at 127.0.0.1:7003).",
    "  520 [2]  No Ack came within 500 ms. We asked a and e to ping it.",
    "  905 [3]  a sent a Nack: no Ack of it had come.",
    f"  1020 [7]  {LINE_OF_END}",
    "  1940 [8]  d told us that d suspects it at incarnation 0. We knew 5 live members. After 1 of 3 confirmations the "
    "timeout was 17500 ms.",
    "  18520 [10]  The time was over, and no refutation had come. We took it as failed."]
RECORD = '"incarnation":0,"address":"127.0.0.1:7003","accuser"'
KILLED_JSON = (
    '{"member":"c","accounts":[{"status":"failed","moment":18520,"wall":1000000018500,"told_by":null,"known":true,'
    '"notes":['
    '{"entry":1,"moment":20,"wall":1000000000000,"told_by":null,"steps":['
    '{"step":"pinged","probe":7,"address":"127.0.0.1:7003"}]},'
    '{"entry":2,"moment":520,"wall":1000000000500,"told_by":null,"steps":['
    '{"step":"unanswered","within":500},'
    '{"step":"asked","helpers":[{"member":"a","address":"127.0.0.1:7001"},'
    '{"member":"e","address":"127.0.0.1:7005"}]}]},'
    '{"entry":3,"moment":905,"wall":1000000000885,"told_by":"a","steps":['
    '{"step":"nack","by":"a"}]},'
    '{"entry":7,"moment":1020,"wall":1000000001000,"told_by":null,"steps":['
    '{"step":"ended","failed":true},'
    '{"step":"score","before":0,"after":2},'
    '{"step":"changed","status":"suspect",' + RECORD + ':"b"},'
    '{"step":"timeout","live":5,"confirmations":0,"most":3,"timeout":30000},'
    '{"step":"minute","ended":0,"suspected":0,"stood_still":0}]},'
    '{"entry":8,"moment":1940,"wall":1000000001920,"told_by":"d","steps":['
    '{"step":"told","status":"suspect",' + RECORD + ':"d"},'
    '{"step":"timeout","live":5,"confirmations":1,"most":3,"timeout":17500}]},'
    '{"entry":10,"moment":18520,"wall":1000000018500,"told_by":null,"steps":['
    '{"step":"time_over"},'
    '{"step":"changed","status":"failed",' + RECORD + ':null}]}]}]}')


def killed_rows():
    """A member that was killed, in each form, and the others that weren't."""
    files = [file_of(lived(FIVE, *KILLED))]
    return [row("a killed member", files, KILLED_LINES),
            row("its entries", files, KILLED_NUMBERED, has_entries=True),
            row("a killed member as JSON", files, [KILLED_JSON], is_json=True),
            row("JSON has the entries always", files, [KILLED_JSON], is_json=True, has_entries=True),
            row("in two files", [file_of(lived(FIVE, *KILLED)[:5]), file_of(lived(FIVE, *KILLED)[5:], 5)],
                KILLED_LINES),
            Row("a member that only was probed", ((1, files[0]),), Asked(b"d", is_all=True),
                ("d has not been suspected, and has neither failed nor left.",), 1)]


# ---- A false alarm, and what was told later

ALARM = [tick(20), tick(520), tick(1020), tick(1020),
         heard(2010, b"c", claim(ALIVE, 1), kind=ACK, number=8, receiver=b"b"), tick(3020)]
ALARM_LINES = [
    "c was suspected at 1020 ms (2001-09-09 01:46:41), here.",
    "  20  We pinged it (probe 7, at 127.0.0.1:7003).",
    "  520  No Ack came within 500 ms. There was nobody to ask.",
    "  1020  The round ended without an Ack. Our health score rose from 0 to 1. We suspected it at incarnation 0. We "
    f"knew 2 live members. After 0 of 0 confirmations the timeout was 5000 ms. {NO_ROUNDS}",
    "  1020  We pinged it (probe 8, at 127.0.0.1:7003).",
    "  2010  c sent an Ack. Our health score fell from 1 to 0. c told us that it is alive at incarnation 1, at "
    "127.0.0.1:7003. We took it as alive at incarnation 1.",
    "  3020  The round ended."]
LATER = [tick(3020), heard(3100, b"a", claim(FAILED, 1)), tick(3520), tick(4020)]
LATER_LINES = [
    "c failed at 3100 ms (2001-09-09 01:46:43), as a told.",
    "  3020  We pinged it (probe 9, at 127.0.0.1:7003).",
    "  3100  a told us that it failed at incarnation 1. We took it as failed.",
    "  3520  No Ack came within 500 ms. There was nobody to ask.",
    "  4020  The round ended without an Ack. Our health score rose from 0 to 1."]


def alarm_rows():
    """A member that was suspected and refuted it, and was told later to have failed: which of both is told."""
    files = [file_of(lived(TWO_OF_THEM, *ALARM, *LATER), config=TWO_OF_THEM)]
    return [row("a false alarm", [file_of(lived(TWO_OF_THEM, *ALARM), config=TWO_OF_THEM)], ALARM_LINES),
            row("the last account", files, LATER_LINES),
            row("all accounts", files, [*ALARM_LINES, *LATER_LINES], is_all=True),
            untold("before any verdict", files, at=1019, is_all=True),
            untold("before any verdict, as JSON", files, '{"member":"c","accounts":[]}', at=1019, is_json=True),
            row("at the first verdict", files, ALARM_LINES, at=1020),
            row("before the second", files, ALARM_LINES, at=3099, is_all=True),
            row("at the second", files, LATER_LINES, at=3100),
            row("at the second, and all", files, [*ALARM_LINES, *LATER_LINES], at=3100, is_all=True)]


# ---- What others tell


def told_rows():
    """What is told by others alone, each time an episode of one entry: that it failed, left, and is suspected."""
    failed = [file_of(lived(FIVE, heard(30, b"d", claim(FAILED))))]
    both = [file_of(lived(FIVE, heard(30, b"d", claim(ALIVE, 1, at=place(7013)), claim(LEFT, 2))))]
    failed_json = (
        '{"member":"c","accounts":[{"status":"failed","moment":30,"wall":1000000000010,"told_by":"d","known":true,'
        '"notes":[{"entry":1,"moment":30,"wall":1000000000010,"told_by":"d","steps":['
        '{"step":"told","status":"failed",' + RECORD + ':null},'
        '{"step":"changed","status":"failed",' + RECORD + ':null}]}]}]}')
    return [
        row("told that it failed", failed, [
            "c failed at 30 ms (2001-09-09 01:46:40), as d told.",
            "  30  d told us that it failed at incarnation 0. We took it as failed."]),
        row("told that it failed, as JSON", failed, [failed_json], is_json=True),
        row("two claims, the last that it left", both, [
            "c left at 30 ms (2001-09-09 01:46:40), as d told.",
            "  30  d told us that it is alive at incarnation 1, at 127.0.0.1:7013. d told us that it left at "
            "incarnation 2. We took it as left."]),
        row("a Page tells that it failed, and we suspect it", [
            file_of(lived(FIVE, heard(30, b"d", claim(FAILED), kind=PAGE)))], [
            "c was suspected at 30 ms (2001-09-09 01:46:40), as d told.",
            "  30  d told us that it failed at incarnation 0. We suspected it at incarnation 0. We knew 5 live "
            "members. After 0 of 3 confirmations the timeout was 30000 ms."]),
        row("the gone don't count as live", [
            file_of(lived(FIVE, heard(30, b"d", claim(FAILED, member=b"e"), claim(SUSPECT, accuser=b"a"))))], [
            "c was suspected at 30 ms (2001-09-09 01:46:40), as d told.",
            "  30  d told us that a suspects it at incarnation 0. We suspected it at incarnation 0. We knew 4 live "
            "members. After 0 of 0 confirmations the timeout was 5000 ms."]),
        untold("another group tells nothing", [file_of(lived(FIVE, heard(30, b"d", claim(FAILED), group=b"g")))]),
        untold("a refutation alone", [file_of(lived(FIVE, heard(30, b"c", claim(ALIVE, 1))))]),
        untold("nothing", [file_of([])])]


# ---- Missing entries

SUSPECT_RECORD = claim(SUSPECT, accuser=b"b")


def gap_rows():
    """Entries that are missing before a file: what was known is forgotten, but for the record of the head."""
    over = [Entry(1, heard(1940, b"d", claim(SUSPECT, accuser=b"d")), Reply()),
            fired(18520, SUSPICION, b"c", 18520, changed=[claim(FAILED)])]
    later = file_of(over, 10, BEGUN + 100_000, 1920, [SUSPECT_RECORD])
    over_lines = ["  18520  The time was over, and no refutation had come. We took it as failed.", MISSING]
    suspected_lines = ["c was suspected at 1020 ms (2001-09-09 01:46:41), here.", *LINES_OF_SUSPICION]
    probed = [fired(5000, ROUND_START, deadline=5000, sends=[ping(9)]),
              fired(5700, DIRECT, deadline=5600, sends=[ping_req(b"a", 9), ping_req(b"d", 9)]),
              Entry(1, heard(5800, b"c", kind=ACK, number=9, receiver=b"b"), Reply()),
              fired(6000, ROUND_END, changed=[SUSPECT_RECORD])]
    acked = [*probed[:1], Entry(1, heard(5300, b"c", kind=ACK, number=9, receiver=b"b"), Reply()),
             fired(6000, ROUND_END), *over[1:]]
    return [
        row("suspected by the head, so the end of a round ends no episode", [
            file_of(acked, 10, BEGUN, 5000, [SUSPECT_RECORD])], [
            "c failed at 18520 ms (2001-09-09 01:46:53), here.",
            "  5000  We pinged it (probe 9, at 127.0.0.1:7003).",
            "  5300  c sent an Ack.",
            "  6000  The round ended.", *over_lines]),
        row("alive by the head", [file_of(acked, 10, BEGUN, 5000, [claim(ALIVE)])], [
            "c failed at 18520 ms (2001-09-09 01:46:53), here.", *over_lines]),
        row("missing entries", [later], ["c failed at 18520 ms (2001-09-09 01:48:36), here.", *over_lines]),
        row("missing entries, as JSON", [file_of(over[1:], 10, BEGUN, 18520)], [
            '{"member":"c","accounts":[{"status":"failed","moment":18520,"wall":1000000000000,"told_by":null,'
            '"known":false,"notes":[{"entry":10,"moment":18520,"wall":1000000000000,"told_by":null,"steps":['
            '{"step":"time_over"},{"step":"changed","status":"failed",' + RECORD + ':null}]}]}]}'], is_json=True),
        row("missing entries between two files", [file_of(lived(FIVE, *SUSPECTED)), later], [
            *suspected_lines, "c failed at 18520 ms (2001-09-09 01:48:36), here.", *over_lines], is_all=True),
        row("a round behind missing entries", [file_of(probed, 3, BEGUN, 5000, [claim(ALIVE)])], [
            "c was suspected at 6000 ms (2001-09-09 01:46:41), here.",
            "  5000  We pinged it (probe 9, at 127.0.0.1:7003).",
            "  5700  No Ack came within 600 ms. We asked 127.0.0.1:7001 and 127.0.0.1:7004 to ping it.",
            "  5800  c sent an Ack.",
            f"  6000  The round ended without an Ack. We suspected it at incarnation 0. {NO_ROUNDS}", MISSING])]


# ---- The minute before

OTHER_SUSPECT = claim(SUSPECT, accuser=b"b", member=b"d")
# Of these rounds the first ended more than a minute before the last one, and the second just a minute before it.
ROUNDS = [fired(999, ROUND_END, changed=[OTHER_SUSPECT]), fired(1000, ROUND_END, changed=[OTHER_SUSPECT]),
          fired(1001, ROUND_END), fired(60_000, ROUND_END, changed=[OTHER_SUSPECT]),
          fired(60_000, ROUND_START, sends=[ping(9)]), fired(61_000, ROUND_END, changed=[SUSPECT_RECORD])]
LATER_END = fired(62_000, ROUND_END)


def lines_of_rounds(number, *minute):
    """What is told of the rounds: the start of the last one has this number."""
    return ["c was suspected at 61000 ms (2001-09-09 01:46:41), here.",
            f"  60000 [{number}]  We pinged it (probe 9, at 127.0.0.1:7003).",
            f"  61000 [{number + 1}]  The round ended without an Ack. We suspected it at incarnation 0. "
            f"{minute_text(*minute)}", MISSING]


def row_of_rounds(what, files, *told):
    return row(what, files, lines_of_rounds(*told), has_entries=True)


def minute_rows():
    """Which rounds count: those that ended less than 60,000 ms before, of which one raised a suspicion. By a clock that
    went back nothing is later than the greatest moment so far, at which all that came behind it is counted."""
    return [
        row_of_rounds("the minute before", [file_of(ROUNDS, 3, BEGUN, 60_000)], 7, 2, 1),
        row_of_rounds("a later moment", [file_of([LATER_END, *ROUNDS], 3, BEGUN, 60_000)], 8, 5, 3),
        row_of_rounds("before missing entries", [
            file_of(lived(FIVE)), file_of([LATER_END], 3), file_of(ROUNDS, 5, BEGUN, 60_000)], 9, 2, 1)]


def standing(entries, *times):
    """Entries that say that the clock stood still for so many milliseconds."""
    return [replace(it, stood_still=time) for it, time in zip(entries, times, strict=True)]


def standing_rows():
    """Which entries count of those that say that the clock stood still: this one and those of less than 60,000 ms
    before, whatever happened, behind the last place where a life began or entries are missing."""
    rounds = standing(ROUNDS, 70_000, 5000, 300, 0, 20, 4)
    most = standing(ROUNDS, 0, 0, 2**64 - 1, 0, 0, 1)
    later = replace(LATER_END, stood_still=1)
    first_life = standing(lived(FIVE), 9000)
    second_life = standing(lived(FIVE, *SUSPECTED), 1200, 0, 0, 0, 0, 0, 0, 300)
    return [
        row_of_rounds("a clock that stood still", [file_of(rounds, 3, BEGUN, 60_000)], 7, 2, 1, 324),
        row_of_rounds("a clock that stood still, in two files", [
            file_of(rounds[:3], 3), file_of(rounds[3:], 6, BEGUN, 60_000)], 7, 2, 1, 324),
        row_of_rounds("a clock that stood still, behind a later moment", [
            file_of([later, *rounds], 3, BEGUN, 60_000)], 8, 5, 3, 75_325),
        row_of_rounds("a clock that stood still, before missing entries too", [
            file_of(first_life), file_of([later], 3), file_of(rounds, 5, BEGUN, 60_000)], 9, 2, 1, 324),
        row_of_rounds("a clock that stood still for longer than can be told", [
            file_of(most, 3, BEGUN, 60_000)], 7, 2, 1, 18_446_744_073_709_551_615),
        row("a clock that stood still, in another life too", [file_of(first_life), file_of(second_life)], [
            "c was suspected at 1020 ms (2001-09-09 01:46:41), here.",
            *(it.replace(NO_ROUNDS, minute_text(0, 0, 1500)) for it in LINES_OF_SUSPICION)])]


# ---- Other rows


def other_rows():
    """An event that isn't accepted, a Leave that ends a probe, another life, and a span by the greatest moment."""
    anew = Event(OPEN, 40, FIVE)
    suspicion = heard(50, b"d", claim(SUSPECT, accuser=b"a"))
    suspected = Entry(1, suspicion, Reply(changed=[claim(SUSPECT, accuser=b"a")]))
    unaccepted = [*lived(FIVE), Entry(1, anew, Reply()), suspected]
    left = lived(FIVE, tick(20, 1), Event(LEAVE, 30, words=(0,) * 8),
                 heard(40, b"c", claim(FAILED), kind=ACK, number=7, receiver=b"b"))
    late = lived(FIVE, heard(1000, b"d"), tick(900, 1), tick(1500), heard(1600, b"d", claim(FAILED)))
    return [
        row("an event that isn't accepted", [file_of(unaccepted)], [
            "c was suspected at 50 ms (2001-09-09 01:46:40), as d told.",
            "  50  d told us that a suspects it at incarnation 0. We suspected it at incarnation 0.", MISSING]),
        row("a Leave ends a probe", [file_of(left)], [
            "c failed at 40 ms (2001-09-09 01:46:40), as c told.",
            "  40  c told us that it failed at incarnation 0. We took it as failed."]),
        row("another life", [file_of(lived(FIVE, *SUSPECTED)), file_of(lived(FIVE, suspicion))], [
            "c was suspected at 50 ms (2001-09-09 01:46:40), as d told.",
            "  50  d told us that a suspects it at incarnation 0. We suspected it at incarnation 0. We knew 5 live "
            "members. After 0 of 3 confirmations the timeout was 30000 ms."]),
        row("a clock that goes back", [file_of(late)], [
            "c failed at 1600 ms (2001-09-09 01:46:41), as d told.",
            "  900  We pinged it (probe 7, at 127.0.0.1:7003).",
            "  1500  No Ack came within 500 ms. We asked a and d to ping it.",
            "  1600  d told us that it failed at incarnation 0. We took it as failed."])]


ROWS = [*killed_rows(), *alarm_rows(), *told_rows(), *gap_rows(), *minute_rows(), *standing_rows(), *other_rows()]


def wrong_rows():
    """The rows that don't hold here."""
    found = [(it, *explained(it.files, it.asked)) for it in ROWS]
    return [f"{it.what}: got {status} and {got.decode()}, wanted {it.status} and {text_of(it.lines).decode()}"
            for it, got, status in found if (got, status) != (text_of(it.lines), it.status)]
