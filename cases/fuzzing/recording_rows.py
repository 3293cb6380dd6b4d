"""The worked rows of docs/RECORDINGS.md, and rows about the ends of its ranges, for the slow reader of recordings."""

from dataclasses import replace

from fuzzing import wire
from fuzzing.member import Health, Reply
from fuzzing.numbers import DEFAULTS
from fuzzing.recording import (
    CHECK, COUNT, FAMILY, HEALTH, INCARNATION, KIND, MAGIC, MOST_MOMENT, MOST_NUMBER, NAME, NUMBER, PACKET, SHORT,
    VERSION, Entry, Event, FieldReader, Head, RecordingFault, named, spelled_count, spelled_entry, spelled_head, whole)

HEAD_ROW = ("0161 e807f403030805060304a006a09c010100c8010301 0161 047f0000011b59 00 00 00 05302e392e30 e807 14 00 00")
# An entry before which the clock didn't stand still, and one before which it did for 1500 ms.
ENTRY_ROW = "01 05 14 00 00 00 00 03 00 00000002 03 00 e807 00"
STOOD_ROW = "01 05 14 00 00 00 00 03 00 00000002 03 00 e807 dc0b"
OWN = bytes([127, 0, 0, 1]) + (7001).to_bytes(2, "big")
HEAD_OF_ROW = Head(b"a", DEFAULTS | {"name": b"a", "address": OWN, "group": b"", "seeds": ()}, b"", b"0.9.0", 1000, 20,
                   0)
ENTRY_OF_ROW = Entry(1, Event(HEALTH, 20), Reply(answer=Health(0, 2, 3), next=1000))
ENTRY_THAT_STOOD = replace(ENTRY_OF_ROW, stood_still=1500)
# Bytes whose first field is read by a method, and what that gives: a value, or the word for a fault.
FIELD_ROWS = [
    ("count", "00", 0), ("count", "7f", 127), ("count", "8001", 128), ("count", "ac02", 300),
    ("count", "ff" * 9 + "01", MOST_NUMBER), ("count", "80" * 9 + "02", NUMBER), ("count", "8000", NUMBER),
    ("count", "80" * 9 + "00", NUMBER), ("count", "ff" * 10 + "01", NUMBER), ("count", "ffff", SHORT),
    ("count", "80" * 9, SHORT), ("count", "", SHORT), ("flag", "01", True), ("flag", "02", KIND), ("flag", "", SHORT),
    ("text", "026162", b"ab"), ("text", "0261", SHORT), ("records", "00", ()), ("record", "00", COUNT),
    ("records", "08534c030600016100", PACKET), ("name", "0120", NAME), ("place_told", "05", FAMILY),
    ("incarnation", "3b9aca01", INCARNATION), ("entry", "2105", NUMBER), ("entry", "0108", KIND),
    ("moment", spelled_count(MOST_MOMENT + 1).hex(), NUMBER), ("chunk", "00e3b0c442", b""),
    ("chunk", "00e3b0c443", CHECK), ("chunk", "00e3b0c4", SHORT), ("begin", "4d", MAGIC),
    ("begin", "4c475202", VERSION), ("begin", "4c47", SHORT)]


def field_row(method, data):
    """What reading a field gives."""
    try:
        return getattr(FieldReader(bytes.fromhex(data)), method)()
    except (wire.Fault, RecordingFault) as fault:
        return named(fault)


def wrong_rows():
    """The worked rows that don't hold here."""
    head, entry, stood = map(bytes.fromhex, (HEAD_ROW, ENTRY_ROW, STOOD_ROW))
    rows = [("the bytes of the head", spelled_head(HEAD_OF_ROW), head),
            ("the head of the bytes", whole(head, FieldReader.head), HEAD_OF_ROW),
            ("the bytes of the entry", spelled_entry(ENTRY_OF_ROW), entry),
            ("the entry of the bytes", whole(entry, FieldReader.entry), ENTRY_OF_ROW),
            ("the bytes of the entry that stood still", spelled_entry(ENTRY_THAT_STOOD), stood),
            ("the entry of these", whole(stood, FieldReader.entry), ENTRY_THAT_STOOD),
            ("the entry that ends before its last field", field_row("entry", ENTRY_ROW[:-3]), SHORT)]
    rows += [(f"{method} of {data}", field_row(method, data), wanted) for method, data, wanted in FIELD_ROWS]
    return [f"{what}: got {got}, wanted {wanted}" for what, got, wanted in rows if got != wanted]
