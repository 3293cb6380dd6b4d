"""A slow judge of `lg answer`: what each line of hex gives, by docs/FORMATS.md."""

import re

from fuzzing.member import Member
from fuzzing.numbers import DEFAULTS
from fuzzing.script import lines_of
from fuzzing.wire import FAULT_WORDS, Fault, read, spelled

OWN = bytes([127, 0, 0, 1]) + (7000).to_bytes(2, "big")
SOURCE = bytes([127, 0, 0, 1]) + (1).to_bytes(2, "big")


def answered(member, line):
    """What a line gives, and whether it is faulty."""
    if len(line) % 2 or not re.fullmatch(rb"[0-9a-fA-F]*", line):
        return ["bad hex"], True
    try:
        packet = read(bytes.fromhex(line.decode()))
    except Fault as fault:
        return [f"fault {fault.number} {FAULT_WORDS[fault.number]}"], True
    return [spelled(sent).hex() for _, sent in member.hear(0, SOURCE, packet).sends], False


def written(text, name):
    """What an input writes, line by line, and whether one of its lines is faulty."""
    member, out, is_faulty = Member(name, OWN, 0, dict(DEFAULTS)), [], False
    for line in lines_of(text):
        lines, is_bad = answered(member, line)
        out += lines
        is_faulty |= is_bad
    return out, is_faulty
