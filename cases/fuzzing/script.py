"""A slow judge of scripts: what each line of `lg sim` writes, by docs/FORMATS.md."""

import re

from fuzzing.known import TIMER_WORDS
from fuzzing.member import WORDS, Member
from fuzzing.numbers import DEFAULTS, MOST_SEEDS, NUMBERS, fault_of
from fuzzing.wire import address_text, is_name, spelled

MOST_MEMBERS = 16
MOST_MOMENT = 1_000_000_000_000_000
MOST_WORD = 4_294_967_295
# How many words each command takes behind its own, at least and at most.
COMMANDS = {b"set": (2, 2), b"open": (3, 10**9), b"tick": (2, 2 + WORDS), b"deliver": (2, 2), b"ask": (3, 3),
            b"health": (2, 2), b"pull": (3, 3), b"leave": (2, 2 + WORDS), b"table": (1, 1)}


class LineFault(Exception):
    """The fault of a line, by its word."""


def must(holds, fault):
    if not holds:
        raise LineFault(fault)


# ---- Words


def number(word, most=10**16, least=0):
    """A number in its form and range."""
    must(re.fullmatch(rb"[0-9]{1,16}", word), "value")
    must(least <= int(word) <= most, "value")
    return int(word)


def moment(word):
    return number(word, MOST_MOMENT)


def port(word):
    return number(word, 65535, 1)


def place(word):
    """The address of a port of 127.0.0.1."""
    return bytes([127, 0, 0, 1]) + port(word).to_bytes(2, "big")


def name(word):
    must(is_name(word), "value")
    return word


def seed(word):
    """The name and the address of a seed."""
    member, colon, at = word.partition(b":")
    must(colon, "value")
    return name(member), place(at)


# ---- The cluster


def reply_lines(reply, first_packet):
    """The lines of a reply whose first packet has this number, but for the one that says that nothing was fired."""
    lines = []
    if reply.fired:
        kind, subject, _ = reply.fired
        about = subject.decode() if isinstance(subject, bytes) else str(subject or "")
        lines.append(f"fired {TIMER_WORDS[kind]} {about}".rstrip())
    lines += [f"answer {reply.answer.text()}"] if reply.answer else []
    lines += [f"send {count} {address_text(to)} {spelled(packet).hex()}"
              for count, (to, packet) in enumerate(reply.sends, first_packet)]
    lines += [f"record {record.text()}" for record in reply.changed]
    lines += [f"forgot {forgotten.decode()}" for forgotten in reply.forgotten]
    return lines + ["ousted"] * reply.ousted + [f"next {reply.next}"]


class Cluster:
    """The members that are open, and all packets that they sent: the sender's address, the destination, the packet.

    With `may_restart` an open name may be opened again, at any port that no other has. Then the one before is gone.
    """

    def __init__(self, most_members=None, may_restart=False):
        self.members, self.sent, self.config = {}, [], DEFAULTS | {"group": b""}
        self.most_members, self.may_restart = most_members or MOST_MEMBERS, may_restart
        self.at_place = {}

    def run(self, line):
        """The lines that a line of the script writes."""
        if not line or line.startswith(b"#"):
            return []
        command = (line.lstrip(b" ").split(b" ") or [b""])[0]
        must(command in COMMANDS, "command")
        words = line.split(b" ")
        least, most = COMMANDS[command]
        must(b"" not in words and least <= len(words) - 1 <= most, "words")
        return getattr(self, "run_" + command.decode())(*words[1:])

    def replied(self, member, reply):
        """The lines of a reply of a member, whose packets get their numbers."""
        first = len(self.sent) + 1
        self.sent += [(member.address, to, packet) for to, packet in reply.sends]
        return reply_lines(reply, first)

    def open_member(self, word):
        must(word in self.members, "member")
        return self.members[word]

    def run_set(self, key, value):
        value = name(value) if key == b"group" else number(value)
        must(key == b"group" or key.decode(errors="replace") in NUMBERS, "value")
        self.config[key.decode()] = value
        return []

    def run_open(self, word, at, now, *seeds):
        word, at, now, seeds = name(word), place(at), moment(now), [seed(it) for it in seeds]
        must(len(seeds) <= MOST_SEEDS and fault_of(self.config, word, [it for it, _ in seeds]) is None, "value")
        before = self.members.get(word) if self.may_restart else None
        must(word not in self.members or before, "double")
        must(at not in self.at_place or before and before.address == at, "double")
        must(len(self.members) < self.most_members or before, "full")
        if before:
            del self.at_place[before.address]
        self.members[word] = self.at_place[at] = Member(word, at, now, dict(self.config), seeds)
        return [f"next {self.members[word].least_deadline()}"]

    def run_tick(self, word, now, *words):
        word, now, words = name(word), moment(now), [number(it, MOST_WORD) for it in words]
        member = self.open_member(word)
        reply = member.tick(now, words)
        return ([] if reply.fired else ["idle"]) + self.replied(member, reply)

    def run_deliver(self, count, now):
        count, now = number(count), moment(now)
        must(1 <= count <= len(self.sent), "packet")
        source, to, packet = self.sent[count - 1]
        member = self.at_place.get(to)
        return self.replied(member, member.hear(now, source, packet)) if member else ["nobody"]

    def run_ask(self, word, now, other):
        word, now, other = name(word), moment(now), name(other)
        member = self.open_member(word)
        return self.replied(member, member.ask(now, other))

    def run_health(self, word, now):
        word, now = name(word), moment(now)
        member = self.open_member(word)
        return self.replied(member, member.health(now))

    def run_pull(self, word, now, at):
        word, now, at = name(word), moment(now), place(at)
        member = self.open_member(word)
        return self.replied(member, member.pull(now, at))

    def run_leave(self, word, now, *words):
        word, now, words = name(word), moment(now), [number(it, MOST_WORD) for it in words]
        member = self.open_member(word)
        return self.replied(member, member.leave(now, words))

    def run_table(self, word):
        return [f"record {record.text()}" for record in self.open_member(name(word)).view()]


def lines_of(text):
    """The lines of an input: a last one without a newline counts if it isn't empty."""
    lines = text.split(b"\n")
    return lines if lines[-1] else lines[:-1]


def written(text, cluster=None):
    """What a script writes, line by line, and whether it has a faulty line, which is then the last."""
    cluster = cluster or Cluster()
    out = []
    for count, line in enumerate(lines_of(text), 1):
        try:
            out += cluster.run(line)
        except LineFault as fault:
            return [*out, f"fault {count} {fault}"], True
    return out, False
