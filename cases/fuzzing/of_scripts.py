"""Cases of scripts, for `lg sim`: random lines over a few members, of which one is often damaged."""

from dataclasses import replace

from fuzzing import known, member, numbers, script
from fuzzing.kinds import RunKind
from fuzzing.making import NAMES, damaged
from fuzzing.runs import Case, Outcome, text_of
from fuzzing.wire import ALIVE, FAILED, MOST_CLAIMS, ONE, PAGE, SUSPECT, THREE, TWO, VERSIONS

MOST_LINES = 150
CROWD = [b"m%02d" % number for number in range(20)]
WORDS = [b"0", b"1", b"00", b"65535", b"65536", b"4294967295", b"4294967296", b"1000000000000000", b"1000000000000001",
         b"9" * 16, b"9" * 17, b"", b"-1", b"+1", b"1 ", b" ", b"#", b"a/b", b"a:7001", b"n" * 32, b"n" * 33, b"\t",
         b"\r", b"\xff", b"tick", b"wire", b"7001"]
# Just in a range, and just outside.
EDGES = [b"0", b"1", b"65535", b"65536", b"4294967295", b"4294967296", b"1000000000000000", b"1000000000000001"]


class Maker:
    """Makes a script line by line, and has the cluster that the lines lead to."""

    def __init__(self, dice):
        self.dice, self.lines, self.cluster, self.now = dice, [], script.Cluster(), 0
        self.names = dice.choice([dice.sample(NAMES, dice.choice([2, 3, 4, len(NAMES)])), CROWD])
        # How many members are opened before much else happens.
        self.early = dice.choice([2, 2, 3, len(self.names)])
        # How likely members leave, and are opened so that they forget them.
        self.leaves, self.forgets = dice.choice([(0.01, 0.1), (0.04, 0.8)])
        # Whether members have groups, of which most have the first.
        self.groups = dice.sample(NAMES, 3) if dice.random() < 0.15 else []
        # Members come near each other in time, so that timers of several are due at once.
        self.pace = dice.choice([0, 1, 20, 200, 1000])

    def add(self, line):
        """Adds a line. A faulty one changes nothing of the cluster."""
        self.lines.append(line)
        try:
            self.cluster.run(line)
        except script.LineFault:
            pass

    def moment(self):
        self.now = max(0, self.now + self.dice.choice([0, 1, -1, self.dice.randrange(self.pace + 1)]))
        return self.dice.choice([self.now, self.now, self.now, 10**15]) if self.dice.random() < 0.005 else self.now

    def name(self):
        return self.dice.choice(list(self.cluster.members) or self.names)

    def port(self):
        return 7001 + self.dice.randrange(len(self.names) + 1)

    def set(self):
        key = self.dice.choice(sorted(numbers.NUMBERS))
        least, most, default, _ = numbers.NUMBERS[key]
        values = [least, most, default, self.dice.randint(least, max(least, min(most, 3 * default)))]
        value = self.dice.choice(values + [0] * (key in numbers.MAY_BE_OFF))
        value = self.dice.choice([least - 1 if least else most + 1, most + 1]) if self.dice.random() < 0.01 else value
        return f"set {key} {value}"

    def set_wire(self):
        """The version of the packets of those that are opened later. If they have a group it is mostly the third, since
        the others are faults."""
        has_group = self.cluster.config["group"] and self.dice.random() < 0.98
        return f"set wire {THREE if has_group else self.dice.choice([*VERSIONS, THREE])}"

    def set_group(self):
        """The group of those that are opened later."""
        return f"set group {self.dice.choice([self.groups[0]] * 5 + self.groups).decode()}"

    def set_forget(self):
        """After how long those forget names that are opened later, of whom some forget none."""
        return f"set forget_ms {self.dice.choice([0, 1000, 1000, self.dice.randint(1000, 3000), 60_000])}"

    def open(self):
        """An opening, seldom of a name that is open, which is a fault."""
        new = [name for name in self.names if name not in self.cluster.members]
        word = self.dice.choice(new if new and self.dice.random() < 0.99 else self.names)
        seeds = self.dice.sample(self.names, self.dice.choice([0, 1, 2, self.dice.randrange(len(self.names))]))
        seeds = [f"{it.decode()}:{7001 + self.names.index(it)}" for it in seeds if it != word]
        return " ".join(["open", word.decode(), str(7001 + self.names.index(word)), str(self.moment()), *seeds])

    def tick(self):
        """A tick, mostly when a timer of the member is due."""
        word = self.name()
        opened = self.cluster.members.get(word)
        now = self.moment()
        if opened and self.dice.random() < 0.7:
            now = self.now = max(now, opened.least_deadline())
        words = [self.dice.choice([0, 1, self.dice.randrange(2**32)]) for _ in range(self.dice.choice([0, 1, 4, 8]))]
        return " ".join(["tick", word.decode(), *map(str, [now, *words])])

    def leave(self):
        """A leave, seldom the second of a member."""
        words = [self.dice.choice([0, 1, self.dice.randrange(2**32)]) for _ in range(self.dice.choice([0, 1, 8]))]
        return " ".join(["leave", self.name().decode(), *map(str, [self.moment(), *words])])

    def deliver(self):
        """A delivery, mostly of one of the packets that were sent last."""
        sent = len(self.cluster.sent)
        last = max(1, sent - self.dice.choice([0, 0, 0, 1, 2, 5, 20]))
        number = self.dice.choice([last, last, last, self.dice.randint(1, max(1, sent))])
        return f"deliver {sent + 1 if self.dice.random() < 0.002 else number} {self.moment()}"

    def question(self):
        word = self.name().decode()
        return self.dice.choice([f"ask {word} {self.moment()} {self.dice.choice(self.names).decode()}",
                                 f"health {word} {self.moment()}", f"table {word}",
                                 f"pull {word} {self.moment()} {self.port()}", "", "# words"])

    def set_some(self):
        """Adds settings for the member that is opened next."""
        if self.groups and self.dice.random() < 0.7:
            self.add(self.set_group().encode())
        if self.dice.random() < 0.5 or self.groups:
            self.add(self.set_wire().encode())
        if self.dice.random() < self.forgets:
            self.add(self.set_forget().encode())

    def make(self, count):
        """Adds some settings, and so many lines."""
        for _ in range(self.dice.randrange(8)):
            self.add(self.set().encode())
        for _ in range(count):
            opened = len(self.cluster.members)
            is_early = opened < self.early and self.dice.random() < 0.8
            if is_early or opened < len(self.names) and self.dice.random() < 0.03:
                self.set_some()
                line = self.open()
            elif opened and self.dice.random() < self.leaves:
                line = self.leave()
            elif self.cluster.sent or self.dice.random() < 0.01:
                line = self.dice.choice([self.tick, self.tick, self.deliver, self.deliver, self.question])()
            else:
                line = self.dice.choice([self.tick, self.question])()
            self.add(line.encode())


class FullMaker(Maker):
    """Makes a script in which the first member comes to know as many names as it may. It learns them of the others, of
    whom some leave, and then forgets some of these for others."""

    def __init__(self, dice):
        super().__init__(dice)
        self.names = [b"z", *(b"f%02d" % number for number in range(script.MOST_MEMBERS - 1))]
        self.early = len(self.names)

    def open_all(self):
        """Opens all members. Each has seeds that no other has."""
        for place, name in enumerate(self.names):
            if self.dice.random() < 0.2:
                self.add(self.set_wire().encode())
            seeds = (f"s{number:03}:{8000 + number}" for number in range(16 * place, 16 * place + 16))
            self.add(f"open {name.decode()} {7001 + place} {self.moment()} {' '.join(seeds)}".encode())

    def learn(self, other, is_whole):
        """The first member asks another for its table, and hears all its pages, or the first."""
        self.add(f"pull z {self.moment()} {7001 + self.names.index(other)}".encode())
        heard, most = 0, len(self.names) if is_whole else 2
        for _ in range(most):
            sent = len(self.cluster.sent)
            if sent == heard:
                break
            self.add(f"deliver {sent} {self.moment()}".encode())
            heard = sent

    def make(self, count):
        self.add(self.set_forget().encode())
        self.add(b"set wire 3")
        self.open_all()
        for other in self.dice.sample(self.names[1:], len(self.names) - 1):
            self.learn(other, True)
            if self.dice.random() < 0.3:
                self.add(f"leave {other.decode()} {self.moment()}".encode())
                self.learn(other, False)
        super().make(count)


def with_damage(dice, lines):
    """The lines of a script with one of them damaged: a word of it changed, left out, put in, or some bytes of it."""
    place = dice.randrange(len(lines))
    words = lines[place].split(b" ")
    spot = dice.randrange(len(words))
    how = dice.randrange(7)
    if how >= 5:
        words[spot] = dice.choice(EDGES)
    elif how == 0:
        words[spot] = dice.choice(WORDS)
    elif how == 1:
        words.insert(spot, dice.choice(WORDS))
    elif how == 2:
        del words[spot]
    elif how == 3:
        words = words + words[spot:]
    line = damaged(dice, lines[place]) if how == 4 else b" ".join(words)
    return [*lines[:place], line, *lines[place + 1:]]


def doubts_itself(it, claim):
    """What is no doubt, but to be refuted: a member is suspected or has failed at its own incarnation."""
    return claim.status in (SUSPECT, FAILED) and claim.incarnation <= it.number


def takes_failed(it, claim, packet, hear_claim=member.Member.hear_claim):
    """What is not to be done with a claim of a packet: that a member failed is taken of a Page though its name isn't
    known, as if it had been alive."""
    if packet.kind == PAGE and claim.status == FAILED and claim.member not in (it.name, *it.records):
        it.take(replace(claim, status=ALIVE))
        it.take(claim)
    else:
        hear_claim(it, claim, packet)


def forgets_always(it, claim):
    """What is not to be done if a record changes: the timer stays of a member that has come back."""
    if it.config["forget_ms"] > 0 and claim.status in known.GONE:
        it.timers[known.FORGET, claim.member] = it.now + it.config["forget_ms"]


def merges_all(it, claim, packet):
    """What is not to be done with a claim: a packet of any kind is heard as a Page."""
    it.take(it.merged(claim, packet.sender))


def least_gone(it):
    """Who is not to be forgotten first: the one with the least name."""
    return min((name for kind, name in it.timers if kind == known.FORGET), default=None)


def drops_its_probe(it, name, forget=member.Member.forget):
    """What is not to be done beside forgetting a name: the probe of it ends, and nobody's score is marked for it."""
    forget(it, name)
    if it.probe and it.probe.target == name:
        it.drop_probe()
        it.timers[known.ROUND_START, 0] = it.now


def counts_from_0(it):
    """What is not the next number of a probe: behind the greatest comes 0."""
    number = it.number_due
    it.number_due = (number + 1) % 2**32
    return number


class Scripts(RunKind):
    """Each script is a case."""

    name = "scripts"
    # The last ones are about news: it is waited for though there is none, and goes to those who are gone; an arrival
    # isn't told, nor is a doubt opposed, or one at the own incarnation is; and an Ack begins with a record that is
    # alive, or with none. Then they are about those who left: they probe or refute, and a leave ends no probe, or is
    # told to seven. And they are about forgetting: what has failed is taken of a Page though its name isn't known, or
    # all that is gone is; the timer stays of one that has come back; the least name makes room; and one that was
    # chosen stays so. A Failed in a Page fails, or one in another packet doesn't; all groups are one, or those of a
    # group send version two; and behind the greatest number comes 0.
    wrong_rules = (
        (script, "MOST_MEMBERS", 17), (script, "MOST_WORD", 2**32), (script, "MOST_MOMENT", 10**15 + 1),
        (script, "MOST_SEEDS", 15), (known, "MOST_CLAIMS", MOST_CLAIMS | {ONE: 5, TWO: 5}),
        (known, "MOST_CLAIMS", MOST_CLAIMS | {THREE: 6}), (member.Member, "live", lambda it: 1 + len(it.records)),
        (member.Member, "mark", lambda *_: None), (member.Member, "accuse", lambda *_: None),
        (numbers, "RATIOS", [[900], [0, 1000], *numbers.RATIOS[2:]]),
        (numbers, "LOGARITHMS", numbers.LOGARITHMS | {10: 999}),
        (member.Member, "has_news", lambda *_: True), (member.Member, "hearers", lambda it: sorted(it.records)),
        (member.Member, "tell_arrival", lambda *_: None), (member.Member, "oppose", lambda *_: None),
        (member.Member, "doubts", doubts_itself), (member, "ACK_BUDDIES", (ALIVE, SUSPECT, FAILED)),
        (member, "ACK_BUDDIES", ()), (member.Member, "candidates", lambda it: it.others()),
        (member.Member, "stay_left", member.Member.refute), (member.Member, "drop_probe", lambda *_: None),
        (member, "MOST_TOLD", 7), (member.Member, "hear_claim", takes_failed),
        (member.Member, "passes_over", lambda *_: False), (member.Member, "set_forget", forgets_always),
        (member.Member, "first_to_forget", least_gone), (member.Member, "forget", known.Known.forget),
        (member.Member, "forget", drops_its_probe),
        (member.Member, "merged", lambda it, claim, _: claim), (member.Member, "hear_claim", merges_all),
        (member.Member, "drops", lambda *_: False), (numbers, "THREE", TWO),
        (member.Member, "next_number", counts_from_0))

    def make(self, dice):
        maker = (FullMaker if dice.random() < 0.04 else Maker)(dice)
        maker.make(dice.choice([5, 20, 60, MOST_LINES]))
        lines = maker.lines or [b""]
        lines = with_damage(dice, lines) if dice.random() < 0.4 else lines
        return Case(("sim",), b"\n".join(lines) + dice.choice([b"", b"\n"]))

    def wanted(self, case):
        lines, is_faulty = script.written(case.given)
        return Outcome(3 if is_faulty else 0, text_of(lines))
