"""Cases of verdicts: what happened to a member of a random group, as a recording, for `lg explain` of another one."""

import json
from dataclasses import dataclass, replace

from fuzzing import explain, group, lives
from fuzzing.explain import Asked, Note
from fuzzing.explain_laws import broken_laws
from fuzzing.member import WORDS
from fuzzing.of_explanations import ExplanationCase, Explanations
from fuzzing.of_groups import size_of
from fuzzing.recording import HEARD, LEAVE, OPEN, PULL, TICK, Event, numbered
from fuzzing.script import place, seed
from fuzzing.wire import ALIVE, FAILED, LEFT, SUSPECT

MOST_GROUP = 8


@dataclass(frozen=True)
class VerdictCase(ExplanationCase):
    """The laws are about a recording that is whole: it has all entries from the first on, up to some entry."""

    is_whole: bool = True


# ---- What happened to a member


def event_of(made, own, line):
    """What a line of the script of a group has happen at this member. None if it has nothing happen there."""
    match line.split(" "):
        case ["deliver", count, now]:
            source, to, packet = made.cluster.sent[int(count) - 1]
            return Event(HEARD, int(now), address=source, packet=packet) if to == own.address else None
        case [_, name, *_] if name != own.name.decode():
            return None
        case ["open", _, _, now, *seeds]:
            seeds = tuple([seed(it.encode()) for it in seeds])
            return Event(OPEN, int(now), own.config | {"name": own.name, "address": own.address, "seeds": seeds})
        case ["tick" | "leave" as does, _, now, *words]:
            words = [*map(int, words), *[0] * WORDS][:WORDS]
            return Event(TICK if does == "tick" else LEAVE, int(now), words=tuple(words))
        case ["pull", _, now, port]:
            return Event(PULL, int(now), address=place(port.encode()))
    return None


class MemberNode(lives.Node):
    """A node to which the same happens as to a member of a group, from its opening on."""

    def __init__(self, dice, events, starts):
        self.opening, *later = events
        super().__init__(dice, [self.opening.config["name"]], self.opening.moment, starts)
        for event in later:
            self.add(event)

    def config_of(self):
        return self.opening.config


def node_of(dice, made, name):
    """The node of a member of a group, with one to three files."""
    own = made.member(name)
    events = [event for line in made.lines if (event := event_of(made, own, line))]
    return MemberNode(dice, events, {dice.randrange(1, len(events) + 1) for _ in range(dice.choice([0, 1, 2]))})


def asked_of(dice, node, others):
    """What is asked of a node: each account of another member, mostly of one that was suspected, failed or left."""
    told = {record.member for it in node.entries for record in it.reply.changed if record.status != ALIVE}
    told = sorted(told.intersection(others))
    name = dice.choice(told if told and dice.random() < 0.9 else others)
    return Asked(name, is_all=True, has_entries=dice.random() < 0.3, is_json=dice.random() < 0.7)


def first_broken_law(case, accounts):
    """What breaks a law in the accounts of a case. None if nothing does."""
    return next(iter(broken_laws(numbered(case.folder), case.asked.name, accounts)), None)


# ---- Judges that break a law


def is_calm_unless_suspected(name, record, entries):
    """What isn't all of being calm: not to be suspected, though a probe runs."""
    last = explain.record_behind(name, record, entries)
    return last is None or last.status != SUSPECT


def ended_by_score(it, ended=Note.ended):
    """What isn't said of the end of a round: by the score alone whether an Ack came."""
    before, after = it.scores()
    return [step | {"failed": after > before} for step in ended(it)]


def changed_as_told(it, changed=Note.changed):
    """What isn't told of a change: the status that the packet tells."""
    told = it.told()
    return [step | {"status": told[-1]["status"]} if told else step for step in changed(it)]


class Verdicts(Explanations):
    """Each recording of a member of a group, with another member that is asked for, is a case."""

    name = "verdicts"
    # Those of the explanations are changed there.
    wrong_rules = ()
    # Judges that break a law: one leaves out who was suspected and didn't fail, one begins with the suspicion, one
    # reads each file by itself, one tells no end of a suspicion, one no claim by which a member failed or left, one
    # goes by the score, and one by what a Page says.
    lawless = (
        (explain, "VERDICTS", (FAILED, LEFT)), (explain, "is_calm", is_calm_unless_suspected),
        (explain, "goes_on", lambda *_: False), (Note, "time_over", lambda _: []),
        (Note, "told", lambda it, told=Note.told: told(it) if it.has_new_suspect() else []),
        (Note, "ended", ended_by_score), (Note, "changed", changed_as_told))

    def make(self, dice):
        size = min(MOST_GROUP, size_of(dice, False))
        names = [f"m{number:02}" for number in range(size)]
        made = group.Group(dice, names, group.plan_of(dice, size, names, False), False)
        made.run_whole()
        own = dice.choice(names)
        node = node_of(dice, made, own)
        asked = asked_of(dice, node, [it.encode() for it in names if it != own])
        return VerdictCase(asked.words(), folder=tuple(lives.named_files(dice, node.files())), asked=asked)

    def difference(self, case, programs):
        """Where the program differs from the judge, or else which law both of them break."""
        told = super().difference(case, programs)
        if told or not case.is_whole or not case.asked.is_json:
            return told
        return first_broken_law(case, json.loads(programs.run(case).output)["accounts"])

    def with_lines(self, case, lines):
        is_whole = case.is_whole and bool(lines) and lines == self.lines(case)[:len(lines)]
        return replace(super().with_lines(case, lines), is_whole=is_whole)

    def broken_law(self, dice):
        """What breaks a law in what the judge tells. None if nothing does."""
        case = self.make(dice)
        return first_broken_law(case, explain.accounts_of(numbered(case.folder), case.asked))
