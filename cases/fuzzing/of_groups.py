"""Cases of groups: 2 to 64 members in trouble and then in quiet, as a script for a simulated cluster."""

from dataclasses import dataclass, replace

from fuzzing import group, known, member, numbers, wire
from fuzzing.kinds import RunKind
from fuzzing.laws import broken_laws
from fuzzing.of_scripts import counts_from_0, forgets_always, takes_failed
from fuzzing.runs import Case, Outcome, first_difference, test_of, text_of
from fuzzing.script import MOST_MEMBERS, Cluster, written
from fuzzing.wire import MOST_CLAIMS, ONE, THREE

MOST_INPUT = 1_048_576
MOST_GROUP = 64
# The longest script that is shown.
MOST_SHOWN = 200
TABLES_DIFFER = "after quiet the tables differ"


@dataclass(frozen=True)
class GroupCase(Case):
    """A script of a group. `may_restart` says which program plays it. What is known of the group holds of the whole
    script alone: that its network was perfect, and whether its members agree at the end."""

    may_restart: bool = False
    is_perfect: bool = False
    agrees: bool = True

    def script(self):
        return self.given.decode(errors="replace").splitlines()


def size_of(dice, has_player):
    """How many members a group has: mostly a few."""
    how = dice.random()
    if how < 0.7:
        return dice.randint(2, 4)
    if how < 0.92:
        return dice.randint(5, 8)
    return dice.randint(9, MOST_MEMBERS) if how < 0.99 or not has_player else dice.randint(17, MOST_GROUP)


class Groups(RunKind):
    """Each group is a case. With a player it may have 64 members, which may be started again; else it is one of
    `lg sim`."""

    name = "groups"
    has_small_lines = False
    wrong_rules = (
        (member.Member, "live", lambda it: 1 + len(it.records)), (known, "MOST_CLAIMS", MOST_CLAIMS | {ONE: 5}),
        (known, "MOST_CLAIMS", MOST_CLAIMS | {THREE: 6}),
        (member.Member, "mark", lambda *_: None), (member.Member, "accuse", lambda *_: None),
        (member.Member, "hear_nack", lambda *_: None), (numbers, "LOGARITHMS", numbers.LOGARITHMS | {10: 999}),
        (member.Member, "has_news", lambda *_: True), (member.Member, "tell_arrival", lambda *_: None),
        (member.Member, "stay_left", member.Member.refute), (member.Member, "drop_probe", lambda *_: None),
        (member.Member, "hear_claim", takes_failed), (member.Member, "set_forget", forgets_always),
        (member.Member, "merged", lambda it, claim, _: claim), (member.Member, "next_number", counts_from_0))
    # Detectors that break a law: the self-test runs small groups of them, and looks at the laws alone. One goes by
    # the status before the incarnation, one hears no Ack, one takes each suspect as failed at once, one refutes
    # nothing, one gossips to those who are gone, one probes after it left, one takes it that a stranger is gone though
    # it forgets those who are, one forgets who has come back, and one fails whom a Page says to have failed.
    lawless = (
        (wire.Claim, "rank", lambda it: (it.status, it.incarnation)),
        (member.Member, "hear_ack", lambda *_: None),
        (member.Member, "set_suspicion", lambda it, name: it.end_suspicion(name, None)),
        (member.Member, "take_own", lambda *_: None),
        (member.Member, "hearers", lambda it: sorted(it.records)),
        (member.Member, "candidates", lambda it: it.others()),
        (member.Member, "passes_over", lambda *_: False), (member.Member, "set_forget", forgets_always),
        (member.Member, "merged", lambda it, claim, _: claim))

    def __init__(self, has_player=False):
        self.has_player = has_player

    def make(self, dice, most=MOST_GROUP):
        may_restart = self.has_player and dice.random() < 0.8
        size = min(most, size_of(dice, may_restart))
        names = [f"m{number:02}" for number in range(size)]
        plan = group.plan_of(dice, size, names, may_restart)
        made = group.Group(dice, names, plan, may_restart)
        agrees = made.run_whole()
        return GroupCase(() if may_restart else ("sim",), text_of(made.lines), may_restart=may_restart,
                         is_perfect=plan.is_perfect, agrees=agrees)

    def wanted(self, case):
        if len(case.given) > MOST_INPUT:
            return Outcome(1, b"", ("lg: read",))
        if not case.may_restart:
            lines, is_faulty = written(case.given)
            return Outcome(3 if is_faulty else 0, text_of(lines))
        lines, _ = written(case.given, Cluster(MOST_GROUP, may_restart=True))
        heard = sum(line.startswith("next ") for line in lines)
        return Outcome(0, text_of([*lines, f"replayed {heard}"]))

    def difference(self, case, programs):
        """Where the program differs from the model, or else which law both of them break."""
        got = programs.run(case, programs.player if case.may_restart else None)
        told = first_difference(got, self.wanted(case))
        if told or got.status:
            return told
        laws = broken_laws(case.script(), got.output.decode().splitlines(), case.is_perfect)
        return next(iter(laws), None if case.agrees else TABLES_DIFFER)

    def with_lines(self, case, lines):
        return replace(case, given=b"".join(lines), agrees=True, is_perfect=False)

    def smaller(self, case, programs):
        """Only what holds of any script is sought in a smaller one."""
        small = super().smaller(case, programs)
        return small if self.difference(small, programs) else case

    def shown(self, case, programs, title):
        told = self.difference(case, programs)
        count = len(case.script())
        if count > MOST_SHOWN:
            return f"{told}\nThe script has {count} lines; the number of the case gives it again."
        how = "# The program is the one that plays groups.\n" if case.may_restart else ""
        return f"{told}\n{how}{test_of(case, self.wanted(case), title)}"

    def broken_law(self, dice):
        """What breaks a law in a small group of the models of detectors. None if nothing does."""
        case = self.make(dice, 4)
        lines, _ = written(case.given, Cluster(MOST_GROUP, may_restart=True))
        return next(iter(broken_laws(case.script(), lines, case.is_perfect)), None if case.agrees else TABLES_DIFFER)
