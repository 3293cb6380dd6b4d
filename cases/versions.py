"""A check of a group in which each node writes packets of another version."""

from answers import difference
from asking import asked_for, wait_for_answers
from group import AskedGroup
from running import PATIENCE, statuses, wait_until
from telling import told_by, words_of

WIRES = {"a": 1, "b": 2, "c": 3, "d": 3}
# Rounds and suspicions are short, so that a death is soon known.
SHORT = "interval_ms = 200\ntimeout_ms = 100\nalpha = 2\npull_ms = 1000\n"
LEFT_WELL = 0, "", ""


class MixedGroup(AskedGroup):
    """A group of nodes that write these versions."""

    def keys_of(self, name):
        return f"{super().keys_of(name)}wire = {WIRES[name]}\n"


def known_by(group, name):
    """The status of each member by what the node of a name answers over HTTP. Its packets may tell less."""
    return {it["name"]: it["status"] for it in asked_for(group.status[name], "/v1/members")["members"]}


def fault_unless(group, wanted, what):
    """Waits until each of these nodes knows these statuses, and says what they know if they don't."""
    def known():
        return {name: known_by(group, name) for name in wanted}

    if wait_until(lambda: known() == wanted, PATIENCE) is None:
        return f"{what}: {known()} is known, and not {wanted}"
    return None


def leave(program, group, name):
    """What `lg leave` comes to at the node of a name."""
    return told_by(words_of(program, "leave", group.status[name]))


def fault_of_a_leave(program, group):
    """What is wrong if d leaves, whose packets tell it: all others know that it left, whatever they write. In packets
    of versions 1 and 2 they tell it as failed."""
    if fault := difference("d leaves", leave(program, group, "d"), LEFT_WELL):
        return fault
    wanted = {"a": "alive", "b": "alive", "c": "alive", "d": "left"}
    if fault := fault_unless(group, dict.fromkeys("abc", wanted), "d left"):
        return fault
    told = {name: statuses(group.own[name]) for name in "abc"}
    return difference("told of d", told, {"a": wanted | {"d": "failed"}, "b": wanted | {"d": "failed"}, "c": wanted})


def fault_of_a_death(group):
    """What is wrong if c is killed, and started again: it hears of d from a and b alone, which tell d as failed."""
    wanted = {"a": "alive", "b": "alive", "c": "failed", "d": "left"}
    group.nodes["c"].kill()
    if fault := fault_unless(group, dict.fromkeys("ab", wanted), "c died"):
        return fault
    group.nodes["c"] = group.started("c")
    wait_for_answers(group.status["c"])
    wanted["c"] = "alive"
    return fault_unless(group, {"a": wanted, "b": wanted, "c": wanted | {"d": "failed"}}, "c came back")


def fault_of_a_silent_leave(program, group):
    """What is wrong if a leaves, whose packets can't tell it: it ends, and the others take it as failed."""
    if fault := difference("a leaves", leave(program, group, "a"), LEFT_WELL):
        return fault
    wanted = {"a": "failed", "b": "alive", "c": "alive", "d": "left"}
    return fault_unless(group, {"b": wanted, "c": wanted | {"d": "failed"}}, "a ended")


def leaves_among_all_versions(program):
    """Of four nodes a writes version 1, b version 2, c and d version 3. `lg leave` ends d: it left at each other node,
    and those with versions 1 and 2 tell that it failed. Who hears of it from these alone takes it as failed, and who
    knows that it left keeps that. `lg leave` ends a: it failed at the others."""
    with MixedGroup(program, list(WIRES), SHORT) as group:
        alive = dict.fromkeys(WIRES, "alive")
        if wait_until(group.is_whole, PATIENCE) is None:
            return group.difference(alive)
        for port in group.status.values():
            wait_for_answers(port)
        return (fault_of_a_leave(program, group) or fault_of_a_death(group)
                or fault_of_a_silent_leave(program, group))
