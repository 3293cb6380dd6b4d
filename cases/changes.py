"""Checks of what changes of a node a client gets, and of long polls for them, while a stranger changes records."""

import http.client
import itertools
import selectors
import statistics
import time

from asking import Link, changes_after, on_connection, request
from checks import NOTES
from packets import HOST, IN_A_PACKET, claim, name_bytes, ping
from running import (
    LIFE_MS, PATIENCE, Node, asked, bound_socket, file_of, free_ports, free_status_ports, moment, table_of, wait_for)
from unread import Stranger

# Rounds are so rare that only strangers change anything.
QUIET = "interval_ms = 60000\n"
KEPT = 1024
TOLD = 200
PARKED = 192
# How many changes come while nobody asks.
UNASKED = 100


class Lone:
    """A node b that runs alone, which has a status server unless it is to have none. `keys` are lines of its
    configuration, and `seeds` its seeds, of whom none runs. Its input is empty unless it is to stay open. If its keys
    name a group, `group` is that one."""

    def __init__(self, program, *options, keys=QUIET, seeds=(), has_status=True, has_input=False, group=""):
        [self.port], [self.status] = free_ports(1), free_status_ports(1)
        text = file_of("b", self.port, seeds, f'{keys}status = "{HOST}:{self.status}"\n' if has_status else keys)
        self.node = Node(program, text, "--for-ms", str(LIFE_MS), *options, has_input=has_input)
        self.silent = bound_socket()
        try:
            wait_for("b", self.port, group)
        except RuntimeError as error:
            raise RuntimeError(f"{error}: {self.node.kill()}") from error

    def tell(self, incarnation, count=1):
        """Tells it that the members t000 to the last of so many are alive at an incarnation. What it sends to them
        stays unread. Each of these Pings is answered, so none is lost without being missed."""
        place = self.silent.getsockname()[1]
        claims = [claim(1, f"t{number:03}", place, incarnation) for number in range(count)]
        for start in range(0, count, IN_A_PACKET):
            if not asked(ping(5, "b", claims[start:start + IN_A_PACKET]), self.port):
                raise RuntimeError(f"no Ack came for the claims about t{start:03} and those behind it: {incarnation}")

    def say(self, kind, incarnation, accuser=b""):
        """Tells it a claim of a kind about t000 at an incarnation."""
        place = self.silent.getsockname()[1]
        if not asked(ping(5, "b", [claim(kind, "t000", place, incarnation, accuser)]), self.port):
            raise RuntimeError(f"no Ack came for the claim of the kind {kind} about t000: {incarnation}")

    def accuse(self, incarnation):
        """Tells it that t000 is suspected by x at an incarnation."""
        self.say(2, incarnation, name_bytes("x"))

    def fail(self, incarnation):
        """Tells it that t000 has failed at an incarnation."""
        self.say(3, incarnation)

    def __enter__(self):
        return self

    def __exit__(self, *_):
        self.node.kill()
        self.silent.close()


def incarnations(changes):
    """The names of changes with their incarnations, in order."""
    return [(it["name"], it["incarnation"]) for it in changes["changes"]]


# ---- Changes


def fault_of_a_change(node, version, incarnation):
    """Waits for what is behind a version, and tells the node of t000 meanwhile. Gives what is wrong, the version of the
    answer, and how long it came behind the stranger's packet."""
    with Link(node.status, request(f"/v1/changes?after={version}&wait_ms=10000")) as link:
        time.sleep(0.02)
        begun = moment()
        node.tell(incarnation)
        answer = link.answer()
        took = moment() - begun
    if answer is None or answer.code != 200:
        return f"a poll that waited got {answer}", version, took
    answer = answer.value()
    wanted = [("t000", incarnation)]
    fault = None if incarnations(answer) == wanted and not answer["missed"] else f"got {answer}, wanted {wanted}"
    if answer["version"] <= version or answer["changes"][0]["version"] <= version:
        fault = f"{answer} came for what is behind {version}"
    return fault, answer["version"], took


def changes_come(program, *options):
    """A client asks for all changes and gets the node itself; waits for a change that doesn't come and gets none; and
    waits for twenty that come, each within half a second of a stranger's packet (the median)."""
    with Lone(program, *options) as node:
        first = changes_after(node.status, 0)
        if incarnations(first) != [("b", 0)] or first["missed"]:
            return f"the first changes are {first}"
        version, begun = first["version"], time.monotonic()
        none = changes_after(node.status, version, 700)
        waited = time.monotonic() - begun
        if none["changes"] or none["missed"] or not 0.7 <= waited < 3:
            return f"got {none} after {waited:.2f} s, wanted none after 0.7 s"
        times = []
        for incarnation in range(1, 21):
            fault, version, took = fault_of_a_change(node, version, incarnation)
            if fault:
                return fault
            times.append(took)
        NOTES.append(f"a change came after {statistics.median(times) * 1000:.1f} ms, the median of {len(times)}")
        return None if statistics.median(times) < 0.5 else f"the times were {times}"


def changes_come_of_a_followed_node(program):
    """So they do from a node that is followed."""
    return changes_come(program, "--follow")


def changes_come_that_nobody_waited_for(program):
    """A stranger changes one record again and again while nobody asks, and without a pause but for one. Afterwards each
    of these changes is told, in order, with a version of its own, and with the moment at which it came."""
    with Lone(program) as node:
        version = changes_after(node.status, 0)["version"]
        for incarnation in range(UNASKED):
            node.tell(incarnation)
            time.sleep(0.1 if incarnation == 0 else 0)
        changes = wait_for_changes(node, version, UNASKED)
        wanted = [("t000", incarnation) for incarnation in range(UNASKED)]
        if incarnations(changes) != wanted or changes["missed"]:
            return f"got {changes}, wanted {wanted}"
        versions = [it["version"] for it in changes["changes"]]
        moments = [it["moment_ms"] for it in changes["changes"]]
        if sorted(set(versions)) != versions or versions[-1] > changes["version"]:
            return f"the versions are {versions} up to {changes['version']}"
        # The node's clock leaves out a part of the pause if the machine stops the node.
        return None if sorted(moments) == moments and moments[1] - moments[0] >= 50 else f"the moments are {moments}"


def wait_for_changes(node, version, count):
    """The changes behind a version, as soon as there are so many, or those of the last answer within ten seconds."""
    limit = time.monotonic() + 10
    while True:
        changes = changes_after(node.status, version)
        if len(changes["changes"]) >= count or time.monotonic() > limit:
            return changes
        time.sleep(0.01)


def short_suspicions_are_told(program):
    """A node that is followed hears again and again that a member is suspected, and at once that it is alive after all.
    Each of these changes is told, in a line of its own and in order."""
    with Lone(program, "--follow", "--until-input-ends", has_input=True) as node:
        node.tell(0)
        # Its watcher tells each change behind its first look, which is late if the machine is busy.
        time.sleep(0.5)
        for incarnation in range(UNASKED):
            node.accuse(incarnation)
            node.tell(incarnation + 1)
        node.node.close_input()
        _, output, _ = node.node.end()
        records = [line.split() for line in output.splitlines()]
        told = [(words[3], int(words[4])) for words in records if words[1:3] == ["record", "t000"]]
        wanted = [("alive", 0)]
        for incarnation in range(UNASKED):
            wanted += [("suspect", incarnation), ("alive", incarnation + 1)]
        return None if told == wanted else f"told {told}, wanted {wanted}"


def fault_of_a_round(node, incarnation, version):
    """Changes the records of all told members at once, and waits for all these changes. Gives what is wrong, and the
    version of the last answer."""
    node.tell(incarnation, TOLD)
    seen, limit = [], time.monotonic() + 10
    while len(seen) < TOLD and time.monotonic() < limit:
        answer = changes_after(node.status, version, 500)
        seen, version = seen + incarnations(answer), answer["version"]
    wanted = [(f"t{number:03}", incarnation) for number in range(TOLD)]
    return None if sorted(seen) == wanted else f"got {seen}, wanted {wanted}", version


def old_changes_are_forgotten(program):
    """A stranger changes the records of 200 members again and again. As long as 1,024 changes have come at most, those
    behind an early version are all there, the oldest first. Once there are more, some are missed, and the whole table
    comes."""
    with Lone(program) as node:
        start = version = changes_after(node.status, 0)["version"]
        for incarnation in range(1, KEPT // TOLD + 2):
            fault, version = fault_of_a_round(node, incarnation, version)
            changes = changes_after(node.status, start)
            versions = [it["version"] for it in changes["changes"]]
            count, missed = incarnation * TOLD, incarnation * TOLD > KEPT
            wanted = sorted((it.member, it.incarnation) for it in table_of(node.port).values()) if missed else None
            if fault or versions != sorted(versions) or changes["missed"] != missed:
                return fault or f"behind {count} changes got {changes['missed']} with the versions {versions}"
            if missed and sorted(incarnations(changes)) != wanted:
                return f"got {changes} and not the table {wanted}"
            if not missed and len(versions) != count:
                return f"got {len(versions)} changes of {count}"
        return None if missed else "nothing was missed"


# ---- Versions


def fault_of_versions(node):
    """What goes back while a client asks on one connection, at least 200 times, and until a member has changed twice."""
    connection = http.client.HTTPConnection(HOST, node.status, timeout=10)
    version, latest, sockets, before = 0, {}, set(), changes_after(node.status, 0)["version"]
    turns, last = itertools.count(), time.monotonic() + PATIENCE
    while (turn := next(turns)) < 200 or latest.get("t007", 0) < 2 and time.monotonic() < last:
        target = ["/v1/members", "/v1/members/t007", f"/v1/changes?after={version}"][turn % 3]
        answer = on_connection(connection, target)
        sockets.add(connection.sock)
        if answer.code != 200:
            return f"{target} got {answer}"
        value = answer.value()
        members = value.get("members") or value.get("changes", [value] if "name" in value else [])
        older = [it for it in members if it["incarnation"] < latest.get(it["name"], 0)]
        if value["version"] < version or older:
            return f"version {value['version']} came behind {version}, and {older} behind {latest}"
        version = value["version"]
        latest |= {it["name"]: it["incarnation"] for it in members}
    connection.close()
    if len(sockets) != 1 or version <= before or latest.get("t007", 0) < 2:
        return f"{len(sockets)} connections, versions {before} to {version}, {latest}"
    NOTES.append(f"versions {before} to {version} in {turn} answers")
    return None


def versions_never_go_back(program):
    """A client asks on one connection, 200 times and more, while a stranger changes 200 members ten times a second:
    neither the version nor the incarnation of a member ever goes back."""
    with Lone(program) as node:
        node.tell(0, TOLD)
        stranger = Stranger(node.port)
        try:
            return fault_of_versions(node)
        finally:
            stranger.end()


# ---- Many long polls


def answers_to(links):
    """The answers of all links that have one within ten seconds, in the order in which they come, without waiting for
    more than a second for the next."""
    with selectors.DefaultSelector() as selector:
        for link in links:
            selector.register(link.socket, selectors.EVENT_READ, link)
        while selector.get_map():
            ready = selector.select(1)
            if not ready:
                return
            for key, _ in ready:
                selector.unregister(key.fileobj)
                yield key.data, key.data.answer()


def fault_of_the_others(node, version, turned_away):
    """What is wrong with those that were turned away: they were told when to ask again, and then get the change."""
    for answer in turned_away:
        if answer is None or answer.code != 503 or list(answer.value()) != ["error"]:
            return f"got {answer} while {PARKED} polls waited"
    time.sleep(max(int(it.fields["retry-after"]) for it in turned_away))
    for _ in turned_away:
        got = incarnations(changes_after(node.status, version, 10_000))
        if got != [("t000", 1)]:
            return f"got {got} when asked again"
    return None


def three_hundred_polls_wait(program):
    """Of 300 clients that wait at once, 192 get the next change. The others are told at once to ask again, and then get
    it too."""
    with Lone(program) as node:
        version = changes_after(node.status, 0)["version"]
        data = request(f"/v1/changes?after={version}&wait_ms=30000")
        links = [Link(node.status, data) for _ in range(300)]
        try:
            early = dict(answers_to(links))
            node.tell(1)
            waiting = [link for link in links if link not in early]
            late = [answer and incarnations(answer.value()) for _, answer in answers_to(waiting)]
            if late != PARKED * [[("t000", 1)]]:
                return f"{len(late)} of {len(waiting)} that waited got an answer: {late[:3]}"
            return fault_of_the_others(node, version, early.values())
        finally:
            for link in links:
                link.close()
