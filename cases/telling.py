"""Checks of the commands that ask a running node and write lines: `members`, `status` and `watch`."""

import json
import socket
import subprocess
import threading
import time
from contextlib import suppress

from asking import Link, asked_for, by_python, changes_after, request
from changes import QUIET, Lone, wait_for_changes
from counting import samples
from group import AskedGroup
from packets import HOST
from running import PATIENCE, end_with_parent, free_status_ports, wait_until

NAMES = ["a", "b", "c"]
# A suspicion of three members lasts three seconds, so that a suspect can be told.
KEYS = "interval_ms = 200\ntimeout_ms = 100\nalpha = 15\npull_ms = 1000\n"
UPTIME = "uptime_ms"
# What a command tells whose output fails.
NOBODY_READS = "lg: write\nstandard output can't be written: nobody reads it\n"
NO_SPACE = "lg: write\nstandard output can't be written: no space is left\n"


# ---- The commands


def words_of(program, command, port, *more):
    """The command line that asks the server at a port."""
    return [program, command, "--at", f"{HOST}:{port}", *more]


def told_by(words, **how):
    """The status of a command, what it wrote, and what it told on standard error."""
    ran = subprocess.run(words, stdin=subprocess.DEVNULL, stderr=subprocess.PIPE, text=True,
                         **{"stdout": subprocess.PIPE, "timeout": PATIENCE, **how})
    return ran.returncode, ran.stdout, ran.stderr


class Watcher:
    """A `watch` that runs, with the lines that it has written so far."""

    def __init__(self, program, port, *more):
        self.process = subprocess.Popen(words_of(program, "watch", port, *more), stdin=subprocess.DEVNULL,
                                        stdout=subprocess.PIPE, stderr=subprocess.PIPE, text=True,
                                        preexec_fn=end_with_parent)
        self.lines = []
        self.reading = threading.Thread(target=lambda: self.lines.extend(iter(self.process.stdout.readline, "")))
        self.reading.start()

    def end(self, seconds=10):
        """Its status, its lines, and what it told on standard error. One that doesn't end is killed."""
        try:
            self.process.wait(seconds)
        except subprocess.TimeoutExpired:
            self.process.kill()
            self.process.wait()
        self.reading.join()
        told = self.process.stderr.read()
        self.process.stdout.close()
        self.process.stderr.close()
        return self.process.returncode, self.lines, told


# ---- What is wanted


def record_wanted(member):
    """The line of a member, without its newline."""
    by = f" by {member['accuser']}" if member["accuser"] else ""
    words = [member["name"], member["status"], str(member["incarnation"]), f"{member['address']}:{member['port']}"]
    return f"record {' '.join(words)}{by}"


def change_wanted(change):
    """The line of a change: that a member has this record, or that it was forgotten."""
    altered = f"forgotten {change['name']}" if change["status"] == "forgotten" else record_wanted(change)
    return f"{change['moment_ms']} {altered}\n"


def members_wanted(port):
    """The lines of the members of the node at a port."""
    return "".join(record_wanted(it) + "\n" for it in asked_for(port, "/v1/members")["members"])


def health_wanted(health):
    """The lines of a health, but for its uptime."""
    spelled = {True: "true", False: "false"}
    return [f"{key} {spelled[it] if isinstance(it, bool) else it}" for key, it in health.items() if key != UPTIME]


# ---- Members and health


def fault_of_members(program, port):
    """What is wrong with what `members` writes: the members of the answer, asked again if they change meanwhile."""
    for _ in range(10):
        before = members_wanted(port)
        got = told_by(words_of(program, "members", port))
        if got == (0, before, ""):
            return None
        if members_wanted(port) == before:
            break
    return f"members: got {got}, wanted {before!r}"


def fault_of_health(program, port):
    """What is wrong with what `status` writes: the health of the answer."""
    for _ in range(10):
        before = asked_for(port, "/v1/health")
        status, output, told = told_by(words_of(program, "status", port))
        lines = output.splitlines()
        uptimes = [it for it in lines if it.startswith(f"{UPTIME} ")]
        rest = [it for it in lines if it not in uptimes]
        if (status, told, rest) == (0, "", health_wanted(before)) and len(uptimes) == 1:
            return None
    return f"status: got {(status, output, told)}, wanted {health_wanted(before)}"


def fault_of_json(program, port):
    """What is wrong with what the commands write with `--json`: the answer as it came."""
    for command, target in [("members", "/v1/members"), ("status", "/v1/health")]:
        status, output, told = told_by(words_of(program, command, port, "--json"))
        wanted = by_python(port, target).value()
        if (status, told, list(json.loads(output))) != (0, "", list(wanted)) or output.count("\n") != 1:
            return f"{command} --json: got {(status, output, told)}, wanted {wanted}"
    return None


def fault_of_telling(program, port):
    """What is wrong with any of them."""
    return fault_of_members(program, port) or fault_of_health(program, port) or fault_of_json(program, port)


def members_and_health_are_told(program):
    """`members` and `status` write what the nodes of a group answer: while all are alive, while c is suspected, and
    once it has failed."""
    with AskedGroup(program, NAMES, KEYS) as group:
        if wait_until(group.is_whole, PATIENCE) is None:
            return group.difference(dict.fromkeys(NAMES, "alive"))
        port = group.status["b"]
        if fault := fault_of_telling(program, port):
            return f"all alive: {fault}"
        group.nodes["c"].kill()
        for status in ("suspect", "failed"):
            if wait_until(lambda: f"record c {status} " in members_wanted(port), PATIENCE) is None:
                return f"c isn't {status}"
            if fault := fault_of_telling(program, port):
                return f"c {status}: {fault}"
    return None


# ---- Changes


def changes_are_watched(program):
    """`watch` writes the node itself at first, and then each change as it comes. With `--json` it writes the answers.
    It ends once its node has."""
    with Lone(program) as node:
        watchers = [Watcher(program, node.status), Watcher(program, node.status, "--json")]
        first = [change_wanted(it) for it in asked_for(node.status, "/v1/changes")["changes"]]
        if wait_until(lambda: watchers[0].lines == first and len(watchers[1].lines) == 1, 10) is None:
            return f"got {[it.lines for it in watchers]}, wanted {first}"
        for incarnation in (1, 2, 3):
            node.tell(incarnation)
            came = wait_until(lambda: all(len(it.lines) == 1 + incarnation for it in watchers), 10)
            wanted = [change_wanted(it) for it in asked_for(node.status, "/v1/changes")["changes"]]
            if came is None or watchers[0].lines != wanted:
                return f"got {watchers[0].lines}, wanted {wanted}"
        answers = [json.loads(it)["changes"] for it in watchers[1].lines]
        if [change_wanted(it) for part in answers for it in part] != wanted:
            return f"got {answers}, wanted {wanted}"
    ends = [it.end() for it in watchers]
    got = [(status, told) for status, _, told in ends]
    return None if got == 2 * [(7, "lg: no answer\n")] else f"once the node had ended, they ended with {ends}"


FORGET_MS = 1000
# What a change says of t000 once it is forgotten, beside its version and its moment.
FORGOTTEN = {"name": "t000", "status": "forgotten", "incarnation": None, "address": None, "port": None, "accuser": None}


def fault_of_forgetting(node):
    """What is wrong with what a node answers that hears that t000 is alive, and then that it has failed: a second later
    it says that it forgot it, knows it no longer, and counts that."""
    version = changes_after(node.status, 0)["version"]
    node.tell(0)
    node.fail(0)
    changes = wait_for_changes(node, version, 3)["changes"]
    said = [{key: it[key] for key in FORGOTTEN} for it in changes]
    if [it["status"] for it in said] != ["alive", "failed", "forgotten"] or said[2] != FORGOTTEN:
        return f"got {changes}"
    took = changes[2]["moment_ms"] - changes[1]["moment_ms"]
    if not FORGET_MS <= took < 2 * FORGET_MS:
        return f"it forgot it {took} ms after it had failed"
    got = members_wanted(node.status), by_python(node.status, "/v1/members/t000").code
    if got != (f"record b alive 0 {HOST}:{node.port}\n", 404):
        return f"once it had forgotten it, its members were {got}"
    is_counted = wait_until(lambda: samples(node)["lg_members_forgotten_total"] == 1, 5) is not None
    return None if is_counted else f"its metrics don't count it: {samples(node)}"


def forgotten_members_are_told(program):
    """A node that forgets members tells it in its changes and its metrics, in the lines of `watch`, and in its own if
    it is followed. A member that comes back is told as any other."""
    keys = f"{QUIET}forget_ms = {FORGET_MS}\n"
    with Lone(program, "--follow", "--until-input-ends", keys=keys, has_input=True) as node:
        watcher = Watcher(program, node.status)
        if fault := fault_of_forgetting(node):
            return fault
        node.tell(0)
        wanted = [change_wanted(it) for it in wait_for_changes(node, 0, 5)["changes"]]
        wait_until(lambda: len(watcher.lines) == 5, 10)
        node.node.close_input()
        _, output, _ = node.node.end()
    told, own = watcher.end(), output.splitlines(keepends=True)
    if told != (7, wanted, "lg: no answer\n"):
        return f"`watch` ended with {told}, wanted {wanted}"
    # Its first look may be late, and then has some changes in one. Behind the last one stands how long it stood still.
    return None if own[-3:-1] == wanted[-2:] else f"the node wrote {own}, wanted {wanted[-2:]}"


PARKED = 192
# Longer than twice the second after which a client is told to ask again.
TURNED_AWAY_SECONDS = 2.5


def is_full(port, version):
    """Whether as many requests wait as may: one that would wait for a millisecond is turned away."""
    return by_python(port, f"/v1/changes?after={version}&wait_ms=1").code == 503


def fault_of_waiting(node, watcher, held, version):
    """What is wrong with a `watch` while other requests hold all places to wait: it waits too, and takes the first
    place that is free."""
    if wait_until(lambda: watcher.lines, 10) is None:
        return "it wrote nothing at first"
    time.sleep(TURNED_AWAY_SECONDS)
    if watcher.process.poll() is not None or not is_full(node.status, version):
        return f"it ended, or the places aren't held: {watcher.process.poll()}"
    held.pop().close()
    time.sleep(TURNED_AWAY_SECONDS)
    if not is_full(node.status, version):
        return "it didn't take the free place"
    node.tell(1)
    return None if wait_until(lambda: len(watcher.lines) == 2, 10) is not None else "it missed the change"


def watch_waits_while_its_node_is_busy(program):
    """192 requests wait for a change when a `watch` asks, so it is told to come again. It does so until one of them is
    gone, and writes the next change."""
    with Lone(program) as node:
        version = asked_for(node.status, "/v1/changes")["version"]
        held = [Link(node.status, request(f"/v1/changes?after={version}&wait_ms=30000")) for _ in range(PARKED)]
        try:
            if wait_until(lambda: is_full(node.status, version), 10) is None:
                return f"{PARKED} requests wait, and another isn't turned away"
            watcher = Watcher(program, node.status)
            fault = fault_of_waiting(node, watcher, held, version)
        finally:
            for link in held:
                link.close()
    end = watcher.end()
    if fault or (end[0], len(end[1]), end[2]) != (7, 2, "lg: no answer\n"):
        return f"{fault or 'its end is another'}; it ended with {end}"
    return None


def watch_ends_with_its_reader(program):
    """A `watch` whose lines nobody takes any more ends at the next one."""
    with Lone(program) as node:
        watcher = subprocess.Popen(words_of(program, "watch", node.status), stdin=subprocess.DEVNULL,
                                   stdout=subprocess.PIPE, stderr=subprocess.PIPE, preexec_fn=end_with_parent)
        watcher.stdout.readline()
        watcher.stdout.close()
        node.tell(1)
        try:
            _, told = watcher.communicate(timeout=10)
        except subprocess.TimeoutExpired:
            watcher.kill()
            return "it didn't end"
        got = watcher.returncode, told
    return None if got == (1, NOBODY_READS.encode()) else f"got {got}"


# ---- No answer, and bad ones


def fault_of_silence(program, port):
    """What is wrong with what a command tells if nobody listens at a port."""
    for command in ("members", "status", "watch"):
        got = told_by(words_of(program, command, port))
        if got != (7, "", "lg: no answer\n"):
            return f"{command}: got {got}"
    return None


def answering(listener, answers):
    """Answers the next clients of a listener by some bytes each, once their requests have come. One may close before it
    has taken all of them."""
    for data in answers:
        with suppress(OSError), listener.accept()[0] as client:
            client.recv(4096)
            client.sendall(data)


def told_of(program, command, *answers):
    """What a command tells of some answers in turn, and how many seconds it takes. It may leave out the last ones."""
    with socket.create_server((HOST, 0)) as listener:
        server = threading.Thread(target=answering, args=(listener, answers), daemon=True)
        server.start()
        begun = time.monotonic()
        got = told_by(words_of(program, command, listener.getsockname()[1]))
        return got, time.monotonic() - begun


def answer_of(body, code="200 OK"):
    """The bytes of an answer with a body."""
    return f"HTTP/1.1 {code}\r\ncontent-length: {len(body)}\r\nconnection: close\r\n\r\n{body}".encode()


WELL = '"live":3,"known":3,"ousted":false,"uptime_ms":5120,"stood_still_ms":0}'
HEALTH = '{"name":"b","score":0,"incarnation":0,' + WELL
OUSTED = HEALTH.replace("false", "true")
BAD = [(answer_of("nothing"), "no JSON"), (answer_of("{}"), "without its members"), (b"220 mail\r\n\r\n", "no HTTP"),
       (answer_of('{"version":1,"moment_ms":1,"name":"b","members":[{}]}'), "an empty member"),
       (answer_of('{"error":"no such thing"}', "404 Not Found"), "404"), (answer_of("x" * 2_000_000), "too long")]


def answers_of_others_are_told(program):
    """An answer that isn't one of a node's is told as bad, and one that doesn't come as none. A node that was ousted
    is well told, with a status of its own."""
    if fault := fault_of_silence(program, free_status_ports(1)[0]):
        return f"nobody listens: {fault}"
    rows = [("members", data, (8, "", "lg: bad answer\n"), what) for data, what in BAD]
    rows += [("members", answer_of(HEALTH)[:-5], (7, "", "lg: no answer\n"), "cut off"),
             ("status", answer_of(OUSTED, "503 Service Unavailable"),
              (4, "".join(f"{key} {value}\n" for key, value in zip(
                  json.loads(OUSTED), ["b", 0, 0, 3, 3, "true", 5120, 0])), ""), "ousted")]
    for command, data, wanted, what in rows:
        got, _ = told_of(program, command, data)
        if got != wanted:
            return f"{what}: got {got}, wanted {wanted}"
    return None


def busy_answer(seconds):
    """The answer of a node that has no place for a request."""
    body = '{"error":"too many requests wait"}'
    return (f"HTTP/1.1 503 Service Unavailable\r\nretry-after: {seconds}\r\ncontent-type: application/json\r\n"
            f"content-length: {len(body)}\r\nconnection: close\r\n\r\n{body}").encode()


KNOWN = answer_of('{"version":1,"moment_ms":1,"name":"b","members":[]}')
WELL_TOLD, TOLD_BUSY = (0, "", ""), (10, "", "lg: busy\n")
# A command, what it is answered in turn, what it comes to, and how many seconds it waits at least.
BUSY = [("members", [busy_answer(1), KNOWN], WELL_TOLD, 1), ("members", [busy_answer(3), KNOWN], WELL_TOLD, 3),
        ("members", [busy_answer(600), KNOWN], WELL_TOLD, 5), ("members", [b"", KNOWN], WELL_TOLD, 1),
        ("members", [busy_answer(1), busy_answer(1), KNOWN], TOLD_BUSY, 1),
        ("members", [b"", b"", KNOWN], TOLD_BUSY, 1), ("members", [busy_answer(1), b"", KNOWN], TOLD_BUSY, 1),
        ("status", [b"", b"", answer_of(HEALTH)], TOLD_BUSY, 1)]
# By how many seconds a busy machine makes a command later.
BEHIND = 3


def busy_nodes_are_told(program):
    """A node is busy that says so by 503 and `Retry-After`, or closes the connection before a byte. `members` and
    `status` ask such a one once more, as many seconds later as it says, but five at most, and then tell that it is
    busy."""
    for command, answers, wanted, seconds in BUSY:
        got, took = told_of(program, command, *answers)
        if got != wanted or not seconds <= took < seconds + BEHIND:
            return f"{command}, {[it[:60] for it in answers]}: got {got} after {took:.1f} s, wanted {wanted}"
    return None


def full_outputs_are_told(program):
    """If the output takes nothing, that is told."""
    with Lone(program) as node:
        for command in ("members", "status", "watch"):
            with open("/dev/full", "w", encoding="utf-8") as output:
                got = told_by(words_of(program, command, node.status), stdout=output)
            if got != (1, None, NO_SPACE):
                return f"{command}: got {got}"
    return None
