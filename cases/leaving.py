"""Checks of the request by which a node is told to leave, and of the command `leave` that makes it."""

import time

from answers import difference
from asking import Link, by_python, request
from changes import Lone
from group import AskedGroup
from packets import HOST
from running import free_status_ports, wait_until
from telling import told_by, words_of

LEAVE = "/v1/leave"
# An interval of 2 s: so long a node goes on behind its leave, and a check has time to ask once more.
LEAVING = "wire = 3\ninterval_ms = 2000\ntimeout_ms = 500\n"
NAMED = "lg-leave: b\r\n"
LEAVES = {"leaving": "b"}


def asked(port, fields="", method="POST", host=HOST, body=b""):
    """The answer to a request at the path on a connection of its own, with further lines of fields."""
    data = request(LEAVE, method, fields, body).replace(HOST.encode(), host.encode(), 1)
    with Link(port, data) as link:
        return link.head() if method == "HEAD" else link.answer()


def fault_of_refusal(answer, code, what):
    """What is wrong with an answer that turns a request away with this code, and says why."""
    if answer is None or answer.code != code or list(answer.value()) != ["error"]:
        return f"{what}: got {answer}, wanted {code}"
    allow = "POST" if code == 405 else None
    return difference(what, answer.fields.get("allow"), allow)


def refusals(port):
    """What is wrong with the first of some requests that are to be turned away."""
    for fields, code in [("", 400), ("lg-leave: c\r\n", 400), ("lg-leave: B\r\n", 400), ("lg-leave:\r\n", 400),
                         ("lg-leave: b c\r\n", 400), ("lg-leave: c\r\nlg-leave: b\r\n", 400)]:
        if fault := fault_of_refusal(asked(port, fields), code, repr(fields)):
            return fault
    for method in ("GET", "PUT", "DELETE", "OPTIONS", "post"):
        answer = asked(port, NAMED, method)
        if any(it.startswith("access-control") for it in answer.fields):
            return f"{method} lets other pages ask: {answer.fields}"
        if fault := fault_of_refusal(answer, 405, method):
            return fault
    answer = asked(port, NAMED, "HEAD")
    if (answer.code, answer.fields.get("allow")) != (405, "POST"):
        return f"HEAD got {answer}"
    return fault_of_refusal(asked(port, NAMED, host="evil.example"), 421, "a foreign host")


def node_leaves_when_asked(program):
    """A node that is asked to leave says so, again if it is asked again, answers on for one interval and ends with
    status 0. What is turned away before that ends nothing."""
    with Lone(program, keys=LEAVING) as node:
        if fault := refusals(node.status):
            return fault
        if not node.node.is_running():
            return f"it has ended: {node.node.end()}"
        begun = time.monotonic()
        first, second = asked(node.status, NAMED + "content-length: 3\r\n", body=b"abc"), asked(node.status, NAMED)
        status, _, told = node.node.end()
        took = time.monotonic() - begun
    got = [(it.code, it.value()) for it in (first, second)], status, told, 1.5 < took < 10
    return difference(f"{took:.1f} s", got, ([(200, LEAVES)] * 2, 0, "", True))


def leave_can_be_off(program):
    """A node whose file has `leave = "off"` is never told to leave, also with its name."""
    with Lone(program, keys=LEAVING + 'leave = "off"\n') as node:
        for fields in ("", NAMED):
            if fault := fault_of_refusal(asked(node.status, fields), 403, repr(fields)):
                return fault
        return None if node.node.is_running() else f"it has ended: {node.node.end()}"


# ---- The command


NAMES = ["a", "b", "c"]
SHORT = "wire = 3\ninterval_ms = 500\ntimeout_ms = 200\n"


def command_ends_a_node(program):
    """`lg leave` ends a node in good order, and ends itself once the node has ended: with status 0, and with no word.
    By then the node has written that it left, and the others know it. So it does if it is given the name."""
    for more in ([], ["--name", "c"]):
        with AskedGroup(program, NAMES, SHORT) as group:
            if wait_until(group.is_whole, 30) is None:
                return group.difference(dict.fromkeys(NAMES, "alive"))
            told = told_by(words_of(program, "leave", group.status["c"], *more))
            ended = wait_until(lambda: not group.nodes["c"].is_running(), 1) is not None
            status, output, errors = group.nodes["c"].end()
            left = [line.split()[1:3] for line in output.splitlines()][-1:]
            known = group.knows({"a": "alive", "b": "alive", "c": "left"}, "ab")
        wanted = (0, "", ""), True, 0, [["c", "left"]], "", True
        if fault := difference(f"with {more}", (told, ended, status, left, errors, known), wanted):
            return fault
    return None


def command_ends_a_node_that_cannot_tell_it(program):
    """A node whose packets have version 1 can tell nobody that it leaves. `lg leave` ends it all the same: the answer
    comes before the node ends, and the node writes its table."""
    with Lone(program, keys="interval_ms = 500\ntimeout_ms = 200\n") as node:
        told = told_by(words_of(program, "leave", node.status))
        status, output, errors = node.node.end()
    wanted = (0, "", ""), 0, f"record b alive 0 127.0.0.1:{node.port}\n", ""
    return difference("leave", (told, status, output, errors), wanted)


def command_is_turned_away(program):
    """`lg leave` tells that it wasn't obeyed: of a node whose file has `leave = "off"`, and of one that has another
    name than it says. The node goes on. Nor is it obeyed where no node runs."""
    with Lone(program, keys=SHORT + 'leave = "off"\n') as node:
        off = told_by(words_of(program, "leave", node.status))
        goes_on = by_python(node.status, "/v1/health").code, node.node.is_running()
    with Lone(program, keys=SHORT) as node:
        named = told_by(words_of(program, "leave", node.status, "--name", "z"))
        nameless = told_by(words_of(program, "leave", node.status, "--name", "a/b"))
        still = by_python(node.status, "/v1/health").code, node.node.is_running()
    nobody = told_by(words_of(program, "leave", free_status_ports(1)[0]))
    bad, alive = (8, "", "lg: bad answer\n"), (200, True)
    wanted = bad, alive, bad, (3, "", "lg: bad names\n"), alive, (7, "", "lg: no answer\n")
    return difference("leave", (off, goes_on, named, nameless, still, nobody), wanted)
