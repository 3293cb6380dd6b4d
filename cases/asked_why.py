"""What a node that records tells over HTTP of a member: the same as `lg explain` tells of its folder."""

import shutil
import tempfile
import time

from asking import by_python, wait_for_answers
from explained import explanation
from fuzzing.explain import Asked
from recorded import Recorded, first_difference, first_fault, have_heard
from running import free_ports, free_status_ports, wait_until

# What has happened in so many last milliseconds may not be told.
MISSING_MS = 1000
# How soon a killed member is failed, at the rounds of these nodes, in seconds.
SECONDS = 30
FRONT = b'{"missing_ms":%d,"explained":' % MISSING_MS
NOT_RECORDED = b'{"error":"this node doesn\'t record"}'
NOT_READ = b'{"error":"the recording can\'t be read"}'


def told(port, name):
    """The status and the body of what a node tells of a member."""
    answer = by_python(port, f"/v1/explain/{name}")
    return answer.code, answer.body


def wanted(program, folder, name):
    """The body that a node is to answer, by what its folder has."""
    text, _ = explanation(program, folder, Asked(name.encode(), is_json=True))
    return FRONT + text.removesuffix(b"\n") + b"}"


def differs(program, node, port, name):
    """What a node tells otherwise of a member than its folder does, which may grow meanwhile."""
    for _ in range(20):
        before = wanted(program, node.folder, name)
        status, body = told(port, name)
        if status == 200 and body == before:
            return None
        time.sleep(0.1)
    return f"status {status}, {first_difference(body, before)}"


def is_explained(port, name):
    """Whether a node tells that a member failed."""
    return told(port, name)[1].startswith(FRONT + b'{"member":"c","accounts":[{"status":"failed"')


def fault_of_answer(port, name, want):
    got = told(port, name)
    return None if got == want else f"{name}: {got}, wanted {want}"


def explained_over_http(program):
    """Of three nodes one is killed. Another that records tells why it took it as failed, as `lg explain` does, and that
    nothing happened to the third. Without its folder it tells that it can't be read, and a node that doesn't record
    tells that."""
    with tempfile.TemporaryDirectory(prefix="lg-recording-") as room:
        places = list(zip("abc", free_ports(3)))
        statuses = dict(zip("ab", free_status_ports(2)))
        nodes = {}
        for name, port in places:
            lines = f'status = "127.0.0.1:{statuses[name]}"\n' if name in statuses else ""
            folder = tempfile.mkdtemp(dir=room)
            nodes[name] = Recorded(program, name, port, [it for it in places if it[0] != name], folder, lines,
                                   is_recorded=name != "b")
        a, b, c = nodes.values()
        for port in statuses.values():
            wait_for_answers(port)
        have_heard([a], [b, c])
        c.node.kill()
        fault = first_fault(
            lambda: None if wait_until(lambda: is_explained(statuses["a"], "c"), SECONDS) is not None
            else f"a tells {told(statuses['a'], 'c')}",
            lambda: differs(program, a, statuses["a"], "c"),
            lambda: differs(program, a, statuses["a"], "b"),
            lambda: fault_of_answer(statuses["b"], "c", (404, NOT_RECORDED)),
            lambda: fault_of_answer(statuses["a"], "c?all", (400, b'{"error":"this path takes no query"}')),
            lambda: shutil.rmtree(a.folder),
            lambda: fault_of_answer(statuses["a"], "c", (503, NOT_READ)),
        )
        for node in (a, b):
            node.leave()
        return fault
