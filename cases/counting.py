"""Checks of what the metrics and the health of a node count, while strangers and the system do something to it."""

import glob
import signal
import time

from answers import difference
from asking import asked_for, by_python
from changes import QUIET, Lone
from exposition import metrics_in
from packets import HOST, PING, claim, name_bytes, packet, ping
from running import PATIENCE, asked, bound_socket, wait_for, wait_until

# A member that nobody can send to: the system lets nobody send to all hosts who hasn't asked it for that.
NOWHERE = ("a", 1, "255.255.255.255")
STOPPED_SECONDS = 2
# Why a datagram is dropped, in the order in which the metrics have it.
FAULTS = ["Short", "Magic", "Version", "Kind", "Name", "Count", "ClaimKind", "Incarnation", "Trailing", "Family",
          "Unsigned", "Forged", "OtherGroup"]
# A claim about c with an address of no family.
NO_FAMILY = b"\x01" + name_bytes("c") + b"\x05" + bytes(10)


def samples(node):
    return metrics_in(by_python(node.status, "/metrics").body).samples


def are_answered(node):
    """Whether each of the Pings that a node has received is answered, and its Ack is counted."""
    now = samples(node)
    return now["lg_datagrams_sent_total"] == now["lg_datagrams_received_total"]


def growth(node, before):
    """By how much the samples of a node have grown, apart from its two moments, of which both have to grow, and from the
    time for which it stood still, as it does now and then on a busy machine."""
    after = samples(node)
    grown = {key: after[key] - before[key] for key in after if after[key] != before[key]}
    grown.pop("lg_stood_still_seconds_total", None)
    moments = [grown.pop(key, None) for key in ("lg_last_event_seconds", "lg_uptime_seconds")]
    return grown if None not in moments else f"the moments grew by {moments}"


def metrics_count_what_happens(program):
    """A stranger pings a node ten times, sends five packets whose first byte is another, one with an address of no
    family and one of another group, which is an event, and says that it suspects the node: the metrics count this, and
    nothing else. To be suspected costs a point of health (Lifeguard). A datagram is counted once it is sent, so the
    stranger may ask for the metrics before its last Ack is counted."""
    wanted = {"lg_datagrams_received_total": 18, "lg_datagrams_sent_total": 11, "lg_events_total": 12,
              "lg_history_entries_total": 12, "lg_suspicions_refuted_total": 1, "lg_incarnation": 6,
              "lg_health_score": 1, 'lg_datagrams_dropped_total{fault="Magic"}': 5,
              'lg_datagrams_dropped_total{fault="Family"}': 1, 'lg_datagrams_dropped_total{fault="OtherGroup"}': 1}
    with Lone(program) as node:
        wait_until(lambda: are_answered(node), 5)
        before = samples(node)
        for _ in range(10):
            asked(ping(7, "b"), node.port)
        with bound_socket() as stranger:
            for _ in range(5):
                stranger.sendto(b"X" + ping(7, "b")[1:], (HOST, node.port))
            stranger.sendto(ping(7, "b", [NO_FAMILY], version=3), (HOST, node.port))
            stranger.sendto(packet(PING, bytes([0, 0, 0, 7]) + name_bytes("b"), version=3, group="g"), (HOST, node.port))
        asked(ping(7, "b", [claim(2, "b", node.port, 5, name_bytes("z"))]), node.port)
        wait_until(lambda: growth(node, before) == wanted, 5)
        return difference("grown", growth(node, before), wanted)


def metrics_name_all_faults(program):
    """The metrics have a row for each fault for which a datagram is dropped, in their order."""
    with Lone(program) as node:
        rows = [key for key in samples(node) if key.startswith("lg_datagrams_dropped_total")]
    return difference("rows", rows, [f'lg_datagrams_dropped_total{{fault="{it}"}}' for it in FAULTS])


def metrics_count_rotations(program):
    """The history of a node stores two entries. So of ten Pings of a stranger, each of which is an entry, every second
    finds it full, and it is cut off: five rotations. The entries that were cut off are counted on."""
    wanted = {"lg_datagrams_received_total": 10, "lg_datagrams_sent_total": 10, "lg_events_total": 10,
              "lg_history_entries_total": 10, "lg_history_rotations_total": 5}
    with Lone(program, keys=f"{QUIET}history_limit = 2\n") as node:
        wait_until(lambda: are_answered(node), 5)
        before = samples(node)
        for _ in range(10):
            asked(ping(7, "b"), node.port)
        wait_until(lambda: growth(node, before) == wanted, 5)
        return difference("grown", growth(node, before), wanted)


def metrics_count_what_isnt_sent(program):
    """A node probes a member to whom the system sends nothing. Each such packet is counted as unsent, and none of them
    as sent: these are the Acks that a stranger gets."""
    with Lone(program, keys="interval_ms = 200\ntimeout_ms = 100\n", seeds=[NOWHERE]) as node:
        if wait_until(lambda: samples(node)["lg_datagrams_unsent_total"] >= 3, PATIENCE) is None:
            return f"nothing is unsent: {samples(node)}"
        for _ in range(10):
            asked(ping(7, "b"), node.port)
        if wait_until(lambda: are_answered(node), 5) is None:
            return f"more was sent than the Acks: {samples(node)}"
        return None


def stop(process):
    """Stops a process, and waits until each of its threads stands still: on a busy machine that isn't at once."""
    process.send_signal(signal.SIGSTOP)

    def stands():
        states = []
        for path in glob.glob(f"/proc/{process.pid}/task/*/stat"):
            with open(path, encoding="utf-8") as it:
                states.append(it.read().rpartition(")")[2].split()[0])
        return set(states) == {"T"}

    if wait_until(stands, PATIENCE) is None:
        raise RuntimeError("the process doesn't stop")


def stop_is_told(program):
    """A node is stopped for two seconds. Its health and its metrics tell that it stood still for so long, but for the
    stall_ms of 100, and `lg_uptime_seconds` goes on by the machine's clock."""
    begun = time.monotonic()
    with Lone(program) as node:
        before = samples(node)["lg_uptime_seconds"]
        stop(node.node.process)
        time.sleep(STOPPED_SECONDS)
        node.node.process.send_signal(signal.SIGCONT)
        wait_for("b", node.port)
        told, counted = asked_for(node.status, "/v1/health"), samples(node)
        ran = time.monotonic() - begun
    got = told["stood_still_ms"] / 1000, counted["lg_stood_still_seconds_total"]
    least, most = STOPPED_SECONDS - 0.1, ran
    if not all(least <= it <= most for it in got):
        return f"stood still for {got} s by its health and its metrics, wanted {least} to {most:.2f}"
    if not before + STOPPED_SECONDS <= counted["lg_uptime_seconds"] <= most:
        return f"up for {before} s, and then for {counted['lg_uptime_seconds']}, {ran:.2f} s from its start"
    return None
