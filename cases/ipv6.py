"""A check of a node whose status server listens at an IPv6 address, and of the commands that ask it there."""

from answers import difference
from checks import needed_ipv6
from packets import HOST
from running import LIFE_MS, Node, file_of, free_ports, free_status_ports, wait_for
from telling import health_wanted, told_by

KEYS = "wire = 3\ninterval_ms = 500\ntimeout_ms = 200\n"
HEALTH = {"name": "b", "score": 0, "incarnation": 0, "live": 1, "known": 1, "ousted": False}


def fault_of_asking(program, at, port):
    """What is wrong with what `members` and `status` write of a lone node b, if they ask it at a text."""
    members, (status, output, told) = [told_by([program, it, "--at", at]) for it in ("members", "status")]
    got = members, (status, output.splitlines()[:len(HEALTH)], told)
    wanted = (0, f"record b alive 0 {HOST}:{port}\n", ""), (0, health_wanted(HEALTH), "")
    return difference(at, got, wanted)


def commands_ask_over_ipv6(program):
    """A node whose status server listens at ::1 is asked there by `members` and `status`, in two spellings of that
    address, and ends in good order when `leave` tells it to. Nobody answers at the same port of 127.0.0.1."""
    needed_ipv6()
    [port], [status] = free_ports(1), free_status_ports(1)
    node = Node(program, file_of("b", port, keys=f'{KEYS}status = "[::1]:{status}"\n'), "--for-ms", str(LIFE_MS))
    try:
        wait_for("b", port)
        for host in ("[::1]", "[0:0:0:0:0:0:0:1]"):
            if fault := fault_of_asking(program, f"{host}:{status}", port):
                return fault
        elsewhere = told_by([program, "members", "--at", f"{HOST}:{status}"])
        told = told_by([program, "leave", "--at", f"[::1]:{status}"])
        end = node.end(10)
    finally:
        node.kill()
    wanted = (7, "", "lg: no answer\n"), (0, "", ""), (0, f"record b left 0 {HOST}:{port}\n", "")
    return difference("leave", (elsewhere, told, end), wanted)
