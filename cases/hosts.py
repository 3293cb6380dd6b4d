"""Checks of which names of a host a status server answers to."""

from asking import Link
from changes import QUIET, Lone
from packets import HOST
from running import LIFE_MS, Node, file_of, free_ports, free_status_ports, wait_for

# What a browser on this machine sends for a page of its own, and what others send who know the address.
OWN = [HOST, f"{HOST}:80", "10.1.2.3", "localhost", "LocalHost:65535", "[::1]", "[::1]:8946"]
FOREIGN = ["evil.example", "evil.example:8946", "localhost.evil.example", "127.0.0.1.evil.example", "notlocalhost",
           "256.0.0.1", "127.0.0.1x", "a"]
ASKED = [("GET", "/v1/members"), ("HEAD", "/v1/health"), ("GET", "/nothing"), ("POST", "/v1/members")]
MISDIRECTED = {"error": "misdirected request"}


def answer_for(port, host, method, target):
    """What a server answers to a request that names this host."""
    data = f"{method} {target} HTTP/1.1\r\nhost: {host}\r\ncontent-length: 0\r\n\r\n".encode()
    with Link(port, data) as link:
        return link.head() if method == "HEAD" else link.answer()


def fault_of_a_host(port, host, is_taken):
    """What is wrong with the answers to requests that name a host: those to a foreign one are all 421, and say why."""
    for method, target in ASKED:
        answer = answer_for(port, host, method, target)
        if answer is None or (answer.code != 421) != is_taken:
            return f"{method} {target} for {host!r} got {answer}"
        if any(it.startswith("access-control") for it in answer.fields):
            return f"{method} {target} for {host!r} lets other pages read it: {answer.fields}"
        if not is_taken and method != "HEAD" and answer.value() != MISDIRECTED:
            return f"{method} {target} for {host!r} got {answer.body}"
    return None


def fault_of_hosts(port, taken, refused):
    """What is wrong with the answers for hosts of which some are taken."""
    faults = [fault_of_a_host(port, host, True) for host in taken]
    faults += [fault_of_a_host(port, host, False) for host in refused]
    return next(filter(None, faults), None)


def foreign_hosts_are_turned_away(program):
    """A server on a loopback address answers 421 to a request for a host that is neither an address nor `localhost`,
    whatever is asked. So a page of another host can't read its answers, although the name leads to this machine."""
    with Lone(program) as node:
        if fault := fault_of_hosts(node.status, OWN, FOREIGN):
            return fault
    with Lone(program, keys=f"{QUIET}status_open = true\n") as node:
        fault = fault_of_hosts(node.status, OWN, FOREIGN)
        return fault and f"with status_open: {fault}"


def any_host_is_taken_where_all_may_ask(program):
    """A server that isn't on a loopback address answers whatever the host is called: scrapers use names."""
    [port], [status] = free_ports(1), free_status_ports(1)
    text = file_of("b", port, keys=f'{QUIET}status = "0.0.0.0:{status}"\nstatus_open = true\n')
    node = Node(program, text, "--for-ms", str(LIFE_MS))
    try:
        wait_for("b", port)
        return fault_of_hosts(status, OWN + FOREIGN, [])
    finally:
        node.kill()
