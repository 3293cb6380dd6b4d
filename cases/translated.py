"""Checks of nodes on hosts of their own, which are network namespaces of the check: joined by a bridge, or behind a
router that translates addresses, so that a node isn't at the place that it tells.

Each host has an own loopback device, so each node has its status server at the same port.
"""

import http.client
import json
import os
import socket
from contextlib import ExitStack, contextmanager
from dataclasses import dataclass

from asking import asked_for, by_python
from checks import NOTES, needed
from exposition import metrics_in
from packets import HOST
from running import LIFE_MS, PATIENCE, Node, wait_until
from sockets import bound
from spaces import Space

NAMES = "abc"
ROUTER = "router"
# The addresses at the router's bridge, and in the network that is behind the router.
OUTER = {ROUTER: "192.0.2.1", "a": "192.0.2.2", "b": "192.0.2.3", "c": "192.0.2.4"}
INNER = {ROUTER: "10.9.0.1", "a": "10.9.0.2"}
# The names of the bridge, and of the one link of each host.
BRIDGE, LINK = "outer", "eth0"
PORT, STATUS = 7946, 8946
# Rounds and suspicions are short, so that a death is soon known. A round is long beside what a busy machine makes an
# Ack wait for.
KEYS = "interval_ms = 400\ntimeout_ms = 200\nalpha = 2\n"
# How many probes each node begins while nothing happens.
PROBES = 10


# ---- Hosts


@contextmanager
def hosts(inner=()):
    """The namespaces of the router and of each host, by their names. The `inner` hosts are in the network behind the
    router, the others at its bridge, and these have no route to that network."""
    with ExitStack() as stack:
        spaces = {name: stack.enter_context(Space()) for name in [ROUTER, *NAMES]}
        router = spaces[ROUTER]
        router.ip("link", "add", "name", BRIDGE, "type", "bridge")
        router.give(BRIDGE, OUTER[ROUTER])
        for name in NAMES:
            router.join(name, spaces[name], LINK)
            if name in inner:
                router.give(name, INNER[ROUTER])
                spaces[name].give(LINK, INNER[name])
                spaces[name].ip("route", "add", "default", "via", INNER[ROUTER])
            else:
                router.ip("link", "set", "dev", name, "master", BRIDGE, "up")
                spaces[name].give(LINK, OUTER[name])
        router.forward()
        yield spaces


# The rules of nft and of iptables: what comes for a port of the router goes to the host a behind it, and what that one
# sends seems to come from the router.
TABLE = """table ip lg {{
  chain coming {{
    type nat hook prerouting priority -100;
    ip daddr {outer} udp dport {port} dnat to {inner}:{own};
  }}
  chain going {{
    type nat hook postrouting priority 100;
    ip saddr {inner} oifname "{bridge}" masquerade;
  }}
}}
"""
LINES = ["-A PREROUTING -d {outer} -p udp --dport {port} -j DNAT --to-destination {inner}:{own}",
         "-A POSTROUTING -s {inner} -o {bridge} -j MASQUERADE"]


def translate(router, port):
    """Lets a router translate between a port of its own and the node behind it, by nft or by iptables. A machine that
    has neither skips the check."""
    tool = needed("nft", "iptables")
    place = {"outer": OUTER[ROUTER], "port": port, "inner": INNER["a"], "own": PORT, "bridge": BRIDGE}
    if os.path.basename(tool) == "nft":
        router.run([tool, "-f", "-"], TABLE.format(**place))
        return
    for line in LINES:
        router.run([tool, "-w", "-t", "nat", *line.format(**place).split()])


# ---- Their nodes


@dataclass(frozen=True)
class Place:
    """What the file of a node says: the place that it tells, and further keys. Its seeds are the told places of all,
    unless it has `seeds` of its own. `written` is what it says of the address, if it isn't the address itself."""

    address: str
    port: int = PORT
    keys: str = ""
    seeds: tuple[str, ...] | None = None
    written: str | None = None


class Members:
    """The nodes of some hosts, by the names of these."""

    def __init__(self, program, spaces, places):
        self.program, self.spaces, self.places, self.nodes = program, dict(spaces), dict(places), {}
        for name in places:
            self.start(name)

    def start(self, name, life_ms=LIFE_MS):
        """Starts the node of a name on its host."""
        it, space = self.places[name], self.spaces[name]
        seeds = [f"{other.address}:{other.port}" for other in self.places.values()] if it.seeds is None else it.seeds
        text = (f'name = "{name}"\naddress = "{it.written or it.address}"\nport = {it.port}\n'
                f'seeds = {json.dumps(seeds)}\nstatus = "{HOST}:{STATUS}"\n{KEYS}{it.keys}')
        with space.entered():
            self.nodes[name] = Node(self.program, text, "--for-ms", str(life_ms), begin=space.begin)

    def wanted(self, gone=()):
        """The status and the told place of each member, of whom some are gone."""
        return {name: ("failed" if name in gone else "alive", it.address, it.port) for name, it in self.places.items()}

    def known(self, name):
        """What the node of a name knows, in the same form. Nothing if it doesn't answer."""
        try:
            with self.spaces[name].entered():
                members = asked_for(STATUS, "/v1/members")["members"]
        except (OSError, http.client.HTTPException):
            return None
        return {it["name"]: (it["status"], it["address"], it["port"]) for it in members}

    def fault_unless_known(self, gone="", seconds=PATIENCE):
        """Waits until all that aren't gone know the same. Gives what they know if they don't, and notes how long that
        took. Once one has ended, the others aren't waited for."""
        names = [name for name in self.nodes if name not in gone]

        def have_ended():
            return [name for name in names if not self.nodes[name].is_running()]

        took = wait_until(lambda: have_ended() or all(self.known(name) == self.wanted(gone) for name in names), seconds)
        if took is None or have_ended():
            known = {name: self.known(name) for name in names}
            ended = {name: self.nodes[name].end() for name in have_ended()}
            return f"once {gone or 'nobody'} had gone they knew {known}; these had ended: {ended}"
        NOTES.append(f"{gone or 'nobody'} gone: known after {took:.1f} s")
        return None

    def probes(self, name):
        """How many probes the node of a name has begun."""
        with self.spaces[name].entered():
            return metrics_in(by_python(STATUS, "/metrics").body).samples["lg_probes_begun_total"]

    def changes(self, name):
        """All changes that the node of a name has seen since its start: members with their statuses."""
        with self.spaces[name].entered():
            return [(it["name"], it["status"]) for it in asked_for(STATUS, "/v1/changes?after=0")["changes"]]

    def __enter__(self):
        return self

    def __exit__(self, *_):
        for node in self.nodes.values():
            node.kill()


# ---- What has to hold of them


def fault_while_nothing_happens(members):
    """What is wrong while each node begins some probes: nobody has suspected anybody so far."""
    before = {name: members.probes(name) for name in NAMES}
    took = wait_until(lambda: all(members.probes(name) >= before[name] + PROBES for name in NAMES), PATIENCE)
    for name in NAMES:
        changes = members.changes(name)
        if {it for it, _ in changes} != set(NAMES) or {status for _, status in changes} != {"alive"}:
            return f"while nothing happened {name} saw the changes {changes}"
    return None if took is not None else f"they began fewer than {PROBES} probes each in {PATIENCE} s"


def fault_of_sockets(members, sockets):
    """What is wrong with where the nodes have their sockets, as the system tells it."""
    for name, place in sockets.items():
        with members.spaces[name].entered():
            got = bound(members.nodes[name].process.pid)
        if got != [place]:
            return f"{name} has its sockets at {got}, wanted {place}"
    return None


def fault_of_deaths(members):
    """What is wrong with what the others know once c is killed, and then a."""
    gone = ""
    for name in "ca":
        members.nodes[name].kill()
        gone += name
        if fault := members.fault_unless_known(gone):
            return fault
    return None


def fault_of_members(program, spaces, places, sockets):
    """What is wrong with members that find each other, have their sockets at these places, do nothing for a while, and
    then die."""
    with Members(program, spaces, places) as members:
        return (members.fault_unless_known() or fault_of_sockets(members, sockets)
                or fault_while_nothing_happens(members) or fault_of_deaths(members))


def has_route(space, address):
    """Whether a datagram can be sent from a host to an address."""
    with space.entered(), socket.socket(socket.AF_INET, socket.SOCK_DGRAM) as it:
        try:
            it.connect((address, PORT))
        except OSError:
            return False
        return True


def fault_behind_a_router(program, port, bind, keys=""):
    """What is wrong with a group whose node a is behind a router, is bound there, and tells a port of the router. The
    others can't reach it but by that."""
    places = {name: Place(OUTER[name], keys=keys) for name in NAMES}
    places["a"] = Place(OUTER[ROUTER], port, f'bind = "{bind}"\n{keys}')
    sockets = {"a": (INNER["a"], PORT), "b": (OUTER["b"], PORT), "c": (OUTER["c"], PORT)}
    with hosts(inner="a") as spaces:
        translate(spaces[ROUTER], port)
        if any(has_route(spaces[name], INNER["a"]) for name in "bc"):
            return "the others have a route to the network behind the router"
        return fault_of_members(program, spaces, places, sockets)


# ---- The checks


def nodes_on_hosts_of_their_own(program):
    """Three hosts are joined by a bridge, and each node is bound at all addresses of its host, at the default port. All
    know each other at the told addresses, and nobody is suspected while nothing happens. Who is killed has failed at
    all others."""
    places = {name: Place(OUTER[name], keys='bind = "0.0.0.0"\n') for name in NAMES}
    with hosts() as spaces:
        return fault_of_members(program, spaces, places, dict.fromkeys(NAMES, ("0.0.0.0", PORT)))


def node_behind_an_address_of_a_router(program):
    """The same holds if a is behind a router that passes on what comes for its own address, and keeps the port: a is
    bound at an address that nobody else can reach, and tells that of the router."""
    return fault_behind_a_router(program, PORT, INNER["a"])


def node_behind_a_port_of_a_router(program):
    """So it does if the router passes on what comes for another port, as for a container: a tells that one. From which
    port of the router what a sends seems to come, the router chooses."""
    return fault_behind_a_router(program, PORT + 10_000, f"{INNER['a']}:{PORT}", "wire = 3\n")
