"""Checks of nodes whose seeds are hosts, by their names: on hosts of their own that ask a server of names of the check,
and by `localhost` on this machine.

The hosts are those of `translated.py`, and the server of names is at the router.
"""

import socket
import subprocess
import time
from contextlib import contextmanager

from answers import difference
from asking import by_python, wait_for_answers
from checks import Skipped
from exposition import metrics_in
from group import Group
from host import moment
from names import LATE, SOON, Names, looked_up, resolving
from packets import HOST, LONGEST, PULL, ping
from running import Node, asked, file_of, free_ports, wait_until
from telling import told_by, words_of
from translated import INNER, NAMES, OUTER, PORT, ROUTER, STATUS, Members, Place, fault_of_sockets, hosts

SERVER = OUTER[ROUTER]
# The names of the server of names, of the whole group, of b, of the router's other side, and of nothing.
SERVER_NAME, GROUP, OF_B, INSIDE, MISSING = (f"{it}.example" for it in ("names", "group", "b", "inside", "missing"))
# An address that nobody has, and that no socket of IPv4 reaches.
OF_IPV6 = "2001:db8::53"
# A name is resolved anew as often as it can be.
OFTEN = "resolve_ms = 1000\n"
# How long a check waits for what is to come within some three seconds.
SECONDS = 12
# How often a name is to be resolved while nothing else happens, and how often a silent seed is to be asked.
ROUNDS, QUESTIONS = 2, 3
# How many Pings a node has to answer, and within how many seconds it has to end once it was told to.
PINGS, ENDS_IN = 20, 5
# How long a node lives that is to end by its time.
SHORT_LIFE_MS = 2000


# ---- Hosts, and what comes to them


@contextmanager
def named_hosts(records, options=SOON):
    """The hosts, and the server of names that their programs ask, which has these records. Python finds a name by it on
    each host, so what a node then doesn't find isn't due to the hosts."""
    with hosts() as spaces, Names(spaces[ROUTER], SERVER, {SERVER_NAME: [SERVER], **records}) as names:
        with resolving([spaces[name] for name in NAMES], SERVER, options):
            for name in NAMES:
                if (got := looked_up(spaces[name], SERVER_NAME)) != [SERVER]:
                    raise RuntimeError(f"Python's getaddrinfo finds {got} for {SERVER_NAME} on the host {name}")
            yield spaces, names


class Incoming:
    """The datagrams that come to a node's port on each host, whether a node is there or not. Those that a host sends to
    itself are among them."""

    def __init__(self, spaces):
        self.sockets, self.seen = {}, {name: [] for name in NAMES}
        for name in NAMES:
            try:
                with spaces[name].entered():
                    self.sockets[name] = socket.socket(socket.AF_INET, socket.SOCK_RAW, socket.IPPROTO_UDP)
            except PermissionError as error:
                raise Skipped(f"no datagrams can be seen but one's own: {error.strerror}") from error
            self.sockets[name].setblocking(False)

    def at(self, name):
        """The address from which each came to a host until now, and its kind."""
        while True:
            try:
                data = self.sockets[name].recv(LONGEST)
            except BlockingIOError:
                return self.seen[name]
            # The header of IP tells its own length in words of four bytes. That of UDP behind it has eight bytes.
            start = 4 * (data[0] & 15)
            if int.from_bytes(data[start + 2:start + 4], "big") == PORT:
                self.seen[name].append((socket.inet_ntoa(data[12:16]), data[start + 8:][3]))

    def asking(self, name):
        """From which addresses a host was asked for its table."""
        return {address for address, kind in self.at(name) if kind == PULL}

    def __enter__(self):
        return self

    def __exit__(self, *_):
        for it in self.sockets.values():
            it.close()


# ---- What nodes tell and ask


LOST, FOUND = "doesn't resolve", "resolves"


def lines_of(host, *words):
    """What a node tells of a host that resolves, or doesn't."""
    return [f"lg: the host {host} of the seeds {it}" for it in words]


def places_of(names, *seeds, keys=OFTEN):
    """The places of nodes that have these seeds and keys, each at the address of its host."""
    return {name: Place(OUTER[name], keys=keys, seeds=seeds) for name in names}


def with_what_was_seen(fault, members, names):
    """A fault, with what the nodes told and the server of names was asked until then. None if there is no fault."""
    told = {name: node.told_so_far() for name, node in members.nodes.items()}
    return fault and f"{fault}; the nodes told {told}; the server of names was asked for {names.counts(SERVER_NAME)}"


def fault_of_lines(nodes, lines):
    """Waits until each of some nodes has told these lines, in any order, and no others. Gives what they told if they
    don't."""
    def told():
        return {name: sorted(node.told_so_far().splitlines()) for name, node in nodes.items()}

    wanted = dict.fromkeys(nodes, sorted(lines))
    wait_until(lambda: told() == wanted, SECONDS)
    return difference("what the nodes told, in order", told(), wanted)


def fault_of_rounds(members, names, host):
    """Waits until each node has resolved a host some times more than until now. Says so if one doesn't."""
    def rounds():
        return {name: names.times_asked(host, it.address) for name, it in members.places.items()}

    before = rounds()
    if wait_until(lambda: all(count >= before[name] + ROUNDS for name, count in rounds().items()), SECONDS) is None:
        return f"each had asked for {host} so often: {before}, and after {SECONDS} s: {rounds()}"
    return None


# ---- One name of a group


def fault_of_asking(members, incoming):
    """What is wrong with who asked whom: each node has asked both others and not itself, and the system has sent all
    that it sent."""
    own = {name: it.address for name, it in members.places.items()}
    wanted = {name: set(own.values()) - {own[name]} for name in own}
    wait_until(lambda: all(incoming.asking(name) >= wanted[name] for name in own), SECONDS)
    for name in own:
        if fault := difference(f"who asked {name}", incoming.asking(name), wanted[name]):
            return fault
        if from_itself := [it for it in incoming.at(name) if it[0] in (own[name], HOST)]:
            return f"{name} sent to itself, by its address and the kind: {from_itself}"
        with members.spaces[name].entered():
            unsent = metrics_in(by_python(STATUS, "/metrics").body).samples["lg_datagrams_unsent_total"]
        if unsent:
            return f"{unsent:.0f} datagrams of {name} weren't sent"
    return None


def one_name_of_a_group(program):
    """Three nodes have one seed, a name with the addresses of all three, and one of IPv6, which their sockets don't
    reach. All know all. Each has asked both others for their tables, and nobody has asked itself, also once the name
    was resolved some times more."""
    with named_hosts({GROUP: [OF_IPV6, *(OUTER[name] for name in NAMES)]}) as (spaces, names), \
            Incoming(spaces) as incoming, Members(program, spaces, places_of(NAMES, GROUP)) as members:
        fault = (members.fault_unless_known(seconds=SECONDS) or fault_of_rounds(members, names, GROUP)
                 or fault_of_asking(members, incoming) or fault_of_lines(members.nodes, []))
        return with_what_was_seen(fault, members, names)


# ---- This machine's own name


class LocalGroup(Group):
    """Nodes of this machine that all have one seed, `localhost` at the port of a. In the file of c it has the name of
    a, in the others none."""

    def started(self, name):
        place = f"localhost:{self.own['a']}"
        seed = f"a@{place}" if name == "c" else place
        text = f'name = "{name}"\nport = {self.own[name]}\nseeds = ["{seed}"]\n{self.keys}'
        return Node(self.program, text, *self.options)


def localhost_is_a_seed(program):
    """Three nodes of this machine meet whose seed is `localhost` at the port of one of them, with its name or without
    it. On a machine where `localhost` isn't 127.0.0.1 this is skipped."""
    try:
        found = {it[4][0] for it in socket.getaddrinfo("localhost", None, socket.AF_INET)}
    except socket.gaierror as error:
        raise Skipped(f"this machine doesn't resolve localhost: {error}") from error
    if HOST not in found:
        raise Skipped(f"localhost is at {found} on this machine")
    ports = dict(zip(NAMES, free_ports(len(NAMES))))
    with LocalGroup(program, ports, ports, "interval_ms = 200\ntimeout_ms = 100\n") as group:
        def has_ended():
            return any(not node.is_running() for node in group.nodes.values())

        if wait_until(lambda: has_ended() or group.is_whole(), SECONDS) is None or has_ended():
            return group.difference(dict.fromkeys(NAMES, "alive"))
        return fault_of_lines(group.nodes, [])


# ---- Names that resolve later, and to other addresses


def fault_of_too_many_rounds(members, names, host, seconds):
    """What is wrong if a node has resolved a host much more often in some seconds than once at its start, and once in
    each second. Half as much again is taken as questions of a resolver that got its answer late."""
    rounds = {name: names.times_asked(host, it.address) for name, it in members.places.items()}
    if max(rounds.values()) > 1.5 * seconds + 2:
        return f"in {seconds:.1f} s each has asked for {host} so often: {rounds}"
    return None


def name_that_resolves_later(program):
    """The seed of two nodes is a name that doesn't exist. Each tells so once, however often it tries. Then the name
    gets the addresses of both. Each tells once that it resolves, and they meet. Neither tries more often than it is
    to."""
    begun = time.monotonic()
    with named_hosts({}) as (spaces, names), Members(program, spaces, places_of("ab", GROUP)) as members:
        fault = fault_of_rounds(members, names, GROUP) or fault_of_lines(members.nodes, lines_of(GROUP, LOST))
        names.records[GROUP] = [OUTER["a"], OUTER["b"]]
        fault = (fault or members.fault_unless_known(seconds=SECONDS) or fault_of_rounds(members, names, GROUP)
                 or fault_of_lines(members.nodes, lines_of(GROUP, LOST, FOUND))
                 or fault_of_too_many_rounds(members, names, GROUP, time.monotonic() - begun))
        return with_what_was_seen(fault, members, names)


def fault_of_a_move(members, names):
    """What is wrong if b is killed, and begins anew on the host c, and then its name at the server follows. There it
    knows nobody, so nothing but a question of a can bring the two together."""
    members.nodes["b"].kill()
    if fault := members.fault_unless_known("b", SECONDS):
        return fault
    members.spaces["b"], members.places["b"] = members.spaces["c"], Place(OUTER["c"], keys="wire = 3\n", seeds=())
    members.start("b")
    with members.spaces["b"].entered():
        wait_for_answers(STATUS)
    if fault := difference("known to b on its new host", set(members.known("b")), {"b"}):
        return fault
    names.records[OF_B] = [OUTER["c"]]
    return members.fault_unless_known(seconds=SECONDS)


def name_whose_address_changes(program):
    """The seed of a is the name of b, and b has none. b is killed: a takes it as failed, and is alone. Then b begins
    anew on another host, and the name gets the address of that one. a finds it there, and both know so."""
    places = places_of("a", f"{OF_B}:{PORT}", keys=f"wire = 3\n{OFTEN}") | places_of("b", keys="wire = 3\n")
    with named_hosts({OF_B: [OUTER["b"]]}) as (spaces, names), Members(program, spaces, places) as members:
        fault = (members.fault_unless_known(seconds=SECONDS) or fault_of_a_move(members, names)
                 or fault_of_lines(members.nodes, []))
        return with_what_was_seen(fault, members, names)


# ---- A resolver that hangs


def fault_of_work(members, names):
    """What is wrong with what a answers while both nodes wait for the resolver."""
    def waiting():
        return [name for name, it in members.places.items() if names.times_asked(GROUP, it.address)]

    wait_until(lambda: waiting() == ["a", "b"], SECONDS)
    if fault := difference(f"who has asked for {GROUP}", waiting(), ["a", "b"]):
        return fault
    with members.spaces["a"].entered():
        acks = [asked(ping(1 + number, "a"), PORT) for number in range(PINGS)]
        code = by_python(STATUS, "/v1/health").code
    return difference("how many Acks came, and the code of a health check", (sum(map(bool, acks)), code), (PINGS, 200))


def fault_of_an_end(node, begun, milliseconds):
    """What is wrong with how a node ends that began to wait for its end at a moment, and is to end so much later: in
    good order, in time, and without a word of its seeds."""
    limit = milliseconds / 1000 + ENDS_IN
    status, output, told = node.end(limit)
    took = moment() - begun
    if (status, told) != (0, "") or took > limit:
        return f"it ended after {took:.1f} s, wanted at most {limit} s, with {status}, {output!r} and {told!r}"
    return None


def fault_of_a_leave(program, members):
    """What is wrong if `lg leave` ends a."""
    begun = moment()
    try:
        with members.spaces["a"].entered():
            told = told_by(words_of(program, "leave", STATUS), timeout=ENDS_IN)
    except subprocess.TimeoutExpired:
        return f"lg leave hasn't ended after {ENDS_IN} s; a is running: {members.nodes['a'].is_running()}"
    fault = difference("lg leave", told, (0, "", "")) or fault_of_an_end(members.nodes["a"], begun, 0)
    return fault and f"a is told to leave: {fault}"


def fault_of_a_short_life(members, names):
    """What is wrong with how b ends by its time, if it is started anew, and waits for the resolver again."""
    members.nodes["b"].kill()
    before, begun = names.times_asked(GROUP, OUTER["b"]), moment()
    members.start("b", SHORT_LIFE_MS)
    fault = fault_of_an_end(members.nodes["b"], begun, SHORT_LIFE_MS)
    if names.times_asked(GROUP, OUTER["b"]) == before:
        return f"b asked for no {GROUP} before its end: {fault}"
    return fault and f"b lives for {SHORT_LIFE_MS} ms: {fault}"


def hanging_resolver_holds_no_node(program):
    """The server of names never answers, and two nodes wait for it, which meet by another seed. Meanwhile one answers
    Pings and HTTP. Then `lg leave` ends the one, and its time the other, as soon as if the server did answer."""
    places = places_of("ab", GROUP, f"{OUTER['b']}:{PORT}", keys=f'bind = "0.0.0.0"\n{OFTEN}')
    with named_hosts({}, LATE) as (spaces, names):
        names.is_silent = True
        with Members(program, spaces, places) as members:
            fault = (members.fault_unless_known(seconds=SECONDS) or fault_of_work(members, names)
                     or fault_of_a_leave(program, members) or fault_of_a_short_life(members, names))
            return with_what_was_seen(fault, members, names)


# ---- An address that the node finds out


def auto_place(address, *seeds):
    """The place of a node that has to find out this address by its seeds."""
    return Place(address, keys=OFTEN, seeds=seeds, written="auto")


def fault_of_an_auto_address(program, spaces, names, places, lines):
    """What is wrong if a is to find out the address of its place: all know it there, its socket is there, and it tells
    that and these lines, and nothing else."""
    with Members(program, spaces, places) as members:
        own = places["a"].address
        fault = (members.fault_unless_known(seconds=SECONDS) or fault_of_sockets(members, {"a": (own, PORT)})
                 or fault_of_lines({"a": members.nodes["a"]}, [f"lg: the address auto is {own}:{PORT}", *lines]))
        return with_what_was_seen(fault, members, names)


def fault_without_an_address(program, spaces, names):
    """What is wrong with how a node ends that finds no address, since none of its seeds resolves."""
    with Members(program, spaces, {"a": auto_place(OUTER["a"], MISSING)}) as members:
        status, output, told = members.nodes["a"].end(SECONDS)
        lines = ["lg: link", "the address auto wasn't found: no seed resolves to an address that this machine reaches"]
        fault = difference("the end without an address", (status, output, told.splitlines()), (5, "", lines))
        return with_what_was_seen(fault, members, names)


def auto_address_is_that_towards_its_seed(program):
    """The host of a has two addresses. With `address = "auto"` a tells the others the one towards its seed b, and has
    its socket there. If the first of its seeds doesn't resolve, and the second one is on the other side, it is the
    other address. If none resolves, a ends and says so."""
    with named_hosts({OF_B: [OUTER["b"]], INSIDE: [INNER[ROUTER]]}) as (spaces, names):
        spaces[ROUTER].join("inside", spaces["a"], "eth1")
        spaces[ROUTER].give("inside", INNER[ROUTER])
        spaces["a"].give("eth1", INNER["a"])
        outside = {"a": auto_place(OUTER["a"], OF_B)} | places_of("b")
        inside = {"a": auto_place(INNER["a"], MISSING, INSIDE)}
        return (fault_of_an_auto_address(program, spaces, names, outside, [])
                or fault_of_an_auto_address(program, spaces, names, inside, lines_of(MISSING, LOST))
                or fault_without_an_address(program, spaces, names))


def auto_address_needs_a_seed(program):
    """A file with `address = "auto"` and without a seed means no configuration, and so does an option that says it."""
    [port] = free_ports(1)
    for key, options in [('address = "auto"\n', []), ("", ["--address", "auto"])]:
        status, output, told = Node(program, file_of("b", port, keys=key), "--for-ms", "1000", *options).end(SECONDS)
        if fault := difference(f"{key}{options}", (status, output, told[:13]), (3, "", "lg: config 31")):
            return f"{fault}; it told {told!r}"
    return None


# ---- A seed that nobody has heard


def fault_of_silence(members, incoming):
    """What is wrong with a node whose one seed is silent: it asks there again and again, sends nothing else, and all
    that it has known since its start is itself."""
    wait_until(lambda: len(incoming.at("b")) >= QUESTIONS, SECONDS)
    came = incoming.at("b")
    if len(came) < QUESTIONS or set(came) != {(OUTER["a"], PULL)}:
        return f"to b came, by address and kind: {came}; wanted {QUESTIONS} or more of {(OUTER['a'], PULL)}"
    return difference("the changes of a", members.changes("a"), [("a", "alive")])


def named_seed_is_no_member_before_it_is_heard(program):
    """The seed of a is b, by its name at the name of its host, on which nobody runs. a asks there, and has no record of
    b. Once b runs there, both know each other."""
    with named_hosts({OF_B: [OUTER["b"]]}) as (spaces, names), Incoming(spaces) as incoming, \
            Members(program, spaces, places_of("a", f"b@{OF_B}:{PORT}")) as members:
        fault = fault_of_silence(members, incoming)
        if fault is None:
            members.places |= places_of("b")
            members.start("b")
            fault = members.fault_unless_known(seconds=SECONDS) or fault_of_lines(members.nodes, [])
        return with_what_was_seen(fault, members, names)
