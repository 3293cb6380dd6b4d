"""Checks of a node whose status server many clients ask, or clients that do harm: the node answers its group as
before."""

import json
import pathlib
import random
import resource
import socket
import threading
import time
from concurrent.futures import ThreadPoolExecutor
from multiprocessing import Process

from asking import Link, by_python, is_answering, request
from changes import Lone
from checks import NOTES
from exposition import metrics_in
from group import AskedGroup
from packets import ping
from running import PATIENCE, asked, table_of, wait_until
from sockets import udp_drops

STAYING = 1000
# How long a client may take for a part of a request or of an answer, and two seconds for a busy machine.
DEADLINE = 5 + 2
DAMAGED = 10_000
DAMAGING = 4
MEGABYTES = 64
PIPELINED = 200


# ---- What the node does meanwhile


class Witness:
    """It pings a node b twenty times a second and asks four times a second for its health, until its end."""

    def __init__(self, node):
        self.node, self.is_on = node, True
        self.pings = self.acks = self.questions = self.answers = 0
        self.threads = [threading.Thread(target=it) for it in (self.ping, self.ask)]
        for thread in self.threads:
            thread.start()

    def ping(self):
        while self.is_on:
            self.pings += 1
            self.acks += bool(asked(ping(9, "b"), self.node.port))
            time.sleep(0.05)

    def ask(self):
        """A connection that is closed at once, since all slots are taken, may ask again for two seconds."""
        while self.is_on:
            self.questions += 1
            self.answers += wait_until(lambda: is_answering(self.node.status), 2) is not None
            time.sleep(0.25)

    def fault(self):
        """Ends it, and gives what was missing."""
        self.is_on = False
        for thread in self.threads:
            thread.join()
        NOTES.append(f"{self.acks} Acks and {self.answers} answers about the health meanwhile")
        if (self.acks, self.answers) == (self.pings, self.questions):
            return None
        return f"{self.acks} of {self.pings} Pings and {self.answers} of {self.questions} questions were answered"


def megabytes(node):
    """The most memory that a node had so far."""
    text = pathlib.Path(f"/proc/{node.node.process.pid}/status").read_text(encoding="utf-8")
    [line] = [line for line in text.splitlines() if line.startswith("VmHWM:")]
    return int(line.split()[1]) / 1024


def descriptors(node):
    """How many files and sockets a node has open."""
    return len(list(pathlib.Path(f"/proc/{node.node.process.pid}/fd").iterdir()))


# ---- Clients that do harm


def staying(port):
    """Connections that have sent one byte each."""
    links = []
    for _ in range(STAYING):
        try:
            links.append(Link(port, b"G"))
        except ConnectionError:
            # It was closed before the byte was sent.
            pass
    return links


def never_reading(port):
    """A connection that asked for as many pages as it could, and reads none."""
    link = Link(port)
    link.socket.setblocking(False)
    try:
        while True:
            link.socket.send(100 * request("/"))
    except BlockingIOError:
        return link


def is_ended(link):
    """Whether the server has closed a connection: what came before that is read."""
    link.socket.setblocking(False)
    try:
        while link.socket.recv(65_536):
            pass
    except BlockingIOError:
        return False
    except OSError:
        pass
    return True


def damaged(dice):
    """A request with some bytes changed, cut off, left out or put in."""
    whole = request(dice.choice(["/v1/members", "/v1/changes?after=1", "/metrics", "/"]),
                    dice.choice(["GET", "HEAD", "POST"]), dice.choice(["", "content-length: 3\r\n", "a: b\r\n"]))
    place = dice.randrange(len(whole))
    middle = dice.choice([b"", dice.randbytes(1), dice.randbytes(dice.randrange(200)), b"\0", b"\r\n", b" "])
    return dice.choice([whole[:place], whole[:place] + middle + whole[place + dice.randrange(3):]])


def fault_of_damaged(port, data):
    """What is wrong with all that comes for damaged bytes: nothing, if there were none, or answers, of which each has
    a code, and JSON if it refuses something."""
    with Link(port, data) as link:
        link.socket.shutdown(socket.SHUT_WR)
        received = link.file.read()
    head, _, body = received.partition(b"\r\n\r\n")
    code = head[9:12]
    if code == b"200" or not received and not data:
        return None
    if code not in (b"400", b"404", b"405", b"413", b"414", b"421", b"431", b"501"):
        return f"{data} got {received[:200]}"
    return None if data.startswith(b"HEAD") or "error" in json.loads(body.partition(b"HTTP/1.1")[0]) else f"{received}"


def fault_of_many_damaged(port, seed):
    """What is wrong with the answers to some of the damaged requests, by a seed."""
    dice = random.Random(seed)
    faults = (fault_of_damaged(port, damaged(dice)) for _ in range(DAMAGED // DAMAGING))
    return next(filter(None, faults), None)


def fault_of_pipelined(port):
    """What is wrong with the answers to requests that are sent at once: they come in their order."""
    targets = ["/v1/members/b", "/v1/members/nobody", "/v1/members/%", "/v1/health"]
    codes = [200, 404, 400, 200]
    with Link(port, b"".join(request(it) for it in targets) * PIPELINED) as link:
        got = [link.answer() for _ in range(len(targets) * PIPELINED)]
    wrong = [it for it, code in zip(got, codes * PIPELINED) if it is None or it.code != code]
    return f"pipelined requests got {wrong[:1]}" if wrong else None


def fault_of_a_body(port):
    """What is wrong with the answer to a body that is too large."""
    for method in ("POST", "GET"):
        answer = by_python(port, "/v1/members", method, bytes(1024 * 1024))
        if answer.code != 413 or answer.value() != {"error": "body too large"}:
            return f"{method} with a body of a mebibyte got {answer}"
    return None


def fault_of_harm(port):
    """What is wrong while and after clients stay, don't read, and send what is damaged or too large."""
    begun = time.monotonic()
    links = [never_reading(port), *staying(port)]
    # A slot that was taken just now isn't given to another client.
    time.sleep(0.5)
    with ThreadPoolExecutor(DAMAGING) as pool:
        faults = list(pool.map(lambda seed: fault_of_many_damaged(port, seed), range(DAMAGING)))
    faults += [fault_of_pipelined(port), fault_of_a_body(port)]
    NOTES.append(f"{DAMAGED} damaged requests and the others took {time.monotonic() - begun:.1f} s")
    time.sleep(max(0.0, begun + DEADLINE - time.monotonic()))
    open_still = [place for place, link in enumerate(links) if not is_ended(link)]
    for link in links:
        link.close()
    faults.append(f"still open after {DEADLINE} s: {open_still[:5]}, of which 0 doesn't read" if open_still else None)
    return next(filter(None, faults), None)


def harmful_clients_harm_nobody(program):
    """A client that never reads, 1,000 that send one byte and stay, 10,000 damaged requests, pipelined ones, and bodies
    that are too large: meanwhile each Ping is answered, and each question about the health. At the end those that
    stayed are closed, and the node has all its sockets again, and had 64 MB at most."""
    _, most = resource.getrlimit(resource.RLIMIT_NOFILE)
    resource.setrlimit(resource.RLIMIT_NOFILE, (most, most))
    with Lone(program) as node:
        before, witness = descriptors(node), Witness(node)
        try:
            fault = fault_of_harm(node.status)
        finally:
            missing = witness.fault()
        if fault or missing:
            return fault or missing
        if wait_until(lambda: descriptors(node) == before, 5) is None:
            return f"{descriptors(node)} descriptors are open, and were {before}"
        NOTES.append(f"{megabytes(node):.1f} MB at most")
        return None if megabytes(node) < MEGABYTES else f"{megabytes(node)} MB"


# ---- A flood of a whole group

GROUP = [f"m{place:02}" for place in range(8)]
OTHERS = len(GROUP) - 1
FLOODED_SECONDS = 5
FLOODS = 5
# How long a round is, how often the loops are looked at, and from which wait on a loop counts as late, in seconds.
ROUND, LOOK, LATE = 0.1, 0.02, 0.04


class Waits:
    """Looks fifty times a second at how long the loops of some nodes wait for a processor, until its end.

    The kernel counts for each thread how long it has run, and how long it was ready and had to wait.
    """

    def __init__(self, group):
        self.threads = {name: sorted(pathlib.Path(f"/proc/{node.process.pid}/task").glob("*/schedstat"))
                        for name, node in group.nodes.items()}
        # In how many rounds a thread was late, by its place, and in how many the whole machine stood still.
        self.late, self.still = dict.fromkeys(sum(self.threads.values(), []), 0), 0
        self.first, self.is_on = self.read(), True
        self.thread = threading.Thread(target=self.run)
        self.thread.start()

    def read(self):
        """How long each thread has run so far, and how long it has waited, in seconds."""
        return {it: times_of(it) for it in self.late}

    def run(self):
        own, last, looked = pathlib.Path("/proc/thread-self/schedstat"), self.first, time.monotonic()
        own_before = times_of(own)
        while self.is_on:
            time.sleep(LOOK)
            now = self.read()
            for place, (_, waited) in now.items():
                self.late[place] += rounds_in(waited - last[place][1])
            gap, own_now = time.monotonic() - looked, times_of(own)
            # What is late without having waited or run stood still with the whole machine.
            self.still += rounds_in(gap - LOOK - sum(own_now) + sum(own_before))
            last, looked, own_before = now, time.monotonic(), own_now

    def end(self):
        """Ends it, and gives in how many rounds a loop of a node was late, and in how many the machine stood still. The
        thread of a node that ran the longest is its server's, and the others are its loops."""
        self.is_on = False
        self.thread.join()
        last, late = self.read(), 0
        for threads in filter(None, self.threads.values()):
            server = max(threads, key=lambda it: last[it][0] - self.first[it][0])
            late += sum(self.late[it] for it in threads if it != server)
        return late, self.still


def times_of(place):
    """How long a thread has run and waited, in seconds, by its file of the kernel. One without such a file, that of a
    node that has ended, counts as not late."""
    try:
        return tuple(int(it) / 1e9 for it in place.read_text(encoding="ascii").split()[:2])
    except OSError:
        return 0.0, 0.0


def rounds_in(waited):
    """How many rounds a wait touches that is long enough to make a loop late."""
    return 1 + int(waited / ROUND) if waited >= LATE else 0


def lost(group):
    """How many datagrams the system has thrown away so far, since a member's receive buffer was full."""
    ports = set(group.own.values())
    return sum(drops for (_, port), drops in udp_drops().items() if port in ports)


def flood(ports):
    """Asks servers in turn, 50 requests at once on a connection to each, until this process is killed."""
    links = [Link(port) for port in ports]
    while True:
        for link in links:
            link.socket.sendall(50 * request("/v1/members"))
        for link in links:
            for _ in range(50):
                link.answer()


def suspicions(group):
    """How many suspicions the members of a group have raised so far, and the incarnation of each."""
    raised = [metrics_in(by_python(port, "/metrics").body).samples["lg_suspicions_raised_total"]
              for port in group.status.values()]
    own = {name: table_of(port)[name].incarnation for name, port in group.own.items()}
    return sum(raised), own


def answered(group):
    """How many datagrams the members have sent so far."""
    return sum(metrics_in(by_python(port, "/metrics").body).samples["lg_datagrams_sent_total"]
               for port in group.status.values())


def flooded(group):
    """Asks the status servers of a group for some seconds as fast as two clients can. Gives how many suspicions may be
    raised meanwhile, and whether the clients went on to the end."""
    clients = [Process(target=flood, args=(list(group.status.values()),), daemon=True) for _ in range(2)]
    before, waits = lost(group), Waits(group)
    for it in clients:
        it.start()
    time.sleep(FLOODED_SECONDS)
    were_running = all(it.is_alive() for it in clients)
    for it in clients:
        it.kill()
        it.join()
    late, still = waits.end()
    dropped = lost(group) - before
    NOTES.append(f"{late} rounds with a late loop, {still} in which the machine stood still, {dropped} datagrams lost")
    return late * OTHERS + still * OTHERS * len(GROUP) + dropped, were_running


def fault_of_a_flood(group):
    """What is wrong with a group while its status servers are flooded."""
    if wait_until(group.is_whole, PATIENCE) is None:
        return group.difference(dict.fromkeys(GROUP, "alive"))
    before, sent = suspicions(group), answered(group)
    most, were_running = flooded(group)
    after = suspicions(group)
    raised = after[0] - before[0]
    NOTES.append(f"{(answered(group) - sent) / FLOODED_SECONDS:.0f} datagrams a second, {raised:.0f} suspicions")
    if raised > most or not raised and after != before or not were_running:
        return f"suspicions, incarnations {before} became {after}, at most {most} more wanted; flooded: {were_running}"
    return None if wait_until(group.is_whole, PATIENCE if raised else 1) is not None else "it isn't whole"


def flood_raises_no_suspicion(program):
    """Eight members whose rounds take 100 ms suspect nobody while their status servers are asked as fast as two clients
    can, in each of five floods, unless the machine gave a loop no processor.

    A member suspects another at the end of a round in which no Ack of that one counted, on the direct way or by a
    helper. A client over HTTP sends no datagram, and takes nothing from the receive buffer of a loop. So such a round
    needs a datagram that the system threw away (one suspicion each), or a member that was late by a good part of the
    round. That is one whose receiving or ticking loop was ready and got no processor for 40 ms: at most all seven
    others suspect it in this round, or it suspects one. If the machine stood still as a whole, each may suspect each.
    The kernel counts all three. On a machine that does nothing else they are 0, and so no suspicion may be raised.
    """
    with AskedGroup(program, GROUP, "interval_ms = 100\ntimeout_ms = 50\npull_ms = 1000\n") as group:
        for tried in range(FLOODS):
            if fault := fault_of_a_flood(group):
                return f"flood {tried + 1} of {FLOODS}: {fault}"
    return None
