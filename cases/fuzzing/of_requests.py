"""Cases of HTTP requests: bytes that a client sends on one connection to a node with a status server.

The node has heard one packet, so what it knows is what the model of a detector knows after it. Some requests are whole:
then each answer is known, but for moments and versions. The last may be damaged: then what comes has to be whole
answers, and the node answers the next client.
"""

import socket
from dataclasses import dataclass

from changes import Lone
from fuzzing import web, wire
from fuzzing.making import HOST, damaged
from fuzzing.member import Member
from fuzzing.numbers import DEFAULTS
from fuzzing.shrinking import shrunk
from fuzzing.wire import ALIVE, FAILED, LEFT, ONE, PING, SUSPECT, THREE, Claim, Packet, is_told, spelled
from running import HELD, PATIENCE, bound_socket, table_of, wait_until

# Longer than a request for changes may wait.
SECONDS = 40
MOST_REQUESTS = 12
CONNECTIONS = 50
METHODS = ["GET", "GET", "GET", "GET", "HEAD", "HEAD", "POST", "PUT", "DELETE", "OPTIONS", "PATCH"]
PATHS = ["/", "//", "/v1", "/v1/", "/v1/members", "/v1/members/", "/v1/members/", "/v1/explain", "/v1/explain/",
         "/v1/health", "/v1/changes", "/v1/config", "/v1/config/", "/v1/leave", "/v1/leave/", "/metrics",
         "/v1/prometheus", "/v1/prometheus/", "/favicon.ico"]
MEMBERS = ["b", "a", "c", "d", "e", "nobody", "a+b", "%62", "n" * 32, "n" * 33, "b/", ""]
ALL_QUERIES = ["", "status=alive", "status=suspect", "status=failed", "status=left", "status=dead", "status=",
           "after=0", "after=0&wait_ms=1", "wait_ms=5", "wait_ms=30001", "wait_ms=1&after=0", "after=1&after=1",
           "after=x", "after=", "=", "&", "after=0&", "after=0&wait_ms=1&after=0", "now", "after=0000000000000000",
           "after=" + "0" * 17, "a=1", "wait_ms=00001", "port=9100", "port=00080", "port=0",
           "port=65535", "port=65536", "port=", "port=1&port=1"]
# For the paths that take a query these are the usual ones.
QUERIES = {"/v1/members": [it for it in ALL_QUERIES if it.startswith("status")],
           "/v1/changes": [it for it in ALL_QUERIES if it.startswith(("after", "wait_ms"))],
           "/v1/prometheus": [it for it in ALL_QUERIES if it.startswith("port")]}
HOSTS = ["127.0.0.1", "127.0.0.1:8946", "255.255.255.255", "localhost", "LOCALHOST:1", "[::1]", "[fe80::1]:65535"]
FOREIGN_HOSTS = ["b", "evil.example", "evil.example:80", "localhost.b", "xlocalhost", "1.2.3", "1.2.3.256", "01.2.3.4"]
FIELDS = ["", "", "", "accept: */*\r\n", "a: b\r\n", "a:\tb \r\n", "x: " + "y" * 500 + "\r\n"]

# What the node hears: of one member of each status.
CLAIMS = (Claim(ALIVE, b"a", HOST + b"\0\1", 3), Claim(SUSPECT, b"c", HOST + b"\0\2", 0, b"a"),
          Claim(FAILED, b"d", HOST + b"\0\3", 7), Claim(LEFT, b"e", bytes(15) + b"\1\0\4", 2))
HEARD = Packet(THREE, PING, b"z", 1, b"nobody", claims=CLAIMS)


@dataclass(frozen=True)
class Request:
    """A request: its method, host and target, its bytes, and whether they are whole."""

    method: str
    host: str
    target: str
    data: bytes
    is_whole: bool = True


def request_of(dice):
    """A whole request."""
    path = dice.choice(PATHS)
    queries = QUERIES.get(path, ALL_QUERIES) if dice.random() < 0.8 else ALL_QUERIES
    target = path + (dice.choice(MEMBERS) if path in (web.ONE_MEMBER, web.EXPLAINED) else "")
    target += "?" + dice.choice(queries) if dice.random() < 0.5 else ""
    method, host = dice.choice(METHODS), dice.choice(HOSTS if dice.random() < 0.9 else FOREIGN_HOSTS)
    fields = "".join(dice.choice(FIELDS) for _ in range(dice.randrange(3)))
    return Request(method, host, target, f"{method} {target} HTTP/1.1\r\nhost: {host}\r\n{fields}\r\n".encode())


def all_received(port, data):
    """All that comes until the server closes a connection on which these bytes were sent, and no more will be."""
    with socket.create_connection(("127.0.0.1", port), SECONDS) as link:
        link.sendall(data)
        link.shutdown(socket.SHUT_WR)
        parts = []
        try:
            while part := link.recv(65_536):
                parts.append(part)
        except ConnectionResetError:
            # It was closed before all that was sent was read.
            pass
    return b"".join(parts)


class Asked:
    """A node that heard the packet, and the records that it then knows."""

    def __init__(self, program):
        self.held = len(HELD)
        self.lone = Lone(program)
        own = HOST + self.lone.port.to_bytes(2, "big")
        model = Member(b"b", own, 0, DEFAULTS | {"interval_ms": 60_000})
        model.hear(0, own, HEARD)
        self.view = model.view()
        if wait_until(self.has_heard, PATIENCE) is None:
            raise RuntimeError(f"the node knows {table_of(self.lone.port)}")

    def has_heard(self):
        """Sends the packet, which changes nothing if it comes again, and says whether the node has heard it. Its Pages
        are of version one, which can't tell the address of e."""
        with bound_socket() as sender:
            sender.sendto(spelled(HEARD), ("127.0.0.1", self.lone.port))
        return len(table_of(self.lone.port)) == sum(is_told(ONE, record.address) for record in self.view)

    def fault(self, requests):
        """What is wrong with what comes for the requests of a connection."""
        whole = [it for it in requests if it.is_whole]
        try:
            received = all_received(self.lone.status, b"".join(it.data for it in requests))
            answers, rest = web.answers_in(received, [it.method for it in whole])
        except (ValueError, KeyError, OSError) as error:
            return f"the answers can't be read: {error!r}"
        faults = [web.fault_of(it.method, it.host, it.target, answer, self.view) for it, answer in zip(whole, answers)]
        faults += [f"{len(answers)} answers to {len(whole)} requests"] if len(answers) < len(whole) else []
        faults += [web.fault_of_rest(rest)] if len(whole) < len(requests) else []
        faults += [f"bytes behind the last answer: {rest[:200]}"] if rest and len(whole) == len(requests) else []
        faults += [] if self.lone.node.is_running() else [f"the node has ended: {self.lone.node.end()}"]
        return next(filter(None, faults), None)

    def __enter__(self):
        return self

    def __exit__(self, *words):
        """Ends the node, and gives its ports back: a long run has many nodes."""
        self.lone.__exit__(*words)
        for holder in HELD[self.held:]:
            holder.close()
        del HELD[self.held:]


class Requests:
    """Each request is a case. A batch asks one node on many connections, and those of a connection are made smaller
    together."""

    name = "requests"
    wrong_rules = (
        (wire, "MOST_NAME", 31), (web, "SERVED", ("GET", "HEAD", "OPTIONS")), (web, "MOST_WAIT", 4),
        (web, "OWN_NAME", "evil.example"), (web, "LEAVE", "/v1/leave/"), (web, "TARGETS", "/v1/prometheus/"),
        (web, "EXPLAINED", "/v1/explain"),
        (web, "MEMBERS_QUERIES", ("", "status=alive", "status=suspect")), (web, "PLAIN", (*web.PLAIN, "/v1/config/")))

    def make(self, dice):
        """The requests of many connections, of each of which the last may be damaged."""
        case = []
        for _ in range(CONNECTIONS):
            requests = [request_of(dice) for _ in range(dice.randint(1, MOST_REQUESTS))]
            if dice.random() < 0.5:
                data = damaged(dice, dice.choice(requests).data, dice.choice(requests).data)
                requests.append(Request("", "", "", data, is_whole=False))
            case.append(tuple(requests))
        return case

    def count(self, case):
        return sum(map(len, case))

    def difference(self, case, programs):
        with Asked(programs.program) as node:
            return next(filter(None, map(node.fault, case)), None)

    def smaller(self, case, programs):
        """The one connection that differs, with as few requests as that takes."""
        with Asked(programs.program) as node:
            requests = next(filter(node.fault, case), case[0])
            return [tuple(shrunk(list(requests), lambda some: some and node.fault(some) is not None))]

    def shown(self, case, programs, title):
        sent = [repr(request.data) for requests in case for request in requests]
        return "\n".join([f"{self.difference(case, programs)}", f"## {title}", "on one connection:", *sent])
