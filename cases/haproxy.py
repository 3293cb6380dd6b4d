"""Checks of the recipe for HAProxy: its servers are up and down as the members of the group are alive and failed."""

import csv
import http.server
import re
import socket
import subprocess
import threading
import time

from balanced import BESIDE, RECIPES, SERVICES, SOON, Balanced, Process, own_folder, without_rights
from checks import NOTES, needed
from packets import HOST
from running import free_status_ports, wait_until
from telling import told_by, words_of

AGENT, FILE = RECIPES / "haproxy" / "agent.py", RECIPES / "haproxy" / "haproxy.cfg"
# For how long a check sees that nothing changes, in seconds: HAProxy asks the agent twice in that time.
QUIET = 1.3


def tool():
    """The path of HAProxy, which Debian keeps where only root looks."""
    return needed("haproxy", "/usr/sbin/haproxy")


def replaced(text, pairs):
    """A text in which each of these words, which has to stand there once, is another one."""
    for old, new in pairs.items():
        if text.count(old) != 1:
            raise RuntimeError(f"{old!r} stands {text.count(old)} times in {FILE.name}, and not once")
        text = text.replace(old, new)
    return text


class Behind(Balanced):
    """HAProxy before the services, with the file of the recipe but for its places, and the agent of the recipe."""

    def begin(self):
        [self.port] = free_status_ports(1)
        self.begin_agent()
        _, _, text = FILE.read_text(encoding="utf-8").partition("\ndefaults\n")
        places = {f"10.0.0.1{number}:8080": f"{SERVICES[f'web-{number}']}:{self.services.port}" for number in (1, 2, 3)}
        own = {"bind :80": f"bind {HOST}:{self.front}", "agent-port 8947": f"agent-port {self.port}",
               "    log global\n": "", "    option httplog\n": ""}
        path = f"{self.folder}/haproxy.cfg"
        with open(path, "w", encoding="utf-8") as it:
            it.write(f"global\n    stats socket {self.folder}/socket mode 600 level admin\n\ndefaults\n")
            it.write(replaced(text, places | own))
        self.processes["haproxy"] = Process(self.folder, [tool(), "-db", "-f", path], **without_rights(self.folder))
        if wait_until(lambda: self.states() == self.wanted() and self.agent_says("up") == set(SERVICES), 10) is None:
            raise RuntimeError(f"at first HAProxy has {self.states()}: {self.processes['haproxy'].told()}")

    def begin_agent(self):
        status = self.group.status[BESIDE]
        self.processes["agent"] = Process(self.folder,
                                          [AGENT, "--listen", f"{HOST}:{self.port}", "--at", f"{HOST}:{status}"])

    def told_by_socket(self, command):
        """What HAProxy answers to a command on its socket. Nothing if it doesn't answer."""
        try:
            with socket.socket(socket.AF_UNIX) as link:
                link.settimeout(5)
                link.connect(f"{self.folder}/socket")
                link.sendall(f"{command}\n".encode())
                return b"".join(iter(lambda: link.recv(65_536), b"")).decode()
        except OSError:
            return ""

    def rows(self):
        """What HAProxy says of each server."""
        rows = csv.DictReader(self.told_by_socket("show stat").removeprefix("# ").splitlines())
        return {it["svname"]: it for it in rows if it["svname"] in SERVICES}

    def said(self):
        """The state of each server, and what the agent said of it last."""
        return {name: (it["status"], it["last_agt"]) for name, it in self.rows().items()}

    def states(self):
        """Whether each server is UP or DOWN."""
        return {name: it["status"].split()[0] for name, it in self.rows().items()}

    def agent_says(self, word):
        """The names of the servers of which the agent said this last. While it is asked HAProxy doesn't tell it."""
        return {name for name, it in self.rows().items() if re.search(rf"agent : {word}\b", it["last_agt"])}

    def wanted(self, *down):
        """The states in which the servers of these names are down."""
        return {name: "DOWN" if name in down else "UP" for name in SERVICES}

    def fault_of(self, *down):
        """What is wrong with the servers, which the node has just told of: within two seconds these are down, and
        requests reach the others. How long it took is noted."""
        took = wait_until(lambda: self.states() == self.wanted(*down), SOON)
        if took is None:
            return f"after {SOON} s HAProxy has {self.said()}; the agent told {self.processes['agent'].told()}"
        NOTES.append(f"{', '.join(down) or 'none'} down after {took * 1000:.0f} ms")
        return self.fault_of_reaching(*(it for it in SERVICES if it not in down))

    def fault_of_quiet(self, *down):
        """What is wrong with the servers while nobody tells HAProxy anything: they stay, and requests are answered."""
        ends = time.monotonic() + QUIET
        while time.monotonic() < ends:
            if self.states() != self.wanted(*down):
                return f"HAProxy has {self.said()}"
            time.sleep(0.1)
        return self.fault_of_reaching(*(it for it in SERVICES if it not in down))


def haproxy_follows_the_group(program):
    """The server of a member that is killed is down within two seconds from when the node beside HAProxy lists it as
    failed, though its service goes on, and gets no request. It is up again when the member is, and down when it has
    left. Without the agent the command that README names puts it up."""
    tool()
    with Behind(program) as it:
        it.group.kill("web-3")
        it.group.wait_for_statuses(web_3="failed")
        if fault := it.fault_of("web-3"):
            return f"web-3 was killed: {fault}"
        it.group.start("web-3")
        it.group.wait_for_statuses()
        if fault := it.fault_of():
            return f"web-3 came back: {fault}"
        left = told_by(words_of(program, "leave", it.group.status["web-1"]))
        it.group.wait_for_statuses(web_1="left")
        if fault := it.fault_of("web-1"):
            return f"web-1 has left, {left}: {fault}"
        if wait_until(lambda: it.agent_says("stopped") == {"web-1"}, SOON) is None:
            return f"the agent doesn't say of web-1 that it stopped: {it.said()}"
        it.processes["agent"].kill()
        told = it.told_by_socket("set server web/web-1 agent up")
        fault = it.fault_of()
        return fault and f"the agent has ended, and HAProxy was told that web-1 is up, {told!r}: {fault}"


def haproxy_stays_as_it_is_without_its_node(program):
    """While the node beside HAProxy, or the agent, doesn't run, each server stays up or down as it was, and requests
    are answered. Once both run again the servers follow the group."""
    tool()
    with Behind(program) as it:
        it.group.kill("web-2")
        it.group.wait_for_statuses(web_2="failed")
        if fault := it.fault_of("web-2"):
            return f"web-2 was killed: {fault}"
        it.group.kill(BESIDE)
        if fault := it.fault_of_quiet("web-2"):
            return f"the node has ended: {fault}"
        it.processes["agent"].kill()
        if fault := it.fault_of_quiet("web-2"):
            return f"the agent has ended: {fault}"
        it.begin_agent()
        it.group.start(BESIDE)
        if wait_until(lambda: it.agent_says("up") == {"web-1", "web-3"}, 20) is None:
            return f"once both run again HAProxy has {it.said()}"
        it.group.start("web-2")
        it.group.wait_for_statuses()
        fault = it.fault_of()
        return fault and f"all run again: {fault}"


def haproxy_goes_on_if_all_have_failed(program):
    """If the node beside HAProxy takes all others as failed, all servers are up: HAProxy has its own checks."""
    tool()
    with Behind(program) as it:
        it.group.kill(*SERVICES)
        it.group.wait_for_statuses(**{name.replace("-", "_"): "failed" for name in SERVICES})
        return it.fault_of()


def haproxy_takes_the_file(_):
    """HAProxy finds nothing wrong with the file of the recipe as it is."""
    ran = subprocess.run([tool(), "-c", "-f", FILE], capture_output=True, text=True, check=False)
    told = ran.stdout + ran.stderr
    return None if ran.returncode == 0 and "WARNING" not in told else f"HAProxy ends with {ran.returncode}: {told}"


# ---- The agent by itself


def answers_of(port, line):
    """All that the agent sends to who sends it a line."""
    with socket.create_connection((HOST, port), 5) as link:
        link.settimeout(5)
        link.sendall(line)
        return b"".join(iter(lambda: link.recv(100), b"")).decode()


class Canned(http.server.BaseHTTPRequestHandler):
    """A server in place of a node, which answers what it is told to."""

    def do_GET(self):
        code, body = self.server.answer
        if code is None:
            time.sleep(2 * PATIENT)
            return
        self.send_response(code)
        self.send_header("content-length", str(len(body)))
        self.end_headers()
        self.wfile.write(body)

    def log_message(self, *_):
        pass


# For how long the agent may be silent, in seconds. A server that never answers is silent for twice as long.
PATIENT = 2
# What a node may answer, and what the agent then says of web-1.
CANNED = [
    ((200, b'{"name":"lb","members":[{"name":"lb","status":"alive"},{"name":"web-1","status":"suspect"}]}'), "up\n"),
    ((200, b'{"name":"lb","members":[{"name":"web-1","status":"failed"},{"name":"web-2","status":"alive"}]}'),
     "down #failed\n"),
    ((200, b'{"name":"lb","members":[{"name":"web-1","status":"failed"},{"name":"lb","status":"alive"}]}'), "up\n"),
    ((200, b'{"name":"lb","members":[{"name":"web-1","status":"left"}]}'), "stopped #left\n"),
    ((200, b'{"name":"lb","members":[{"name":"lb","status":"alive"}]}'), ""),
    ((200, b'{"name":"lb","members":7}'), ""),
    ((200, b'{"name":"lb","mem'), ""),
    ((200, b"[]"), ""),
    ((503, b'{"error":"too many"}'), ""),
    ((None, b""), ""),
]


def fault_of_answers(server, port):
    """What is wrong with what the agent at a port says of web-1, by each answer of the server in place of its node."""
    for server.answer, wanted in CANNED:
        # The agent goes by the answer before this one for a tenth of a second.
        time.sleep(0.15)
        begun = time.monotonic()
        got = answers_of(port, b"web-1\n")
        if got != wanted or time.monotonic() - begun > PATIENT:
            return f"by {server.answer} got {got!r}, wanted {wanted!r}"
    server.answer = CANNED[0][0]
    time.sleep(0.15)
    for line in (b"web-9\n", b"\n", b"\xff\n", 100 * b"w" + b"\n"):
        if got := answers_of(port, line):
            return f"to the line {line[:9]} got {got!r}"
    return None if answers_of(port, b"web-1\n") == "up\n" else "afterwards it says nothing"


def agent_says_what_its_node_says(_):
    """The agent says `up`, `down` or `stopped`, and nothing if the node is silent, busy, doesn't know the member, or
    answers what is no table. With no node at its place it says nothing either."""
    [port, nobody, silent] = free_status_ports(3)
    server = http.server.ThreadingHTTPServer((HOST, silent), Canned)
    threading.Thread(target=server.serve_forever, daemon=True).start()
    with own_folder() as folder:
        agents = [Process(folder, [AGENT, "--listen", f"{HOST}:{port}", "--at", f"{HOST}:{silent}"])]
        try:
            if wait_until(lambda: is_listening(port), 10) is None:
                return f"nobody listens: {agents[0].told()}"
            if fault := fault_of_answers(server, port):
                return fault
            agents.append(Process(folder, [AGENT, "--listen", f"{HOST}:{nobody}", "--at", f"{HOST}:9"]))
            wait_until(lambda: is_listening(nobody), 10)
            got = answers_of(nobody, b"web-1\n")
            return f"without a node it says {got!r}" if got else None
        finally:
            for it in agents:
                it.end()
            server.shutdown()
            server.server_close()


def is_listening(port):
    """Whether somebody takes connections at a port."""
    try:
        socket.create_connection((HOST, port), 5).close()
        return True
    except OSError:
        return False
