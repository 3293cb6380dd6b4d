"""Groups behind a load balancer: each member but one has a service beside it, and the last one is beside the balancer.

All addresses are loopback ones: the balancer and the node beside it are at 127.0.0.1, and each other member and its
service at one of their own.
"""

import http.client
import http.server
import json
import os
import pathlib
import shutil
import signal
import subprocess
import tempfile
import threading
from contextlib import ExitStack, closing, contextmanager

from asking import asked_for, by_python
from group import AskedGroup
from packets import HOST
from running import LIBC, PATIENCE, PR_SET_PDEATHSIG, Node, free_status_ports, wait_until

RECIPES = pathlib.Path(__file__).resolve().parent.parent / "recipes"
# The member beside the balancer, and those that have services, with the addresses of these.
BESIDE = "lb"
SERVICES = {"web-1": "127.0.0.2", "web-2": "127.0.0.3", "web-3": "127.0.0.4"}
# As `lg init` has it, but rounds and suspicions are short, so that a death is soon known.
FORGETS = "wire = 3\nforget_ms = 86400000\n"
KEYS = f"{FORGETS}interval_ms = 200\ntimeout_ms = 100\nalpha = 5\npull_ms = 1000\n"
# How many requests in a row are enough to reach each service, and how long a balancer may take to follow its node.
ENOUGH, SOON = 12, 2
# The user without rights.
NOBODY = 65_534


# ---- Members


class Served(AskedGroup):
    """The group, whose members are each at an address of their own. All have the places of the first two as seeds."""

    def __init__(self, program):
        super().__init__(program, [BESIDE, *SERVICES], KEYS)

    def started(self, name):
        places = [f"{SERVICES.get(it, HOST)}:{self.own[it]}" for it in list(self.own)[:2]]
        text = "".join([f'name = "{name}"\naddress = "{SERVICES.get(name, HOST)}"\nport = {self.own[name]}\n',
                        f"seeds = {json.dumps(places)}\n", self.keys_of(name)])
        return Node(self.program, text, *self.options)

    def statuses(self):
        """The status of each member by the node beside the balancer. Nothing if it doesn't answer."""
        try:
            return {it["name"]: it["status"] for it in asked_for(self.status[BESIDE], "/v1/members")["members"]}
        except (OSError, http.client.HTTPException):
            return {}

    def wait_for_statuses(self, **wanted):
        """Waits until the node beside the balancer lists these statuses, by names with `_` in place of `-`. A member
        that isn't named has to be alive. If they don't come, the check fails."""
        wanted = dict.fromkeys(self.own, "alive") | {name.replace("_", "-"): it for name, it in wanted.items()}
        if wait_until(lambda: self.statuses() == wanted, PATIENCE) is None:
            raise RuntimeError(f"the node beside the balancer lists {self.statuses()}, wanted {wanted}")

    def kill(self, *names):
        """Ends the nodes of these names by SIGKILL."""
        for name in names:
            self.nodes[name].kill()

    def start(self, *names):
        """Starts the nodes of these names again."""
        for name in names:
            self.nodes[name] = self.started(name)


# ---- Services


class Answering(http.server.BaseHTTPRequestHandler):
    """A service: it answers its name, and counts."""

    def do_GET(self):
        self.server.count += 1
        body = self.server.name.encode()
        self.send_response(200)
        self.send_header("content-length", str(len(body)))
        self.end_headers()
        self.wfile.write(body)

    def log_message(self, *_):
        pass


class Services:
    """The services, which all listen at one port, each at its address."""

    def __init__(self):
        [self.port] = free_status_ports(1)
        self.servers = {}
        for name, address in SERVICES.items():
            server = http.server.ThreadingHTTPServer((address, self.port), Answering)
            server.name, server.count = name, 0
            self.servers[name] = server
            threading.Thread(target=server.serve_forever, kwargs={"poll_interval": 0.1}, daemon=True).start()

    def counts(self):
        """How many requests have reached each."""
        return {name: it.count for name, it in self.servers.items()}

    def close(self):
        for server in self.servers.values():
            server.shutdown()
            server.server_close()


# ---- Processes


def told_to_end_with_parent():
    """Lets the system tell this process by SIGTERM that the one that started it has ended, so that it can end those
    that it has started itself."""
    LIBC.prctl(PR_SET_PDEATHSIG, signal.SIGTERM)


def without_rights(folder):
    """What starts a process as a user who may write into this folder, and has no right. If this one isn't root, it has
    none either."""
    if os.geteuid():
        return {}
    os.chown(folder, NOBODY, NOBODY)
    return {"user": NOBODY, "group": NOBODY, "extra_groups": []}


class Process:
    """A process of the recipe or of the balancer, whose lines go to a file."""

    def __init__(self, folder, words, **how):
        self.path = f"{folder}/{os.path.basename(words[0])}.told"
        with open(self.path, "ab") as told:
            how |= {"stdin": subprocess.DEVNULL, "stdout": told, "stderr": told, "preexec_fn": told_to_end_with_parent}
            self.process = subprocess.Popen([str(it) for it in words], **how)

    def told(self):
        """What it has told, the last thousand bytes of it."""
        return pathlib.Path(self.path).read_text(errors="replace")[-1000:]

    def is_running(self):
        return self.process.poll() is None

    def kill(self):
        """Ends it by SIGKILL."""
        self.process.kill()
        self.process.wait()

    def end(self):
        """Ends it by SIGTERM, or kills it if it doesn't end in ten seconds. Gives its status."""
        self.process.terminate()
        try:
            return self.process.wait(10)
        except subprocess.TimeoutExpired:
            self.kill()
            return "it didn't end"


@contextmanager
def own_folder():
    """A folder that anybody may read, and that is gone behind this."""
    folder = tempfile.mkdtemp(prefix="lg-recipes-")
    os.chmod(folder, 0o755)
    try:
        yield folder
    finally:
        shutil.rmtree(folder, ignore_errors=True)


class Balanced:
    """A group with its services, and a balancer before these, at its port `front`. Its processes are in `processes`,
    and have a folder."""

    def __init__(self, program):
        self.program, self.processes = program, {}
        [self.front] = free_status_ports(1)

    def __enter__(self):
        with ExitStack() as stack:
            self.folder = stack.enter_context(own_folder())
            self.services = stack.enter_context(closing(Services()))
            self.group = stack.enter_context(Served(self.program))
            stack.callback(self.end_processes)
            self.group.wait_for_statuses()
            self.begin()
            self.opened = stack.pop_all()
        return self

    def __exit__(self, *_):
        self.opened.close()

    def end_processes(self):
        for it in self.processes.values():
            it.end()

    def reached(self, count=ENOUGH):
        """The names of the services that so many requests reach, one after another. A request that fails gives its
        code, or how it failed."""
        found = set()
        for _ in range(count):
            try:
                answer = by_python(self.front, "/")
                found.add(answer.body.decode() if answer.code == 200 else answer.code)
            except (OSError, http.client.HTTPException) as fault:
                found.add(repr(fault))
        return found

    def fault_of_reaching(self, *names):
        """What is wrong with the services that requests reach within the time that a balancer may take: they should be
        those of these names. It goes on to be so for some requests."""
        wait_until(lambda: self.reached() == set(names), SOON)
        reached = self.reached(3 * ENOUGH)
        told = "; ".join(f"{name} told {it.told()!r}" for name, it in self.processes.items())
        return None if reached == set(names) else f"requests reach {reached}, wanted {set(names)}; {told}"
