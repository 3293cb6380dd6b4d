"""Checks of the recipe for nginx: the servers of an upstream are the members that live."""

import importlib.util
import pathlib
import threading
import time
from itertools import pairwise
from types import SimpleNamespace

from balanced import BESIDE, RECIPES, SERVICES, Balanced, Process, Served, own_folder, without_rights
from checks import NOTES, needed
from packets import HOST
from running import wait_until

UPSTREAM, FILE = RECIPES / "nginx" / "upstream.py", RECIPES / "nginx" / "nginx.conf"
# How soon nginx may follow, in seconds: the script looks once a second at most. And how soon behind a new start of its
# node, whose changes `lg watch` may miss: it looks every five seconds then.
WITHIN, LATER = 4, 12
# What the site of the recipe needs around it, if nginx has a folder of its own and no right.
AROUND = """\
daemon off;
worker_processes 2;
pid nginx.pid;
error_log errors;
events {{}}
http {{
    access_log off;
    client_body_temp_path body;
    proxy_temp_path proxied;
    fastcgi_temp_path fastcgi;
    uwsgi_temp_path uwsgi;
    scgi_temp_path scgi;
    {site}
}}
"""


def tool():
    """The path of nginx, which Debian keeps where only root looks."""
    return needed("nginx", "/usr/sbin/nginx")


def lines_of(servers, port):
    """What the file has of these servers."""
    return "".join(f"server {SERVICES[name]}:{port}; # {name}\n" for name in sorted(servers))


class Noting:
    """A command that does what is behind it, and notes what the file of the servers has whenever it is called."""

    def __init__(self, folder, file):
        self.path = pathlib.Path(f"{folder}/noting")
        self.path.write_text(f'#!/bin/sh\n{{ tr "\\n" " " <"{file}"; echo; }} >>"$0.calls"\nexec "$@"\n')
        self.path.chmod(0o755)

    def calls(self):
        """The names of the servers at each call."""
        try:
            lines = pathlib.Path(f"{self.path}.calls").read_text().splitlines()
        except FileNotFoundError:
            return []
        return [[word for word in line.split() if word in SERVICES] for line in lines]

    def waited_for(self, names, seconds):
        """In how many seconds the last call had these servers, and what is wrong with the calls: that didn't come, or
        two calls one behind another had the same servers."""
        took = wait_until(lambda: self.calls()[-1:] == [names], seconds)
        calls = self.calls()
        if took is None or any(it == before for before, it in pairwise(calls)):
            return took, f"wanted a call with {names} within {seconds} s, the calls had {calls}"
        return took, None


class Behind(Balanced):
    """nginx before the services, with the site of the recipe but for its places, and the script of the recipe."""

    def begin(self):
        self.file = pathlib.Path(f"{self.folder}/web")
        self.file.write_text(lines_of(SERVICES, self.services.port))
        site = FILE.read_text(encoding="utf-8")
        for old, new in {"listen 80;": f"listen {HOST}:{self.front};", "/var/lib/lg-upstream/web": self.file}.items():
            if site.count(old) != 1:
                raise RuntimeError(f"{old!r} doesn't stand once in {FILE.name}")
            site = site.replace(old, str(new))
        pathlib.Path(f"{self.folder}/nginx.conf").write_text(AROUND.format(site=site))
        self.call = [tool(), "-p", self.folder, "-c", "nginx.conf", "-e", "errors"]
        self.processes["nginx"] = Process(self.folder, self.call, **without_rights(self.folder))
        if wait_until(lambda: self.reached() == set(SERVICES), 10) is None:
            raise RuntimeError(f"at first requests reach {self.reached()}: {self.processes['nginx'].told()}")
        self.noting = Noting(self.folder, self.file)
        self.processes["upstream"] = started(self.program, self.group, self.services.port, self.folder, self.file,
                                             self.noting.path, *self.call, "-s", "reload")
        if fault := self.noting.waited_for(list(SERVICES), LATER)[1]:
            raise RuntimeError(f"at first: {fault}; {self.processes['upstream'].told()}")


def started(program, group, port, folder, file, *command):
    """The script of the recipe beside the node of the balancer, which was just started."""
    at = f"{HOST}:{group.status[BESIDE]}"
    return Process(folder, [UPSTREAM, "--names", "web-*", "--port", port, "--at", at, "--lg", program, file, *command])


def fault_of_drop(behind, names):
    """What is wrong once the node has told that these members live and no others: soon nginx was called while the file
    had their servers. Then requests reach these, and no other service gets one."""
    took, fault = behind.noting.waited_for(names, WITHIN)
    if fault:
        return f"{fault}; {behind.processes['upstream'].told()}"
    NOTES.append(f"{', '.join(names)} after {took * 1000:.0f} ms")
    if fault := behind.fault_of_reaching(*names):
        return fault
    before = behind.services.counts()
    behind.reached(30)
    counts = behind.services.counts()
    grown = [name for name, count in counts.items() if count > before[name]]
    return None if grown == names else f"the counts of requests went from {before} to {counts}"


def nginx_follows_the_group(program):
    """Requests to nginx are balanced over the services of those that live. The service of a member that is killed gets
    none, though it goes on, and gets some again when the member is back. nginx is called once at the start, and then
    only for other servers than before."""
    tool()
    with Behind(program) as it:
        it.group.kill("web-3")
        it.group.wait_for_statuses(web_3="failed")
        if fault := fault_of_drop(it, ["web-1", "web-2"]):
            return f"web-3 was killed: {fault}"
        it.group.start("web-3")
        it.group.wait_for_statuses()
        if fault := fault_of_drop(it, list(SERVICES)):
            return f"web-3 came back: {fault}"
        it.group.kill("web-1", "web-2")
        it.group.wait_for_statuses(web_1="failed", web_2="failed")
        fault = fault_of_drop(it, ["web-3"])
        return fault and f"two were killed: {fault}"


# ---- The script by itself


class Reader:
    """Reads a file again and again, and keeps the texts that it finds, each once."""

    def __init__(self, path):
        self.path, self.is_open, self.texts = path, True, []
        self.thread = threading.Thread(target=self.run)
        self.thread.start()

    def run(self):
        while self.is_open:
            text = self.path.read_text()
            if text not in self.texts[-1:]:
                self.texts.append(text)
            time.sleep(0.002)

    def close(self):
        self.is_open = False
        self.thread.join()


def fault_of_steps(group, upstream, noting, names):
    """What is wrong with the servers of the script while the node beside it isn't there yet, is killed and is started
    again, and while all others have failed."""
    if wait_until(lambda: "no members" in upstream.told(), 10) is None or noting.calls():
        return f"without a node: {noting.calls()}, {upstream.told()}"
    group.start(BESIDE)
    group.wait_for_statuses()
    if fault := noting.waited_for(names, LATER)[1]:
        return f"the node was started: {fault}; {upstream.told()}"
    calls = noting.calls()
    group.kill(BESIDE)
    if wait_until(lambda: "no members" in upstream.told().splitlines()[-1], LATER) is None:
        return f"the node was killed: {upstream.told()}"
    group.start(BESIDE)
    group.wait_for_statuses()
    time.sleep(2)
    if noting.calls() != calls:
        return f"the node was started again: {noting.calls()}, {upstream.told()}"
    group.kill("web-2")
    group.wait_for_statuses(web_2="failed")
    if fault := noting.waited_for(["web-1", "web-3"], LATER)[1]:
        return f"web-2 was killed: {fault}; {upstream.told()}"
    group.kill("web-1", "web-3")
    group.wait_for_statuses(web_1="failed", web_2="failed", web_3="failed")
    if fault := noting.waited_for(names, LATER)[1]:
        return f"all have failed: {fault}; {upstream.told()}"
    return None if upstream.is_running() else f"the script has ended: {upstream.told()}"


def upstream_is_never_empty(program):
    """The script waits for a node that isn't there yet, changes nothing while that is away and after it has come back,
    and has all servers when all have failed. The file has a server whenever it is read."""
    port = 80
    with own_folder() as folder, Served(program) as group:
        group.wait_for_statuses()
        group.kill(BESIDE)
        file = pathlib.Path(f"{folder}/web")
        file.write_text("server 127.0.0.9:80;\n")
        noting, reader = Noting(folder, file), Reader(file)
        upstream = started(program, group, port, folder, file, noting.path, "true")
        try:
            fault = fault_of_steps(group, upstream, noting, list(SERVICES))
        finally:
            status = upstream.end()
            reader.close()
        bad = [it for it in reader.texts if not it.startswith("server ") or not it.endswith("\n")]
        if fault or bad or status:
            return fault or f"the script ended with {status}, and a reader of the file found {bad}"
    return None


def fault_of_wanted(script, upstream):
    """What is wrong with the servers that a script wants by some tables."""
    def row(name, status):
        return {"name": name, "status": status, "address": SERVICES.get(name, "2001:db8::1")}

    web = {name: f"{address}:80" for name, address in SERVICES.items()}
    upstream.servers = dict(web)
    tables = [
        ("all alive", [row(it, "alive") for it in web], web),
        ("a suspect", [row(it, "suspect") for it in web], web),
        ("one failed, one left", [row("web-1", "alive"), row("web-2", "failed"), row("web-3", "left")],
         {"web-1": web["web-1"]}),
        ("one failed, one isn't listed", [row("web-1", "alive"), row("web-2", "failed")],
         {"web-1": web["web-1"], "web-3": web["web-3"]}),
        ("nobody is listed", [], web),
        ("all failed or left", [row("web-1", "failed"), row("web-2", "failed"), row("web-3", "left")],
         {"web-1": web["web-1"], "web-2": web["web-2"]}),
        ("all left", [row(it, "left") for it in web], {}),
        ("one of IPv6", [row(it, "alive") for it in [*web, "web-6"]], web | {"web-6": "[2001:db8::1]:80"}),
    ]
    for what, rows, wanted in tables:
        upstream.unlisted = {}
        if (got := upstream.wanted(rows)) != wanted:
            return f"{what}: got {got}, wanted {wanted}"
    upstream.unlisted = {"web-3": time.monotonic() - script.GRACE}
    got = upstream.wanted([row("web-1", "alive"), row("web-2", "alive")])
    return None if set(got) == {"web-1", "web-2"} else f"one isn't listed for long: got {got}"


def upstream_wants_who_lives(_):
    """The servers that the script wants by a table: those that live, and those that the node hasn't listed for a short
    time."""
    spec = importlib.util.spec_from_file_location("upstream", UPSTREAM)
    script = importlib.util.module_from_spec(spec)
    spec.loader.exec_module(script)
    words = SimpleNamespace(file="/nowhere/web", port=80)
    return fault_of_wanted(script, script.Upstream(words))


def failed_command_is_run_again(program):
    """A COMMAND that fails is run again, and once it has succeeded it isn't."""
    with own_folder() as folder, Served(program) as group:
        group.wait_for_statuses()
        file = pathlib.Path(f"{folder}/web")
        noting = Noting(folder, file)
        # It fails as long as this file isn't there.
        upstream = started(program, group, 80, folder, file, noting.path, "test", "-e", f"{folder}/well")
        try:
            if wait_until(lambda: "failed" in upstream.told(), 10) is None or not noting.calls():
                return f"it is called {noting.calls()}: {upstream.told()}"
            pathlib.Path(f"{folder}/well").touch()
            failed = len(noting.calls())
            if wait_until(lambda: len(noting.calls()) > failed, LATER) is None:
                return f"it is called {noting.calls()}: {upstream.told()}"
            # It looks once more in that time.
            time.sleep(5.5)
            again = len(noting.calls()) - failed
            return None if again == 1 else f"it is called {again} times once it may succeed: {upstream.told()}"
        finally:
            upstream.end()
