"""Checks of the recipe for scripts: a command is run whenever a member has another status. And of the scripts' text."""

import http.client
import os
import pathlib
import re
import shutil
import subprocess
import time
from contextlib import suppress

from balanced import FORGETS, RECIPES, Process, own_folder
from checks import needed
from group import AskedGroup
from packets import HOST
from page import status_at
from running import PATIENCE, end_with_parent, wait_until

ON_CHANGE, FRAGMENT = RECIPES / "script" / "on-change", RECIPES / "script" / "keepalived.conf"
NAMES = ["a", "b", "c"]
# How soon the command is run, in seconds, also behind a new start of b, whose changes `lg watch` may miss: the script
# looks every five seconds then.
LATER = 12
KEYS = f"{FORGETS}interval_ms = 200\ntimeout_ms = 100\nalpha = 10\npull_ms = 1000\n"


class Noting:
    """The script of the recipe beside b, which was just started, with a command that notes its words in a file."""

    def __init__(self, program, group, folder):
        self.file = pathlib.Path(f"{folder}/noted")
        command = pathlib.Path(f"{folder}/note")
        # It also notes what it can read, which should be nothing.
        command.write_text(f'#!/bin/sh\necho "$*" >>"{self.file}"\ncat >>"{self.file}"\nexit 1\n')
        command.chmod(0o755)
        at = f"{HOST}:{group.status['b']}"
        self.process = Process(folder, [ON_CHANGE, "--at", at, command, "lg:"], env={**os.environ, "LG": program})

    def noted(self, name):
        """The statuses of a member in the calls, in order."""
        return [words[2] for words in self.calls() if words[1:2] == [name]]

    def calls(self):
        """The words of each call, in order."""
        try:
            return [line.split() for line in self.file.read_text().splitlines()]
        except FileNotFoundError:
            return []

    def ends(self, name):
        """How a member ended and came back in the calls. That it was suspected in vain doesn't count: a busy machine
        may bring that about."""
        found = []
        for status in self.noted(name):
            if status != "suspect" and status != (found or ["alive"])[-1]:
                found.append(status)
        return found

    def fault_of(self, what, name, *wanted):
        """What is wrong with the calls so far: soon a member has ended and come back in them so."""
        if wait_until(lambda: self.ends(name) == list(wanted), LATER) is None:
            return f"{what}: it was called with {self.calls()}, wanted {wanted}; it told {self.process.told()}"
        return None

    def fault_of_words(self, group):
        """What is wrong with the words of the calls. None of a member begins with one that it is alive, as all were at
        the start."""
        for words in self.calls():
            place = f"{HOST}:{group.own.get(words[1])}"
            if words != ["lg:", words[1], words[2], words[3], place] or not words[3].isdigit():
                return f"it was called with {words}"
        first = {name: self.noted(name)[:1] for name in NAMES}
        return f"the first call of each is {first}" if ["alive"] in first.values() else None


def listed(group, name, status):
    """Waits until b lists a member with this status."""
    def is_so():
        try:
            return status_at(group, "b", name) == status
        except (OSError, RuntimeError, http.client.HTTPException):
            return False

    if wait_until(is_so, PATIENCE) is None:
        raise RuntimeError(f"b doesn't list {name} as {status}")


def is_watched(group):
    """Whether a `lg watch` of b runs."""
    at, found = f"{HOST}:{group.status['b']}".encode(), False
    for it in pathlib.Path("/proc").glob("[0-9]*/cmdline"):
        # A process may end meanwhile.
        with suppress(OSError):
            found |= it.read_bytes().split(b"\0")[1:4] == [b"watch", b"--at", at]
    return found


def fault_of_changes(group, script):
    """What is wrong with the calls of the script beside b while a is killed and comes back, also while b is killed and
    starts again."""
    group.nodes["a"].kill()
    listed(group, "a", "failed")
    fault = script.fault_of("a was killed", "a", "failed")
    if fault or "suspect" not in script.noted("a"):
        return fault or f"it wasn't told that a is suspected: {script.calls()}"
    group.nodes["a"] = group.started("a")
    listed(group, "a", "alive")
    if fault := script.fault_of("a came back", "a", "failed", "alive"):
        return fault
    group.nodes["b"].kill()
    group.nodes["b"] = group.started("b")
    for name in NAMES:
        listed(group, name, "alive")
    if fault := script.fault_of("b was started again", "a", "failed", "alive"):
        return fault
    group.nodes["a"].kill()
    listed(group, "a", "failed")
    return script.fault_of("a was killed again", "a", "failed", "alive", "failed") or script.fault_of_words(group)


def script_tells_each_change(program):
    """The command is run for each change of a, also if it fails, and not for the table at the start. A node that is
    started again is waited for and is no change. At its end the script leaves no `lg watch` behind."""
    with own_folder() as folder, AskedGroup(program, NAMES, KEYS) as group:
        if wait_until(group.is_whole, PATIENCE) is None:
            return group.difference(dict.fromkeys(NAMES, "alive"))
        script = Noting(program, group, folder)
        try:
            if wait_until(lambda: is_watched(group), 10) is None:
                return f"no `lg watch` runs: {script.process.told()}"
            # It reads its first table.
            time.sleep(0.5)
            fault = fault_of_changes(group, script)
        finally:
            status = script.process.end()
        if fault or status != 143:
            return fault or f"it ended with {status}"
        return "its `lg watch` still runs" if wait_until(lambda: not is_watched(group), 5) is None else None


def script_waits_for_a_node(program):
    """A node that isn't there yet is waited for."""
    with own_folder() as folder, AskedGroup(program, NAMES, KEYS) as group:
        if wait_until(group.is_whole, PATIENCE) is None:
            return group.difference(dict.fromkeys(NAMES, "alive"))
        group.nodes["b"].kill()
        script = Noting(program, group, folder)
        try:
            time.sleep(1.5)
            if not script.process.is_running() or script.calls():
                return f"without a node it noted {script.calls()}, and told {script.process.told()}"
            group.nodes["b"] = group.started("b")
            for name in NAMES:
                listed(group, name, "alive")
            if wait_until(lambda: is_watched(group), 10) is None:
                return f"no `lg watch` runs: {script.process.told()}"
            time.sleep(0.5)
            group.nodes["c"].kill()
            listed(group, "c", "failed")
            return script.fault_of("c was killed", "c", "failed")
        finally:
            script.process.end()


def script_refuses_other_words(_):
    """Without a command, or with another option, it says how it is called."""
    for words in ([], ["--at"], ["--at", f"{HOST}:1"], ["--help"], ["--at", f"{HOST}:1", "-x", "true"]):
        how = {"capture_output": True, "text": True, "timeout": 10, "preexec_fn": end_with_parent}
        ran = subprocess.run([ON_CHANGE, *words], **how)
        if ran.returncode != 2 or not ran.stderr.startswith("usage: ") or ran.stdout:
            return f"{words}: {ran}"
    return None


def fragment_asks_for_health(program):
    """What the fragment for keepalived calls ends with 0 while a node answers, and with another status once it has
    ended."""
    needed("curl")
    words = re.search(r'^ +script "(.*)"$', FRAGMENT.read_text(), re.MULTILINE)[1].split()
    with AskedGroup(program, ["b"], KEYS) as group:
        words = [needed("curl"), *(it.replace("127.0.0.1:8946", f"{HOST}:{group.status['b']}") for it in words[1:])]
        if wait_until(lambda: subprocess.run(words, check=False).returncode == 0, 20) is None:
            return f"{words} fails though the node answers"
        group.nodes["b"].kill()
        ran = subprocess.run(words, capture_output=True, check=False)
        return None if ran.returncode == 7 and not ran.stdout else f"{words} gives {ran} though the node has ended"


def shell_scripts_please_shellcheck(_):
    """shellcheck finds nothing in the scripts of the recipes that are for a shell."""
    tool = needed("shellcheck")
    texts = {it: it.read_bytes() for it in RECIPES.rglob("*") if it.is_file()}
    scripts = [it for it, text in texts.items() if re.match(rb"#!.*\b(sh|bash)\n", text)]
    ran = subprocess.run([tool, "--norc", *scripts], capture_output=True, text=True, check=False)
    return f"{ran.stdout}{ran.stderr}" if ran.returncode or not scripts else None


# The units of others on which those of the page stand.
STUBS = ["sysinit.target", "basic.target", "shutdown.target", "multi-user.target", "lg.service", "nginx.service"]
STUB = "[Unit]\nDescription=It stands for another\n[Service]\nExecStart=/usr/local/lib/lg/agent.py\n"


def units_of_the_page_please_systemd(_):
    """systemd-analyze finds nothing wrong with the units that the page of the recipes shows, and what they call is
    there."""
    analyze = needed("systemd-analyze")
    page = (RECIPES / "README.md").read_text(encoding="utf-8")
    units = re.findall(r"```ini\n# /etc/systemd/system/(\S+)\n(.*?)```\n", page, re.DOTALL)
    with own_folder() as folder:
        root = pathlib.Path(f"{folder}/root")
        scripts, others = root / "usr/local/lib/lg", root / "usr/lib/systemd/system"
        for it in (scripts, others):
            it.mkdir(parents=True)
        for it in [*RECIPES.glob("*/*.py"), ON_CHANGE]:
            shutil.copy(it, scripts)
        for name in STUBS:
            (others / name).write_text(STUB if name.endswith(".service") else STUB.partition("[Service]")[0])
        for name, text in units:
            (others / name).write_text(text)
        words = [analyze, "verify", "--man=no", f"--root={root}", *(name for name, _ in units)]
        ran = subprocess.run(words, capture_output=True, text=True, timeout=60, check=False)
    told = f"{ran.stdout}{ran.stderr}"
    return f"of {len(units)} units it says {told}" if ran.returncode or told or len(units) != 2 else None
