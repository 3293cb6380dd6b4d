"""What the checks of the package work on: folders with what was built, into which it is installed, and nodes of it."""

import glob
import os
import re
import shutil
import subprocess
import sys
from functools import cached_property

TOP = os.path.dirname(os.path.dirname(os.path.realpath(__file__)))
sys.path[:0] = [f"{TOP}/cases"]
from checks import Skipped, needed  # noqa: E402 (its folder had to be named first)
from running import end_with_parent, free_ports, free_status_ports, wait_until  # noqa: E402

NAME = "lifeguard-agent"
CONFIGURATION = "etc/lg/lg.toml"
SECONDS = 120


def called(*words, **how):
    """What a call writes, if its status is 0."""
    how |= {"stdin": subprocess.DEVNULL, "stdout": subprocess.PIPE, "stderr": subprocess.STDOUT, "timeout": SECONDS}
    it = subprocess.run(words, check=False, **how)
    if it.returncode:
        raise RuntimeError(f"{words[0]} ends with status {it.returncode}: {it.stdout.decode(errors='replace')[-600:]}")
    return it.stdout


def text_of(path):
    with open(path, encoding="utf-8") as it:
        return it.read()


def has_commit():
    """Whether git tells of which commit this text is. An archive has none, and git refuses a folder of another user."""
    words = ("git", "rev-parse", "--verify", "--quiet", "HEAD")
    return subprocess.run(words, cwd=TOP, capture_output=True, check=False).returncode == 0


def shared_files():
    """The files of the folders whose files are installed beside the documents, but for tests. None without git."""
    if not shutil.which("git") or not has_commit():
        return []
    listed = called("git", "ls-files", "watching", "recipes", "clients", cwd=TOP).decode().splitlines()
    return [it for it in listed if "/tests/" not in it and "/." not in it and not it.endswith("_test.go")]


def put(path, text):
    with open(path, "w", encoding="utf-8") as it:
        it.write(text)


class Room:
    """A folder with what was built, and with copies of it."""

    def __init__(self, folder, program):
        self.folder, self.program, self.roots = folder, program, 0

    @cached_property
    def first(self):
        """The folder of the first build."""
        words = ["--program", self.program] if self.program else []
        return self.build("first", words)

    def build(self, name, words, umask=-1, **env):
        """Builds into a folder of this name. Gives its path. What an end of this script interrupts lies in the room."""
        needed("dpkg-deb")
        needed("git")
        if not has_commit():
            raise Skipped("git tells no commit of this text")
        into = f"{self.folder}/{name}"
        called(f"{TOP}/package", *words, "--into", into, umask=umask, env={**os.environ, "TMPDIR": self.folder, **env})
        return into

    @cached_property
    def deb(self):
        """The path of the package."""
        return glob.glob(f"{self.first}/*.deb")[0]

    @cached_property
    def unpacked(self):
        """A folder with what the package installs."""
        root = f"{self.folder}/unpacked"
        called("dpkg-deb", "-x", self.deb, root)
        return root

    def altered(self, name, line=""):
        """The path of a package that is the next version of the first one, whose configuration has a further line."""
        made = f"{self.folder}/{name}"
        # A check that is tried again has made it before.
        shutil.rmtree(made, ignore_errors=True)
        called("dpkg-deb", "-R", self.deb, made)
        control = f"{made}/DEBIAN/control"
        put(control, re.sub(r"(?m)^(Version: .*)$", r"\1+1", text_of(control)))
        put(f"{made}/{CONFIGURATION}", text_of(f"{made}/{CONFIGURATION}") + line)
        called("dpkg-deb", "--root-owner-group", "-Znone", "--build", made, f"{made}.deb")
        return f"{made}.deb"

    def root(self):
        """A folder in which the package is installed, with a database of dpkg of its own."""
        deb = self.deb
        self.roots += 1
        it = Root(f"{self.folder}/root{self.roots}")
        it.dpkg("--install", deb)
        return it


class Root:
    """A folder into which dpkg installs."""

    def __init__(self, folder):
        self.folder = folder
        for it in ("info", "updates", "triggers"):
            os.makedirs(f"{folder}/var/lib/dpkg/{it}")
        put(f"{folder}/var/lib/dpkg/status", "")

    def dpkg(self, *words):
        """A call of dpkg over the folder. Its log lies there too, since the machine's settings may name the machine's.
        They may also leave documents out. The libraries of the machine aren't in the folder."""
        dpkg = needed("dpkg")
        forced = ("not-root", "script-chrootless", "depends", "bad-path", "confold")
        options = [f"--root={self.folder}", f"--log={self.folder}/var/log", "--path-include=/*"]
        called(dpkg, *options, *(f"--force-{it}" for it in forced), *words, env={**os.environ, "LC_ALL": "C.UTF-8"})

    def files(self):
        """The paths of what dpkg has put into the folder."""
        found = [f"{at}/{it}"[len(self.folder) + 1 :] for at, _, names in os.walk(self.folder) for it in names]
        return sorted(it for it in found if not it.startswith("var/"))

    def configuration(self):
        return text_of(f"{self.folder}/{CONFIGURATION}")

    def edit(self):
        """Edits the configuration. Gives its text."""
        put(f"{self.folder}/{CONFIGURATION}", self.configuration().replace('name = "a"', 'name = "web-1"'))
        return self.configuration()


class Node:
    """A node of the installed program, with a file of its own, that seeks a host. It is ended behind the check, and by
    itself after a minute."""

    def __init__(self, room, before=(), name="b"):
        self.room = room
        (port,), (self.status,) = free_ports(1), free_status_ports(1)
        self.file = f"{room.folder}/node{port}.toml"
        rows = [f'name = "{name}"', f"port = {port}", f'status = "127.0.0.1:{self.status}"', 'seeds = ["localhost:9"]']
        put(self.file, "\n".join([*rows, "wire = 3", "interval_ms = 100", "timeout_ms = 50", ""]))
        words = [*before, f"{room.unpacked}/usr/bin/lg", "node", "--config", self.file, "--for-ms", "60000"]
        # An unproved try looks for leaks at its end, which a trace forbids.
        how = {"env": {**os.environ, "ASAN_OPTIONS": "detect_leaks=0"}, "preexec_fn": end_with_parent}
        silent = dict.fromkeys(("stdin", "stdout", "stderr"), subprocess.DEVNULL)
        self.process = subprocess.Popen(words, **silent, **how)

    def __enter__(self):
        if wait_until(self.answers, 30) is None:
            self.__exit__()
            raise RuntimeError("the node doesn't answer over HTTP")
        return self

    def __exit__(self, *_):
        self.process.kill()
        self.process.wait()

    def answers(self):
        """Whether the node answers over HTTP."""
        words = (f"{self.room.unpacked}/usr/bin/lg", "status", "--at", f"127.0.0.1:{self.status}")
        return subprocess.run(words, capture_output=True, check=False).returncode == 0 or None

    def leave(self):
        """Asks the node to leave as its unit does, and waits until it has ended."""
        called(f"{self.room.unpacked}/usr/libexec/{NAME}/leave", self.file)
        if self.process.wait(SECONDS):
            raise RuntimeError(f"the node ended with status {self.process.returncode}")
