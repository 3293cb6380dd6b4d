"""Nodes of the program that the variable LG names, on free ports of this machine."""

import os
import random
import socket
import subprocess

import lg_members
from fakes import until

PROGRAM = os.environ.get("LG")
# The longest that a node runs, in milliseconds, if nobody ends it.
LIFE_MS = "120000"
# How long a test waits for what nodes come to, in seconds: much longer than they take, for a machine that is busy.
PATIENCE = 60


def opened(port, kind):
    """A socket that is bound to a port. None if that is taken."""
    it = socket.socket(socket.AF_INET, kind)
    try:
        it.bind(("127.0.0.1", port))
        return it
    except OSError:
        it.close()
        return None


def free_port(kind, least, most):
    """A free port of a kind, which the machine hands out to nobody, and a socket that holds it: the port of the same
    number and of the other kind is taken as long as that is open, so others who look for one so leave it alone."""
    other = socket.SOCK_STREAM if kind == socket.SOCK_DGRAM else socket.SOCK_DGRAM
    while True:
        port = random.randrange(least, most)
        holder = opened(port, other)
        probe = holder and opened(port, kind)
        if probe:
            probe.close()
            return port, holder
        if holder:
            holder.close()


class Node:
    """A node that may be started, killed, and started again under its name and at its ports. It ends with this process,
    since its input ends then. `options` are further words of its command line."""

    def __init__(self, name, *options):
        self.name, self.options, self.process = name, options, None
        self.port, first = free_port(socket.SOCK_DGRAM, 20_000, 32_000)
        status, second = free_port(socket.SOCK_STREAM, 12_000, 16_000)
        self.at, self.holders = f"127.0.0.1:{status}", (first, second)

    def start(self, *seeds):
        """Starts it. It asks these nodes for their tables."""
        words = [it for seed in seeds for it in ("--seed", f"127.0.0.1:{seed.port}")]
        keys = ["--interval-ms", "200", "--timeout-ms", "100", "--alpha", "3", "--wire", "3", *self.options]
        self.process = subprocess.Popen(
            [PROGRAM, "node", "--name", self.name, "--port", str(self.port), "--status", self.at, *keys, *words,
             "--until-input-ends", "--for-ms", LIFE_MS],
            stdin=subprocess.PIPE, stdout=subprocess.DEVNULL, stderr=subprocess.DEVNULL)
        return self

    def wait(self):
        """Waits until it answers."""
        until(self.table, f"{self.name} doesn't answer, and its status is {self.process.poll()}", PATIENCE)

    def asked(self):
        """Its table, or None if it doesn't answer."""
        try:
            return lg_members.table(self.at)
        except lg_members.NodeError:
            return None

    def table(self):
        """The members that it knows, by their names. None if it doesn't answer."""
        table = self.asked()
        return table and {it.name: it for it in table.members}

    def version(self):
        """After how many events it is. None if it doesn't answer."""
        table = self.asked()
        return table and table.version

    def kill(self):
        """Kills it by SIGKILL, if it runs."""
        if self.process:
            self.process.kill()
            self.process.wait()
            self.process.stdin.close()

    def end(self):
        """Kills it, and gives its ports back."""
        self.kill()
        for it in self.holders:
            it.close()
