"""Whole groups of nodes on this machine: how soon all know all, how soon a death is known, and what that costs."""

import os
import selectors
import statistics
import sys
import time
from collections.abc import Callable, Iterator
from contextlib import contextmanager
from dataclasses import dataclass, field
from pathlib import Path
from subprocess import DEVNULL, PIPE, Popen
from typing import Generic, TypeVar

FIRST_PORT = 17400
# How long a group is waited for at most, and how long it rests before it is measured at rest, in seconds.
PATIENCE = 120.0
CALM, REST = 35.0, 30.0
# How long a round is, in seconds: the default of both programs.
ROUND = 1.0
# For how many seconds a node runs if nobody ends it before.
LASTS = 600


@dataclass
class Told:
    """What one node has told of its members: of each what came last, `alive`, `suspect`, `failed` or `left`."""

    process: Popen
    rest: bytes = b""
    members: dict[str, str] = field(default_factory=dict)

    def take(self, data: bytes) -> None:
        *lines, self.rest = (self.rest + data).split(b"\n")
        for line in lines:
            self.hear(line.decode().split())

    def hear(self, words: list[str]) -> None:
        """Takes the words of a line."""
        if len(words) >= 4 and words[1] == "record":
            self.members[words[2]] = words[3]
        elif len(words) == 3 and words[1] == "forgotten":
            self.members.pop(words[2], None)
        elif len(words) == 2 and words[1] == "missed":
            self.members.clear()
        elif len(words) == 2 and words[0] in ("join", "leave"):
            self.members[words[1]] = "alive" if words[0] == "join" else "failed"

    def seconds(self) -> float:
        """Its processor time so far."""
        fields = Path(f"/proc/{self.process.pid}/stat").read_text(encoding="utf-8").rsplit(")", 1)[1].split()
        return (int(fields[11]) + int(fields[12])) / os.sysconf("SC_CLK_TCK")


def sent() -> tuple[int, int]:
    """How many packets and bytes went over the loopback device so far, headers included."""
    for line in Path("/proc/net/dev").read_text(encoding="utf-8").splitlines():
        device, _, counts = line.partition(":")
        if device.strip() == "lo":
            return int(counts.split()[1]), int(counts.split()[0])
    return 0, 0


Teller = TypeVar("Teller", bound=Told)


class Nodes(Generic[Teller]):
    """Nodes that run, and what each has told. All that they write is read while something is waited for."""

    def __init__(self) -> None:
        self.nodes: dict[str, Teller] = {}
        self.selector = selectors.DefaultSelector()

    def add(self, name: str, node: Teller) -> None:
        output = node.process.stdout
        assert output
        os.set_blocking(output.fileno(), False)
        self.nodes[name] = node
        self.selector.register(output, selectors.EVENT_READ, node)

    def read(self, seconds: float) -> None:
        """Reads what comes, for so long."""
        end = time.monotonic() + seconds
        while (left := end - time.monotonic()) > 0:
            for key, _ in self.selector.select(left):
                if data := os.read(key.fd, 65536):
                    key.data.take(data)
                else:
                    self.selector.unregister(key.fileobj)
                    key.data.process.stdout.close()

    def end(self) -> None:
        for node in self.nodes.values():
            node.process.kill()
        for node in self.nodes.values():
            node.process.wait()


class Group(Nodes[Told]):
    """Nodes that are started at once, with the first as their seed."""

    def __init__(self, start: Callable[[str, int, int | None], list[str]], size: int):
        super().__init__()
        self.names = [f"m{place:03}" for place in range(size)]
        for place, name in enumerate(self.names):
            if place == 1:
                # A member of memberlist refuses to start if the one that it joins isn't there yet.
                time.sleep(0.3)
                self.begun = time.monotonic()
            words = start(name, FIRST_PORT + place, FIRST_PORT if place else None)
            self.add(name, Told(Popen(words, stdout=PIPE, stderr=DEVNULL)))

    def wait_until(self, since: float, holds: Callable[[Told], bool]) -> float:
        """How long after a moment it holds of each node, in seconds, or nan."""
        waiting = list(self.nodes.values())
        while time.monotonic() - since < PATIENCE:
            self.read(0.01)
            waiting = [node for node in waiting if not holds(node)]
            if not waiting:
                return time.monotonic() - since
        return float("nan")

    def all_know_all(self) -> float:
        wanted = set(self.names)
        return self.wait_until(self.begun, lambda it: {n for n, s in it.members.items() if s == "alive"} >= wanted)

    def spent(self) -> dict[str, float]:
        """The processor time of each node so far."""
        return {name: node.seconds() for name, node in self.nodes.items()}

    def meanwhile(self, during: Callable[[], float]) -> tuple[float, float, float, float]:
        """What a wait gives, with the packets and bytes that a node sent a second meanwhile, and its processor time, in
        thousandths."""
        packets, octets = sent()
        before = self.spent()
        begun = time.monotonic()
        found = during()
        took = max(time.monotonic() - begun, 0.001)
        now = sent()
        spent = sum(seconds - before[name] for name, seconds in self.spent().items())
        all_took = took * len(self.names)
        return found, (now[0] - packets) / all_took, (now[1] - octets) / all_took, spent / took / len(self.nodes) * 1000

    def at_rest(self) -> float:
        """Waits while nothing happens."""
        self.read(REST)
        return REST

    def death_known(self) -> float:
        """Kills the last member. How long it takes until each other takes it as failed."""
        name = self.names[-1]
        node = self.nodes.pop(name)
        node.process.kill()
        return self.wait_until(time.monotonic(), lambda it: it.members.get(name) == "failed")

    def wrongly_failed(self) -> int:
        """How many living members somebody takes as failed."""
        return sum(it.members.get(name) == "failed" for it in self.nodes.values() for name in self.nodes)


@dataclass
class Figures:
    """What was measured of one group."""

    whole: float
    start_packets: float
    start_bytes: float
    start_thousandths: float
    rest_packets: float
    rest_bytes: float
    rest_thousandths: float
    failed: float
    death_packets: float
    death_bytes: float
    death_thousandths: float
    wrong: int


@contextmanager
def running(start: Callable[[str, int, int | None], list[str]], size: int) -> Iterator[Group]:
    group = Group(start, size)
    try:
        yield group
    finally:
        group.end()


def measured(start: Callable[[str, int, int | None], list[str]], size: int, is_quick: bool, later: float) -> Figures:
    """Starts a group, lets it rest, and kills one member so many seconds later."""
    with running(start, size) as group:
        whole, *starting = group.meanwhile(group.all_know_all)
        group.read(5.0 if is_quick else CALM)
        _, *resting = group.meanwhile(group.at_rest)
        group.read(later)
        failed, *dying = group.meanwhile(group.death_known)
        return Figures(whole, *starting, *resting, failed, *dying, group.wrongly_failed())


def middle(runs: list[Figures]) -> Figures:
    """The median of each figure; one that wasn't reached counts as the greatest."""
    rows = [[float("inf") if it != it else it for it in vars(run).values()] for run in runs]
    return Figures(*(statistics.median(column) for column in zip(*rows)))


ROWS: list[tuple[str, Callable[[Figures], str]]] = [
    ("all know all, seconds", lambda it: f"{it.whole:.2f}"),
    ("  packets a second of a node meanwhile", lambda it: f"{it.start_packets:.1f}"),
    ("  kilobytes", lambda it: f"{it.start_bytes / 1000:.1f}"),
    ("  thousandths of a processor", lambda it: f"{it.start_thousandths:.1f}"),
    ("at rest, packets a second of a node", lambda it: f"{it.rest_packets:.1f}"),
    ("  kilobytes", lambda it: f"{it.rest_bytes / 1000:.2f}"),
    ("  thousandths of a processor", lambda it: f"{it.rest_thousandths:.2f}"),
    ("a killed one is failed at all, seconds", lambda it: f"{it.failed:.1f}"),
    ("  packets a second of a node meanwhile", lambda it: f"{it.death_packets:.1f}"),
    ("  kilobytes", lambda it: f"{it.death_bytes / 1000:.2f}"),
    ("  thousandths of a processor", lambda it: f"{it.death_thousandths:.2f}"),
    ("  others that somebody takes as failed", lambda it: f"{it.wrong:.0f}"),
]


def print_groups(
    kinds: dict[str, Callable[[str, int, int | None], list[str]]], sizes: list[int], turns: int, is_quick: bool,
    print_row: Callable[..., None],
) -> None:
    """Prints a table for each size: the medians of so many groups of each kind, one after another.

    The members of a group start at once, so their rounds go in step for long. The kills are spread evenly over a round,
    since it makes a difference of up to a round where in it a member is killed.
    """
    for size in sizes:
        print_row(f"{size} members", *kinds)
        runs: dict[str, list[Figures]] = {name: [] for name in kinds}
        for turn in range(turns):
            for name, start in kinds.items():
                runs[name].append(measured(start, size, is_quick, ROUND * turn / turns))
                print(f"{size} {name} {turn}: {runs[name][-1]}", file=sys.stderr, flush=True)
        found = [middle(each) for each in runs.values()]
        for label, spelled in ROWS:
            print_row(label, *(spelled(it) for it in found))
