"""A day of a group in an hour: members that stay or are started again, and workers with fresh names that come and go.

Each member is followed, and judged by what all of them tell. Sixteen members run all the time. Of these the first
twelve are restarted one after another, by a leave; the last four are never, and show what memory does. Fifty workers a
minute come, each under a name that nobody had before, and run for 10 to 60 seconds. Every other one of them leaves, and
the rest are killed. All ask the first two members at their start.
"""

import heapq
import itertools
import math
import random
import sys
import time
from collections.abc import Callable
from dataclasses import dataclass, field
from pathlib import Path
from subprocess import DEVNULL, PIPE, Popen

from groups import Nodes, Told

HOST = "127.0.0.1"
FIRST_PORT = 17400
# The ports of workers begin anew behind so many. By then the name that had a port is long forgotten.
FIRST_WORKER_PORT, WORKER_PORTS = 16000, 1000

MEMBERS, STAYING, SEEDS = 16, 4, 2
WORKERS_A_MINUTE, RESTARTS_A_MINUTE = 50, 3
LEAST_LIFE, MOST_LIFE = 10.0, 60.0
# How many fresh members join at the end, one after another.
FRESH = 5
# How soon a fresh member has to be alive at all, and how long it is waited for, in seconds.
SOON, PATIENCE = 2.0, 20.0

INTERVAL_MS, FORGET_MS = 100, 60_000
# The other numbers are the defaults. The history is short, so that it is full long before memory is looked at first.
KEYS = f"wire = 3\ninterval_ms = {INTERVAL_MS}\ntimeout_ms = {INTERVAL_MS // 2}\nforget_ms = {FORGET_MS}\n"
HISTORY = "history_limit = 1000\n"
# For how many seconds a table may keep one that has ended: until its probe has failed, its suspicion has run out, which
# lasts 6.4 s at most among 128 members, and it is forgotten. The rest is for the news, and for reading the lines.
KEPT = FORGET_MS / 1000 + 8
# For how many seconds behind its leave a member that comes back counts as one that left.
COMES_BACK = 3.0


@dataclass
class Life(Told):
    """A member from one of its starts to its end: `left` or `killed`, or nothing yet."""

    name: str = ""
    begun: float = 0.0
    ended: float = math.inf
    how: str = ""
    # For how many milliseconds its clock stood still in all, as its last line tells.
    stood_still: int = 0
    # Takes what this member tells of another: the name and the status.
    tell: Callable[["Life", str, str], None] = lambda life, name, status: None
    # The members that ran all the time since this one was started, and haven't told yet that it is alive.
    waiting: list["Life"] = field(default_factory=list)
    # What was told of this member, from the first on: when, by whom, and the status.
    history: list[tuple[float, "Life", str]] = field(default_factory=list)

    def hear(self, words: list[str]) -> None:
        super().hear(words)
        if words[1:2] == ["record"]:
            self.tell(self, words[2], words[3])
        elif words[1:2] == ["stood-still"]:
            self.stood_still = int(words[2])

    def close_input(self) -> None:
        assert self.process.stdin
        self.process.stdin.close()

    def megabytes(self) -> float:
        """Resident memory."""
        text = Path(f"/proc/{self.process.pid}/status").read_text(encoding="utf-8")
        return next(int(line.split()[1]) for line in text.splitlines() if line.startswith("VmRSS:")) / 1024


@dataclass
class Counts:
    """What was counted so far. A member that left is counted by its name and the moment of its leave."""

    workers: int = 0
    leaves: int = 0
    restarts: int = 0
    failed_after_leave: set[tuple[str, float]] = field(default_factory=set)
    suspected_after_leave: set[tuple[str, float]] = field(default_factory=set)
    failed_alive: set[tuple[str, float]] = field(default_factory=set)
    # After how many seconds each worker was alive at all sixteen. One that ended before that has infinitely many.
    joins: list[float] = field(default_factory=list)
    table: int = 0
    wanted_table: int = 0
    excess: int = 0


class Day(Nodes[Life]):
    """The group, and what comes and goes. `lives` has the last life of each name, `nodes` the one that runs."""

    def __init__(self, program: str, folder: str):
        super().__init__()
        self.program, self.folder = program, folder
        self.names = [f"m{place:02}" for place in range(MEMBERS)]
        self.lives: dict[str, Life] = {}
        # When each name left last.
        self.left: dict[str, float] = {}
        self.ending: list[Life] = []
        self.counts, self.dice = Counts(), random.Random(1)
        # What is to happen, by its moment, and in the order in which it was planned.
        self.agenda: list[tuple[float, int, Callable[[], None]]] = []
        self.planned = itertools.count()
        for name in self.names:
            self.start(name)

    # --- Members that come and go

    def words(self, name: str, port: int) -> list[str]:
        """The command line of a member, whose configuration is written."""
        seeds = [(seed, FIRST_PORT + place) for place, seed in enumerate(self.names[:SEEDS]) if seed != name]
        texts = ", ".join(f'"{seed}@{HOST}:{at}"' for seed, at in seeds)
        dice = f"dice = {self.dice.getrandbits(31)}\n"
        file = Path(self.folder) / f"{name}.toml"
        file.write_text(f'name = "{name}"\nport = {port}\nseeds = [{texts}]\n{KEYS}{HISTORY}{dice}', encoding="utf-8")
        return [self.program, "node", "--config", str(file), "--follow", "--until-input-ends"]

    def start(self, name: str) -> Life:
        """Starts a member."""
        if name in self.names:
            port = FIRST_PORT + self.names.index(name)
        else:
            port = FIRST_WORKER_PORT + len(self.lives) % WORKER_PORTS
        words = self.words(name, port)
        now = time.monotonic()
        process = Popen(words, stdin=PIPE, stdout=PIPE, stderr=DEVNULL)
        life = Life(process, name=name, begun=now, tell=self.take)
        self.lives[name] = life
        self.add(name, life)
        return life

    def start_worker(self) -> None:
        """Starts a worker under a fresh name, and settles when it ends and how."""
        life = self.start(f"w{self.counts.workers:05}")
        life.waiting = [self.nodes[name] for name in self.names if name in self.nodes]
        end = self.kill if self.counts.workers % 2 else self.leave
        self.counts.workers += 1
        self.plan(life.begun + self.dice.uniform(LEAST_LIFE, MOST_LIFE), lambda: end(life))

    def finish(self, life: Life, how: str) -> None:
        """Notes that a member is about to end."""
        life.how, life.ended = how, time.monotonic()
        if life.waiting:
            self.counts.joins.append(math.inf)
        life.waiting.clear()
        del self.nodes[life.name]
        self.ending.append(life)

    def leave(self, life: Life) -> None:
        """Ends the input of a member, so that it leaves."""
        self.finish(life, "left")
        self.left[life.name] = life.ended
        self.counts.leaves += 1
        for other in self.nodes.values():
            if life in other.waiting:
                other.waiting.remove(life)
        life.close_input()

    def kill(self, life: Life) -> None:
        """Ends a member without a word to the others."""
        self.finish(life, "killed")
        life.process.kill()
        life.close_input()

    def restart(self, count: int) -> None:
        """Lets the next of the members leave, which is started again once it has ended."""
        name = self.names[count % (MEMBERS - STAYING)]
        if name in self.nodes:
            self.counts.restarts += 1
            self.leave(self.nodes[name])

    # --- What they tell

    def take(self, teller: Life, name: str, status: str) -> None:
        """Counts what a member tells of another."""
        life = self.lives.get(name)
        if life is None:
            return
        life.history.append((time.monotonic(), teller, status))
        if status == "alive" and teller in life.waiting:
            life.waiting.remove(teller)
            if not life.waiting:
                self.counts.joins.append(time.monotonic() - life.begun)
        left = self.left.get(name, -math.inf)
        has_left = life.how == "left" or time.monotonic() - left < COMES_BACK
        if status == "failed" and has_left:
            if (name, left) not in self.counts.failed_after_leave:
                self.explain(life, teller, left)
            self.counts.failed_after_leave.add((name, left))
        elif status == "failed" and not life.how:
            self.counts.failed_alive.add((name, life.begun))
        elif status == "suspect" and has_left:
            self.counts.suspected_after_leave.add((name, left))

    def explain(self, life: Life, teller: Life, left: float) -> None:
        """Says on standard error how a member came to be told as failed that left: what its teller told of it before,
        and when all others told that it had left, in seconds behind the leave."""
        own = [f"{status} {at - left:.2f}" for at, it, status in life.history if it is teller]
        others = [at - left for at, it, status in life.history if it is not teller and status == "left"]
        heard = f"{len(others)} heard of the leave, from {min(others):.2f} to {max(others):.2f}" if others else "nobody heard"
        print(f"{life.name} left and was told as failed by {teller.name}, which began {teller.begun - left:.2f}: "
              f"{', '.join(own)}; {heard}", file=sys.stderr, flush=True)

    def look(self) -> None:
        """Compares the tables of the sixteen with who lives and who ended not long ago."""
        now = time.monotonic()
        wanted = {it.name for it in self.lives.values() if now - it.ended < KEPT}
        tables = [set(self.nodes[name].members) for name in self.names if name in self.nodes]
        counts = self.counts
        counts.table = max(counts.table, *map(len, tables))
        counts.wanted_table = max(counts.wanted_table, len(wanted))
        counts.excess = max(counts.excess, *(len(table - wanted) for table in tables))

    # --- How the day goes

    def plan(self, moment: float, does: Callable[[], None]) -> None:
        heapq.heappush(self.agenda, (moment, next(self.planned), does))

    def tidy(self) -> None:
        """Lets go of who has ended, and starts those again that are to come back. Nobody may end unasked."""
        for life in [it for it in self.ending if it.process.poll() is not None]:
            self.ending.remove(life)
            if life.how == "left" and life.process.returncode:
                sys.exit(f"benches: {life.name} left, and ended with status {life.process.returncode}")
            if life.name in self.names:
                self.start(life.name)
        for name, node in self.nodes.items():
            if node.process.poll() is not None:
                sys.exit(f"benches: {name} ended by itself with status {node.process.returncode}")

    def run_until(self, end: float) -> None:
        """Lets all happen that is due until a moment."""
        while (now := time.monotonic()) < end:
            while self.agenda and self.agenda[0][0] <= now:
                heapq.heappop(self.agenda)[2]()
            self.read(0.02)
            self.tidy()

    def begin(self) -> float:
        """Waits until all know all. How long that took."""
        begun = time.monotonic()
        while any(node.members != dict.fromkeys(self.names, "alive") for node in self.nodes.values()):
            self.run_until(time.monotonic() + 0.02)
            if time.monotonic() - begun > PATIENCE:
                sys.exit("benches: the members don't know each other")
        return time.monotonic() - begun

    def megabytes(self) -> float:
        """The resident memory of those that are never started again: the mean."""
        return sum(self.nodes[name].megabytes() for name in self.names[-STAYING:]) / STAYING

    def join(self, number: int) -> float:
        """Starts a fresh member. After how many seconds it is alive at all that live."""
        others = list(self.nodes.values())
        life = self.start(f"fresh{number}")
        while any(it.members.get(life.name) != "alive" for it in others):
            self.read(0.005)
            if time.monotonic() - life.begun > PATIENCE:
                return math.inf
        return time.monotonic() - life.begun

    def end(self) -> None:
        for life in self.ending:
            life.process.kill()
            life.process.wait()
        super().end()


@dataclass
class Figures:
    """What was measured: the seconds of the fresh members, and the megabytes after a sixth of the day and at its
    end."""

    fresh: list[float]
    early: float
    late: float


def stood_still(day: Day) -> float:
    """Which part of the time the clocks of the workers that left stood still."""
    left = [it for it in day.lives.values() if it.how == "left"]
    return sum(it.stood_still for it in left) / 1000 / max(sum(it.ended - it.begun for it in left), 1.0)


def lived(day: Day, minutes: float) -> Figures:
    """Lets a day pass in so many minutes."""
    day.begin()
    begun, seconds = time.monotonic(), minutes * 60
    for number in range(round(minutes * WORKERS_A_MINUTE)):
        day.plan(begun + number * 60 / WORKERS_A_MINUTE, day.start_worker)
    for number in range(round(minutes * RESTARTS_A_MINUTE)):
        day.plan(begun + (number + 0.5) * 60 / RESTARTS_A_MINUTE, lambda number=number: day.restart(number))
    early = math.nan
    for second in range(1, round(seconds) + 1):
        day.run_until(begun + second)
        day.look()
        if second == round(seconds / 6):
            early = day.megabytes()
        if second % 60 == 0:
            told = f"minute {second // 60}: {len(day.nodes)} live, {day.megabytes():.2f} MB"
            print(told, file=sys.stderr, flush=True)
    late = day.megabytes()
    return Figures([day.join(number) for number in range(FRESH)], early, late)


def print_day(program: str, folder: str, minutes: float, print_row: Callable[..., None]) -> None:
    """Lets a day pass in so many minutes, and prints what came of it."""
    day = Day(program, folder)
    try:
        found = lived(day, minutes)
    finally:
        day.end()
    counts = day.counts
    soon = sum(it <= SOON for it in counts.joins)
    print_row(f"a day of {minutes:g} minutes, {MEMBERS} members", "lg", "goal")
    print_row("workers that came", f"{counts.workers:,}")
    print_row("members that were restarted by a leave", f"{counts.restarts:,}")
    print_row("a fresh member is alive at all, seconds", f"{max(found.fresh):.2f}", f"{SOON:g}")
    print_row(f"  workers alive at all {MEMBERS} in {SOON:g} s", f"{soon / max(len(counts.joins), 1):.1%}")
    print_row("names in the greatest table", str(counts.table), str(counts.wanted_table))
    print_row(f"  that neither lived nor ended in {KEPT:.0f} s", str(counts.excess), "0")
    print_row("members that left, restarts included", f"{counts.leaves:,}")
    print_row("  told as failed", str(len(counts.failed_after_leave)), "0")
    print_row("  told as suspected", str(len(counts.suspected_after_leave)), str(counts.leaves // 10))
    print_row("members that lived, told as failed", str(len(counts.failed_alive)), "0")
    print_row("of the time clocks stood still", f"{stood_still(day):.2%}")
    print_row("resident MB after a sixth of the day", f"{found.early:.2f}")
    print_row("  at its end", f"{found.late:.2f}", f"{found.early:.2f}")
