"""A random group of the models of detectors: what its network loses, doubles and delays, who stands still, leaves, dies
or is started again, and who is cut off. It writes the script that plays the same."""

import heapq
from dataclasses import dataclass, field

from fuzzing.known import GONE
from fuzzing.numbers import NUMBERS, suspicion_range
from fuzzing.script import MOST_MEMBERS, Cluster
from fuzzing.wire import ALIVE, ONE, THREE, TWO, VERSIONS

FIRST_PORT = 7001
MOST_SEEDS = 16
STEPS = 60


@dataclass
class Network:
    """What becomes of packets: chances of 1, and times in milliseconds."""

    loss: float = 0.0
    doubling: float = 0.0
    least_delay: int = 1
    most_delay: int = 1
    # How likely somebody records a packet and sends it again, and how much later at most.
    replays: float = 0.0
    most_later: int = 1
    # The names of one side while the network is cut in two.
    side: frozenset = frozenset()

    def passes(self, dice, sender, receiver):
        """After how many milliseconds each copy of a packet comes."""
        if (sender in self.side) != (receiver in self.side) or dice.random() < self.loss:
            return []
        copies = 2 if dice.random() < self.doubling else 1
        delays = [dice.randint(self.least_delay, self.most_delay) for _ in range(copies)]
        if dice.random() < self.replays:
            delays.append(dice.randint(1, self.most_later))
        return delays


@dataclass
class Plan:
    """What happens to a group: its size, its numbers, its network, how many rounds of trouble it has, and who is in
    trouble when. Moments are milliseconds."""

    size: int
    config: dict
    network: Network
    rounds: int
    late: float = 0.0
    jitter: int = 0
    # Pairs of a moment and what happens then: a method of the group, and its words.
    troubles: list = field(default_factory=list)
    is_perfect: bool = False


def config_of(dice, size):
    """Numbers under which a group comes to rest soon."""
    interval = dice.choice([100, 200, 1000])
    factors = [1, 1, 2, 5] if size <= MOST_MEMBERS else [1, 1, 2]
    wire, greatest = dice.choice([ONE, TWO, THREE, THREE]), NUMBERS["first"][1]
    group = {"group": dice.choice(["g", "grn", 32 * "n"])} if wire == THREE and dice.random() < 0.4 else {}
    return {"interval_ms": interval, "timeout_ms": interval // dice.choice([2, 2, 3, 4]), "alpha": dice.choice(factors),
            "beta": dice.choice(factors), "indirect": dice.choice([0, 1, 3, 8]), "max_score": dice.choice([0, 2, 8]),
            "confirmations": dice.choice([0, 1, 3, 5]), "lambda": dice.choice([1, 4, 10]),
            "nack_thousandths": dice.choice([1, 500, 800, 999]), "wire": wire,
            "gossip_ms": dice.choice([0, 10, interval // 5, interval]), "gossip_to": dice.choice([1, 3, 8]),
            "forget_ms": dice.choice([0, 0, max(1000, 5 * interval), max(1000, 10 * interval)]),
            "first": dice.choice([1, greatest - dice.randrange(20)]), **group}


def troubles_of(dice, names, length, may_restart):
    """Pauses, cuts, leaves, deaths and new starts of some members within so many milliseconds. Of those who leave some
    go on, some end soon, and of these some are started again."""
    troubles = []
    for _ in range(dice.choice([0, 1, 1, 2, 1 + len(names) // 4])):
        start = dice.randrange(length)
        end = dice.randrange(start, length) + 1
        name = dice.choice(names)
        how = dice.choice(["pause", "cut", "restart" if may_restart else "pause", "death", "leave", "leave"])
        if how == "pause":
            troubles.append((start, "pause", name, end))
        elif how == "cut":
            side = frozenset(dice.sample(names, dice.randrange(1, len(names))))
            troubles += [(start, "cut", side), (end, "cut", frozenset())]
        elif how == "restart":
            troubles += [(start, "die", name), (end, "start", name)]
        elif how == "leave":
            ends = [(start + 1, "die", name)] if dice.random() < 0.6 else []
            ends += [(end + 1, "start", name)] if ends and may_restart and dice.random() < 0.6 else []
            troubles += [(start, "leave", name), *ends]
        elif dice.random() < 0.3:
            troubles.append((start, "die", name))
    return troubles


def plan_of(dice, size, names, may_restart):
    """A plan: one in six is perfect, with a network that loses nothing and is quick."""
    config = config_of(dice, size)
    interval, wait = config["interval_ms"], config["timeout_ms"]
    rounds = dice.choice([5, 10, 20]) if size <= MOST_MEMBERS else dice.choice([3, 6])
    if dice.random() < 1 / 6:
        network = Network(0, dice.choice([0, 0.2]), 1, wait // 4, dice.choice([0, 0.5]), rounds * interval)
        leaves = [(dice.randrange(rounds * interval), "leave", name) for name in names if dice.random() < 0.15]
        return Plan(size, config, network, rounds, troubles=leaves, is_perfect=True)
    network = Network(dice.choice([0, 0.1, 0.3, 0.6]), dice.choice([0, 0, 0.2]), dice.choice([1, wait // 4]),
                      dice.choice([wait // 4, wait, 2 * interval]), dice.choice([0, 0, 0.1, 0.5]), rounds * interval)
    plan = Plan(size, config, network, rounds, dice.choice([0, 0, 0.3]), dice.choice([0, 1, wait // 5]))
    plan.troubles = troubles_of(dice, names, rounds * interval, may_restart)
    return plan


class Group:
    """A group, and the script that it writes. `may_restart` is that of the cluster."""

    def __init__(self, dice, names, plan, may_restart):
        self.dice, self.names, self.plan, self.now = dice, names, plan, 0
        self.cluster = Cluster(max(MOST_MEMBERS, plan.size), may_restart)
        self.network = plan.network
        self.lines, self.output = [], []
        self.queue, self.count = [], 0
        self.alive, self.still_until, self.tick_at = set(), dict.fromkeys(names, 0), {}
        self.seeds = self.seeds_of()

    # ---- Who knows whom

    def port(self, name):
        return FIRST_PORT + self.names.index(name)

    def seeds_of(self):
        """Whom each knows from the start: the first, all, or a few."""
        how = self.dice.choice(["first", "all", "few"])
        seeds = {}
        for name in self.names:
            others = [it for it in self.names if it != name]
            known = {"first": [self.names[0]] if name != self.names[0] else others[:1], "all": others[:MOST_SEEDS],
                     "few": self.dice.sample(others, min(len(others), 3))}[how]
            seeds[name] = " ".join(f"{it}:{self.port(it)}" for it in known)
        return seeds

    def member(self, name):
        return self.cluster.members[name.encode()]

    # ---- What happens

    def write(self, line):
        """Adds a line of the script, and takes up what it leads to."""
        before = len(self.cluster.sent)
        self.lines.append(line)
        self.output += self.cluster.run(line.encode())
        for number in range(before + 1, len(self.cluster.sent) + 1):
            self.post(number)

    def post(self, number):
        """Gives a packet to the network. One to nobody, or to a dead member, is lost."""
        source, to, _ = self.cluster.sent[number - 1]
        sender, receiver = (self.cluster.at_place.get(it) for it in (source, to))
        if sender and receiver:
            names = sender.name.decode(), receiver.name.decode()
            for delay in self.network.passes(self.dice, *names):
                self.plan_for(self.now + delay, "hear", names[1], number)

    def plan_for(self, moment, *action):
        self.count += 1
        heapq.heappush(self.queue, (moment, self.count, action))

    def event(self, name, line):
        """Lets an event happen at a member, and sees to its next tick."""
        self.write(line)
        due = max(self.now, self.member(name).least_deadline()) + self.dice.randint(0, self.plan.jitter)
        if name not in self.tick_at or due < self.tick_at[name]:
            self.tick_at[name] = due
            self.plan_for(due, "tick", name, due)

    def start(self, name):
        """Opens a member, which may be started again."""
        if name not in self.alive:
            self.alive.add(name)
            self.tick_at.pop(name, None)
            self.event(name, f"open {name} {self.port(name)} {self.now} {self.seeds[name]}".rstrip())

    def leave(self, name):
        if name in self.alive:
            self.event(name, f"leave {name} {self.now} {self.words()}".rstrip())

    def die(self, name):
        self.alive.discard(name)

    def pause(self, name, end):
        self.still_until[name] = max(self.still_until[name], end)

    def cut(self, side):
        self.network.side = side

    def words(self):
        """One random word or eight."""
        return " ".join(str(self.dice.randrange(2**32)) for _ in range(self.dice.choice([1, 8])))

    def tick(self, name, due):
        if name in self.alive and self.tick_at.get(name) == due:
            del self.tick_at[name]
            self.event(name, f"tick {name} {self.now} {self.words()}")

    def hear(self, name, number):
        if name in self.alive:
            self.event(name, f"deliver {number} {self.now}")

    def pull(self, name, other):
        if name in self.alive:
            self.event(name, f"pull {name} {self.now} {self.port(other)}")

    def run_until(self, end):
        """Lets happen what comes before a moment. A member that stands still does it all afterwards."""
        while self.queue and self.queue[0][0] < end:
            moment, count, (does, *words) = heapq.heappop(self.queue)
            self.now = max(self.now, moment)
            still = self.still_until.get(words[0], 0) if does in ("tick", "hear", "pull", "leave") else 0
            if still > self.now:
                heapq.heappush(self.queue, (still, count, (does, *words)))
            else:
                getattr(self, does)(*words)
        self.now = max(self.now, end)

    # ---- From the beginning to the end

    def trouble(self):
        """Opens the members, some of them late, and lets the trouble come."""
        length = self.plan.rounds * self.plan.config["interval_ms"]
        for key, number in self.plan.config.items():
            self.write(f"set {key} {number}")
        for name in self.names:
            if "group" not in self.plan.config and self.dice.random() < 0.15:
                self.write(f"set wire {self.dice.choice(VERSIONS)}")
            if self.dice.random() < 0.2:
                self.write(f"set forget_ms {self.dice.choice([0, self.plan.config['forget_ms']])}")
            late = self.dice.randrange(length) if self.dice.random() < self.plan.late else 0
            if late:
                self.plan_for(late, "start", name)
            else:
                self.start(name)
        for moment, *action in self.plan.troubles:
            self.plan_for(moment, *action)
        self.run_until(length)

    def agrees(self):
        """Whether all that run say the same of all: each that runs and didn't leave is alive at its own incarnation and
        address, and each other one is gone at the same one. If all that run have left, nobody probes, and nobody
        differs."""
        views = [{it.member: it for it in self.member(name).view()} for name in self.alive]
        here = self.those_here()
        names = here.union(*views)
        return not here or all(
            (self.are_here if name in here else self.are_gone)([view.get(name) for view in views]) for name in names)

    def are_here(self, records):
        """Whether all of some records say that a member is alive, as it says itself."""
        wanted = records[0] and self.member(records[0].member.decode()).own()
        return all(it and (it.status, it.incarnation, it.address) == (ALIVE, wanted.incarnation, wanted.address)
                   for it in records)

    def are_gone(self, records):
        """Whether all of some records say that a member is gone, at the same incarnation. In a group that forgets, it
        may be known to some alone, at any incarnation."""
        if self.plan.config["forget_ms"]:
            return all(it is None or it.status in GONE for it in records)
        return all(it and it.status in GONE and it.incarnation == records[0].incarnation for it in records)

    def those_here(self):
        """The names of those that run and didn't leave."""
        return {name.encode() for name in self.alive if not self.member(name).has_left}

    def most_steps(self):
        """How many rounds of quiet a group may take: its members have asked each other, their scores are well again,
        and suspicions have run out."""
        least, most, _ = suspicion_range(self.cluster.config, self.plan.size)
        return 3 * self.plan.size + 4 * (most // self.plan.config["interval_ms"]) + STEPS

    def rest(self):
        """Rounds of quiet, in each of which each member asks one other for its table, until all agree. Gives whether
        they do."""
        self.network = Network(most_delay=max(1, self.plan.config["timeout_ms"] // 8))
        self.plan.jitter, interval = 0, self.plan.config["interval_ms"]
        for step in range(1, self.most_steps() + 1):
            alive = [name for name in self.names if name in self.alive]
            for place, name in enumerate(alive):
                other = alive[(place + 1 + step % max(1, len(alive) - 1)) % len(alive)]
                if other != name:
                    self.plan_for(self.now, "pull", name, other)
            self.run_until(self.now + interval)
            if step > 1 and self.agrees():
                return True
        return False

    def run_whole(self):
        """Trouble, and then quiet. Gives whether all agree at the end, of which the tables are written."""
        self.trouble()
        for name in self.names:
            self.still_until[name] = 0
            if name.encode() not in self.cluster.members:
                self.start(name)
        is_agreed = self.rest()
        for name in sorted(self.alive):
            self.write(f"table {name}")
        return is_agreed
