"""What the checks of gate/watching look at: the alarms, the rows of their table, the panels of the dashboard, and a
Prometheus that watches three nodes."""

import json
import os
import re
import shutil
import subprocess
import tempfile
import urllib.parse
import urllib.request

from installed import TOP, put, text_of
from checks import needed  # noqa: E402 (the one before names its folder, also for those that follow)
from roff import blocks_of
from running import HOST, LIFE_MS, Node, end_with_parent, file_of, free_ports, free_status_ports, wait_until

ALARMS, TESTS, DASHBOARD, CONFIGURATION = (
    f"{TOP}/watching/{it}" for it in ("lg-alerts.yml", "lg-alerts-test.yml", "lg-dashboard.json", "prometheus.yml")
)
OPERATING = f"{TOP}/docs/OPERATING.md"
# How the columns of the table of alarms begin there.
HEAD = ["Alarm", "Expression", "For"]
# What a time of a rule is in words.
UNITS = {"s": "seconds", "m": "minutes", "h": "hours"}
# What Grafana puts in place of its variables, for a question to Prometheus.
VARIABLES = {"$__rate_interval": "1m", "$job": ".+", "$instance": ".+"}
# The words of a query that are no metric, and what names labels.
WORDS = {"and", "or", "unless", "bool", "offset"}
CLAUSE = re.compile(r"\b(?:by|without|on|ignoring|group_left|group_right)\s*\([^)]*\)")
# The members, with their addresses.
MEMBERS = {"a": HOST, "b": "127.0.0.2", "c": "127.0.0.3"}
# A suspicion of three members lasts a second.
KEYS = "wire = 3\ninterval_ms = 200\ntimeout_ms = 100\npull_ms = 1000\n"
# How often Prometheus scrapes them, asks for them and looks at the alarms.
OFTEN = "300ms"
SECONDS = 10


# ---- The files


def fields_of(lines):
    """The fields of an alarm by name. If a value is folded, it is what stands further in below it, as one line."""
    found, folded, depth = {}, None, 0
    for line in lines:
        further = len(line) - len(line.lstrip())
        field = re.fullmatch(r" *(\w+): ?(.*)", line)
        if folded and further > depth:
            found[folded] = f"{found[folded]} {line.strip()}".strip()
        elif field:
            name, value = field.groups()
            folded, depth = name if value == ">-" else None, further
            found[name] = "" if folded else value.strip("\"'")
    return found


def alarms():
    """The alarms of the file of rules, in order: of each its fields by name."""
    return [fields_of(it.splitlines()) for it in text_of(ALARMS).split("\n      - ")[1:]]


def in_words(time):
    """A time of a rule in words."""
    return f"{time[:-1]} {UNITS[time[-1]]}"


def rows_of_table():
    """The rows of the table of alarms: of each the name, the expression and the time."""
    tables = [it.parts for it in blocks_of(text_of(OPERATING)) if it.kind == "table" and it.parts[0][:3] == HEAD]
    if len(tables) != 1:
        raise ValueError(f"{OPERATING} has {len(tables)} tables with {HEAD}, and not one")
    return [(re.match(r"`(\w+)`: ", row[0])[1], row[1].strip("`"), row[2]) for row in tables[0][1:]]


def dashboard():
    """The dashboard, as JSON has it."""
    return json.loads(text_of(DASHBOARD))


def panels():
    """The panels of the dashboard that show something."""
    return [it for it in dashboard()["panels"] if it["type"] != "row"]


def asked(expression):
    """An expression of the dashboard as Prometheus is asked for it."""
    for name, value in VARIABLES.items():
        expression = expression.replace(name, value)
    return expression


def expressions():
    """The expressions of the dashboard, each with the title of its panel."""
    return [(it["title"], asked(target["expr"])) for it in panels() for target in it["targets"]]


def metrics_of(expression):
    """The names of the metrics of an expression."""
    bare = CLAUSE.sub(" ", re.sub(r'\{[^}]*\}|\[[^]]*\]|"[^"]*"', " ", expression))
    return set(re.findall(r"(?<![\w.:])[a-zA-Z_:][\w:]*\b(?!\s*\()", bare)) - WORDS


def selectors_of(expression):
    """The selectors of an expression, with their labels."""
    return {f"{name}{labels}" for name, labels in re.findall(r"\b(lg_\w+|up\b)(\{[^}]*\})?", expression)}


# ---- Prometheus


def replaced(text, *pairs):
    """A text in which each of these has another in its place. Each has to be there."""
    for old, new in pairs:
        if old not in text:
            raise ValueError(f"{CONFIGURATION} has no {old!r}")
        text = text.replace(old, new)
    return text


class Watched:
    """Three nodes, with the same port for HTTP at three addresses, and a Prometheus that watches them by the
    configuration that people copy, at other places and more often. It asks a for the members. a and b are named too."""

    def __init__(self, program):
        prometheus = needed("prometheus")
        (self.status, self.port), ports = free_status_ports(2), free_ports(len(MEMBERS))
        self.room = tempfile.TemporaryDirectory(prefix="lg-watching-", ignore_cleanup_errors=True)
        self.folder = self.room.name
        shutil.copy(ALARMS, self.folder)
        put(f"{self.folder}/prometheus.yml", self.configuration())
        self.nodes = {name: self.node(program, name, port, ports[0]) for name, port in zip(MEMBERS, ports)}
        words = ["--config.file=prometheus.yml", "--storage.tsdb.path=data", f"--web.listen-address={HOST}:{self.port}"]
        # Else it looks at what was found every five seconds, once more than it looks whether something was.
        words += ["--scrape.discovery-reload-interval=100ms"]
        with open(f"{self.folder}/log", "w", encoding="utf-8") as log:
            how = {"cwd": self.folder, "stdin": subprocess.DEVNULL, "stdout": log, "stderr": log}
            self.process = subprocess.Popen([prometheus, *words], preexec_fn=end_with_parent, **how)

    def configuration(self):
        """The configuration of Prometheus."""
        often = [(f"{it}_interval: 15s", f"{it}_interval: {OFTEN}") for it in ("scrape", "evaluation", "refresh")]
        named = [("web-1", "a"), ("web-2", "b"), ("10.0.0.5", MEMBERS["a"]), ("10.0.0.6", MEMBERS["b"])]
        return replaced(text_of(CONFIGURATION), *often, *named, (":8946", f":{self.status}"))

    def node(self, program, name, port, seed):
        """The node of a name, which was just started."""
        address = MEMBERS[name]
        keys = f'{KEYS}address = "{address}"\nstatus = "{address}:{self.status}"\n'
        return Node(program, file_of(name, port, [] if name == "a" else [("a", seed)], keys), "--for-ms", str(LIFE_MS))

    def instance(self, name):
        """Where the node of a name is scraped."""
        return f"{MEMBERS[name]}:{self.status}"

    def told(self, path, **query):
        """What Prometheus answers to a question."""
        url = f"http://{HOST}:{self.port}/api/v1/{path}?{urllib.parse.urlencode(query)}"
        opener = urllib.request.build_opener(urllib.request.ProxyHandler({}))
        with opener.open(url, timeout=SECONDS) as answer:
            return json.load(answer)["data"]

    def values(self, expression):
        """What an expression gives now: of each series its labels and its value."""
        return [(it["metric"], float(it["value"][1])) for it in self.told("query", query=expression)["result"]]

    def by_member(self, expression):
        """What an expression gives now by the label `member`, which tells the series apart."""
        found = [(labels.get("member"), value) for labels, value in self.values(expression)]
        return dict(found) if len(dict(found)) == len(found) else found

    def targets(self):
        """Whom it scrapes and where, in order."""
        active = self.told("targets", state="active")["activeTargets"]
        return sorted((it["labels"].get("member", ""), it["labels"]["instance"]) for it in active)

    def wait_for(self, question, wanted, seconds):
        """Waits until a question has this answer. Gives what is wrong if it hasn't within so many seconds."""
        got = None

        def holds():
            nonlocal got
            try:
                got = question()
            except OSError as error:
                got = error
            return got == wanted

        if wait_until(holds, seconds) is not None:
            return None
        return f"got {got}, wanted {wanted}; Prometheus says {text_of(f'{self.folder}/log')[-600:]!r}"

    def __enter__(self):
        return self

    def __exit__(self, *_):
        self.process.kill()
        self.process.wait()
        for node in self.nodes.values():
            node.kill()
        self.room.cleanup()
