"""Reads metrics in the text format 0.0.4 of Prometheus, by its description alone."""

import re
from dataclasses import dataclass, field

NAME = r"[a-zA-Z_:][a-zA-Z0-9_:]*"
LABEL = r'[a-zA-Z_][a-zA-Z0-9_]*="(?:[^"\\\n]|\\["\\n])*"'
SAMPLE = re.compile(rf"({NAME})(\{{{LABEL}(?:,{LABEL})*\}})? (\S+)")
HELP = re.compile(rf"# HELP ({NAME}) (\S.*)")
TYPE = re.compile(rf"# TYPE ({NAME}) (counter|gauge)")


@dataclass
class Metrics:
    """Metrics: the type of each by its name, and the value of each sample by its name with its labels."""

    types: dict[str, str] = field(default_factory=dict)
    helps: dict[str, str] = field(default_factory=dict)
    samples: dict[str, float] = field(default_factory=dict)

    def add(self, line, last):
        """Takes in a line. `last` is the metric of the line before. Gives the metric of this line."""
        if found := HELP.fullmatch(line):
            name = found[1]
            return name if self.helps.setdefault(name, line) is line else refuse(line, "a second help")
        if found := TYPE.fullmatch(line):
            name = found[1]
            if name != last or name in self.types:
                refuse(line, "it doesn't stand behind the help of its metric")
            self.types[name] = found[2]
            return name
        found = SAMPLE.fullmatch(line) or refuse(line, "it is no sample")
        name, labels, value = found.groups("")
        if name != last or name not in self.types:
            refuse(line, "it doesn't stand behind the type of its metric")
        if name + labels in self.samples:
            refuse(line, "a second one")
        self.samples[name + labels] = float(value)
        return name


def refuse(line, fault):
    raise ValueError(f"{line!r}: {fault}")


def metrics_in(body):
    """The metrics of a text. It is refused by a ValueError that says which line is at fault: each metric has one help,
    then one type, then its samples, and a counter's name ends in _total."""
    text = body.decode("ascii")
    if not text.endswith("\n"):
        refuse(text[-80:], "the last line has no end")
    found, last = Metrics(), None
    for line in text.splitlines():
        last = found.add(line, last)
    for name, kind in found.types.items():
        if (kind == "counter") != name.endswith("_total"):
            refuse(name, f"the name of a {kind}")
        if not any(sample.partition("{")[0] == name for sample in found.samples):
            refuse(name, "it has no sample")
    return found
