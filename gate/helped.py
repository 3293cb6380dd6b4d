"""What the help of the program says: its commands, their options and what these take."""

import os
import re
import subprocess
from dataclasses import dataclass, field

TOP = os.path.dirname(os.path.dirname(os.path.realpath(__file__)))
# Where a program is kept: that of the last whole run of `./test`, and that of `./lg`.
KEPT = (f"{TOP}/.lg/tested", f"{TOP}/.lg/lg")
SECONDS = 20

COMMAND = re.compile(r"  ([a-z]+) +(\S.*)")
OPTION = re.compile(r" +(?:(-\w), )?(--[a-z-]+)(?: <([^>]+)>)?  +(\S.*)")
DEFAULT = re.compile(r" \[default: ([^\]]*)\]$")


@dataclass
class Option:
    """An option: its names, what it takes if it takes anything, what it is, and its default if it has one."""

    name: str
    short: str
    value: str
    about: str
    default: str

    def repeats(self):
        """Whether it may be given several times. The help says so in these words."""
        return "; once for each " in self.about

    def choices(self):
        """The texts that it takes, if these are all."""
        return self.value.split("|") if "|" in self.value else []


@dataclass
class Command:
    """A command, or the program as a whole, whose name is empty."""

    name: str
    about: str
    usage: str
    options: list = field(default_factory=list)


def written(program, *words, line=""):
    """What the program writes when it is called as `lg` with these words, which it has to take, and with a line of
    input if there is one."""
    words, lines = ("lg", *words), f"{line}\n" if line else ""
    how = {"input": lines, "capture_output": True, "text": True, "timeout": SECONDS}
    ran = subprocess.run(words, executable=program, check=False, **how)
    if ran.returncode:
        raise ValueError(f"`{' '.join(words)}` ended with status {ran.returncode}: {ran.stderr.strip()}")
    return ran.stdout


def part_of(text, title):
    """The lines of a part of a help."""
    return text.partition(f"\n{title}:\n")[2].partition("\n\n")[0].splitlines()


def option_of(line):
    """The option of a line of a help."""
    found = OPTION.fullmatch(line)
    if not found:
        raise ValueError(f"a line of the help has no option: {line.strip()}")
    short, name, value, about = found.groups()
    default = DEFAULT.search(about)
    return Option(name, short or "", value or "", DEFAULT.sub("", about), default[1] if default else "")


def command_of(name, text):
    """The command of a help."""
    usage = re.search(r"^Usage: (lg.*)$", text, re.MULTILINE)
    if not usage:
        raise ValueError(f"the help of {name or 'lg'} has no usage")
    return Command(name, text.splitlines()[0], usage[1], [option_of(it) for it in part_of(text, "Options")])


def commands_of(program):
    """The program as a whole, and its commands in the order of its help. `help` is the last one, and has no options."""
    text = written(program, "help")
    lg, found = command_of("", text), []
    for line in part_of(text, "Commands"):
        name = COMMAND.fullmatch(line)[1]
        found.append(command_of(name, written(program, "help", name)))
    if not found or found[-1].name != "help":
        raise ValueError("the help has no commands, or `help` isn't the last one")
    return lg, found


def kept_program():
    """The program that was built last, if one was."""
    return max(filter(os.path.exists, KEPT), key=os.path.getmtime, default=None)
