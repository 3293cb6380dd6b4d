"""Counts what a script of the gate looks at, and tells what is wrong and what was skipped."""

import argparse
import os
import shutil


def words_of(name):
    """The program that the command line of a script names, if it names one, and whether it asks to write."""
    parser = argparse.ArgumentParser(prog=name)
    parser.add_argument("program", metavar="PROGRAM", nargs="?")
    parser.add_argument("--write", action="store_true", help="write what is made")
    words = parser.parse_args()
    return words.program and os.path.abspath(words.program), words.write


class Looks:
    """How many looks found nothing wrong, how many did, and how many were skipped."""

    def __init__(self):
        self.passed, self.failed, self.skipped = 0, 0, 0

    def fail(self, name, fault):
        """Counts something that is wrong."""
        self.failed += 1
        print(f"FAILED {name}: {fault}", flush=True)

    def look(self, name, judge, *taken):
        """Takes one look: `judge` takes these, and gives what is wrong, or None."""
        try:
            fault = judge(*taken)
        except Exception as error:
            fault = repr(error)
        if fault is None:
            self.passed += 1
        else:
            self.fail(name, fault)

    def made(self, name, make, *taken):
        """What is made of these, or None and a fault."""
        try:
            return make(*taken)
        except Exception as error:
            return self.fail(name, repr(error))

    def skip(self, name, lack):
        """Takes no look, for lack of something."""
        self.skipped += 1
        print(f"SKIPPED {name}: {lack}", flush=True)

    def with_tool(self, tool, rows):
        """Takes the looks that need a tool, each with its name, its judge and what that takes. Without the tool all of
        them are skipped, as one."""
        if not shutil.which(tool):
            self.skip(f"{len(rows)} looks", f"there is no {tool}")
            return
        for row in rows:
            self.look(*row)

    def end(self):
        """Shows the last line of the script, and gives its status."""
        skipped = f", {self.skipped} skipped" if self.skipped else ""
        print(f"{self.passed} passed, {self.failed} failed{skipped}")
        return 1 if self.failed else 0
