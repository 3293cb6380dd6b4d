"""Runs the checks of a script: functions that take the program and give what is wrong, or None."""

import os
import shutil
import socket
import sys
import time
from concurrent.futures import ProcessPoolExecutor

from host import tried_until

# What the check that this process runs has noted of itself.
NOTES = []
# What go is told: it fetches nothing, no setting of the user's counts, and git isn't asked.
GO = {"GOFLAGS": "-mod=mod -buildvcs=false", "GOPROXY": "off", "GOTOOLCHAIN": "local", "GOENV": "off", "GOWORK": "off"}
# What a check may come to.
PASSED, FAILED, SKIPPED = "passed", "failed", "skipped"


class Skipped(Exception):
    """Ends a check that looked at nothing, since something isn't there that it needs."""


def needed(*names):
    """The path of the first of these tools that is there. Without any of them the check that needs it is skipped."""
    found = next(filter(None, map(shutil.which, names)), None)
    if not found:
        raise Skipped(f"there is no {names[0]}")
    return found


def needed_ipv6():
    """Without the address ::1 of this machine the check that needs it is skipped."""
    try:
        with socket.socket(socket.AF_INET6, socket.SOCK_DGRAM) as it:
            it.bind(("::1", 0))
    except OSError:
        raise Skipped("this machine has no address ::1") from None


def outcome(check, program):
    """What a check came to, and its line, as `outcome_once` gives them. One that fails while the host kept much of the
    processors is tried again."""
    return tried_until(lambda ended: ended[0] != FAILED, lambda: outcome_once(check, program))


def outcome_once(check, program):
    """What a check came to, and its line: what is wrong or wasn't there, how long it took, and what it noted. `./test`
    shows the lines that begin with FAILED or SKIPPED once more at its end."""
    NOTES.clear()
    begun = time.monotonic()
    try:
        fault = check(program)
        came_to = PASSED if fault is None else FAILED
    except Skipped as lack:
        came_to, fault = SKIPPED, lack
    except Exception as error:
        came_to, fault = FAILED, repr(error)
    notes = "; ".join([f"{time.monotonic() - begun:.0f} s", *NOTES])
    mark = "" if came_to == PASSED else f"{came_to.upper()} "
    return came_to, f"{mark}{check.__name__}: {fault or PASSED} ({notes})"


def shown(ended):
    """Shows the line of a check, and gives what it came to."""
    came_to, line = ended
    print(line, flush=True)
    return came_to


def last_line(came_to):
    """The last line of a script whose checks came to this: what was skipped is counted if anything was."""
    skipped = f", {came_to.count(SKIPPED)} skipped" if SKIPPED in came_to else ""
    return f"{came_to.count(PASSED)} passed, {came_to.count(FAILED)} failed{skipped}"


def run_all(alone, side_by_side=()):
    """Runs the checks of a script whose one word is the program: first those that go side by side, then the others one
    after another. Gives the status."""
    if len(sys.argv) != 2:
        sys.exit(f"usage: cases/{os.path.basename(sys.argv[0])} PROGRAM")
    program = os.path.abspath(sys.argv[1])
    came_to = []
    if side_by_side:
        with ProcessPoolExecutor(len(side_by_side)) as pool:
            answers = [pool.submit(outcome, check, program) for check in side_by_side]
            came_to += [shown(answer.result()) for answer in answers]
    came_to += [shown(outcome(check, program)) for check in alone]
    print(last_line(came_to))
    return 1 if FAILED in came_to else 0
