"""What the host of this machine keeps of its processors. A machine that gets a part of them is no slower node: what a
check says of times doesn't hold there."""

import os
import time

# A check or a test that failed while the host kept this share of the processors or more says nothing. How often one is
# tried then, all told.
MUCH, TRIES = 0.1, 3


def kept_by_the_host():
    """For how many seconds the host has kept the processors from what would have run on them: the mean of all, since
    the machine's start."""
    with open("/proc/stat", encoding="utf-8") as stat:
        stolen = int(stat.readline().split()[8])
    return stolen / os.sysconf("SC_CLK_TCK") / os.cpu_count()


def moment():
    """A moment in seconds, by a clock that leaves out what the host kept. So a limit of time means the same on a machine
    that gets a part of its processors."""
    return time.monotonic() - kept_by_the_host()


def tried_until(passes, trial):
    """What a trial gives: the first that passes, or that doesn't while the machine had its processors, or the last of
    three."""
    for _ in range(TRIES):
        begun, kept = time.monotonic(), kept_by_the_host()
        given = trial()
        share = (kept_by_the_host() - kept) / max(time.monotonic() - begun, 0.01)
        if passes(given) or share < MUCH:
            break
    return given
