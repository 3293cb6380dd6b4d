"""Checks of who reads what a node answers: the page in a browser, and the services of the examples."""

import os
import pathlib
import subprocess
import sys
import tempfile
import time

from asking import asked_for, by_python
from browser import NAMES as BROWSERS, Browser
from changes import Lone
from checks import GO, NOTES, needed
from group import AskedGroup
from running import PATIENCE, end_with_parent, table_of, wait_until

SERVICES = pathlib.Path(__file__).resolve().parent.parent / "examples" / "services"

# Rounds and suspicions are short, so that a death is soon known.
KEYS = "interval_ms = 200\ntimeout_ms = 100\nalpha = 3\npull_ms = 1000\n"
# By then the page shows a death.
FORGETS = "forget_ms = 6000\n"
NAMES = ["a", "b", "c"]
# A variable of the environment: where a picture of the page with a dead member is to be kept.
PICTURE = "LG_PICTURE"


def status_at(group, name, member):
    """The status of a member by the node of a name."""
    return asked_for(group.status[name], f"/v1/members/{member}")["status"]


# ---- The page

ROWS = ("[...document.querySelectorAll('#members tr')]"
        ".map((it) => it.cells[0].innerText + ' ' + it.cells[1].innerText).join(', ')")
HEALTH = "document.getElementById('health').innerText"
CHANGES = "document.querySelectorAll('#changes li').length"


def fault_of_a_death(group, browser):
    """What is wrong with the page of b while c dies: it shows this within two seconds from when b knows it."""
    alive, failed = ("a alive, b alive, c " + it for it in ("alive", "failed"))
    if browser.until(ROWS, alive, 20) is None:
        return f"the page shows {browser.value(ROWS)}"
    group.nodes["c"].kill()
    if wait_until(lambda: status_at(group, "b", "c") == "failed", PATIENCE) is None:
        return "b doesn't take c as failed"
    known = time.monotonic()
    shown = browser.until(ROWS, failed, 2)
    is_counted = browser.until(f"{HEALTH}.includes('2 of 3 members live')", True, 2)
    if shown is None or is_counted is None or browser.value(CHANGES) < 2:
        return f"the page shows {[browser.value(it) for it in (ROWS, HEALTH, CHANGES)]}"
    if path := os.environ.get(PICTURE):
        browser.keep_picture(path)
    NOTES.append(f"a death is shown {(shown - known) * 1000:.0f} ms after the node says it")
    return None


def fault_of_forgetting(browser):
    """What is wrong with the page of b when b forgets c, which is dead: c is no longer among its members, and that is
    one more change."""
    told = browser.value(CHANGES)
    if browser.until(ROWS, "a alive, b alive", 10) is None:
        return f"b has forgotten c, and its page shows {browser.value(ROWS)}"
    is_counted = browser.until(f"{HEALTH}.includes('2 of 2 members live')", True, 2)
    if is_counted is None or browser.value(CHANGES) != told + 1:
        return f"b has forgotten c, and its page shows {[browser.value(it) for it in (HEALTH, CHANGES)]}"
    return None


def fault_of_a_new_start(group, browser):
    """What is wrong with the page of b when b ends and is started again: it says so, and follows it again."""
    group.nodes["b"].kill()
    if browser.until(HEALTH, "no answer", 10) is None:
        return f"b has ended, and its page says {browser.value(HEALTH)!r}"
    group.nodes |= {name: group.started(name) for name in ("b", "c")}
    if wait_until(group.is_whole, PATIENCE) is None:
        return group.difference(dict.fromkeys(NAMES, "alive"))
    if browser.until(ROWS, "a alive, b alive, c alive", 10) is None:
        return f"b runs again, and its page shows {[browser.value(it) for it in (ROWS, HEALTH, CHANGES)]}"
    return f"the page's script fails: {browser.faults}" if browser.faults else None


def page_follows_the_node(program):
    """A Chromium shows the page of b: within two seconds that c has died, then that b has forgotten it, that b has
    ended, and what b knows once both run again. Without a Chromium it is skipped."""
    path = needed(*BROWSERS)
    with AskedGroup(program, NAMES, f"{KEYS}{FORGETS}") as group:
        if wait_until(group.is_whole, PATIENCE) is None:
            return group.difference(dict.fromkeys(NAMES, "alive"))
        with Browser(path, f"http://127.0.0.1:{group.status['b']}/") as browser:
            return (fault_of_a_death(group, browser) or fault_of_forgetting(browser)
                    or fault_of_a_new_start(group, browser))


def page_reads_as_text(program):
    """w3m, which runs no script, shows the members on the page. Without it this is skipped."""
    w3m = needed("w3m")
    with Lone(program) as node:
        node.tell(3, 2)
        wait_until(lambda: len(table_of(node.port)) == 3, 10)
        page = by_python(node.status, "/").body
    ran = subprocess.run([w3m, "-dump", "-T", "text/html"], input=page, capture_output=True, check=True)
    rows = [line.split()[:3] for line in ran.stdout.decode().splitlines()]
    missing = [it for it in (["b", "alive", "0"], ["t000", "alive", "3"], ["t001", "alive", "3"]) if it not in rows]
    return f"{missing} aren't in {rows}" if missing else None


# ---- Services


class Service:
    """A service that chooses a member for each line of its input."""

    def __init__(self, words):
        self.process = subprocess.Popen(words, stdin=subprocess.PIPE, stdout=subprocess.PIPE, stderr=subprocess.PIPE,
                                        text=True, preexec_fn=end_with_parent)

    def choices(self, count):
        """Whom it chooses for so many calls."""
        self.process.stdin.write(count * "\n")
        self.process.stdin.flush()
        return {self.process.stdout.readline().strip() for _ in range(count)}

    def end(self):
        """Its status, and what it told."""
        _, errors = self.process.communicate(timeout=10)
        return self.process.returncode, errors


def fault_of_service(group, words):
    """What is wrong with the choices of a service beside b: it chooses a or c; a alone once c has died; and a also when
    b doesn't answer any more, which it tells."""
    service = Service([*words, str(group.status["b"])])
    both = service.choices(40)
    group.nodes["c"].kill()
    if wait_until(lambda: status_at(group, "b", "c") == "failed", PATIENCE) is None:
        return "b doesn't take c as failed"
    one = service.choices(40)
    group.nodes["b"].kill()
    last = service.choices(3)
    status, told = service.end()
    got = both, one, last, status, told.count("the last answer is used")
    wanted = {"a at 127.0.0.1", "c at 127.0.0.1"}, {"a at 127.0.0.1"}, {"a at 127.0.0.1"}, 0, 3
    return None if got == wanted else f"{words}: got {got}, wanted {wanted}; it told {told}"


def fault_beside_a_group(program, words):
    """What is wrong with the choices of a service beside a group that is whole."""
    with AskedGroup(program, NAMES, KEYS) as group:
        if wait_until(group.is_whole, PATIENCE) is None:
            return group.difference(dict.fromkeys(NAMES, "alive"))
        return fault_of_service(group, words)


def service_in_python_chooses_who_is_alive(program):
    """The service of the examples that is written in Python chooses among the other members that are alive."""
    return fault_beside_a_group(program, [sys.executable, "-B", f"{SERVICES}/choose.py"])


def service_in_go_chooses_who_is_alive(program):
    """So does the one in Go. Without a go it is skipped."""
    go = needed("go")
    with tempfile.TemporaryDirectory(prefix="lg-services-") as folder:
        made = f"{folder}/choose"
        # Its folder has the file that says where the package of clients/go lies.
        subprocess.run([go, "build", "-o", made, "."], cwd=SERVICES, env={**os.environ, **GO}, check=True)
        return fault_beside_a_group(program, [made])
