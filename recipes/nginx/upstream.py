#!/usr/bin/env python3
"""Writes the servers of an upstream of nginx as the members of a group come and go, and has nginx read them.

    upstream.py --names PATTERN --port PORT [--at ADDRESS:PORT] [--lg PROGRAM] FILE COMMAND..

FILE gets a line `server ADDRESS:PORT; # NAME` for each member that is alive or suspected and whose name fits PATTERN,
such as 'web-*'. Its address is that of the member, and PORT that of the service. Whenever these members are others,
FILE is replaced as a whole, and COMMAND is run, which is `nginx -s reload`. It is also run once at the start, since
nobody knows what nginx has read.

`lg watch` wakes this script, and `lg members` tells it the table. `lg watch` may miss changes of a node that was
started again, so the table is also read every 5 seconds.

- A member that failed, or left, is taken out.
- A member that the node doesn't list stays for 30 seconds more: a node that was just started knows nobody yet.
- If nobody is left, those that have failed stand there: it is the node that is cut off, more likely than all of them.
- If there are none either, or if the node doesn't answer, FILE stays as it is. It never becomes empty.
- If COMMAND fails, it is run again with the next look. It is run once a second at most.

It needs the right to write beside FILE and the right that COMMAND needs.
"""

import argparse
import fnmatch
import json
import os
import re
import select
import signal
import subprocess
import sys
import time

# In seconds: how often it looks though nothing has woken it; how long a member that isn't listed stays; the least time
# between two looks; how long the program may take for a table, and COMMAND for its work.
LOOK, GRACE, PAUSE, ANSWER, WORK = 5, 30, 1, 30, 60
LIVE = {"alive", "suspect"}
# A line that this script has written.
LINE = re.compile(r"server (\S+); # (\S+)")


class Upstream:
    """The file of the servers, and what is known of them: the place of each by its name, and since when the node hasn't
    listed it."""

    def __init__(self, words):
        self.words, self.unlisted = words, {}
        self.is_read, self.told = False, None
        try:
            with open(words.file, encoding="utf-8", errors="replace") as it:
                self.servers = {name: server for server, name in LINE.findall(it.read())}
        except FileNotFoundError:
            self.servers = {}

    def tell(self, words):
        """Tells something on standard error, unless it was told last."""
        if words != self.told:
            self.told = words
            print(words, file=sys.stderr, flush=True)

    def look(self):
        """Reads the table, and does what it asks for. What fails is tried again by the next look."""
        rows = self.table()
        wanted = {} if rows is None else self.wanted(rows)
        if wanted and wanted != self.servers:
            self.write(wanted)
        if self.servers and not self.is_read:
            self.is_read = self.run_command()

    def table(self):
        """The rows of the members whose names fit. None if the node doesn't answer."""
        command = [self.words.lg, "members", "--json", "--at", self.words.at]
        try:
            ran = subprocess.run(command, stdin=subprocess.DEVNULL, capture_output=True, timeout=ANSWER, check=True)
            rows = json.loads(ran.stdout)["members"]
            return [it for it in rows if fnmatch.fnmatchcase(it["name"], self.words.names)]
        except (OSError, subprocess.SubprocessError, ValueError, KeyError, TypeError) as fault:
            told = (getattr(fault, "stderr", None) or b"").decode(errors="replace").strip()
            self.tell(f"the node tells no members, so the servers stay: {told or fault!r}")
            return None

    def wanted(self, rows):
        """The servers that the rows of a table ask for."""
        status = {it["name"]: it["status"] for it in rows}
        place = {it["name"]: self.place(it) for it in rows}
        now = time.monotonic()
        lost = (it for it in self.servers if it not in status)
        self.unlisted = {it: self.unlisted.get(it, now) for it in lost if now - self.unlisted.get(it, now) < GRACE}
        kept = {name: self.servers[name] for name in self.unlisted}
        live = {name: place[name] for name in status if status[name] in LIVE}
        return kept | live or {name: place[name] for name in status if status[name] == "failed"}

    def place(self, row):
        """Where the service of a member is, as nginx spells it."""
        address = f"[{row['address']}]" if ":" in row["address"] else row["address"]
        return f"{address}:{self.words.port}"

    def write(self, servers):
        """Replaces the file by one with these servers, if that can be done. Whoever reads it finds one of the two."""
        beside = f"{self.words.file}.new"
        try:
            with open(beside, "w", encoding="utf-8") as it:
                it.writelines(f"server {servers[name]}; # {name}\n" for name in sorted(servers))
                it.flush()
                os.fsync(it.fileno())
            os.replace(beside, self.words.file)
        except OSError as fault:
            self.tell(f"the servers can't be written: {fault!r}")
            return
        self.servers, self.is_read = servers, False
        self.tell(f"the servers are {' '.join(sorted(servers))}")

    def run_command(self):
        """Has nginx read the file. Whether that succeeded."""
        try:
            status = subprocess.run(self.words.command, stdin=subprocess.DEVNULL, timeout=WORK, check=False).returncode
        except (OSError, subprocess.SubprocessError) as fault:
            status = repr(fault)
        if status:
            self.tell(f"{self.words.command[0]} failed and is run again: {status}")
        return status == 0


class Watch:
    """A `lg watch` that runs, and is started again once it has ended."""

    def __init__(self, words):
        self.words, self.process = words, None

    def wait(self, seconds):
        """Waits until it has written something, or it has ended, or so many seconds have passed."""
        if self.process is None:
            command = [self.words.lg, "watch", "--at", self.words.at]
            how = {"stdin": subprocess.DEVNULL, "stdout": subprocess.PIPE, "stderr": subprocess.DEVNULL}
            try:
                self.process = subprocess.Popen(command, **how)
            except OSError:
                # A look tells what is wrong.
                return time.sleep(seconds)
        if select.select([self.process.stdout], [], [], seconds)[0] and not self.drain():
            self.end()
        return None

    def drain(self):
        """Reads what it has written, of which nothing is used. Whether there was any: if not, it has ended."""
        return len(os.read(self.process.stdout.fileno(), 1 << 20)) > 0

    def end(self):
        if self.process is not None:
            self.process.kill()
            self.process.wait()
            self.process.stdout.close()
            self.process = None


def main():
    parser = argparse.ArgumentParser(description="Writes the servers of an upstream of nginx as members come and go.")
    parser.add_argument("--names", metavar="PATTERN", required=True, help="which members have the service, as 'web-*'")
    parser.add_argument("--port", metavar="PORT", type=int, required=True, help="the port of the service")
    parser.add_argument("--at", metavar="ADDRESS:PORT", default="127.0.0.1:8946", help="where the node answers")
    parser.add_argument("--lg", metavar="PROGRAM", default="lg")
    parser.add_argument("file", metavar="FILE")
    parser.add_argument("command", metavar="COMMAND", nargs=argparse.REMAINDER, help="nginx -s reload")
    words = parser.parse_args()
    if not words.command:
        parser.error("the COMMAND is missing that has nginx read the file, such as nginx -s reload")
    for number in (signal.SIGTERM, signal.SIGINT):
        signal.signal(number, lambda *_: sys.exit(0))
    upstream, watch = Upstream(words), Watch(words)
    try:
        while True:
            upstream.look()
            time.sleep(PAUSE)
            watch.wait(LOOK - PAUSE)
    finally:
        watch.end()


if __name__ == "__main__":
    main()
