"""A server of the tests' own, which answers as a node does, or as real nodes seldom do."""

import json
import queue
import socket
import threading
import time
from collections import deque

# How long a test waits for what should come at once, in seconds, and how long a question may take if its time isn't
# what is tested. Both are long, for a machine that is busy.
LIMIT, LONG = 10, 30


def member(name, status="alive", incarnation=0, accuser=None, **others):
    """A member, as a node tells it."""
    return {"name": name, "status": status, "incarnation": incarnation, "address": "127.0.0.1", "port": 7101,
            "accuser": accuser, **others}


def change(version, name, status="alive", **others):
    """A change, as a node tells it."""
    row = {"version": version, "moment_ms": 10 * version, **member(name, status, **others)}
    return row if status != "forgotten" else {**row, "incarnation": None, "address": None, "port": None}


def changes(version, *rows, missed=False):
    """An answer with changes."""
    return reply({"version": version, "missed": missed, "changes": rows})


def reply(value, code=200, fields=""):
    """The bytes of an answer with a value of JSON."""
    body = value if isinstance(value, bytes) else json.dumps(value).encode()
    return f"HTTP/1.1 {code} Words\r\nContent-Length: {len(body)}\r\n{fields}\r\n".encode() + body


BUSY = reply({"error": "too many requests wait"}, 503, "Retry-After: 1\r\nConnection: close\r\n")
# What takes the place of an answer: the connection is closed; it stays, and nothing comes on it.
CLOSED, SILENT = b"", None


class Last(bytes):
    """Bytes behind which the connection is closed."""


def until(holds, what, seconds=LIMIT):
    """Waits until something holds. If it doesn't within some seconds, the test fails."""
    end = time.monotonic() + seconds
    while not holds():
        if time.monotonic() > end:
            raise AssertionError(f"after {seconds} s: {what}")
        time.sleep(0.01)


def is_closed(link):
    """Whether the other side of a connection has closed it."""
    try:
        return not link.recv(1, socket.MSG_PEEK | socket.MSG_DONTWAIT)
    except BlockingIOError:
        return False
    except OSError:
        return True


class Fake:
    """A node that has a table, and the answers to the next questions for changes, in `news`. If there are none, such a
    question waits. What stands in `instead` takes the place of the next answers, whatever they are to. So many of the
    next connections as `refusals` says are closed at once. If `slowness` isn't 0, so many seconds pass before each
    byte. `asked` has each target, with its connection's number."""

    def __init__(self, *members, version=5, first=1):
        self.members, self.version, self.first = members, version, first
        self.news, self.instead, self.refusals = queue.Queue(), deque(), 0
        self.asked, self.open, self.slowness = [], set(), 0
        self.listener = socket.create_server(("127.0.0.1", 0))
        self.at = f"127.0.0.1:{self.listener.getsockname()[1]}"
        threading.Thread(target=self.listen, daemon=True).start()

    def listen(self):
        number = 0
        while True:
            try:
                link, _ = self.listener.accept()
            except OSError:
                return
            number += 1
            if self.refusals:
                self.refusals -= 1
                link.close()
                continue
            self.open.add(link)
            threading.Thread(target=self.serve, args=(link, number), daemon=True).start()

    def serve(self, link, number):
        """Answers what comes on a connection, until it ends."""
        try:
            with link, link.makefile("rb") as file:
                while first := file.readline():
                    while file.readline().strip():
                        pass
                    target = first.split()[1].decode()
                    self.asked.append((number, target))
                    answer = self.instead.popleft() if self.instead else self.answer(target, link)
                    if answer is not SILENT:
                        self.send(link, answer)
                    if answer == CLOSED or isinstance(answer, Last):
                        return
        except OSError:
            pass
        finally:
            self.open.discard(link)

    def send(self, link, answer):
        """Sends an answer: all of it at once, or byte after byte if the server is slow."""
        size = 1 if self.slowness else len(answer)
        for at in range(0, len(answer), size or 1):
            time.sleep(self.slowness)
            link.sendall(answer[at:at + size])

    def answer(self, target, link):
        path, _, query = target.partition("?")
        if path == "/v1/config":
            return reply({"name": "b", "first": self.first} if self.first else {"error": "nothing"},
                         200 if self.first else 404)
        if path == "/v1/members":
            return reply({"version": self.version, "moment_ms": 50, "name": "b", "members": self.members})
        return self.waited_for(int(query.rpartition("=")[2]) / 1000, link)

    def waited_for(self, seconds, link):
        """The next answer with changes, or one without any behind so many seconds. It waits as long as the client."""
        end = time.monotonic() + seconds
        while time.monotonic() < end and not is_closed(link):
            try:
                return self.news.get(timeout=0.02)
            except queue.Empty:
                pass
        return changes(self.version)

    def targets(self):
        return [target for _, target in self.asked]

    def close_all(self):
        """Closes all connections, as a node that is killed."""
        for link in list(self.open):
            try:
                link.shutdown(socket.SHUT_RDWR)
            except OSError:
                pass

    def end(self):
        # Without this the thread that listens would take one more connection.
        self.listener.shutdown(socket.SHUT_RDWR)
        self.listener.close()
        self.close_all()

    def __enter__(self):
        return self

    def __exit__(self, *_):
        self.end()
