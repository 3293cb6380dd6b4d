"""Asks the node of a Lifeguard agent that runs beside a service who is alive, and follows what changes.

    import lg_members

    for member in lg_members.members(status="alive"):
        print(member.name, "is alive at", member.address)

    table = {}
    with lg_members.watch() as changes:
        for change in changes:
            change.apply(table)

At a terminal `python3 -m lg_members [watch] [--at ADDR:PORT]` prints lines, as `lg members` and `lg watch` do.

This is one file that needs nothing but Python 3.9 or later: copy it beside your service. What a node answers over HTTP
stands in docs/FORMATS.md of the agent, and README.md beside this file says what a watcher promises.
"""
from __future__ import annotations

import argparse
import json
import os
import re
import socket
import sys
import threading
import time
from collections import deque
from dataclasses import dataclass, replace
from typing import Callable, Iterator, Optional, Sequence

__all__ = ["members", "member", "health", "table", "watch", "Member", "Table", "Health", "Change", "Watch", "NodeError",
           "NoAnswer", "Busy", "BadAnswer", "STATUSES", "FORGOTTEN"]

# Where a node's status server listens if nothing else is said.
AT = "127.0.0.1:8946"
# How long a question may take, in seconds: from the connecting to the last byte of the answer.
TIMEOUT = 5.0
# The longest that a node lets a question for changes wait, in milliseconds.
WAIT_MS = 30_000
# The longest answer that is read, in bytes, its head included.
MAX_ANSWER = 1_048_576
# How long a watcher waits behind a try that failed, in seconds: at first, and at most.
FIRST_WAIT, LONGEST_WAIT = 0.1, 5.0
# A try that took so many seconds asked in no haste: behind it a watcher waits as it does at first.
LONG_TRY = 5.0
# How long a connection of a watcher may have been idle to be used again, in seconds. A node closes it after five.
IDLE = 3.0

STATUSES = ("alive", "suspect", "failed", "left")
# The status of a change that says that the node dropped a member, which had failed or left.
FORGOTTEN = "forgotten"

NAME = re.compile(r"[A-Za-z0-9._-]{1,32}")
PLACE = re.compile(r"(?:\[([0-9A-Fa-f:.]+)\]|([A-Za-z0-9._-]+)):([0-9]{1,5})")
FIRST_LINE = re.compile(rb"HTTP/1\.[01] ([0-9]{3})(?: .*)?")


# ---- What a node says


@dataclass(frozen=True)
class Member:
    """What a node knows of a member. `address` is of IPv4 or IPv6, without brackets. Only a suspect has an accuser."""

    name: str
    status: str
    incarnation: int
    address: str
    port: int
    accuser: Optional[str]


@dataclass(frozen=True)
class Table:
    """The members that a node knows, itself included, in the order of names. `name` is the node's own, `version` how
    many events they are after, and `moment_ms` when they were read, in milliseconds from the node's start."""

    version: int
    moment_ms: int
    name: str
    members: tuple[Member, ...]


@dataclass(frozen=True)
class Health:
    """A node's health. Its score is 0 at best. `live` is how many members are neither failed nor left, of those that
    are `known`."""

    name: str
    score: int
    incarnation: int
    live: int
    known: int
    ousted: bool
    uptime_ms: int
    stood_still_ms: int


@dataclass(frozen=True)
class Change:
    """A change of a member: its new record, or that it was forgotten. Then `status` is `forgotten`, and `incarnation`,
    `address`, `port` and `accuser` are None.

    `of_table` says that it is a row of a whole table, which is given at the start and when a watcher has to begin anew.
    `more` says that further changes of the same answer follow at once. Behind a change without `more` a dict to which
    all changes were applied is the table of the node.
    """

    version: int
    moment_ms: int
    name: str
    status: str
    incarnation: Optional[int]
    address: Optional[str]
    port: Optional[int]
    accuser: Optional[str]
    of_table: bool = False
    more: bool = False

    @property
    def member(self) -> Optional[Member]:
        """The member as it is now. None if it was forgotten."""
        if self.incarnation is None or self.address is None or self.port is None:
            return None
        return Member(self.name, self.status, self.incarnation, self.address, self.port, self.accuser)

    def apply(self, table: dict[str, Member]) -> None:
        """Brings a dict of members by their names up to date."""
        now = self.member
        if now:
            table[self.name] = now
        else:
            table.pop(self.name, None)


class NodeError(Exception):
    """There is no answer of a node. Each is one of the three below."""


class NoAnswer(NodeError):
    """Nobody listens there, the answer took too long, or it ended before it was whole."""


class Busy(NodeError):
    """The node has too many clients: it said so, or closed the connection before a byte came. `retry_after` is after
    how many seconds it wants to be asked again, 0 if it didn't say."""

    def __init__(self, words: str, retry_after: float = 0.0) -> None:
        super().__init__(words)
        self.retry_after = retry_after


class BadAnswer(NodeError):
    """What came is no answer of a node's status server."""


# ---- Reading what came


def _number(row: dict[str, object], key: str, most: int = 2**64 - 1) -> int:
    value = row.get(key)
    if type(value) is int and 0 <= value <= most:
        return value
    raise BadAnswer(f"`{key}` is no number from 0 to {most}: {str(value)[:80]!r}")


def _text(row: dict[str, object], key: str) -> str:
    value = row.get(key)
    if isinstance(value, str):
        return value
    raise BadAnswer(f"`{key}` is no text: {str(value)[:80]!r}")


def _truth(row: dict[str, object], key: str) -> bool:
    value = row.get(key)
    if isinstance(value, bool):
        return value
    raise BadAnswer(f"`{key}` is neither true nor false: {str(value)[:80]!r}")


def _name(row: dict[str, object], key: str = "name") -> str:
    value = _text(row, key)
    if NAME.fullmatch(value):
        return value
    raise BadAnswer(f"`{key}` is no name: {value[:80]!r}")


def _rows(row: dict[str, object], key: str) -> list[dict[str, object]]:
    value = row.get(key)
    if isinstance(value, list) and all(isinstance(it, dict) for it in value):
        return value
    raise BadAnswer(f"`{key}` is no list of objects: {str(value)[:80]!r}")


def _status(row: dict[str, object]) -> str:
    value = _text(row, "status")
    if value in STATUSES:
        return value
    raise BadAnswer(f"`status` is none of {', '.join(STATUSES)}: {value[:80]!r}")


def _address(row: dict[str, object]) -> str:
    value = _text(row, "address")
    try:
        socket.inet_pton(socket.AF_INET6 if ":" in value else socket.AF_INET, value)
    except (OSError, ValueError):
        raise BadAnswer(f"`address` is none: {value[:80]!r}") from None
    return value


def _member(row: dict[str, object]) -> Member:
    if "accuser" not in row:
        raise BadAnswer("a member lacks `accuser`")
    accuser = None if row["accuser"] is None else _name(row, "accuser")
    return Member(_name(row), _status(row), _number(row, "incarnation"), _address(row), _number(row, "port", 65_535),
                  accuser)


def _changed(member: Member, version: int, moment_ms: int, of_table: bool = False) -> Change:
    return Change(version, moment_ms, member.name, member.status, member.incarnation, member.address, member.port,
                  member.accuser, of_table, more=True)


def _dropped(name: str, version: int, moment_ms: int, of_table: bool = False) -> Change:
    return Change(version, moment_ms, name, FORGOTTEN, None, None, None, None, of_table, more=True)


def _change(row: dict[str, object], of_table: bool) -> Change:
    version, moment_ms = _number(row, "version"), _number(row, "moment_ms")
    if row.get("status") == FORGOTTEN:
        return _dropped(_name(row), version, moment_ms, of_table)
    return _changed(_member(row), version, moment_ms, of_table)


def _table(answer: dict[str, object]) -> Table:
    return Table(_number(answer, "version"), _number(answer, "moment_ms"), _name(answer),
                 tuple(map(_member, _rows(answer, "members"))))


def _health(answer: dict[str, object]) -> Health:
    return Health(_name(answer), _number(answer, "score"), _number(answer, "incarnation"), _number(answer, "live"),
                  _number(answer, "known"), _truth(answer, "ousted"), _number(answer, "uptime_ms"),
                  _number(answer, "stood_still_ms"))


def _whole(digits: str) -> int:
    if len(digits) > 20:
        raise ValueError("a number of more than 64 bits")
    return int(digits)


# ---- A connection


def _place_of(at: str) -> tuple[str, int]:
    """The host and the port of a text `ADDR:PORT`, with an IPv6 address in brackets."""
    found = PLACE.fullmatch(at)
    if not found or not 1 <= int(found[3]) <= 65_535:
        raise ValueError(f"{at!r} isn't ADDR:PORT, with an IPv6 address in brackets before the colon")
    return found[1] or found[2], int(found[3])


def _left(deadline: float) -> float:
    """How many seconds are left until a deadline, a day at most: a socket takes no time without an end."""
    left = deadline - time.monotonic()
    if left <= 0:
        raise NoAnswer("no whole answer came in time")
    return min(left, 86_400.0)


class _Connection:
    """A connection to a node, on which one question goes behind the other. Whatever fails closes it, since what still
    comes then would be taken for the answer to the next question."""

    def __init__(self, at: str, deadline: float) -> None:
        self.at = at
        self.received = bytearray()
        # How many bytes of the answer may still come.
        self.room = MAX_ANSWER
        self.has_answered, self.is_open = False, True
        self.used_at = time.monotonic()
        # It is held while the socket is closed or shut down, so that neither meets a socket that came in its place.
        self.lock = threading.RLock()
        try:
            self.link = socket.create_connection(_place_of(at), _left(deadline))
        except (OSError, UnicodeError) as error:
            raise NoAnswer(f"nobody takes the connection at {at}: {error}") from error

    def ask(self, target: str, deadline: float, codes: Sequence[int] = (200,)) -> tuple[int, dict[str, object]]:
        """The code and the JSON of the answer to a GET. Its code has to be one of `codes`."""
        try:
            code, fields, body = self._exchange(target, deadline)
            self.used_at, self.has_answered = time.monotonic(), True
            if self.received or b"close" in fields.get(b"connection", b"").lower():
                self.close()
            return code, _value(code, fields, body, codes)
        except socket.timeout as error:
            self.close()
            raise NoAnswer("no whole answer came in time") from error
        except OSError as error:
            self.close()
            raise self._ended(str(error)) from error
        except BaseException:
            self.close()
            raise

    def _ended(self, words: str) -> NodeError:
        """What it means that the connection ended while an answer was due."""
        if self.room < MAX_ANSWER or self.has_answered:
            return NoAnswer(f"the connection ended before the answer was whole: {words}")
        return Busy(f"the connection was closed before a byte came: {words}")

    def _exchange(self, target: str, deadline: float) -> tuple[int, dict[bytes, bytes], bytes]:
        self.room = MAX_ANSWER
        self.link.settimeout(_left(deadline))
        self.link.sendall(f"GET {target} HTTP/1.1\r\nHost: {self.at}\r\nAccept: application/json\r\n\r\n".encode())
        first, *lines = self._until(b"\r\n\r\n", deadline).split(b"\r\n")
        found = FIRST_LINE.fullmatch(first)
        if not found:
            raise BadAnswer(f"this is no answer of HTTP/1.1: {first[:80]!r}")
        parts = [line.partition(b":") for line in lines]
        fields = {name.lower(): value.strip() for name, _, value in parts}
        if first.startswith(b"HTTP/1.0"):
            fields.setdefault(b"connection", b"close")
        return int(found[1]), fields, self._body(fields, deadline)

    def _body(self, fields: dict[bytes, bytes], deadline: float) -> bytes:
        if b"transfer-encoding" in fields:
            return self._chunks(deadline)
        length = fields.get(b"content-length")
        if length is None:
            fields[b"connection"] = b"close"
            return self._rest(deadline)
        if not re.fullmatch(rb"[0-9]{1,16}", length):
            raise BadAnswer(f"this is no length: {length[:80]!r}")
        return self._take(int(length), deadline)

    def _chunks(self, deadline: float) -> bytes:
        """A body that comes in chunks (RFC 9112, section 7.1). A node sends none, but what stands before it may."""
        body = bytearray()
        while True:
            size = self._until(b"\r\n", deadline).partition(b";")[0].strip()
            if not re.fullmatch(rb"[0-9A-Fa-f]{1,8}", size):
                raise BadAnswer(f"this is no size of a chunk: {size[:80]!r}")
            if not int(size, 16):
                break
            body += self._take(int(size, 16), deadline)
            if self._take(2, deadline) != b"\r\n":
                raise BadAnswer("a chunk doesn't end where it should")
        while self._until(b"\r\n", deadline):
            pass
        return bytes(body)

    def _more(self, deadline: float) -> bool:
        """Receives some more bytes. Whether there were any."""
        self.link.settimeout(_left(deadline))
        part = self.link.recv(65_536)
        self.received += part
        self.room -= len(part)
        if self.room < 0:
            raise BadAnswer(f"the answer has more than {MAX_ANSWER} bytes")
        return bool(part)

    def _until(self, mark: bytes, deadline: float) -> bytes:
        """What stands before the next mark, which is taken away too."""
        while (at := self.received.find(mark)) < 0:
            if not self._more(deadline):
                raise self._ended("it was closed")
        taken = bytes(self.received[:at])
        del self.received[:at + len(mark)]
        return taken

    def _take(self, count: int, deadline: float) -> bytes:
        """So many of the next bytes."""
        while len(self.received) < count:
            if count > MAX_ANSWER:
                raise BadAnswer(f"the answer has more than {MAX_ANSWER} bytes")
            if not self._more(deadline):
                raise NoAnswer("the connection ended before the answer was whole")
        taken = bytes(self.received[:count])
        del self.received[:count]
        return taken

    def _rest(self, deadline: float) -> bytes:
        """All that comes until the connection ends."""
        while self._more(deadline):
            pass
        return self._take(len(self.received), deadline)

    def interrupt(self) -> None:
        """Ends the question that another thread waits for."""
        with self.lock:
            try:
                self.link.shutdown(socket.SHUT_RDWR)
            except OSError:
                # The node has ended it, or it is closed already.
                pass

    def close(self) -> None:
        with self.lock:
            self.is_open = False
            self.link.close()


def _value(code: int, fields: dict[bytes, bytes], body: bytes, codes: Sequence[int]) -> dict[str, object]:
    """The JSON of an answer, which has to be an object. Its code has to be one of these."""
    seconds = fields.get(b"retry-after")
    if code == 503 and seconds is not None:
        if not re.fullmatch(rb"[0-9]{1,16}", seconds):
            raise BadAnswer(f"this is no number of seconds: {seconds[:80]!r}")
        raise Busy("the node has too many clients", float(seconds))
    if code not in codes:
        raise BadAnswer(f"the answer has the code {code}: {body[:200]!r}")
    try:
        value = json.loads(body.decode("utf-8"), parse_int=_whole)
    except (ValueError, RecursionError) as error:
        raise BadAnswer(f"the body is no JSON: {error}") from None
    if isinstance(value, dict):
        return value
    raise BadAnswer("the body is no object of JSON")


# ---- Single questions


def _asked(at: str, target: str, timeout: float, codes: Sequence[int] = (200,)) -> tuple[int, dict[str, object]]:
    """The code and the JSON of one answer, on a connection of its own."""
    deadline = time.monotonic() + timeout
    connection = _Connection(at, deadline)
    try:
        return connection.ask(target, deadline, codes)
    finally:
        connection.close()


def table(at: str = AT, status: Optional[str] = None, timeout: float = TIMEOUT) -> Table:
    """The members that the node at an address knows, or those of a status, with the node's own name.

    It asks once, and raises `NoAnswer`, `Busy` or `BadAnswer` if there is no answer within so many seconds, and
    `ValueError` if the address isn't `ADDR:PORT` or the status isn't one of `STATUSES`.
    """
    if status is not None and status not in STATUSES:
        raise ValueError(f"a status is one of {', '.join(STATUSES)}, and not {status!r}")
    return _table(_asked(at, "/v1/members" + (f"?status={status}" if status else ""), timeout)[1])


def members(at: str = AT, status: Optional[str] = None, timeout: float = TIMEOUT) -> list[Member]:
    """The members of `table`, in the order of names."""
    return list(table(at, status, timeout).members)


def member(name: str, at: str = AT, timeout: float = TIMEOUT) -> Optional[Member]:
    """The member of a name, or None if the node doesn't know it. It raises what `table` does, and `ValueError` if the
    name isn't 1 to 32 bytes of `A-Z a-z 0-9 . _ -`."""
    if not NAME.fullmatch(name):
        raise ValueError(f"{name!r} is no name of a member")
    code, answer = _asked(at, f"/v1/members/{name}", timeout, (200, 404))
    if code == 404:
        _text(answer, "error")
        return None
    return _member(answer)


def health(at: str = AT, timeout: float = TIMEOUT) -> Health:
    """The health of the node at an address. It raises what `table` does. Of a node that was ousted this is an answer
    too, with `ousted`."""
    return _health(_asked(at, "/v1/health", timeout, (200, 503))[1])


# ---- What changes


# What a watcher calls with each fault.
OnFault = Optional[Callable[[NodeError], object]]


class Watch(Iterator[Change]):
    """The changes of a node, as `watch` gives them. One thread takes them at a time, and any may call `close`."""

    def __init__(self, at: str, timeout: float, wait_ms: int, on_fault: OnFault) -> None:
        self._at, self._timeout, self._wait_ms, self._on_fault = at, timeout, wait_ms, on_fault
        # The first is held by who takes a change, and the second by who opens or closes the connection. A handler of a
        # signal, which runs in the midst of either, may call `close`.
        self._turn, self._lock = threading.RLock(), threading.RLock()
        self._closed = threading.Event()
        self._connection: Optional[_Connection] = None
        self._pending: deque[Change] = deque()
        # Whom the changes so far leave in a table, and up to which version of which life of the node. A node draws a
        # number when it starts, by which its lives can be told apart.
        self._told: set[str] = set()
        self._version: Optional[int] = None
        self._life: Optional[int] = None
        self._wait = FIRST_WAIT

    def __iter__(self) -> Watch:
        return self

    def __enter__(self) -> Watch:
        return self

    def __exit__(self, *_: object) -> None:
        self.close()

    def __del__(self) -> None:
        self.close()

    def __next__(self) -> Change:
        with self._turn:
            while not self._pending and not self._closed.is_set():
                self._try()
            if self._closed.is_set():
                raise StopIteration
            return self._pending.popleft()

    def close(self) -> None:
        """Ends the changes: also a `next` that waits in another thread. When it returns, the connection is closed. If
        that thread is connecting just then, this takes as long as it does: `timeout` seconds at most."""
        self._closed.set()
        with self._lock:
            if self._connection:
                self._connection.interrupt()
        with self._turn:
            self._drop()
            self._pending.clear()

    def _try(self) -> None:
        """Asks once for changes. If that fails, it waits."""
        begun = time.monotonic()
        try:
            self._pending.extend(self._news())
        except NodeError as fault:
            self._drop()
            if self._closed.is_set():
                return
            if time.monotonic() - begun > LONG_TRY:
                self._wait = FIRST_WAIT
            wait = self._wait
            self._wait = min(2 * self._wait, LONGEST_WAIT)
            if isinstance(fault, Busy):
                wait = max(wait, min(fault.retry_after, LONGEST_WAIT))
            if self._on_fault:
                self._on_fault(fault)
            self._closed.wait(wait)

    def _news(self) -> list[Change]:
        """The changes of the next answer."""
        connection = self._connection
        if not connection or not connection.is_open or time.monotonic() - connection.used_at > IDLE:
            self._connect()
            life = self._ask_life()
            if self._version is None or life != self._life:
                anew = self._ask_table()
                self._life = life
                return anew
        return self._ask_changes(self._version or 0)

    def _connect(self) -> None:
        """Opens a connection in the place of the one before."""
        self._drop()
        connection = _Connection(self._at, time.monotonic() + self._timeout)
        with self._lock:
            self._connection = connection
        if self._closed.is_set():
            raise NoAnswer("it was closed")

    def _drop(self) -> None:
        """Closes the connection."""
        with self._lock:
            if self._connection:
                self._connection.close()
                self._connection = None

    def _ask(self, target: str, wait: float = 0.0, codes: Sequence[int] = (200,)) -> tuple[int, dict[str, object]]:
        """The answer to a question that the node may let wait. If the connection was closed behind an answer, as no
        node does, another is opened."""
        if not self._connection or not self._connection.is_open:
            self._connect()
        assert self._connection
        return self._connection.ask(target, time.monotonic() + wait + self._timeout, codes)

    def _ask_life(self) -> Optional[int]:
        """The number that the node drew when it started. None if it tells none."""
        code, answer = self._ask("/v1/config", codes=(200, 404))
        return _number(answer, "first") if code == 200 and "first" in answer else None

    def _ask_table(self) -> list[Change]:
        """The whole table, as changes."""
        got = _table(self._ask("/v1/members")[1])
        return self._anew(got.version, [_changed(it, got.version, got.moment_ms, of_table=True) for it in got.members])

    def _ask_changes(self, after: int) -> list[Change]:
        """The changes behind a version, of which there are none if nothing changed."""
        begun, wait = time.monotonic(), self._wait_ms / 1000
        _, answer = self._ask(f"/v1/changes?after={after}&wait_ms={self._wait_ms}", wait)
        version, missed = _number(answer, "version"), _truth(answer, "missed")
        rows = [_change(it, of_table=missed) for it in _rows(answer, "changes")]
        if version < after:
            self._version = None
            raise NoAnswer("the version of the node went back: it was started again")
        if rows and version == after:
            raise BadAnswer("there are changes, and the version is that of before")
        if missed and not rows:
            raise BadAnswer("the whole table has no member")
        if not rows and time.monotonic() - begun < wait / 2:
            raise BadAnswer("it said that nothing changed before its time was over")
        self._wait = FIRST_WAIT
        return self._anew(version, rows) if missed else self._taken(version, rows)

    def _anew(self, version: int, rows: list[Change]) -> list[Change]:
        """The rows of a whole table, and before them that those are forgotten who aren't there any more."""
        here = {it.name for it in rows if it.status != FORGOTTEN}
        moment_ms = rows[-1].moment_ms if rows else 0
        gone = [_dropped(name, version, moment_ms, of_table=True) for name in sorted(self._told - here)]
        return self._taken(version, gone + [it for it in rows if it.status != FORGOTTEN])

    def _taken(self, version: int, rows: list[Change]) -> list[Change]:
        """Notes what these changes leave in a table, and gives them."""
        for row in rows:
            if row.status == FORGOTTEN:
                self._told.discard(row.name)
            else:
                self._told.add(row.name)
        self._version = version
        return rows[:-1] + [replace(it, more=False) for it in rows[-1:]]


def watch(at: str = AT, timeout: float = TIMEOUT, wait_ms: int = WAIT_MS, on_fault: OnFault = None) -> Watch:
    """The changes of the node at an address, without an end: at first the whole table, then each change as it comes.

    It waits for a node that isn't there, or not yet. If a try fails, it calls `on_fault`, waits, and tries again: after
    0.1 s, then after twice as long each time, 5 s at most. If the node was started again, or if more changed than it
    keeps, the whole table is given anew. Before it those come as `forgotten` who were given and aren't in it. So a dict
    to which all changes are applied, up to one without `more`, is the table of the node at that moment.

    A question waits at the node for `wait_ms` at most, 1 to 30000, and then `timeout` seconds more. `close`, or the end
    of a `with`, ends the changes; otherwise they never end. `ValueError` is raised if an argument can't be.
    """
    _place_of(at)
    if not 1 <= wait_ms <= WAIT_MS or not timeout > 0:
        raise ValueError(f"wait_ms is 1 to {WAIT_MS} and timeout above 0, and not {wait_ms} and {timeout}")
    return Watch(at, timeout, wait_ms, on_fault)


# ---- At a terminal


def _line_of(it: Member) -> str:
    """A member, as `lg members` writes it."""
    host = f"[{it.address}]" if ":" in it.address else it.address
    by = f" by {it.accuser}" if it.accuser else ""
    return f"record {it.name} {it.status} {it.incarnation} {host}:{it.port}{by}"


def _tell(fault: NodeError) -> None:
    print(f"lg_members: {fault}", file=sys.stderr, flush=True)


def _write(words: argparse.Namespace) -> None:
    """Writes what the words of a command line ask for."""
    if words.what == "members":
        for it in members(words.at):
            print(_line_of(it))
        return
    with watch(words.at, on_fault=_tell) as changes:
        for change in changes:
            now = change.member
            print(change.moment_ms, _line_of(now) if now else f"{FORGOTTEN} {change.name}", flush=True)


def main(words: Optional[Sequence[str]] = None) -> int:
    """Runs a command line. Gives its status: that of `lg members`, which docs/FORMATS.md has."""
    parser = argparse.ArgumentParser(prog="python3 -m lg_members", description="Asks a node who is alive.")
    parser.add_argument("what", nargs="?", choices=["members", "watch"], default="members",
                        help="write the members, or each change as it comes, without an end")
    parser.add_argument("--at", default=AT, metavar="ADDR:PORT", help=f"where the node answers; without it, at {AT}")
    try:
        _write(parser.parse_args(words))
        sys.stdout.flush()
    except ValueError as error:
        print(f"lg_members: {error}", file=sys.stderr)
        return 3
    except NodeError as fault:
        _tell(fault)
        return {NoAnswer: 7, BadAnswer: 8, Busy: 10}[type(fault)]
    except BrokenPipeError:
        # Nobody reads the lines any more. What is left of them goes nowhere when Python ends.
        os.dup2(os.open(os.devnull, os.O_WRONLY), sys.stdout.fileno())
        return 1
    except KeyboardInterrupt:
        return 130
    return 0


if __name__ == "__main__":
    sys.exit(main())
