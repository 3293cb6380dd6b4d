"""Requests to the status server of a node, by clients that aren't this project's, and what comes for them.

All servers listen at TCP ports of 127.0.0.1.
"""

import http.client
import json
import shutil
import socket
import subprocess
from dataclasses import dataclass

from packets import HOST
from running import wait_until

# How long an answer may take, in seconds.
SECONDS = 10


@dataclass(frozen=True)
class Answer:
    """An answer: its code, its fields by their names in small letters, and its body."""

    code: int
    fields: dict[str, str]
    body: bytes

    def value(self):
        """What the JSON of the body says."""
        return json.loads(self.body)


def request(target, method="GET", fields="", body=b""):
    """The bytes of a request, with further lines of fields, each with its end."""
    return f"{method} {target} HTTP/1.1\r\nhost: {HOST}\r\n{fields}\r\n".encode() + body


# ---- Clients


def by_python(port, target, method="GET", body=None):
    """What Python's client gets."""
    connection = http.client.HTTPConnection(HOST, port, timeout=SECONDS)
    try:
        return on_connection(connection, target, method, body)
    finally:
        connection.close()


def on_connection(connection, target, method="GET", body=None):
    """What Python's client gets on a connection that stays."""
    connection.request(method, target, body)
    got = connection.getresponse()
    return Answer(got.status, {name.lower(): value for name, value in got.getheaders()}, got.read())


def by_curl(port, target, method="GET", body=None):
    """What curl gets."""
    if not shutil.which("curl"):
        raise RuntimeError("there is no curl, and this check needs it")
    how = ["--head"] if method == "HEAD" else ["--request", method]
    data = [] if body is None else ["--data-binary", "@-"]
    words = ["curl", "--silent", "--show-error", "--include", "--path-as-is", "--noproxy", "*", "--max-time",
             str(SECONDS), *how, *data, f"http://{HOST}:{port}{target}"]
    ran = subprocess.run(words, input=body, capture_output=True)
    if ran.returncode:
        raise RuntimeError(f"curl ended with status {ran.returncode} for {method} {target[:80]}: {ran.stderr.decode()}")
    head, _, rest = ran.stdout.partition(b"\r\n\r\n")
    while head.split()[1] == b"100":
        head, _, rest = rest.partition(b"\r\n\r\n")
    first, *lines = head.decode().split("\r\n")
    pairs = [line.partition(":") for line in lines]
    return Answer(int(first.split()[1]), {name.lower(): value.strip() for name, _, value in pairs}, rest)


def by_bytes(port, target, method="GET", body=None):
    """All that comes until the server closes the connection, as it is asked to. Bytes behind the body belong to it."""
    length = "" if body is None else f"content-length: {len(body)}\r\n"
    with Link(port, request(target, method, f"connection: close\r\n{length}", body or b"")) as link:
        answer = link.head()
        return Answer(answer.code, answer.fields, link.file.read())


class Link:
    """A connection on which bytes are sent as they are, and answers are read in order."""

    def __init__(self, port, data=b""):
        self.socket = socket.create_connection((HOST, port), SECONDS)
        self.file = self.socket.makefile("rb")
        self.socket.sendall(data)

    def head(self):
        """The next answer without its body. None if the connection ended before one."""
        first = self.file.readline()
        if not first:
            return None
        fields = {}
        while line := self.file.readline().strip():
            name, _, value = line.decode("ascii").partition(":")
            fields[name.lower()] = value.strip()
        return Answer(int(first.split()[1]), fields, b"")

    def answer(self):
        """The next answer to a GET. None if the connection ended before one."""
        head = self.head()
        return head and Answer(head.code, head.fields, self.file.read(int(head.fields.get("content-length", 0))))

    def is_open(self):
        """Whether the server hasn't closed it, as far as can be seen without waiting. What was sent has to be read."""
        self.socket.setblocking(False)
        try:
            return bool(self.socket.recv(1, socket.MSG_PEEK))
        except BlockingIOError:
            return True
        except OSError:
            return False
        finally:
            self.socket.settimeout(SECONDS)

    def close(self):
        self.file.close()
        self.socket.close()

    def __enter__(self):
        return self

    def __exit__(self, *_):
        self.close()


# ---- Short questions


def asked_for(port, target):
    """The value of the JSON that a GET gets with the code 200."""
    answer = by_python(port, target)
    if answer.code != 200:
        raise RuntimeError(f"{target} got {answer.code}: {answer.body[:200]}")
    return answer.value()


def changes_after(port, version, wait_ms=0):
    """The body of the changes behind a version."""
    return asked_for(port, f"/v1/changes?after={version}&wait_ms={wait_ms}")


def is_answering(port):
    """Whether the server at a port says that its node is well. One that is closed at once may be asked again."""
    try:
        return by_python(port, "/v1/health").code == 200
    except (OSError, http.client.HTTPException):
        return False


def wait_for_answers(port):
    """Waits until the server at a port says that its node is well. One that doesn't in ten seconds fails the check."""
    if wait_until(lambda: is_answering(port), 10) is None:
        raise RuntimeError(f"no server answers at port {port}")
