#!/usr/bin/env python3
"""Answers the agent checks of HAProxy by what the node beside HAProxy says of the members.

    agent.py [--listen ADDRESS:PORT] [--at ADDRESS:PORT]

HAProxy connects once every `agent-inter` for each server, and sends a line with the name of a member (`agent-send`).
The node is asked for its table each time, but not more than ten times a second, whatever the number of servers. The
answers:

    up               the member is alive, or suspected
    down #failed     it has failed
    stopped #left    it has left
    nothing          the node doesn't answer, or doesn't know the member: HAProxy leaves the server as it is

If the node takes all others as failed, then it is the node that is cut off, more likely than all the others. Then the
answer is `up` also for those that have failed, and HAProxy has to go by its own checks.

It listens at 127.0.0.1:8947, and asks the node at 127.0.0.1:8946. On standard error it tells each answer about a member
that differs from the one before. It needs no right and no file.
"""

import argparse
import http.client
import json
import socket
import socketserver
import sys
import threading
import time

# How long each read may take, in seconds: of the node's answer, and of HAProxy's line; and how long an answer of the
# node counts. HAProxy waits for `agent-inter`, so the first has to be less than that.
NODE_SECONDS, LINE_SECONDS, KEPT_SECONDS = 0.3, 1, 0.1
# The longest line, since a name has at most 32 bytes; and of how many names it is known what was told.
LONGEST, MOST = 64, 1000
LIVE = {"alive", "suspect"}
# Without the space before `#` HAProxy takes the whole for a word that it doesn't know, and the server stays up.
ANSWERS = {"alive": "up", "suspect": "up", "failed": "down #failed", "left": "stopped #left"}


def place(text):
    """The address and the port of a text such as 127.0.0.1:8946 or [::1]:8946."""
    address, _, port = text.rpartition(":")
    return address.strip("[]"), int(port)


class Node:
    """The node at a place, and what it answered last: its name, the status of each member by its name, and how that
    failed, if it did."""

    def __init__(self, at):
        self.at, self.lock = at, threading.Lock()
        self.read_at, self.answer = -KEPT_SECONDS, None

    def table(self):
        """What the node answers. One thread asks, and the others wait for what it gets."""
        with self.lock:
            if time.monotonic() - self.read_at >= KEPT_SECONDS:
                self.answer = self.read()
                self.read_at = time.monotonic()
            return self.answer

    def read(self):
        connection = http.client.HTTPConnection(*self.at, timeout=NODE_SECONDS)
        try:
            connection.request("GET", "/v1/members")
            answer = connection.getresponse()
            if answer.status != 200:
                raise ValueError(f"the node answers {answer.status}")
            table = json.load(answer)
            return table["name"], {it["name"]: it["status"] for it in table["members"]}, None
        except (OSError, http.client.HTTPException, ValueError, KeyError, TypeError) as fault:
            return "", {}, repr(fault)
        finally:
            connection.close()


def answer_about(name, own, statuses):
    """What HAProxy is told of a member, by the table of the node of a name. None if there is nothing to tell."""
    others = {status for it, status in statuses.items() if it != own}
    if statuses.get(name) == "failed" and not LIVE & others:
        return "up"
    return ANSWERS.get(statuses.get(name))


class Check(socketserver.StreamRequestHandler):
    """One agent check."""

    timeout = LINE_SECONDS

    def handle(self):
        name = self.rfile.readline(LONGEST).decode("ascii").strip()
        own, statuses, fault = self.server.node.table()
        answer = answer_about(name, own, statuses)
        if answer:
            self.wfile.write(f"{answer}\n".encode())
        self.server.tell(name, answer or f"no answer: {fault or 'the node does not know it'}")


class Agent(socketserver.ThreadingTCPServer):
    """The server that HAProxy asks, with a thread for each question."""

    allow_reuse_address = daemon_threads = True
    request_queue_size = 128

    def __init__(self, listen, node):
        self.node, self.told = Node(node), {}
        self.address_family = socket.AF_INET6 if ":" in listen[0] else socket.AF_INET
        super().__init__(listen, Check)

    def tell(self, name, words):
        """Tells what is answered about a member, if it is another answer than before."""
        if self.told.get(name) != words:
            if len(self.told) >= MOST:
                self.told.clear()
            self.told[name] = words
            print(f"{name!r}: {words}", file=sys.stderr, flush=True)

    def handle_error(self, request, client_address):
        """The line didn't come in time, or is none, or HAProxy went away: nothing is answered, and it asks again."""
        self.tell("", repr(sys.exc_info()[1]))


def main():
    parser = argparse.ArgumentParser(description="Answers the agent checks of HAProxy from the node beside it.")
    parser.add_argument("--listen", metavar="ADDRESS:PORT", type=place, default="127.0.0.1:8947")
    parser.add_argument("--at", metavar="ADDRESS:PORT", type=place, default="127.0.0.1:8946", help="the node")
    words = parser.parse_args()
    with Agent(words.listen, words.at) as agent:
        agent.serve_forever()


if __name__ == "__main__":
    main()
