#!/usr/bin/env python3
"""A service that asks the node beside it, before each call, whom to use.

    examples/services/choose.py [PORT]

PORT is that of the node's status server, 8946 if none is given. Each line of the input stands for a call. For each a
line says whom the service uses: one of the other members that are alive, at random.

It asks before each call, so what the node knows counts at once; an answer takes less than a millisecond. A service with
thousands of calls a second follows the node by `lg_members.watch` instead, in a thread of its own, and chooses from the
table that this thread keeps: see README of clients/python.
"""

import pathlib
import random
import sys

# A service of your own has a copy of lg_members.py beside it, and needs no such line.
sys.path.append(str(pathlib.Path(__file__).resolve().parents[2] / "clients" / "python"))
import lg_members  # noqa: E402 (the line before names its folder)

AT = f"127.0.0.1:{sys.argv[1]}" if len(sys.argv) > 1 else lg_members.AT


def alive_now(before):
    """The other members that are alive. If the node doesn't answer in 200 ms, those of its last answer: they are a
    better guess than nobody, and a service that finds one of them dead tries the next."""
    try:
        table = lg_members.table(AT, status="alive", timeout=0.2)
        return [it for it in table.members if it.name != table.name]
    except lg_members.NodeError as fault:
        print(f"the node doesn't answer ({fault}): the last answer is used", file=sys.stderr)
        return before


others = []
for _ in sys.stdin:
    others = alive_now(others)
    chosen = random.choice(others) if others else None
    print(f"{chosen.name} at {chosen.address}" if chosen else "nobody at nowhere", flush=True)
