"""A check of a group whose tables a stranger fills: with names that have failed, and then with more names than there is
room for."""

import time

from checks import NOTES
from group import own_group
from packets import claim, ping
from running import PATIENCE, asked, bound_socket, free_ports, statuses, wait_until

# A table has so many names at most, its owner's among them.
MOST_NAMES = 256
FLOOD = 300
# The most claims of a packet of version 3.
CLAIMS = 12
# In the order of names these stand behind all that the stranger tells, so in a Page too.
NODES = ["m0", "m1", "m2"]
JOINER = "n"
# No name is forgotten by its time here, only for its place. A suspicion lasts 1.2 s among three members and 2.9 s among
# 256, whoever confirms it.
KEYS = """wire = 3
forget_ms = 600000
interval_ms = 400
timeout_ms = 200
alpha = 3
beta = 1
max_score = 2
pull_ms = 500
"""
# Within how many seconds all have to know who joins.
#
# When the flood is over, each table is full of names that are alive. A round lasts 1.2 s at most, so after two of them
# and a suspicion, some 5 s, a first name of the flood has failed in each table. Gossip seldom reaches a node, since it
# goes to the names of the flood as well. But each node asks a seed every second pull_ms, so each of the two seeds
# within 2 s. The joiner tells of itself when it asks, and the node that is no seed hears of it by a seed's Page: 4 s
# more. The rest is for a busy machine.
BOUND = 20


def tell(group, claims):
    """Tells each node these claims, until it acks that it has heard them. They are heard in their order, by all."""
    for start in range(0, len(claims), CLAIMS):
        for name, port in group.own.items():
            packet = ping(7, name, claims[start:start + CLAIMS], version=3)
            if wait_until(lambda: asked(packet, port, 0.5), PATIENCE) is None:
                raise RuntimeError(f"{name} doesn't answer")


def fault_of_the_dead(group, place):
    """Fills each table with names that are alive and then have failed, in one packet. What is wrong with the tables."""
    dead = [f"d{number:03}" for number in range(MOST_NAMES - len(NODES))]
    tell(group, [claim(kind, name, place, 0, version=3) for name in dead for kind in (1, 3)])
    wanted = dict.fromkeys(NODES, "alive") | dict.fromkeys(dead, "failed")
    if wait_until(lambda: group.knows(wanted, NODES), PATIENCE) is None:
        return f"tables with the dead: {group.difference(wanted)}"
    return None


def fault_of_the_flood(group, place):
    """Tells more names that are alive than have failed. What is wrong with the tables: all of the dead have made room,
    and no node has."""
    tell(group, [claim(1, f"f{number:03}", place, 0, version=3) for number in range(FLOOD)])
    for port in group.own.values():
        known = statuses(port)
        kept = [name for name in known if not name.startswith("f")]
        # While the Pages are read, a name of the flood that has failed by then may make room for another.
        if kept != NODES or abs(len(known) - MOST_NAMES) > CLAIMS:
            return f"of {len(known)} names {len(kept)} are none of the flood: {kept[:9]}"
    return None


def nodes_known(port):
    """What the node at a port knows of those that are no names of the stranger."""
    return {name: status for name, status in statuses(port).items() if name in (*NODES, JOINER)}


def joiner_is_known_after_a_flood(program):
    """A stranger fills the tables of three nodes, which forget, with names that have failed. Then it tells them of 300
    further names that are alive, and nobody is there. The next member that truly joins is soon known by all, and knows
    all."""
    with own_group(program, NODES, KEYS) as group, bound_socket() as silent:
        # A Ping to a node whose socket isn't bound yet is lost. A node that is suspected for that refutes it within two
        # rounds. During the flood it would hear of it late, since gossip goes to the names of the flood.
        time.sleep(1)
        if wait_until(group.is_whole, PATIENCE) is None:
            return f"not whole: {group.difference(dict.fromkeys(NODES, 'alive'))}"
        # What the nodes send to the stranger's names comes here, and stays unread.
        place = silent.getsockname()[1]
        if fault := fault_of_the_dead(group, place) or fault_of_the_flood(group, place):
            return fault
        [group.own[JOINER]] = free_ports(1)
        group.nodes[JOINER] = group.started(JOINER)
        wanted = dict.fromkeys([*NODES, JOINER], "alive")
        took = wait_until(lambda: all(nodes_known(port) == wanted for port in group.own.values()), BOUND)
        if took is None:
            return f"not known by all in {BOUND} s: {[nodes_known(port) for port in group.own.values()]}"
        NOTES.append(f"the joiner was known by all after {took:.1f} s of {BOUND}")
        return None
