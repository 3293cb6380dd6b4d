"""Checks of nodes that have a group, or none, while packets of other groups come."""

import time

from answers import difference
from changes import QUIET, Lone
from counting import are_answered, growth, samples
from packets import ACK, HOST, PAGE, PULL, name_bytes, packet, ping
from running import asked, bound_socket, wait_until

# How long a node that asks its seeds each second may take for that on a busy machine, in seconds.
ASKS_WITHIN = 4
# How long it is silent if it asks them no more.
SILENT = 2.5


def ack(number, group):
    """The Ack of b to z, without a claim."""
    return packet(ACK, number.to_bytes(4, "big") + name_bytes("z"), sender="b", version=3, group=group)


def only_ones_group_is_heard(program):
    """A node of the group g answers Pings that name g, and gives its own group in its Acks. Pings of another group, of
    none, and of version 1 are dropped: each is an event and is counted, and gets no answer."""
    foreign = [ping(7, "b", version=3, group="h"), ping(7, "b", version=3), ping(7, "b")]
    wanted = {"lg_datagrams_received_total": 13, "lg_datagrams_sent_total": 10, "lg_events_total": 13,
              "lg_history_entries_total": 13, 'lg_datagrams_dropped_total{fault="OtherGroup"}': 3}
    with Lone(program, keys=f'{QUIET}wire = 3\ngossip_ms = 0\ngroup = "g"\n', group="g") as node:
        wait_until(lambda: are_answered(node), 5)
        before = samples(node)
        for number in range(10):
            got = asked(ping(number, "b", version=3, group="g"), node.port)
            # The first Acks tell of the node itself, whose arrival is news.
            if not got.startswith(ack(number, "g")[:-1]):
                return f"the Ping {number} of its group got {got}"
        answers = [asked(it, node.port, 0.3) for it in foreign]
        if any(answers):
            return f"Pings of others got {answers}"
        wait_until(lambda: growth(node, before) == wanted, 5)
        return difference("grown", growth(node, before), wanted)


def is_pulled(seed, seconds):
    """Whether a seed is asked for its table within some seconds."""
    end = time.monotonic() + seconds
    while (left := end - time.monotonic()) > 0:
        seed.settimeout(left)
        try:
            if seed.recv(1500)[3] == PULL:
                return True
        except TimeoutError:
            return False
    return False


def goes_on_asking(seed, node, page, seconds):
    """Whether a node still asks its seed, within some seconds, once this Page has come."""
    seed.sendto(page, (HOST, node.port))
    time.sleep(0.3)
    seed.setblocking(False)
    try:
        while seed.recv(1500):
            pass
    except BlockingIOError:
        pass
    return is_pulled(seed, seconds)


def foreign_page_ends_no_search(program):
    """A node asks its seed each second until it has heard a Page. One of another group, which it drops, ends that no
    more than a Pull that nobody answers. One of its own does."""
    with bound_socket() as seed:
        places = [("a", seed.getsockname()[1])]
        with Lone(program, keys=f"{QUIET}wire = 3\npull_ms = 0\n", seeds=places, has_status=False) as node:
            if not is_pulled(seed, ASKS_WITHIN):
                return "it asks no seed"
            if not goes_on_asking(seed, node, packet(PAGE, b"", sender="a", version=3, group="h"), ASKS_WITHIN):
                return "a Page of another group ended its search"
            if goes_on_asking(seed, node, packet(PAGE, b"", sender="a", version=3), SILENT):
                return "it asks its seed though it has heard a Page"
            return None
