"""Groups of nodes that run."""

import pathlib

from packets import HOST
from running import LIFE_MS, Node, file_of, free_ports, free_status_ports, statuses, wait_for

# How many members each node knows from the start.
SEEDS = 2


class Group:
    """Nodes of one group. Each knows the first two from the start, and has dice of its own.

    `own` has the port of each name, and `outer` the one at which the others know it. `keys` are lines of the
    configuration of each, and `options` words of its command line. `outputs` has the open file to which each writes;
    the input of each stays open then. `variables` has what is added to the environment of a name.
    """

    def __init__(self, program, own, outer, keys, options=(), outputs=None, variables=None):
        self.program, self.own, self.keys, self.variables = program, own, keys, variables or {}
        self.options = ["--for-ms", str(LIFE_MS), *options]
        self.outputs = outputs or {}
        self.seeds = [(name, outer[name]) for name in list(own)[:SEEDS]]
        self.nodes = {name: self.started(name) for name in own}

    def keys_of(self, name):
        """The lines of further keys in the configuration of a name."""
        return self.keys

    def started(self, name):
        """The node of a name, which was just started."""
        keys = f"{self.keys_of(name)}dice = {1 + list(self.own).index(name)}\n"
        seeds = [seed for seed in self.seeds if seed[0] != name]
        how = {"output": self.outputs[name]} if self.outputs else {}
        return Node(self.program, file_of(name, self.own[name], seeds, keys), *self.options,
                    has_input=bool(self.outputs), variables=self.variables.get(name), **how)

    def wait_for_all(self):
        """Waits until each node answers a stranger."""
        for name, port in self.own.items():
            wait_for(name, port)

    def knows(self, wanted, names):
        """Whether each of these nodes knows these statuses."""
        return all(statuses(self.own[name]) == wanted for name in names)

    def is_whole(self):
        """Whether each table has all members alive."""
        return self.knows(dict.fromkeys(self.own, "alive"), self.own)

    def difference(self, wanted):
        """What the first node that knows something else than these statuses knows; and how a node ended, if one did."""
        ended = [f"{name} ended: {node.end()}" for name, node in self.nodes.items() if not node.is_running()]
        tables = [(name, statuses(port)) for name, port in self.own.items()]
        others = [f"{name} knows {table}" for name, table in tables if table != wanted]
        return "; ".join([*ended[:1], *others[:1]]) or "and whole just after"

    def __enter__(self):
        return self

    def __exit__(self, *_):
        for node in self.nodes.values():
            node.kill()


class RecordedGroup(Group):
    """A group of which each node records, in the folder of its name in a room."""

    def __init__(self, program, own, outer, keys, room):
        self.room = pathlib.Path(room)
        for name in own:
            (self.room / name).mkdir()
        super().__init__(program, own, outer, keys)

    def keys_of(self, name):
        return f'{self.keys}record = "{self.room / name}"\n'


class AskedGroup(Group):
    """A group without a network between its nodes, of which each has a status server, at the port of its name in
    `status`."""

    def __init__(self, program, names, keys, options=()):
        self.status = dict(zip(names, free_status_ports(len(names))))
        ports = dict(zip(names, free_ports(len(names))))
        super().__init__(program, ports, ports, keys, options)

    def keys_of(self, name):
        return f'{self.keys}status = "{HOST}:{self.status[name]}"\n'


def own_group(program, names, keys, options=(), outputs=None, variables=None):
    """A group without a network between its nodes."""
    ports = dict(zip(names, free_ports(len(names))))
    return Group(program, ports, ports, keys, options, outputs, variables)
