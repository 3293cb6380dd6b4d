"""A network between nodes of this machine, which loses datagrams by a rule."""

import selectors
import threading

from packets import HOST, LONGEST, read
from running import bound_socket, free_ports


class Network:
    """A network that runs until it is closed, in a thread of its own.

    Each member has its own port, to which its node is bound, and an outer one, at which the others know it. What comes
    from the own port of one member to the outer port of another goes on to the own port of that one, from the outer
    port of the first. Own ports in the packet become outer ones, so nobody learns the own port of another. What comes
    from elsewhere is dropped, and so is what `passes` says no to: it is called with the names of both members.
    """

    def __init__(self, names):
        self.passes = lambda sender, receiver: True
        ports = free_ports(2 * len(names))
        self.own = dict(zip(names, ports))
        self.outer = dict(zip(names, ports[len(names):]))
        self.name_of = {port: name for name, port in self.own.items()}
        self.sockets = {name: bound_socket((HOST, port)) for name, port in self.outer.items()}
        self.is_open = True
        self.selector = selectors.DefaultSelector()
        for name, link in self.sockets.items():
            link.setblocking(False)
            self.selector.register(link, selectors.EVENT_READ, name)
        self.thread = threading.Thread(target=self.run)
        self.thread.start()

    def run(self):
        while self.is_open:
            for key, _ in self.selector.select(timeout=0.1):
                self.pass_on(key.fileobj, key.data)

    def pass_on(self, link, receiver):
        """Passes on what waits at the outer port of a member."""
        while True:
            try:
                data, (_, port) = link.recvfrom(LONGEST)
            except BlockingIOError:
                return
            except ConnectionRefusedError:
                # An earlier datagram went to a node that has ended.
                continue
            sender = self.name_of.get(port)
            if sender and self.passes(sender, receiver):
                self.send(self.with_outer_ports(data), sender, receiver)

    def send(self, data, sender, receiver):
        try:
            self.sockets[sender].sendto(data, (HOST, self.own[receiver]))
        except (BlockingIOError, ConnectionRefusedError):
            # It is lost, as a network may lose it.
            pass

    def with_outer_ports(self, data):
        changed = bytearray(data)
        for place in read(data)[1]:
            name = self.name_of.get(int.from_bytes(data[place:place + 2], "big"))
            if name:
                changed[place:place + 2] = self.outer[name].to_bytes(2, "big")
        return bytes(changed)

    def __enter__(self):
        return self

    def __exit__(self, *_):
        self.is_open = False
        self.thread.join()
        self.selector.close()
        for link in self.sockets.values():
            link.close()
