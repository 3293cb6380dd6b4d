"""Network namespaces that a check makes for itself: hosts that have the links and addresses which the check gives them,
and no way to this machine's own network.

They have no names. Each lasts as long as this process holds its descriptor or a process runs in it, and its links and
rules go with it. So nothing is left of them behind the check, however that ends.
"""

import ctypes
import os
import pathlib
import subprocess
from contextlib import contextmanager

from checks import Skipped, needed

LIBC = ctypes.CDLL(None, use_errno=True)
LIBC.mount.argtypes = [ctypes.c_char_p, ctypes.c_char_p, ctypes.c_char_p, ctypes.c_ulong, ctypes.c_char_p]
# CLONE_NEWNET and CLONE_NEWNS of the system, and of its mounts MS_BIND, and MS_REC with MS_PRIVATE.
NETWORK, MOUNTS = 0x40000000, 0x20000
BIND, APART = 0x1000, 0x4000 | 0x40000
SECONDS = 20
# What commands say of a kind of link, of a table or of a right that the system doesn't have.
LACKS = ["Unknown device type", "not supported", "No such file or directory", "does not exist", "No chain/target/match",
         "not permitted", "Permission denied"]


def own_descriptor():
    """A descriptor of the namespace in which this thread is."""
    return os.open("/proc/thread-self/ns/net", os.O_RDONLY | os.O_CLOEXEC)


def enter(descriptor):
    """Puts this thread into a namespace."""
    if LIBC.setns(descriptor, NETWORK):
        raise OSError(ctypes.get_errno(), "the namespace can't be entered")


@contextmanager
def returning():
    """Puts this thread back in the end into the namespace in which it is now."""
    before = own_descriptor()
    try:
        yield
    finally:
        enter(before)
        os.close(before)


def made_descriptor():
    """A descriptor of a new namespace. This thread stays where it is."""
    before = own_descriptor()
    try:
        if LIBC.unshare(NETWORK):
            raise Skipped(f"no network namespace can be made: {os.strerror(ctypes.get_errno())}")
        made = own_descriptor()
        enter(before)
        return made
    finally:
        os.close(before)


def see_instead(files):
    """Lets this process and those that it starts see other files at some paths than the machine has there.

    The machine keeps its own, and no other process sees these: the mounts of this one are set apart from all others
    first. Nothing is left of them behind the process.
    """
    calls = [(LIBC.unshare, MOUNTS), (LIBC.mount, None, b"/", None, APART, None)]
    calls += [(LIBC.mount, os.fsencode(own), os.fsencode(path), None, BIND, None) for path, own in files.items()]
    for call, *words in calls:
        if call(*words):
            raise OSError(ctypes.get_errno(), "no process can have files of its own")


class Space:
    """A network namespace in which nothing is but the loopback device. Who may not make one, such as a user that isn't
    root, or has no `ip`, skips the check."""

    def __init__(self):
        self.tool = needed("ip")
        self.descriptor = made_descriptor()
        self.files = {}
        self.ip("link", "set", "dev", "lo", "up")

    def show(self, files):
        """Gives programs of it other files at some paths than the machine has there. If they can't have any, the check
        is skipped."""
        self.files = files
        try:
            self.run([self.tool, "-V"])
        except subprocess.SubprocessError as error:
            raise Skipped(f"no program can have files of its own in the place of {', '.join(files)}") from error

    def begin(self):
        """What a process of it has to call before its program."""
        if self.files:
            see_instead(self.files)

    @contextmanager
    def entered(self):
        """Puts this thread into the namespace for a while: sockets and processes that begin meanwhile belong there."""
        with returning():
            enter(self.descriptor)
            yield

    def run(self, words, text=""):
        """Runs a command in it, with this input, and gives what it writes. If the system can't do or doesn't allow what
        the command asks for, the check is skipped."""
        with self.entered():
            ran = subprocess.run(words, input=text, capture_output=True, text=True, timeout=SECONDS,
                                 preexec_fn=self.begin)
        if ran.returncode:
            fault = f"{' '.join(words)} ended with status {ran.returncode}: {' '.join(ran.stderr.split())}"
            raise Skipped(fault) if any(it in ran.stderr for it in LACKS) else RuntimeError(fault)
        return ran.stdout

    def ip(self, *words):
        """Sets its links, addresses and routes."""
        self.run([self.tool, *words])

    def join(self, link, other, other_link):
        """Joins it to another namespace: what is sent to the link of the one comes out of that of the other."""
        peer = ["peer", "name", other_link, "netns", f"/proc/{os.getpid()}/fd/{other.descriptor}"]
        self.ip("link", "add", "name", link, "type", "veth", *peer)

    def give(self, link, address):
        """Gives a link an address in a network of 256, and starts it."""
        self.ip("address", "add", f"{address}/24", "dev", link)
        self.ip("link", "set", "dev", link, "up")

    def forward(self):
        """Lets it pass packets on from one link to another."""
        with self.entered():
            try:
                pathlib.Path("/proc/sys/net/ipv4/ip_forward").write_text("1", encoding="ascii")
            except OSError as error:
                raise Skipped(f"no namespace can pass packets on: {error.strerror}") from error

    def __enter__(self):
        return self

    def __exit__(self, *_):
        os.close(self.descriptor)


def small_disk(folder, size):
    """Lets this process and those that it starts have a disk of their own at a folder, with so many bytes. It is gone
    with the last of them."""
    calls = [(LIBC.unshare, MOUNTS), (LIBC.mount, None, b"/", None, APART, None),
             (LIBC.mount, b"none", os.fsencode(folder), b"tmpfs", 0, f"size={size}".encode())]
    for call, *words in calls:
        if call(*words):
            raise OSError(ctypes.get_errno(), "no process can have a disk of its own")
