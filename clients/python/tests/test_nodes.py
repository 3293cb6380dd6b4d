"""What a watcher has applied beside what `/v1/members` says, while real nodes are killed and started again."""

import os
import subprocess
import sys
import threading
import unittest

import lg_members
from fakes import until
from nodes import PATIENCE, PROGRAM, Node

# Where the module lies.
FOLDER = os.path.dirname(os.path.abspath(lg_members.__file__))


class Follower:
    """A thread that applies the changes of a node to a table, as a service would."""

    def __init__(self, at):
        self.changes, self.table, self.faults = [], {}, []
        self.watcher = lg_members.watch(at, on_fault=self.faults.append)
        self.thread = threading.Thread(target=self.follow)
        self.thread.start()

    def follow(self):
        table = {}
        for it in self.watcher:
            it.apply(table)
            self.changes.append(it)
            if not it.more:
                self.table = dict(table)

    def told(self, name):
        """The statuses of a member that were told, from the first to the last."""
        return [it.status for it in self.changes if it.name == name]

    def end(self):
        self.watcher.close()
        self.thread.join(10)
        return not self.thread.is_alive()


def written(*words):
    """The status of a command, and what it writes."""
    ran = subprocess.run(words, capture_output=True, text=True, check=False, cwd=FOLDER)
    return ran.returncode, ran.stdout


def statuses(table):
    return {name: it.status for name, it in (table or {}).items()}


@unittest.skipUnless(PROGRAM, "the variable LG doesn't name the program")
class Nodes(unittest.TestCase):
    def node(self, name, *options):
        node = Node(name, *options)
        self.addCleanup(node.end)
        return node

    def follower(self, node):
        it = Follower(node.at)
        self.addCleanup(it.end)
        return it

    def agrees(self, follower, node, wanted):
        """Waits until the follower's table is that of the node, and has these statuses."""
        def holds():
            return statuses(follower.table) == wanted and node.table() == follower.table
        try:
            until(holds, f"wanted {wanted}", PATIENCE)
        except AssertionError as error:
            self.fail(f"{error}: the follower has {follower.table}, and the node {node.table()}")

    def test_a_table_follows_nodes_that_die_and_come_back(self):
        """Also the node that is asked, which isn't there at the start."""
        b = self.node("b")
        follower = self.follower(b)
        a = self.node("a").start()
        c = self.node("c").start(a)
        until(lambda: len(follower.faults) > 1, "nobody is asked")
        b.start(a)
        alive = dict.fromkeys("abc", "alive")
        self.agrees(follower, b, alive)
        c.kill()
        self.agrees(follower, b, {**alive, "c": "failed"})
        c.start(a, b)
        self.agrees(follower, b, alive)
        self.assertGreater(follower.table["c"].incarnation, 0)
        b.kill()
        c.kill()
        b.start(a)
        self.agrees(follower, b, {**alive, "c": "failed"})
        for it in (a, b):
            it.kill()
        b.start()
        self.agrees(follower, b, {"b": "alive"})
        self.assertEqual([follower.told(it)[-1] for it in "ac"], ["forgotten", "forgotten"])
        self.assertEqual({type(it) for it in follower.faults} - {lg_members.NoAnswer, lg_members.Busy}, set())
        self.assertTrue(follower.end())

    def test_a_node_comes_further_than_before_while_nobody_takes_a_change(self):
        """So its versions don't show that it was started again, and the table comes anew all the same."""
        b = self.node("b").start()
        a = self.node("a").start(b)
        a.wait()
        table, versions = {}, []
        watcher = lg_members.watch(a.at)
        self.addCleanup(watcher.close)
        limit = threading.Timer(PATIENCE, watcher.close)
        self.addCleanup(limit.cancel)
        limit.start()
        for it in watcher:
            it.apply(table)
            versions.append(it.version)
            if not it.more and statuses(table) == {"a": "alive", "b": "alive"}:
                break
        for it in (a, b):
            it.kill()
        a.start()
        until(lambda: (a.version() or 0) > max(versions) + 5, "it comes no further", PATIENCE)
        for it in watcher:
            it.apply(table)
            if not it.more:
                break
        self.assertEqual(statuses(table), {"a": "alive"})
        self.assertEqual(table, a.table())

    def test_a_node_forgets_who_is_gone(self):
        a = self.node("a", "--forget-ms", "1000").start()
        b = self.node("b").start(a)
        follower = self.follower(a)
        self.agrees(follower, a, {"a": "alive", "b": "alive"})
        b.kill()
        self.agrees(follower, a, {"a": "alive"})
        self.assertEqual(follower.told("b")[-2:], ["failed", "forgotten"])
        self.assertEqual(sum(it.of_table for it in follower.changes if it.name == "a"), 1)

    def test_at_a_terminal_it_writes_what_the_program_does(self):
        a = self.node("a").start()
        b = self.node("b").start(a)
        until(lambda: statuses(b.table()) == {"a": "alive", "b": "alive"}, "they don't meet", PATIENCE)
        own = [sys.executable, "-m", "lg_members"]
        # A suspicion may come between the two.
        until(lambda: written(PROGRAM, "members", "--at", b.at) == written(*own, "--at", b.at), "they differ", PATIENCE)
        words = [*own, "watch", "--at", b.at]
        with subprocess.Popen(words, stdout=subprocess.PIPE, stderr=subprocess.PIPE, text=True, cwd=FOLDER) as it:
            lines = [it.stdout.readline().split() for _ in range(2)]
            b.kill()
            told = it.stderr.readline()
            it.kill()
        wanted = [["record", node.name, f"127.0.0.1:{node.port}"] for node in (a, b)]
        self.assertEqual([it[1:3] + it[5:6] for it in lines], wanted)
        self.assertIn("lg_members: ", told)
        self.assertEqual(written(*own, "--at", b.at), (7, ""))
        self.assertEqual(written(*own, "--at", "b"), (3, ""))


if __name__ == "__main__":
    unittest.main()
