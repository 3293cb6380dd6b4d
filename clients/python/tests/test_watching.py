"""What a watcher gives, beside a server that answers as real nodes seldom do."""

import gc
import os
import signal
import threading
import time
import unittest
from unittest import mock

import lg_members
from fakes import BUSY, CLOSED, LIMIT, LONG, SILENT, Fake, Last, change, changes, member, reply, until
from lg_members import BadAnswer, Busy, NoAnswer

# How long a question waits here, in milliseconds.
WAIT_MS = 2000


def open_files():
    return len(os.listdir("/proc/self/fd"))


class Watching(unittest.TestCase):
    def setUp(self):
        self.faults, self.table = [], {}

    def watch(self, fake, **words):
        """A watcher of a server, which notes its faults with their moments."""
        words = {"wait_ms": WAIT_MS, "timeout": LONG, **words}
        watcher = lg_members.watch(fake.at, on_fault=lambda it: self.faults.append((time.monotonic(), it)), **words)
        self.addCleanup(watcher.close)
        return watcher

    def taken(self, watcher):
        """The next changes up to one without `more`, applied to the table: each as its name, status and version. If
        they don't come in time, those that came."""
        got, limit = [], threading.Timer(LIMIT, watcher.close)
        limit.start()
        for it in watcher:
            it.apply(self.table)
            got.append((it.name, it.status, it.version, it.of_table))
            if not it.more:
                break
        limit.cancel()
        return got

    def statuses(self):
        return {name: it.status for name, it in self.table.items()}

    def kinds(self):
        return [type(it) for _, it in self.faults]

    def test_the_table_comes_first_and_then_each_change(self):
        with Fake(member("a"), member("b")) as fake:
            watcher = self.watch(fake)
            self.assertEqual(self.taken(watcher), [("a", "alive", 5, True), ("b", "alive", 5, True)])
            rows = [change(7, "c"), change(8, "a", "suspect", accuser="b"), change(8, "a", incarnation=1)]
            fake.news.put(changes(9, *rows))
            got = self.taken(watcher)
            self.assertEqual(got, [("c", "alive", 7, False), ("a", "suspect", 8, False), ("a", "alive", 8, False)])
            self.assertEqual(self.table["a"].incarnation, 1)
            fake.news.put(changes(12, {"status": "forgotten", "name": "c", "version": 12, "moment_ms": 3, "x": 1}))
            self.assertEqual(self.taken(watcher), [("c", "forgotten", 12, False)])
            self.assertEqual(self.statuses(), {"a": "alive", "b": "alive"})
            self.assertEqual(fake.targets(), ["/v1/config", "/v1/members", "/v1/changes?after=5&wait_ms=2000",
                                              "/v1/changes?after=9&wait_ms=2000"])
            self.assertEqual({number for number, _ in fake.asked}, {1})
            self.assertEqual(self.faults, [])

    def test_nothing_changes_for_a_while(self):
        with Fake(member("a")) as fake:
            watcher = self.watch(fake, wait_ms=100, timeout=3)
            self.taken(watcher)
            fake.version = 6
            threading.Timer(0.35, lambda: fake.news.put(changes(7, change(7, "b")))).start()
            self.assertEqual(self.taken(watcher), [("b", "alive", 7, False)])
            self.assertIn("/v1/changes?after=6&wait_ms=100", fake.targets())
            self.assertEqual(self.faults, [])

    def test_missed_changes_give_the_table_anew(self):
        with Fake(*map(member, "abcd")) as fake:
            watcher = self.watch(fake)
            self.taken(watcher)
            fake.news.put(changes(9000, change(9000, "b", "failed"), change(9000, "e"), missed=True))
            self.assertEqual(self.taken(watcher), [
                ("a", "forgotten", 9000, True), ("c", "forgotten", 9000, True), ("d", "forgotten", 9000, True),
                ("b", "failed", 9000, True), ("e", "alive", 9000, True)])
            self.assertEqual(self.statuses(), {"b": "failed", "e": "alive"})
            fake.news.put(changes(9001, change(9001, "a")))
            self.assertEqual(self.taken(watcher), [("a", "alive", 9001, False)])
            self.assertEqual(fake.targets().count("/v1/members"), 1)

    def test_versions_that_go_back_give_the_table_anew(self):
        """Also if the node tells nothing by which its lives could be told apart."""
        for first in (1, None):
            with self.subTest(first), Fake(*map(member, "ab"), version=50, first=first) as fake:
                self.table, self.faults = {}, []
                watcher = self.watch(fake)
                self.taken(watcher)
                fake.members, fake.version = [member("b")], 3
                fake.news.put(changes(3))
                self.assertEqual(self.taken(watcher), [("a", "forgotten", 3, True), ("b", "alive", 3, True)])
                self.assertEqual(self.kinds(), [NoAnswer])

    def test_a_node_that_was_started_again_gives_the_table_anew(self):
        """Also if its version has come further than that of before."""
        with Fake(*map(member, "ab"), version=5) as fake:
            watcher = self.watch(fake)
            self.taken(watcher)
            fake.members, fake.version, fake.first = [member("b", incarnation=1)], 77, 2
            threading.Timer(0.2, fake.close_all).start()
            self.assertEqual(self.taken(watcher), [("a", "forgotten", 77, True), ("b", "alive", 77, True)])
            self.assertEqual(self.table["b"].incarnation, 1)
            self.assertEqual(self.kinds(), [NoAnswer])

    def test_a_lost_connection_gives_nothing_anew(self):
        """If the node runs on, the changes go on behind the last one."""
        with Fake(member("a")) as fake:
            watcher = self.watch(fake)
            self.taken(watcher)
            fake.instead.append(CLOSED)
            fake.news.put(changes(6, change(6, "b")))
            self.assertEqual(self.taken(watcher), [("b", "alive", 6, False)])
            self.assertEqual(fake.targets().count("/v1/members"), 1)
            self.assertEqual({number for number, _ in fake.asked}, {1, 2})

    def test_a_connection_that_was_idle_is_replaced(self):
        with Fake(member("a")) as fake, mock.patch.object(lg_members, "IDLE", 0.1):
            watcher = self.watch(fake)
            self.taken(watcher)
            fake.close_all()
            time.sleep(0.2)
            fake.news.put(changes(6, change(6, "b")))
            self.assertEqual(self.taken(watcher), [("b", "alive", 6, False)])
            self.assertEqual(fake.targets().count("/v1/members"), 1)
            self.assertEqual(self.faults, [])

    def test_each_answer_may_end_its_connection(self):
        with Fake(member("a")) as fake:
            answer = fake.answer
            fake.answer = lambda *asked: Last(answer(*asked).replace(b"\r\n", b"\r\nConnection: close\r\n", 1))
            watcher = self.watch(fake)
            self.taken(watcher)
            for version in (6, 7):
                fake.news.put(changes(version, change(version, "b", incarnation=version)))
                self.assertEqual(self.taken(watcher), [("b", "alive", version, False)])
            self.assertEqual(self.faults, [])

    def test_bytes_behind_an_answer_end_its_connection(self):
        with Fake(member("a")) as fake:
            watcher = self.watch(fake)
            self.taken(watcher)
            for version in (6, 7):
                fake.news.put(changes(version, change(version, "b")) + b"HTTP/1.1 500")
                self.assertEqual(self.taken(watcher), [("b", "alive", version, False)])
            self.assertEqual(self.faults, [])

    def test_a_question_that_is_interrupted_is_asked_anew(self):
        """On another connection, since its answer would be taken for that to the next one."""
        with Fake(member("a")) as fake:
            watcher = self.watch(fake)
            self.taken(watcher)
            with mock.patch.object(lg_members._Connection, "_more", side_effect=KeyboardInterrupt):
                self.assertRaises(KeyboardInterrupt, next, watcher)
            until(lambda: not fake.open, "the connection is open")
            fake.news.put(changes(6, change(6, "b")))
            self.assertEqual(self.taken(watcher), [("b", "alive", 6, False)])
            self.assertEqual({number for number, _ in fake.asked}, {1, 2})

    def test_it_goes_on_behind_each_fault(self):
        """And none of them changes what it gives."""
        whole = changes(6, change(6, "b"))
        faults = [(BUSY, Busy), (Last(whole[:-5]), NoAnswer), (Last(whole[:9]), NoAnswer), (CLOSED, NoAnswer),
                  (b"garbage\r\n\r\n", BadAnswer), (reply(b"[]"), BadAnswer), (reply({"version": 6}), BadAnswer),
                  (changes(5, change(6, "b")), BadAnswer), (changes(6), BadAnswer),
                  (changes(9, missed=True), BadAnswer), (reply({}, 500), BadAnswer)]
        for fault, kind in faults:
            with self.subTest(fault), Fake(member("a")) as fake:
                self.faults = []
                watcher = self.watch(fake)
                self.taken(watcher)
                fake.news.put(fault)
                fake.news.put(whole)
                self.assertEqual(self.taken(watcher), [("b", "alive", 6, False)])
                self.assertEqual(self.kinds(), [kind])

    def test_faults_before_the_table(self):
        with Fake(member("a")) as fake, mock.patch.object(lg_members, "FIRST_WAIT", 0.02):
            fake.refusals = 1
            ok = [reply({"first": 1}), reply({})]
            fake.instead.extend([CLOSED, ok[0], CLOSED, ok[0], b"garbage\r\n\r\n", ok[1], Last(reply({})[:-1])])
            self.assertEqual(self.taken(self.watch(fake)), [("a", "alive", 5, True)])
            self.assertEqual(self.kinds(), [Busy, Busy, NoAnswer, BadAnswer, NoAnswer])
            self.assertEqual(set(fake.targets()), {"/v1/config", "/v1/members"})

    def test_it_waits_as_long_as_a_busy_node_says(self):
        with Fake(member("a")) as fake:
            watcher = self.watch(fake)
            self.taken(watcher)
            fake.news.put(BUSY)
            fake.news.put(changes(6, change(6, "b")))
            self.taken(watcher)
            self.assertGreaterEqual(time.monotonic() - self.faults[0][0], 1)

    def test_the_waits_grow_and_are_bounded(self):
        with Fake(member("a")) as fake, mock.patch.object(lg_members, "LONGEST_WAIT", 0.2):
            fake.refusals = 8
            self.taken(self.watch(fake))
            moments = [it for it, _ in self.faults]
            waits = [after - before for before, after in zip(moments, moments[1:])]
            for got, least in zip(waits, (0.1, 0.2, 0.2, 0.2, 0.2, 0.2, 0.2)):
                self.assertGreaterEqual(got, least)
            self.assertLess(waits[-1], 3)

    def test_the_waits_begin_anew_behind_an_answer(self):
        with Fake(member("a")) as fake, mock.patch.object(lg_members, "FIRST_WAIT", 0.02):
            fake.refusals = 7
            watcher = self.watch(fake)
            self.taken(watcher)
            fake.news.put(changes(6, change(6, "b")))
            self.taken(watcher)
            fake.news.put(CLOSED)
            fake.news.put(changes(7, change(7, "c")))
            self.taken(watcher)
            self.assertEqual(len(self.faults), 8)
            self.assertLess(time.monotonic() - self.faults[-1][0], 2)

    def test_answers_without_a_wait_do_not_make_it_spin(self):
        """Whatever an odd server answers at once, it isn't asked without a pause."""
        odd = (changes(5), changes(4), changes(5, change(5, "a")), BUSY, reply({"error": "x"}, 400), CLOSED)
        fakes = [Fake(member("a")) for _ in odd]
        for fake, answer in zip(fakes, odd):
            self.addCleanup(fake.end)
            fake.waited_for = lambda *_, answer=answer: answer
        watchers = list(map(self.watch, fakes))
        threads = [threading.Thread(target=list, args=(it,)) for it in watchers]
        for it in threads:
            it.start()
        until(lambda: all(len(fake.asked) > 2 for fake in fakes), "they aren't asked")
        time.sleep(1)
        for watcher, thread, fake, answer in zip(watchers, threads, fakes, odd):
            watcher.close()
            thread.join()
            with self.subTest(answer):
                self.assertLess(len(fake.asked), 25)

    def test_a_silent_node_is_asked_again(self):
        with Fake(member("a")) as fake:
            watcher = self.watch(fake, wait_ms=100, timeout=1)
            self.taken(watcher)
            begun = time.monotonic()
            fake.news.put(SILENT)
            fake.news.put(changes(6, change(6, "b")))
            self.taken(watcher)
            self.assertGreaterEqual(time.monotonic() - begun, 1.1)
            # A busy machine may be silent too.
            self.assertEqual(set(self.kinds()), {NoAnswer})

    def test_a_long_wait_is_no_silence(self):
        with Fake(member("a")) as fake:
            watcher = self.watch(fake, wait_ms=30_000, timeout=1)
            self.taken(watcher)
            before = self.kinds()
            threading.Timer(1.5, lambda: fake.news.put(changes(6, change(6, "b")))).start()
            self.taken(watcher)
            self.assertEqual(self.kinds(), before)


class Ending(unittest.TestCase):
    """How a watcher ends, and that nothing is left of it."""

    def closed_while(self, fake, is_there):
        """Closes a watcher from another thread, once something holds. It ends at once, and nothing stays open."""
        before = open_files()
        watcher = lg_members.watch(fake.at, on_fault=lambda _: None)
        thread = threading.Thread(target=lambda: list(watcher))
        thread.start()
        until(is_there, "it isn't there")
        begun = time.monotonic()
        watcher.close()
        thread.join(5)
        self.assertFalse(thread.is_alive())
        self.assertLess(time.monotonic() - begun, 3)
        until(lambda: not fake.open, f"{fake.open} are open")
        until(lambda: open_files() <= before, f"{before} files were open, and now more")
        self.assertEqual(list(watcher), [])

    def test_it_is_closed_while_it_waits_for_a_change(self):
        with Fake(member("a")) as fake:
            self.closed_while(fake, lambda: len(fake.asked) == 3)

    def test_it_is_closed_while_the_node_is_silent(self):
        with Fake() as fake:
            fake.instead.append(SILENT)
            self.closed_while(fake, lambda: fake.asked)

    def test_it_is_closed_between_two_tries(self):
        with Fake() as fake, mock.patch.object(lg_members, "FIRST_WAIT", 4):
            fake.refusals = 1
            self.closed_while(fake, lambda: not fake.refusals)

    def test_it_is_closed_by_who_takes_the_changes(self):
        with Fake(*map(member, "abc")) as fake:
            watcher = lg_members.watch(fake.at)
            for _ in watcher:
                watcher.close()
            self.assertIsNone(watcher._connection)
            self.assertEqual(list(watcher), [])

    def test_it_is_closed_by_a_handler_of_a_signal(self):
        """In the midst of a wait of the same thread."""
        with Fake(member("a")) as fake:
            watcher = lg_members.watch(fake.at)
            self.assertEqual(next(watcher).name, "a")
            before = signal.signal(signal.SIGALRM, lambda *_: watcher.close())
            self.addCleanup(signal.signal, signal.SIGALRM, before)
            signal.setitimer(signal.ITIMER_REAL, 0.2)
            begun = time.monotonic()
            self.assertEqual(list(watcher), [])
            self.assertLess(time.monotonic() - begun, 15)

    def test_it_is_closed_by_its_own_fault(self):
        with Fake() as fake:
            fake.refusals = 1
            watcher = lg_members.watch(fake.at, on_fault=lambda _: watcher.close())
            self.assertEqual(list(watcher), [])

    def test_a_fault_of_the_caller_is_passed_on(self):
        """And the changes can go on behind it."""
        with Fake(member("a")) as fake:
            fake.refusals = 1
            with lg_members.watch(fake.at, on_fault=lambda _: {}[0]) as watcher:
                self.assertRaises(KeyError, next, watcher)
                self.assertEqual(next(watcher).name, "a")

    def test_nothing_is_left_of_one_that_was_let_go(self):
        with Fake(member("a")) as fake:
            before = open_files()
            for _ in range(20):
                for it in lg_members.watch(fake.at):
                    self.assertEqual(it.name, "a")
                    break
            gc.collect()
            until(lambda: not fake.open, f"{fake.open} are open")
            until(lambda: open_files() <= before, f"{before} files were open, and now more")

    def test_threads_may_share_one(self):
        """Each change is given once."""
        with Fake(*(member(f"m{number:03}") for number in range(256))) as fake, lg_members.watch(fake.at) as watcher:
            got = []
            threads = [threading.Thread(target=lambda: got.extend(it.name for it in watcher)) for _ in range(4)]
            for it in threads:
                it.start()
            until(lambda: len(fake.asked) == 3, "the table isn't taken")
            watcher.close()
            for it in threads:
                it.join(5)
            self.assertEqual(sorted(got), sorted(it["name"] for it in fake.members))


if __name__ == "__main__":
    unittest.main()
