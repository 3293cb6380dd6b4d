"""What single questions give, beside a server that answers in all ways."""

import time
import unittest

import lg_members
from fakes import BUSY, CLOSED, LONG, SILENT, Fake, Last, member, reply
from lg_members import BadAnswer, Busy, Member, NoAnswer

MEMBERS = [member("a"), member("b.-_9", "suspect", 2**64 - 1, "A" * 32), member("c", address="2001:db8::1", port=0)]
TABLE = {"version": 41, "moment_ms": 5120, "name": "b", "members": MEMBERS}
HEALTH = {"name": "b", "score": 0, "incarnation": 3, "live": 2, "known": 3, "ousted": False, "uptime_ms": 5120,
          "stood_still_ms": 7}


def with_more(value):
    """A value in which each object has its fields in another order, and further ones."""
    if isinstance(value, dict):
        rest = {"Name": 1, "new": [{"name": [None, -1.5e3, "\\\"\u00e9"]}, {}]}
        return {**rest, **{key: with_more(it) for key, it in reversed(list(value.items()))}}
    return [with_more(it) for it in value] if isinstance(value, list) else value


class Answers(unittest.TestCase):
    def asked(self, *answers, ask=lg_members.members, **words):
        """What a question gives, if these come for it."""
        with Fake() as fake:
            fake.instead.extend(answers)
            return ask(at=fake.at, **{"timeout": LONG, **words})

    def test_members_are_what_the_node_says(self):
        for value in (TABLE, with_more(TABLE)):
            got = self.asked(reply(value), ask=lg_members.table)
            self.assertEqual((got.version, got.moment_ms, got.name), (41, 5120, "b"))
            self.assertEqual(got.members, (
                Member("a", "alive", 0, "127.0.0.1", 7101, None),
                Member("b.-_9", "suspect", 2**64 - 1, "127.0.0.1", 7101, "A" * 32),
                Member("c", "alive", 0, "2001:db8::1", 0, None)))

    def test_a_status_is_asked_for(self):
        with Fake(member("a")) as fake:
            self.assertEqual([it.name for it in lg_members.members(fake.at, "alive")], ["a"])
            self.assertEqual(fake.targets(), ["/v1/members?status=alive"])
            with self.assertRaises(ValueError):
                lg_members.members(fake.at, "forgotten")

    def test_one_member_is_asked_for(self):
        for value in (member("a"), with_more(member("a"))):
            got = self.asked(reply({"version": 1, **value}), ask=lg_members.member, name="a")
            self.assertEqual(got, Member("a", "alive", 0, "127.0.0.1", 7101, None))
        unknown = reply({"error": "no member has this name"}, 404)
        self.assertIsNone(self.asked(unknown, ask=lg_members.member, name=".."))
        with self.assertRaises(BadAnswer):
            self.asked(reply(b"<html>", 404), ask=lg_members.member, name="a")
        for name in ("", "a/b", "a?b", "\u00e9", 33 * "a", "a\n"):
            with self.assertRaises(ValueError):
                self.asked(ask=lg_members.member, name=name)

    def test_health_is_told_of_an_ousted_node_too(self):
        self.assertEqual(self.asked(reply(HEALTH), ask=lg_members.health), lg_members.Health(**HEALTH))
        ousted = {**HEALTH, "ousted": True}
        for value in (ousted, with_more(ousted)):
            self.assertTrue(self.asked(reply(value, 503), ask=lg_members.health).ousted)

    def test_a_busy_node_says_when_to_ask_again(self):
        for ask in (lg_members.members, lg_members.health):
            with self.assertRaises(Busy) as caught:
                self.asked(BUSY, ask=ask)
            self.assertEqual(caught.exception.retry_after, 1)
        with self.assertRaises(BadAnswer):
            self.asked(reply({"error": ""}, 503, "Retry-After: Wed, 21 Oct 2026 07:28:00 GMT\r\n"))

    def test_a_connection_that_is_closed_at_once(self):
        with Fake() as fake:
            fake.refusals = 1
            with self.assertRaises(Busy):
                lg_members.members(fake.at, timeout=LONG)
        with self.assertRaises(Busy) as caught:
            self.asked(CLOSED)
        self.assertEqual(caught.exception.retry_after, 0)

    def test_nobody_listens(self):
        with Fake() as fake:
            pass
        with self.assertRaises(NoAnswer):
            lg_members.members(fake.at, timeout=LONG)

    def test_an_answer_is_cut_off(self):
        """Behind each of its bytes."""
        whole = reply({**TABLE, "members": MEMBERS[:1]})
        with Fake() as fake:
            for size in range(1, len(whole)):
                fake.instead.append(Last(whole[:size]))
                with self.assertRaises(NoAnswer):
                    lg_members.members(fake.at, timeout=LONG)

    def test_a_silent_node_is_given_up(self):
        for answer in (SILENT, b"HTTP/1.1 200 OK\r\n", reply(TABLE)[:-1]):
            begun = time.monotonic()
            with self.assertRaises(NoAnswer):
                self.asked(answer, timeout=0.3)
            self.assertGreaterEqual(time.monotonic() - begun, 0.3)

    def test_a_node_that_sends_byte_after_byte_is_given_up(self):
        """The time is that of the whole question, and not of each read."""
        with Fake() as fake:
            fake.slowness = 0.1
            fake.instead.append(reply(TABLE))
            begun = time.monotonic()
            with self.assertRaises(NoAnswer):
                lg_members.members(fake.at, timeout=0.5)
            self.assertLess(time.monotonic() - begun, 10)

    def test_an_answer_comes_byte_after_byte(self):
        with Fake(member("a")) as fake:
            fake.slowness = 0.001
            self.assertEqual([it.name for it in lg_members.members(fake.at, timeout=LONG)], ["a"])

    def test_garbage_is_no_answer(self):
        endless = Last(b"HTTP/1.1 200 OK\r\n\r\n" + 2 * lg_members.MAX_ANSWER * b"[")
        head = "HTTP/1.1 200 OK\r\nContent-Length: {}\r\n\r\n"
        for it in (b"\x16\x03\x01" + 90 * b"\r\n", b"220 ftp\r\n\r\n", b"HTTP/2 200\r\n\r\n", endless,
                   Last(2**21 * b"a"),
                   head.format(-1).encode(), head.format(10**15).encode(), head.format("1, 2").encode(),
                   reply(b""), reply(b"\xff"), reply(b"[]"), reply(b'"a"'), reply(100_000 * b"["), reply(b"1" * 10_000),
                   reply(TABLE, 404), reply({"error": "no"}, 421), reply(TABLE, 503),
                   reply(b"zz\r\n", fields="Transfer-Encoding: chunked\r\n")):
            with self.subTest(it[:60]), self.assertRaises(BadAnswer):
                self.asked(it)

    def test_each_field_has_to_be_there_and_of_its_kind(self):
        row = member("a")
        bad = [{key: it for key, it in row.items() if key != left_out} for left_out in row]
        bad += [{**row, key: 1.5} for key in row] + [{**row, key: True} for key in row]
        bad += [{**row, "port": 65_536}, {**row, "incarnation": -1}, {**row, "incarnation": 2**64}]
        bad += [{**row, "name": it} for it in ("", "a b", "a\n", 33 * "a")]
        bad += [{**row, "address": it} for it in ("", "localhost", "[::1]", "1.2.3", "::1%lo", "1.2.3.4\0")]
        bad += [{**row, "status": "forgotten"}, {**row, "status": "new"}, 1, None]
        tables = [{**TABLE, "members": [it]} for it in bad] + [{**TABLE, "members": {}}, {**TABLE, "version": "1"}]
        tables += [{key: it for key, it in TABLE.items() if key != left_out} for left_out in TABLE]
        with Fake() as fake:
            for it in tables:
                fake.instead.append(reply(it))
                with self.subTest(it), self.assertRaises(BadAnswer):
                    lg_members.members(fake.at, timeout=LONG)

    def test_bodies_that_end_otherwise(self):
        """In chunks, or with the connection: no node sends such, and what stands before one may."""
        body = reply(TABLE).partition(b"\r\n\r\n")[2]
        parts = b"".join(b"%x;a=b\r\n%s\r\n" % (len(it), it) for it in (body[:1], body[1:99], body[99:]))
        head = b"HTTP/1.1 200\r\ntransfer-encoding: chunked\r\n\r\n"
        for it in (head + parts + b"0\r\nA: b\r\n\r\n", Last(b"HTTP/1.0 200 OK\r\n\r\n" + body)):
            self.assertEqual(len(self.asked(it)), 3)
        with self.assertRaises(NoAnswer):
            self.asked(Last(head + parts))

    def test_texts_that_are_no_address(self):
        for at in ("", "127.0.0.1", "127.0.0.1:0", "127.0.0.1:65536", "::1:8946", "[::1]", "a b:1", "a:1\r\nX: y",
                   "http://a:1", ":1"):
            for ask in (lg_members.members, lg_members.health, lg_members.watch):
                with self.subTest(at), self.assertRaises(ValueError):
                    ask(at=at)


if __name__ == "__main__":
    unittest.main()
