"""The log of several machines, over a stand-in for etcd: entries in their order, ids, and what became of an entry."""
from __future__ import annotations

import json
import threading
import unittest

from fake_etcd import Etcd
from fronts import PATIENCE
from log import Begin, Entry, Log, NoLog, Unreachable, fault_of

FIRST = Begin(version=0, entry=0, arc=9, room=20, nodes=6, arcs=9, landmarks=2, closed=0)

class Logs(unittest.TestCase):
    def setUp(self) -> None:
        self.etcd = Etcd()
        self.addCleanup(self.etcd.end)
        self.log = Log([self.etcd.url], "roads", PATIENCE)

    def test_where_it_begins(self) -> None:
        self.assertRaises(NoLog, self.log.begin)
        self.assertRaises(NoLog, self.log.append, "a", ["close 7"])
        self.assertTrue(self.log.make(FIRST))
        self.assertFalse(self.log.make(FIRST._replace(room=30)))
        self.assertEqual(self.log.begin(), FIRST)

    def test_a_log_that_keeps_no_room(self) -> None:
        self.etcd.put("roads/begin", json.dumps({"version": 0, "entry": 0, "arc": 9}))
        with self.assertRaises(NoLog) as why:
            self.log.begin()
        self.assertIn("does not keep the room", str(why.exception))

    def test_entries_have_one_order(self) -> None:
        self.log.make(FIRST)
        other = Log([self.etcd.url], "roads", PATIENCE)
        self.assertEqual([each.append(f"id-{number}", ["close 7"]).number for number, each in enumerate([self.log, other, other, self.log, other])], [1, 2, 3, 4, 5])
        entries, head, _ = self.log.entries(2, 2)
        self.assertEqual((entries, head), ([Entry(2, "id-1", ["close 7"]), Entry(3, "id-2", ["close 7"])], 5))
        self.assertEqual(self.log.append("id-1", ["close 8"]), Entry(2, "id-1", ["close 7"]))

    def test_an_append_without_an_answer_is_one_entry(self) -> None:
        self.log.make(FIRST)
        self.etcd.is_mute = True
        self.assertRaises(Unreachable, self.log.append, "a", ["close 7"])
        self.etcd.is_mute = False
        self.assertEqual(self.log.append("a", ["close 7"]).number, 1)
        self.assertEqual(self.log.entries(1)[1], 1)

    def test_a_watch(self) -> None:
        self.log.make(FIRST)
        _, _, revision = self.log.entries(1)
        threading.Timer(0.1, lambda: [self.log.append(f"w{number}", ["close 7"]) for number in range(3)]).start()
        numbers = []
        for entry in self.log.watch(1, revision + 1, PATIENCE):
            numbers.append(entry.number)
            if len(numbers) == 3:
                break
        self.assertEqual(numbers, [1, 2, 3])

    def test_what_became_of_an_entry(self) -> None:
        self.log.make(FIRST)
        self.assertEqual([self.log.refuse(1, 22), self.log.refuse(1, 22), self.log.count(1, 9, False), self.log.refuse(1, 22)], ["", "", "", ""])
        self.assertEqual(self.log.code(1), None)
        self.log.append("a", ["lay 1 1 1"])
        self.assertEqual(self.log.code(1), 22)
        self.assertIn("no 22", self.log.refuse(1, 29))
        self.assertEqual([self.log.count(2, 10, True), self.log.count(2, 10, True), self.log.count(2, 10, False)], ["", "", ""])
        self.assertIn("10 arcs", self.log.count(2, 11, True))
        self.assertIn("10 arcs", self.log.count(2, 11, False))
        self.assertIn("10 arcs", self.log.refuse(2, 29))
        self.log.refuse(3, 29)
        self.assertIn("no 29", self.log.count(3, 11, True))

    def test_old_entries_are_cut_off_with_all_that_is_known_of_them(self) -> None:
        self.log.make(FIRST)
        for number in range(1, 6):
            self.log.append(f"id-{number}", ["lay 1 1 1"])
            self.log.count(number, 9 + number, True)
        self.assertEqual(self.log.cut(3), 3)
        self.assertEqual(sorted(self.etcd.keys), ["roads/arcs/" + f"{4:020d}", "roads/arcs/" + f"{5:020d}", "roads/begin", "roads/head", "roads/id/id-4", "roads/id/id-5",
                                                  "roads/log/" + f"{4:020d}", "roads/log/" + f"{5:020d}"])

    def test_why_etcd_does_not_answer(self) -> None:
        self.log.make(FIRST)
        self.etcd.refusal = "etcdserver: mvcc: database space exceeded"
        log = Log([self.etcd.url, "http://127.0.0.1:1"], "roads", PATIENCE)
        with self.assertRaises(Unreachable) as why:
            log.append("a", ["close 7"])
        self.assertIn("status 429: etcdserver: mvcc: database space exceeded", str(why.exception))
        self.assertIn("http://127.0.0.1:1: [Errno 111] Connection refused", str(why.exception))

    def test_entries_of_which_no_group_can_be_made(self) -> None:
        for commands, code in ((["close 7"], None), (["close 7"] * 252, None), (["close 7"] * 253, 13), ([], 13), ("close 7", 1), ([7], 1), (["end"], 1), (["close 7\nend"], 1), (["quit"], 1), (None, 1),
                               (["dist 1 6"], 1), (["close -7"], 1), (["set 1"], 1)):
            self.assertEqual(fault_of(commands), code)
