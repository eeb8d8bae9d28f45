"""A machine whose store is not the others' does not follow: another room, other counts, another network."""
from __future__ import annotations

import json
import shutil
import subprocess
import unittest

from fake_etcd import Etcd
from fronts import LOOP, NAME, PROGRAM, PYTHON, REPLICAS, ROOM, SIX, InFolder, Machine, begin
from log import Log

@unittest.skipUnless(PROGRAM, "the program")
class Stores(InFolder):
    def setUp(self) -> None:
        super().setUp()
        self.etcd = Etcd()
        self.addCleanup(self.etcd.end)
        self.url, self.store = self.etcd.url, self.begin(self.etcd)

    def test_what_the_log_keeps(self) -> None:
        self.assertEqual(json.loads(self.etcd.keys["roads/begin"][0]), {"version": 0, "entry": 0, "arc": LOOP, "room": ROOM, "nodes": 6, "arcs": 9, "landmarks": 2, "closed": 0})

    def is_refused(self, store: str, *why: str) -> None:
        machine = Machine(self, self.url, self.folder / f"{store}.store")
        self.assertEqual(machine.status(), 3, machine.said())
        for each in why:
            self.assertIn(each, machine.said())

    def test_another_room(self) -> None:
        self.run_program("copy", "a.store", "b.store", "--room", "20")
        self.is_refused("b", "the store has room for 20 arcs and 6 nodes, and the log roads was begun with room for 14 arcs and 6 nodes")

    def test_other_nodes(self) -> None:
        self.create("b", SIX.replace("p sp 6", "p sp 7"))
        self.is_refused("b", "7 nodes", "6 nodes")

    def test_other_counts_of_the_first_version(self) -> None:
        self.create("b", SIX.replace("p sp 6 9", "p sp 6 10") + "a 6 1 7\n")
        self.is_refused("b", "the store has 10 arcs, 2 landmarks and 0 closed arcs where the log begins, and the log has 9, 2 and 0")

    def test_a_loop_that_is_none(self) -> None:
        self.create("b", SIX.replace("a 1 1 0", "a 1 2 0"))
        self.is_refused("b", "arc 9 of the store is no loop")

    def test_another_version(self) -> None:
        shutil.copy(self.store, self.folder / "b.store")
        (self.folder / "stray").write_text("set 1 5\n")
        self.run_program("apply", "b.store", "stray")
        self.is_refused("b", "somebody else wrote to it")

    def test_no_log(self) -> None:
        self.etcd.put("roads/begin", json.dumps({"version": 0, "entry": 0, "arc": LOOP}))
        self.is_refused("a", "does not keep the room")

    def test_where_no_log_begins(self) -> None:
        for arc, why in (("1", "arc 1 of the store is no loop"), ("99", "the store has no arc 99")):
            ended = subprocess.run([*PYTHON, REPLICAS / "follow.py", "--program", PROGRAM, "--begin", arc, self.url, "other", self.store], capture_output=True, text=True)
            self.assertEqual(ended.returncode, 1)
            self.assertIn(why, ended.stderr)
        ended = begin(self.url, self.store)
        self.assertEqual(ended.returncode, 0)
        self.run_program("copy", "a.store", "b.store", "--room", "20")
        ended = begin(self.url, self.folder / "b.store")
        self.assertEqual(ended.returncode, 1)
        self.assertIn("it begins elsewhere", ended.stderr)

    def test_machines_that_carry_out_the_same(self) -> None:
        shutil.copy(self.store, self.folder / "b.store")
        first, other = (Machine(self, self.url, self.folder / f"{name}.store") for name in "ab")
        first.is_up()
        other.is_up()
        told = first.tell(self)
        self.assertEqual([told.change("lay 6 1 7"), told.group(["lay 6 2 7", "close 1"]), told.change("mark 1")], [1, 2, 3])
        there = other.tell(self)
        self.assertEqual([there.until(3), there.arcs(6, 1), there.closed(), there.landmarks()], [3, (3, [10]), (3, [1]), (3, [1, 3, 6])])
        self.assertEqual([first.end(), other.end()], [0, 0])
        self.assertEqual({key[len("roads/arcs/"):].lstrip("0"): value[0] for key, value in self.etcd.keys.items() if key.startswith("roads/arcs/")}, {"": "9", "1": "10", "2": "11"})
        # One that begins with a copy of today has the counts of today.
        self.run_program("copy", "b.store", "c.store")
        third = Machine(self, self.url, self.folder / "c.store")
        third.is_up()
        self.assertIn("at entry 3, version 3", third.said())

    def test_an_entry_that_became_something_else(self) -> None:
        log = Log([self.url], NAME)
        log.append("one", ["lay 6 1 7"])
        log.refuse(1, 29)
        self.is_refused("a", "this machine has 10 arcs behind entry 1, which was refused by another machine with no 29: their stores differ")

    def test_an_entry_that_another_machine_has_carried_out(self) -> None:
        log = Log([self.url], NAME)
        log.append("one", ["lay 7 1 7"])
        log.count(1, 10, True)
        self.is_refused("a", "this machine has 9 arcs behind entry 1, which was carried out by another machine, which has 10 arcs: their stores differ")
