"""The feed: bad lines change nothing and are told with their number, good ones go on; and a server that is not there, or ends, is told."""
from __future__ import annotations

import shutil
import subprocess
import unittest

from fronts import EXAMPLES, PATIENCE, PROGRAM, InFolder

# A server that has the network of six nodes: it carries out any `set` of an arc up to 8, and does as its store is called.
FAKE = """#!/usr/bin/env python3
import os, signal, sys
store, version = sys.argv[2], 0
if store == "in-use.store":
    sys.exit("roadmark: in-use.store: line 0: 10 Read")
for line in sys.stdin:
    word, *numbers = line.split()
    if word == "quit":
        break
    if word == "wait":
        print(f"v {version}", flush=True)
        continue
    if store == "killed.store" and version == 1:
        os.kill(os.getpid(), signal.SIGKILL)
    if store == "ends.store" and version == 1:
        sys.exit(7)
    if store == "broken.store" and version == 1:
        print("no 45", flush=True)
        continue
    length = int(numbers[1])
    version += length < 1 << 31
    with open("changes", "a") as changes:
        changes.write(line if length < 1 << 31 else "")
    print(f"ok {version}" if length < 1 << 31 else "no 21", flush=True)
"""

# A line, and what is wrong with it.
BAD = [
    ("FROM,TO,SECONDS", "a node is no number"), ("4,6,abc", "the seconds are no decimal number"), ("4,6", "it has not three fields"), ("4", "it has not three fields"), ("4,6,1,2", "it has not three fields"),
    ("4,6,", "a field is missing"), (",6,1", "a field is missing"), ("4,,1", "a field is missing"), (" , , ", "a field is missing"), ("4,6,-3", "the seconds are negative"), ("4,6,-0.1", "the seconds are negative"),
    ("4,6,inf", "the seconds are no decimal number"), ("4,6,nan", "the seconds are no decimal number"), ("4,6,1e300", "the seconds are no decimal number"), ("4,6,0x10", "the seconds are no decimal number"),
    ("4,6,.", "the seconds are no decimal number"), ("4,6,1.2.3", "the seconds are no decimal number"), ("4,6,1;2", "the seconds are no decimal number"), ("4,6,+1", "the seconds are no decimal number"),
    ("4,6,99999999999999999999", "the seconds are out of range"), ("4,6,0.04", "the seconds are less than half a tenth"), ("x,6,1", "a node is no number"), ("4,-6,1", "a node is no number"),
    ("4,6 6,x", "the seconds are no decimal number"), ("$(touch pwned),6,1", "a node is no number"), ("4,6,$(touch pwned)", "the seconds are no decimal number"), ("a[$(touch pwned)],6,1", "a node is no number"),
    ("4;6;1", "it has not three fields"), ("{\"from\": 4, \"to\": 6, \"seconds\": 1}", "a node is no number"), ("\ufeff4,6,1", "a node is no number"),
]

# A line, and the length that arc 6 gets by it.
GOOD = [("4,6,0.4", 4), ("4,6,12", 120), ("04, 06 ,000.3", 3), ("4,6,.5", 5), ("4,6,3.", 30), ("4,6,0", 0), ("4,6,0.25", 3), ("4,6,10.94", 109), ("4,6,0.4\r", 4), ("\t4\t,6, 2.50", 25), ("4,6,214748364.7", 2147483647)]

class WithFeed(InFolder):
    def setUp(self) -> None:
        super().setUp()
        shutil.copytree(EXAMPLES, self.folder / "examples")

    def feed(self, text: str, store: str = "six.store", gr: str = "examples/six.gr") -> subprocess.CompletedProcess[str]:
        ended = subprocess.run(["examples/feed.sh", gr, store], input=text, capture_output=True, text=True, cwd=self.folder, timeout=PATIENCE)
        self.assertFalse((self.folder / "pwned").exists())
        return ended

class Feed(WithFeed):
    """With the fake server, which keeps what it was told."""

    def setUp(self) -> None:
        super().setUp()
        (self.folder / "roadmark").write_text(FAKE)
        (self.folder / "roadmark").chmod(0o755)

    def changes(self) -> list[str]:
        changes = self.folder / "changes"
        return changes.read_text().splitlines() if changes.exists() else []

    def test_bad_lines(self) -> None:
        lines = [line for bad, _ in BAD for line in (bad, "4,6,0.7")]
        ended = self.feed("\n".join(lines) + "\n")
        self.assertEqual(ended.returncode, 0)
        self.assertEqual(ended.stderr.splitlines(), [f"line {2 * place + 1}: {bad}: {why}" for place, (bad, why) in enumerate(BAD)])
        self.assertEqual(ended.stdout.splitlines(), [f"4 to 6: arc 6 takes 7: ok {place + 1}" for place in range(len(BAD))])
        self.assertEqual(self.changes(), ["set 6 7"] * len(BAD))

    def test_good_lines(self) -> None:
        ended = self.feed("\n".join(line for line, _ in GOOD))
        self.assertEqual((ended.returncode, ended.stderr), (0, ""))
        self.assertEqual(self.changes(), [f"set 6 {length}" for _, length in GOOD])

    def test_empty_lines_and_roads_that_are_not_there(self) -> None:
        ended = self.feed("\n\r\n2,6,1.0\n999999999999999999,6,1\n4,6,300000000\n4,6,1")
        self.assertEqual((ended.returncode, ended.stdout), (0, "4 to 6: arc 6 takes 10: ok 1\n"))
        self.assertEqual(ended.stderr, "2 to 6: no such road\n999999999999999999 to 6: no such road\n4 to 6: arc 6 takes 3000000000: no 21\n")

    def test_parallel_arcs(self) -> None:
        (self.folder / "two.gr").write_text("c two\np sp 6 3\na 4 6 3\na 1 2 1\na 4 6 5\n")
        self.assertEqual(self.feed("4,6,1", gr="two.gr").stdout, "4 to 6: arc 1 takes 10: ok 1\n4 to 6: arc 3 takes 10: ok 2\n")

    def test_a_store_in_use(self) -> None:
        for text in ("4,6,1\n" * 1000, "", "4,6,x\n"):
            ended = self.feed(text, "in-use.store")
            self.assertEqual((ended.returncode, ended.stdout), (1, ""))
            self.assertEqual(ended.stderr, "roadmark: in-use.store: line 0: 10 Read\nfeed: in-use.store can't be served (is it in use by another program?): the server has ended with status 1\n")

    def test_a_server_that_ends(self) -> None:
        for store, status in (("ends.store", 7), ("killed.store", 137)):
            ended = self.feed("4,6,1\n" * 1000, store)
            self.assertEqual((ended.returncode, ended.stdout), (1, "4 to 6: arc 6 takes 10: ok 1\n"))
            self.assertIn(f"feed: line 2: 4,6,1 may have been carried out, or not: the server has ended with status {status}\n", ended.stderr)

    def test_a_disk_that_fails(self) -> None:
        ended = self.feed("4,6,1\n4,6,2\n", "broken.store")
        self.assertEqual((ended.returncode, ended.stdout, ended.stderr), (0, "4 to 6: arc 6 takes 10: ok 1\n", "4 to 6: arc 6 takes 20: no 45\n"))

    def test_no_text(self) -> None:
        ended = self.feed("4,6,1\n", gr="none.gr")
        self.assertEqual((ended.returncode, ended.stdout), (1, ""))
        self.assertIn("none.gr", ended.stderr)

@unittest.skipUnless(PROGRAM, "the program")
class FeedOfTheProgram(WithFeed):
    """With the program."""

    def setUp(self) -> None:
        super().setUp()
        (self.folder / "roadmark").symlink_to(PROGRAM)
        self.run_program("create", "six.store", EXAMPLES / "six.gr", EXAMPLES / "six.ss")

    def test_bad_lines(self) -> None:
        ended = self.feed("".join(f"{line}\n" for line, _ in BAD) + "4,6,0.4\n")
        self.assertEqual((ended.returncode, ended.stdout), (0, "4 to 6: arc 6 takes 4: ok 1\n"))
        self.assertEqual(ended.stderr.splitlines(), [f"line {place + 1}: {bad}: {why}" for place, (bad, why) in enumerate(BAD)])
        self.assertEqual(self.run_program("show", "six.store", "6"), "v 1\na 6 4 6 4 open\n")

    def test_good_lines(self) -> None:
        ended = self.feed("\n".join(line for line, _ in GOOD))
        self.assertEqual((ended.returncode, ended.stderr), (0, ""))
        self.assertEqual(self.run_program("show", "six.store", "6"), f"v {len(GOOD)}\na 6 4 6 2147483647 open\n")

    def test_a_store_in_use(self) -> None:
        with subprocess.Popen([PROGRAM, "serve", self.folder / "six.store"], stdin=subprocess.PIPE, stdout=subprocess.PIPE) as server:
            assert server.stdin and server.stdout
            server.stdin.write(b"wait\n")
            server.stdin.flush()
            server.stdout.readline()
            ended = self.feed("4,6,1\n" * 1000)
            server.communicate(timeout=PATIENCE)
        self.assertEqual((ended.returncode, ended.stdout), (1, ""))
        self.assertIn("feed: six.store can't be served (is it in use by another program?): the server has ended with status 1\n", ended.stderr)
