"""The launcher `./roadmark`, in a repository of one crate with a kit that builds what the test says."""
from __future__ import annotations

import os
import pathlib
import shutil
import subprocess
import tempfile
import time
import unittest

from fronts import EXAMPLES, PATIENCE

# A kit whose `rt ci` builds a program that says which build it is, or fails; `rt try` says its words, and then of its own run.
KIT = """#!/bin/sh
case $1 in
ci) [ ! -e "$FAILS" ] || { echo "rt: roadmark is not proved: one goal is open"; exit 1; }
    echo "rt: roadmark proved"; mkdir -p crates/roadmark/out
    printf '#!/bin/sh\\necho built anew: "$@"\\n' > crates/roadmark/out/roadmark; chmod +x crates/roadmark/out/roadmark ;;
try) shift; echo "looked: $*"; echo "run=ended" >&2 ;;
esac
"""

class Launcher(unittest.TestCase):
    def setUp(self) -> None:
        folder = tempfile.TemporaryDirectory()
        self.addCleanup(folder.cleanup)
        self.folder = pathlib.Path(folder.name)
        self.top, kit = self.folder / "repository", self.folder / "kit"
        self.source = self.top / "crates/roadmark/src/main.rt"
        self.program = self.top / "crates/roadmark/out/roadmark"
        for place in (self.source.parent, self.program.parent, kit):
            place.mkdir(parents=True)
        shutil.copy(EXAMPLES.parent / "roadmark", self.top / "roadmark")
        (self.top / "HANDLES").touch()
        (self.top / "crates.txt").write_text("roadmark:\n")
        self.source.touch()
        (kit / "rt").write_text(KIT)
        (kit / "rt").chmod(0o755)
        self.without = ":".join(place for place in os.environ["PATH"].split(":") if not (pathlib.Path(place) / "rt").exists())
        self.path = f"{kit}:{self.without}"

    def build(self, text: str) -> None:
        """A program that is newer than the sources."""
        self.program.write_text(f"#!/bin/sh\n{text}\n")
        self.program.chmod(0o755)
        for path, age in ((self.source, 60), (self.top / "crates.txt", 60), (self.program, 30)):
            os.utime(path, (time.time() - age,) * 2)

    def run_it(self, *words: str, path: str | None = None, text: str = "", **more: str) -> tuple[int, str, str]:
        env = {"PATH": path or self.path, "FAILS": str(self.folder / "fails"), "TMPDIR": str(self.folder), **more}
        ran = subprocess.run([self.top / "roadmark", *words], input=text, capture_output=True, text=True, env=env, timeout=PATIENCE)
        return ran.returncode, ran.stdout, ran.stderr

    def test_a_build_that_is_current_runs(self) -> None:
        """With the words, the streams and the status of whoever calls it, and without the kit."""
        self.build('cat; echo "$#: $2" >&2; exit 3')
        self.assertEqual(self.run_it("apply", "a b", path=self.without, text="lines\n"), (3, "lines\n", "2: a b\n"))

    def test_a_server_has_one_arena_and_thresholds(self) -> None:
        """Unless whoever calls it says what they are."""
        for name, own in (("MALLOC_ARENA_MAX", "1"), ("MALLOC_MMAP_THRESHOLD_", "33554432"), ("MALLOC_TRIM_THRESHOLD_", "67108864")):
            self.build(f'echo "${{{name}-none}}"')
            self.assertEqual([self.run_it(word)[1] for word in ("serve", "check")], [f"{own}\n", "none\n"])
            self.assertEqual([self.run_it("serve", **{name: value})[1] for value in ("5", "")], ["5\n", "\n"])

    def test_a_build_that_is_stale_is_built_anew(self) -> None:
        for path in (self.source, self.top / "crates.txt", self.source.with_name("new.rt"), self.source.with_name("new.antt")):
            self.build("echo stale")
            path.touch()
            status, out, err = self.run_it("check", "a")
            self.assertEqual((status, out), (0, "built anew: check a\n"), path)
            self.assertIn("proving and building the program first: 1 crates", err)
            self.assertIn("crate 1 of 1 proved: roadmark", err)
            if path.stem == "new":
                path.unlink()

    def test_a_build_that_fails_tells_why(self) -> None:
        self.build("echo stale")
        self.source.touch()
        (self.folder / "fails").touch()
        status, out, err = self.run_it("check", "a")
        self.assertEqual((status, out), (1, ""))
        self.assertIn("rt: roadmark is not proved: one goal is open\nroadmark: it was not built\n", err)

    def test_words_that_only_tell(self) -> None:
        """What is not built yet is answered without a proof where no file is written, and this is said."""
        status, out, err = self.run_it("once", "a", "1", "2")
        self.assertEqual((status, out), (0, "looked: -- once a 1 2\n"))
        self.assertIn("roadmark: not proved yet: compiled with checks for this answer alone", err)
        self.assertNotIn("run=ended", err)

    def test_without_the_kit(self) -> None:
        self.assertEqual(self.run_it("check", "a", path=self.without), (1, "", 'roadmark: the kit\'s `rt` is not on the path: README.md, "Two commands"\n'))

    def test_a_build_alone(self) -> None:
        self.build("echo stale")
        self.assertEqual(self.run_it("--build"), (0, "", ""))
        self.source.touch()
        self.assertEqual(self.run_it("--build")[:2], (0, ""))
        self.assertEqual(self.run_it("check")[:2], (0, "built anew: check\n"))
