#!/usr/bin/env python3
"""Proves what changed, several crates side by side, and keeps what passed: for a kit whose `rt ci` keeps nothing and whose `rt lib` proves one crate at a time.

    tools/prove_changed.py [--lanes N] [--kinds proof,tests,edits] [CRATE ..]   the tasks of these crates, or of all where none is named
    tools/prove_changed.py --check CRATE [FLAG ..]                              `rt check` of a crate, over libraries that were proved so

The tasks are those of the gate, each from nothing: a crate's proof, its tests (which then run), and its edits. What passed is noted in .git/proved.json by a
checksum of the crate and of all below it, and the libraries stay in out/. Crates with the longest chain behind them come first, with up to three jobs each.
A line tells how each task ended, and `failed: N` comes last. What a task printed is in .git/proved-CRATE-KIND. This is no verdict: `rt ci` alone is one."""
import concurrent.futures
import copy
import functools
import hashlib
import importlib.machinery
import importlib.util
import json
import os
import pathlib
import shutil
import sys
import tempfile
import threading

TOP = pathlib.Path(__file__).resolve().parent.parent
NOTES = TOP / ".git" / "proved.json"
KINDS = ("proof", "tests", "edits")
LOCK = threading.Lock()

def load_kit():
    """The kit's own command, as a module, with the crates of this repository, lowest first."""
    said, sys.argv, sys.dont_write_bytecode = sys.argv, ["rt"], True
    loader = importlib.machinery.SourceFileLoader("rt", os.path.realpath(shutil.which("rt")))
    kit = importlib.util.module_from_spec(importlib.util.spec_from_loader("rt", loader))
    sys.modules["rt"] = kit
    loader.exec_module(kit)
    sys.argv = said
    os.chdir(TOP)
    kit.rtlib.guarded()
    kit.Crate.allowed = kit.handles_of(str(TOP))
    kit.rtlib.Crate = kit.Crate
    made, stamp = {}, kit.Crate.stamp
    # it goes through all below by each way anew, which takes minutes high up
    kit.Crate.stamp = lambda it: made.get(it.folder) or made.setdefault(it.folder, stamp(it))
    return kit, sorted(kit.rtlib.crates_below(str(TOP)), key=lambda it: len(it.below()))

def texts(folder, parts):
    files = sorted(file for part in parts for file in pathlib.Path(folder, part).rglob("*") if file.is_file())
    return b"".join(repr((str(file.relative_to(folder)), file.read_bytes())).encode() for file in files)

class Gate:
    def __init__(self, kit, crates):
        self.kit, self.crates = kit, crates
        self.below = {it.name: [dep.name for dep in it.below()] for it in crates}
        self.need = {it.name: kit.need(it) for it in crates}
        self.stamp = functools.cache(self.stamp)
        self.behind = functools.cache(self.behind)

    def stamp(self, crate):
        own = repr((crate.said, crate.of_kit)).encode() + texts(crate.folder, self.kit.rtlib.PARTS)
        return hashlib.sha256(own + "".join(sorted(self.stamp(it) for it in crate.deps)).encode()).hexdigest()

    def stamp_of(self, crate, kind):
        return self.stamp(crate) if kind != "edits" else hashlib.sha256(self.stamp(crate).encode() + texts(crate.folder, ["must-fail"])).hexdigest()

    def behind(self, name):
        """How many lines stand on the longest chain of crates from this one up."""
        above = [it.name for it in self.crates if any(dep.name == name for dep in it.deps)]
        lines = next(it for it in self.crates if it.name == name).count(rb"\n")
        return lines + max((self.behind(it) for it in above), default=0)

    def tasks(self, names, kinds):
        has = {"proof": lambda it: True, "tests": lambda it: it.has_tests(), "edits": lambda it: bool(self.kit.edits_of(it)[0])}
        return [(it, kind) for it in self.crates if not names or it.name in names for kind in kinds if has[kind](it) and not self.is_noted(it, kind)]

    def is_noted(self, crate, kind):
        notes = json.loads(NOTES.read_text()) if NOTES.exists() else {}
        return notes.get(f"{crate.name} {kind}") == self.stamp_of(crate, kind)

    def note(self, crate, kind):
        with LOCK:
            notes = json.loads(NOTES.read_text()) if NOTES.exists() else {}
            notes[f"{crate.name} {kind}"] = self.stamp_of(crate, kind)
            NOTES.write_text(json.dumps(notes, indent=1))

    def run(self, crate, kind, jobs):
        """Whether the task passed."""
        try:
            return self.passes(crate, kind, jobs)
        except SystemExit:
            return False

    def passes(self, crate, kind, jobs):
        told = TOP / ".git" / f"proved-{crate.name}-{kind}"
        if kind == "edits":
            tried = self.kit.must_fail_all(crate, self.kit.edits_of(crate)[0], ["--jobs", "1"])
            told.write_text("".join(f"{text}\n" for _, text in tried))
            return all(well for well, _ in tried)
        one = copy.copy(crate)
        one.cuts_libraries = True
        with tempfile.TemporaryFile("a+", errors="replace") as one.out:
            os.makedirs(f"{one.folder}/out", exist_ok=True)
            status = self.kit.rtlib.fmt(one.folder, "--check", one.out) or one.ci(["--jobs", str(jobs)], kind == "tests")
            one.out.seek(0)
            told.write_text(one.out.read())
        endings = [""] if kind == "tests" else [it for it in self.kit.BACKENDS.values() if one.is_program]
        return not status and all(self.kit.run(one, kind == "tests", it) for it in endings if kind == "tests" or os.path.isfile(f"{one.folder}/out/{one.name}{it}"))

    def prove(self, left, lanes):
        """How many tasks failed."""
        running, failed, memory = {}, set(), 0.9 * self.kit.free()
        left = sorted(left, key=lambda it: (it[1] != "proof", -self.behind(it[0].name)))
        is_there = lambda name: next(self.is_noted(it, "proof") for it in self.crates if it.name == name)
        with concurrent.futures.ThreadPoolExecutor(lanes) as pool:
            while left or running:
                ready = [it for it in left if all(map(is_there, self.below[it[0].name]))]
                for at, (crate, kind) in enumerate(ready):
                    idle = lanes - sum(jobs for _, _, jobs in running.values())
                    if idle < 1 or running and sum(0.6 * self.need[it.name] for it, _, _ in running.values()) + 0.6 * self.need[crate.name] > memory:
                        break
                    jobs = min(3, idle) if kind == "proof" and at == 0 else 1
                    left.remove((crate, kind))
                    running[pool.submit(self.run, crate, kind, jobs)] = crate, kind, jobs
                if not running:
                    break
                for it in concurrent.futures.wait(running, return_when=concurrent.futures.FIRST_COMPLETED).done:
                    crate, kind, _ = running.pop(it)
                    if it.result():
                        self.note(crate, kind)
                    else:
                        failed.add((crate.name, kind))
                    print(f"{crate.name} {kind}: {'failed' if (crate.name, kind) in failed else 'passed'}", flush=True)
        for crate, kind in left:
            print(f"{crate.name} {kind}: waits for a library that is not proved", flush=True)
        return len(failed) + len(left)

def main(words):
    kit, crates = load_kit()
    gate = Gate(kit, crates)
    if words[:1] == ["--check"]:
        return next(it for it in crates if it.name == words[1]).check(words[2:] if "--jobs" in words else [*words[2:], "--jobs", "1"])
    lanes, kinds, names = kit.processors(), KINDS, []
    while words:
        word, words = words[0], words[1:]
        if word in ("--lanes", "--kinds"):
            lanes, kinds = (int(words[0]), kinds) if word == "--lanes" else (lanes, words[0].split(","))
            words = words[1:]
        else:
            names.append(word)
    failed = gate.prove(gate.tasks(names, kinds), lanes)
    print(f"failed: {failed}")
    return 1 if failed else 0

if __name__ == "__main__":
    sys.exit(main(sys.argv[1:]))
