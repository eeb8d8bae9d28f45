#!/usr/bin/env python3
"""Runs the gate, and tells what each crate took of it: a table for docs/CONTRIBUTING.md.

    tools/measure_gate.py [--anew] [WORD ..]     runs `rt ci` with these words at the top of this repository, and then prints the table
    tools/measure_gate.py --watch PID            watches a gate that runs already, until the process PID ends

Looks twice a second at each prover below the gate's process. A crate's proof, its tests and its edits (with the proofs that they begin with) are told in
processor seconds, with the memory that the kit reckons for one of its provers (`need`; none is told by a kit that has no such word) and the most that one took.
`minute` is when its proof ended by the clock. Crates that an earlier run kept are missing. A prover that does not run in a crate's folder tries an edit."""
import collections
import importlib.machinery
import importlib.util
import os
import pathlib
import shutil
import subprocess
import sys
import time

TOP = pathlib.Path(__file__).resolve().parent.parent
TICK, PAGE = os.sysconf("SC_CLK_TCK"), os.sysconf("SC_PAGE_SIZE")

def look(pid):
    """The words, the parent, the processor seconds, the bytes, the folder and the beginning of a process, if it is there."""
    try:
        folder = os.readlink(f"/proc/{pid}/cwd")
        words = pathlib.Path(f"/proc/{pid}/cmdline").read_bytes().decode(errors="replace").split("\0")
        fields = pathlib.Path(f"/proc/{pid}/stat").read_text().rsplit(")", 1)[1].split()
        held = int(pathlib.Path(f"/proc/{pid}/statm").read_text().split()[1]) * PAGE
    except (OSError, IndexError, ValueError):
        return None
    return words, int(fields[1]), (int(fields[11]) + int(fields[12])) / TICK, held, folder, fields[19]

def kind_of(words, folder):
    if "--incremental" in words or "/crates/" not in folder:
        return "edits"
    return "tests" if "--test" in words else "proof"

def watch(gate, is_running):
    """What each prover below the process `gate` took: crate, kind, seconds, bytes, and when it was last seen. A number is given again to later processes."""
    begun, provers = time.monotonic(), {}
    while is_running():
        seen = {int(it): look(it) for it in os.listdir("/proc") if it.isdigit()}
        for pid, found in seen.items():
            if not found or not found[0][0].endswith("/rattle") or "--crate-name" not in found[0]:
                continue
            above = found[1]
            while above != gate and seen.get(above):
                above = seen[above][1]
            if above == gate:
                words, _, seconds, held, folder, start = found
                most = max(held, provers[pid, start][3] if (pid, start) in provers else 0)
                provers[pid, start] = words[words.index("--crate-name") + 1], kind_of(words, folder), seconds, most, time.monotonic() - begun
        time.sleep(0.5)
    return provers.values()

def needs():
    """How many bytes the kit reckons for a prover of each crate, or nothing where this kit does not tell it."""
    said, sys.argv, sys.dont_write_bytecode = sys.argv, ["rt"], True
    try:
        loader = importlib.machinery.SourceFileLoader("rt", os.path.realpath(shutil.which("rt")))
        kit = importlib.util.module_from_spec(importlib.util.spec_from_loader("rt", loader))
        loader.exec_module(kit)
        os.chdir(TOP)
        return {it.name: kit.need(it) for it in kit.crates_of(str(TOP))}
    except (Exception, SystemExit):
        return {}
    finally:
        sys.argv = said

def table(provers):
    took, most, ended = collections.defaultdict(collections.Counter), collections.Counter(), {}
    for crate, kind, seconds, held, last in provers:
        took[crate][kind] += seconds
        most[crate] = max(most[crate], held)
        if kind == "proof":
            ended[crate] = max(last, ended.get(crate, 0))
    need = needs()
    print("| Crate | Proof, s | Tests, s | Edits, s | Need, GB | Taken, GB | Minute |\n|---|---|---|---|---|---|---|")
    for crate in sorted(took, key=lambda it: -took[it].total()):
        figures = [f"{took[crate][kind]:.0f}" if took[crate][kind] else "" for kind in ("proof", "tests", "edits")]
        figures.append(f"{need[crate] / 1e9:.1f}" if crate in need else "")
        print(f"| `{crate}` | {' | '.join(figures)} | {most[crate] / 1e9:.1f} | {ended.get(crate, 0) / 60:.0f} |")
    sums = [sum(it[kind] for it in took.values()) / 60 for kind in ("proof", "tests", "edits")]
    print(f"| all, in minutes | {' | '.join(f'{it:.0f}' for it in sums)} | | | |")

def main(words):
    if words[:1] == ["--watch"]:
        gate = int(words[1])
        table(watch(gate, lambda: os.path.exists(f"/proc/{gate}")))
        return 0
    gate = subprocess.Popen(["rt", "ci", *words], cwd=TOP)
    table(watch(gate.pid, lambda: gate.poll() is None))
    return gate.returncode

if __name__ == "__main__":
    sys.exit(main(sys.argv[1:]))
