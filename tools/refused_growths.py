#!/usr/bin/env python3
"""Runs three scripts, and the calls on texts and stores, with each growth of memory refused in turn, the first, the second and so on, until a run meets no refusal. Each line that
the program prints is compared with a fold of the keeper's machine, in which want of memory (11) leaves the state, and a growth refused in the
disk in memory is a failure of that disk (43), which breaks the store. One growth is refused in a run, so one line differs at most. Of the other calls all is told, or nothing is and the store is as it was; a command of
`apply` that finds no memory is refused alone.

Needs a C compiler, and the built program: crates/roadmark/out/roadmark, or the path that is given."""
import heapq, os, shutil, subprocess, sys, tempfile

REFUSING = r"""
#define _GNU_SOURCE
#include <dlfcn.h>
#include <fcntl.h>
#include <stdlib.h>
#include <unistd.h>
static long left = -1;
static int refused(void) {
    if (left < 0) { const char *n = getenv("REFUSED_GROWTH"); left = n ? atol(n) : 0; }
    if (left == 0 || --left != 0) return 0;
    int told = open(getenv("REFUSED_TOLD"), O_WRONLY | O_CREAT, 0600);
    if (told >= 0) close(told);
    return 1;
}
typedef void *takes_size(size_t);
typedef void *takes_old(void *, size_t);
void *malloc(size_t n) {
    static takes_size *real;
    if (!real) real = (takes_size *)dlsym(RTLD_NEXT, "malloc");
    return refused() ? 0 : real(n);
}
void *realloc(void *old, size_t n) {
    static takes_old *real;
    if (!real) real = (takes_old *)dlsym(RTLD_NEXT, "realloc");
    return refused() ? 0 : real(old, n);
}
"""

HERE = os.path.dirname(os.path.abspath(__file__))
ARCS = [(1, 2, 17), (1, 3, 10), (2, 4, 2), (3, 5, 0), (4, 3, 0), (4, 6, 3), (5, 2, 0), (5, 6, 20)]
SCRIPTS = {
    "closed_arc_lengthens": (64, "close 7/flush/dist 1 6/task/publish/dist 1 6"),
    "reuse_needs_a_checkpoint": (2, "set 1 1/flush/set 1 2/flush/set 1 3/flush/checkpoint/stop 3 170 flush/dist 1 2"),
    "bounds_and_rows": (64, "mark 3/flush/task/publish/lower 5 6/dist 5 6/lower 5 1/from 3 4/from 1 4"),
}


class Wrong(Exception):
    pass


class Machine:
    """The keeper's machine. `told` are the lines that are left to be explained; `spare` is how many refusals for memory may still come."""

    def __init__(self, pages, told):
        self.commands, self.durable, self.shown, self.unchecked, self.pages = [], 0, 0, 0, pages
        self.broken, self.flight, self.aside, self.told, self.spare = False, 0, None, told, 1

    def network(self, version):
        arcs, landmarks = [[t, h, w, True] for t, h, w in ARCS], set()
        for word, *numbers in self.commands[:version]:
            if word == "set":
                arcs[numbers[0] - 1][2] = numbers[1]
            elif word in ("close", "reopen"):
                arcs[numbers[0] - 1][3] = word == "reopen"
            else:
                (landmarks.add if word == "mark" else landmarks.discard)(numbers[0])
        return arcs, landmarks

    def row(self, source):
        arcs, _ = self.network(self.shown)
        found, queue = {}, [(0, source)]
        while queue:
            length, node = heapq.heappop(queue)
            if node not in found:
                found[node] = length
                for tail, head, more, opened in arcs:
                    if tail == node and opened:
                        heapq.heappush(queue, (length + more, head))
        return found

    def say(self, *lines):
        """These lines are the next ones that are told."""
        if self.told[: len(lines)] != list(lines):
            raise Wrong(f"told {self.told[:len(lines)]} where {list(lines)} is due")
        del self.told[: len(lines)]

    def is_refused(self, *codes):
        """Whether one of these refusals is told next, in place of the answer: it is the one that the run may have."""
        if self.spare and self.told and self.told[0] in [f"no {code}" for code in codes]:
            self.spare = 0
            del self.told[0]
            return True
        return False

    def write(self, is_cut=False):
        """A flush. Where it is cut by a stop its line is told only if it was refused before that."""
        if self.broken or self.durable == len(self.commands) or self.unchecked == self.pages:
            return self.say("no 45" if self.broken else "no 53" if self.durable == len(self.commands) else "no 44")
        if self.is_refused(43):
            self.broken, self.flight = True, len(self.commands) - self.durable
        elif not self.is_refused(11) and not is_cut:
            self.durable, self.unchecked = len(self.commands), self.unchecked + 1
            self.say(f"ok {self.durable}")

    def event(self, line):
        word, *rest = line.split()
        if word in ("set", "close", "mark"):
            if self.broken:
                self.say("no 45")
            elif not self.is_refused(11):
                self.commands.append((word, *map(int, rest)))
                self.say(f"t {len(self.commands)}")
        elif word == "flush":
            self.write()
        elif word == "checkpoint":
            if self.broken or (self.unchecked and self.is_refused(43)):
                if self.broken:
                    self.say("no 45")
                self.broken = True
            elif not (self.unchecked and self.is_refused(11)):
                self.unchecked = 0
                self.say(f"ok {self.durable}")
        elif word == "task":
            if self.shown == self.durable:
                self.say("no 51")
            elif not self.is_refused(11):
                self.aside = self.durable
                self.say(f"task {self.durable}")
        elif word == "publish":
            if self.aside is None:
                return self.say("no 51")
            self.shown, self.aside = self.aside, None
            self.say(f"shown {self.shown}")
        elif word == "stop":
            self.write(is_cut=True)
            self.say("stopped")
            # What was in flight as the disk failed is there, or not.
            if self.told[:1] == [f"v {self.durable + self.flight}"]:
                self.durable += self.flight
            self.say(f"v {self.durable}")
            del self.commands[self.durable :]
            self.shown, self.broken, self.flight, self.aside = self.durable, False, 0, None
        else:
            self.ask(word, *map(int, rest))

    def ask(self, word, source, target):
        if word == "dist" and self.is_refused(11):
            return
        _, landmarks = self.network(self.shown)
        self.say(f"v {self.shown}")
        if word == "dist":
            reply = self.row(source).get(target)
        elif word == "from":
            if source not in landmarks:
                return self.say("no 26")
            reply = self.row(source).get(target)
        else:
            reply = 0
            for row in map(self.row, landmarks):
                if source in row:
                    reply = None if target not in row or reply is None else max(reply, row[target] - row[source])
        letter = "b" if word == "lower" else "d"
        self.say(f"x {source} {target}" if reply is None else f"{letter} {source} {target} {reply}")


def judge(pages, script, lines, status, fault):
    """Says what the run was refused; raises where it told anything else than the machine."""
    machine = Machine(pages, list(lines))
    if status and not lines:
        if fault.split(": ")[-1] not in ("11 OutOfMemory", "43 Device"):
            raise Wrong(f"ended with {fault}")
        return "nothing was written: " + " ".join(map(os.path.basename, fault.split()))
    for line in script.split("/"):
        if status and machine.spare and machine.told in ([], ["stopped"]):
            # Only an opening after a stop ends a run with 43.
            if fault != "roadmark: 11 OutOfMemory" and (machine.told, fault) != (["stopped"], "roadmark: 43 Device"):
                raise Wrong(f"ended with {fault}")
            return "ended early: " + fault
        machine.event(line)
    if status or machine.told:
        raise Wrong(f"status {status}, {fault}, and {machine.told} is left")
    return "answered whole" if machine.spare else "a line is a refusal, and the run went on"


class Call:
    """A call of the program on a store of its own: its words behind the store's name, what it prints, and what it may print where a growth is refused; else it prints nothing."""

    def __init__(self, word, texts, told, spared=()):
        self.word, self.texts, self.told, self.spared = word, texts, told, spared


TEXTS = {"six.ss": "p aux sp ss 3/s 6/s 3/s 6", "six.p2p": "p aux sp p2p 2/q 1 6/q 6 1", "changes": "close 7/set 8 4"}
CALLS = [
    Call("once GR 1 6", [], "v 0/d 1 6 15"),
    Call("route GR 5 2", [], "v 0/route 5 2 0 1/a 7 5 2 0 open"),
    Call("batch GR", ["six.p2p"], "v 0/d 1 6 15/x 6 1"),
    Call("create STORE GR", ["six.ss"], "ok 0"),
    Call("ask STORE", ["six.p2p"], "v 0/d 1 6 15/x 6 1"),
    Call("apply STORE", ["changes"], "ok 1/ok 2", ["no 11/ok 1", "ok 1/no 11"]),
]


def judge_call(call, before, after, lines, status, fault):
    """Says what the call was refused; raises where it told anything else, or changed the store."""
    told = "/".join(lines)
    if status == 0 and told in (call.told, *call.spared):
        return "answered whole" if told == call.told else "a line is a refusal, and the run went on"
    if status == 0 or told or not fault.endswith("11 OutOfMemory"):
        raise Wrong(f"status {status}, {fault}")
    # Nothing is told, and nothing is there that was not before.
    if after != before and not (before is None and after == b""):
        raise Wrong(f"the store is another: {fault}")
    return "nothing was written: 11 OutOfMemory"


def sweep(name, program, room, words, judged, begin=lambda: None):
    """Runs the program with each growth refused in turn, and judges each run."""
    seen, growth, is_met = {}, 0, True
    while is_met:
        growth += 1
        begin()
        told = f"{room}/told"
        where = dict(os.environ, LD_PRELOAD=f"{room}/refusing.so", REFUSED_GROWTH=str(growth), REFUSED_TOLD=told)
        run = subprocess.run([program, *words], env=where, capture_output=True, text=True, timeout=60)
        is_met = os.path.exists(told)
        if is_met:
            os.remove(told)
        if run.returncode not in (0, 1):
            raise SystemExit(f"{name}: growth {growth}: status {run.returncode}: {run.stderr}")
        try:
            what = judged(run.stdout.splitlines(), run.returncode, run.stderr.strip())
        except Wrong as wrong:
            raise SystemExit(f"{name}: growth {growth}: {wrong}\n{run.stdout}{run.stderr}")
        if is_met:
            seen[what] = seen.get(what, 0) + 1
    print(f"{name}: {growth - 1} growths refused in turn")
    for what, count in sorted(seen.items()):
        print(f"    {count:4} {what}")


def content(path):
    """The bytes of a file, or None where it is not there."""
    return open(path, "rb").read() if os.path.exists(path) else None


def sweep_call(program, room, call, network):
    """Runs a call so, each time on a store as it was before."""
    store, kept = f"{room}/store", f"{room}/kept"

    def begin():
        if os.path.exists(store):
            os.remove(store)
        if not call.word.startswith("create"):
            shutil.copyfile(kept, store)

    words = [{"GR": network, "STORE": store}.get(word, word) for word in call.word.split()] + [f"{room}/{text}" for text in call.texts]
    before = None if call.word.startswith("create") else content(kept)
    sweep(call.word.split()[0], program, room, words, lambda *run: judge_call(call, before, content(store), *run), begin)


def main():
    program = sys.argv[1] if len(sys.argv) > 1 else os.path.join(HERE, "../crates/roadmark/out/roadmark")
    network = os.path.join(HERE, "../examples/six.gr")
    with tempfile.TemporaryDirectory() as room:
        with open(f"{room}/refusing.c", "w") as out:
            out.write(REFUSING)
        subprocess.run(["cc", "-O1", "-shared", "-fPIC", "-o", f"{room}/refusing.so", f"{room}/refusing.c", "-ldl"], check=True)
        for name, (pages, script) in SCRIPTS.items():
            with open(f"{room}/script", "w") as out:
                out.write(script.replace("/", "\n") + "\n")
            words = ["rehearse", network, f"{room}/script", "--journal", str(pages)]
            sweep(name, program, room, words, lambda *run: judge(pages, script, *run))
        for name, text in TEXTS.items():
            with open(f"{room}/{name}", "w") as out:
                out.write(text.replace("/", "\n") + "\n")
        subprocess.run([program, "create", f"{room}/kept", network, f"{room}/six.ss"], check=True, capture_output=True)
        for call in CALLS:
            sweep_call(program, room, call, network)


if __name__ == "__main__":
    main()
