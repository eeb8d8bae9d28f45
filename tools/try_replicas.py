#!/usr/bin/env python3
"""Tries many machines that carry out one log (docs/REPLICAS.md) on this one, and compares all that is told with a model of the network: three members of etcd, three stores with a
follower each, three clients that change and three that ask, and whatever may be killed is killed.

    tools/try_replicas.py PROGRAM [ENTRIES] [PART] ..

The parts, all of them where none is named, in their order; ENTRIES is 10,000 where it is not given:
    faults   so many entries, while followers, servers, members and clients are killed (-9) or stopped in turn, one at a time, two members for a while, and all at once
    cut      old entries are cut off; a machine that was away, one to which somebody else wrote, and a log that lost entries are told so
    measure  changes a second and the time from told to shown on all three, beside etcd alone and a server alone
Needs the built program, etcd and flock. All is in a folder of its own, on ports of 127.0.0.1 that are free; all that was started is killed at the end.
"""
import os
import pathlib
import random
import shutil
import signal
import socket
import subprocess
import sys
import tempfile
import threading
import time

TOP = pathlib.Path(__file__).resolve().parent.parent
REPLICAS = TOP / "examples" / "replicas"
sys.path[:0] = [str(REPLICAS), str(TOP / "client")]
from log import Log, NoLog, Unreachable
from roadmark import OVER_A_LOG, Fault, Lost, Session

SIX = [(1, 2, 17), (1, 3, 10), (2, 4, 2), (3, 5, 0), (4, 3, 0), (4, 6, 3), (5, 2, 0), (5, 6, 20), (1, 1, 0)]
LANDMARKS, ARC, ROOM, NAME, PATIENCE, LONGEST = (3, 6), 9, 14, "roads", 5, 120

def process(words, folder, name, **streams):
    """A process in a session of its own, whose errors go to a file."""
    return subprocess.Popen([str(word) for word in words], stderr=open(folder / f"{name}.errors", "a"), start_new_session=True, **streams)

def kill(child, number=signal.SIGKILL):
    """One process, and no other of its session."""
    child.send_signal(number)
    return child.wait(LONGEST)

class Member:
    """A member of etcd."""

    def __init__(self, folder, number, ports):
        self.folder, self.number, self.child = folder, number, None
        clients, peers = ([f"http://127.0.0.1:{port}" for port in some] for some in (ports[:3], ports[3:]))
        self.url = clients[number]
        cluster = ",".join(f"m{other}={url}" for other, url in enumerate(peers))
        self.words = ["etcd", "--name", f"m{number}", "--data-dir", folder / f"etcd{number}", "--listen-client-urls", self.url, "--advertise-client-urls", self.url,
                      "--listen-peer-urls", peers[number], "--initial-advertise-peer-urls", peers[number], "--initial-cluster", cluster, "--log-level", "error",
                      "--auto-compaction-mode", "revision", "--auto-compaction-retention", "1000"]

    def start(self):
        self.child = process(self.words, self.folder, f"etcd{self.number}")

    def kill(self):
        kill(self.child)

class Machine:
    """A store, with the follower that has its server."""

    def __init__(self, all, number):
        self.all, self.number, self.name = all, number, "abcd"[number]
        self.store, self.pairs, self.child, self.options = all.folder / f"{self.name}.store", all.folder / f"pairs-{self.name}", None, []
        first = number % 3
        urls = [member.url for member in all.members]
        self.urls = ",".join(urls[first:] + urls[:first])

    def start(self, name=NAME):
        self.child = process([REPLICAS / "follow.py", "--program", self.all.program, "--pairs", 8, "--machine", self.name, *self.options, self.urls, name, self.store, self.pairs],
                             self.all.folder, f"follow-{self.name}")

    def server(self):
        """The server's process, the follower's only child, once it is there."""
        until = time.monotonic() + LONGEST
        while time.monotonic() < until:
            for name in os.listdir("/proc"):
                try:
                    if name.isdigit() and int(pathlib.Path("/proc", name, "stat").read_text().rsplit(")", 1)[1].split()[1]) == self.child.pid:
                        return int(name)
                except (OSError, IndexError):
                    pass
            time.sleep(0.02)
        raise AssertionError(f"machine {self.name} has no server")

    def kill(self):
        kill(self.child)

    def signal_server(self, number):
        try:
            os.kill(self.server(), number)
        except ProcessLookupError:
            pass

    def end(self):
        self.server()
        status = kill(self.child, signal.SIGTERM)
        assert status == 0, f"the follower of {self.name} ended with {status}"

    def errors(self):
        return (self.all.folder / f"follow-{self.name}.errors").read_text()

def tell(talk, *lines):
    """The fields of the first line of the answer."""
    return next(talk.stream(*lines)).split()

def ask(talk, line):
    """The version and the answer line, or the code and None."""
    first, *rest = map(str.split, talk.stream(line))
    return int(first[1]), rest[0] if rest else None

class All:
    """Members, machines, and what is in front of them."""

    def __init__(self, program, folder):
        self.program, self.folder = program, folder
        places = [socket.socket() for _ in range(6)]
        for place in places:
            place.bind(("127.0.0.1", 0))
        ports = [place.getsockname()[1] for place in places]
        for place in places:
            place.close()
        self.members = [Member(folder, number, ports) for number in range(3)]
        self.machines = [Machine(self, number) for number in range(4)]
        # The one that will be away: its place in the log goes soon.
        self.machines[3].options = ["--lease", 8]

    def talk(self, machine):
        """A session by tell.py with one machine."""
        with open(self.folder / f"tell-{machine.name}.errors", "a") as errors:
            return Session.start([REPLICAS / "tell.py", "--patience", str(PATIENCE), machine.urls, NAME, machine.pairs], LONGEST, OVER_A_LOG, errors.fileno())

    def log(self, name=NAME):
        return Log([member.url for member in self.members], name)

    def run(self, *words):
        return subprocess.run([self.program, *words], capture_output=True, text=True, check=True).stdout

    def start(self):
        for member in self.members:
            member.start()
        (self.folder / "six.gr").write_text(f"p sp 6 {len(SIX)}\n" + "".join(f"a {tail} {head} {length}\n" for tail, head, length in SIX))
        (self.folder / "six.ss").write_text(f"p aux sp ss {len(LANDMARKS)}\n" + "".join(f"s {node}\n" for node in LANDMARKS))
        first, *others = [machine.store for machine in self.machines[:3]]
        self.run("create", first, self.folder / "six.gr", self.folder / "six.ss", "--room", str(ROOM))
        for other in others:
            shutil.copy(first, other)
        self.wait_for_log()
        subprocess.run([REPLICAS / "follow.py", "--program", self.program, "--begin", str(ARC), self.machines[0].urls, NAME, first], check=True, stdout=subprocess.DEVNULL)
        for machine in self.machines[:3]:
            machine.start()

    def wait_for_log(self):
        until = time.monotonic() + LONGEST
        while True:
            try:
                return self.log().begin()
            except NoLog:
                return None
            except Unreachable:
                assert time.monotonic() < until, "etcd did not start"
                time.sleep(0.2)

    def catch_up(self, machines):
        """Waits until the machines have the whole log, and tells how long that took each."""
        began, took = time.monotonic(), []
        _, head, _ = self.log().entries(1, 1)
        for machine in machines:
            with self.talk(machine) as talk:
                while tell(talk, f"until {head}")[0] != "v":
                    assert time.monotonic() < began + 5 * LONGEST, f"machine {machine.name} does not catch up"
            took.append(time.monotonic() - began)
        return took

    def end(self):
        """Kills whatever names this folder, and so was started here."""
        for name in os.listdir("/proc"):
            try:
                if name.isdigit() and int(name) != os.getpid() and str(self.folder).encode() in pathlib.Path("/proc", name, "cmdline").read_bytes():
                    os.kill(int(name), signal.SIGKILL)
            except OSError:
                pass

# The model: arcs, which of them are closed, and landmarks.

FIRST = (SIX, frozenset(), frozenset(LANDMARKS))

def after(state, command):
    """The state after a command, or the code of its refusal."""
    arcs, closed, landmarks = state
    word, *numbers = command.split()
    first, *others = map(int, numbers)
    is_arc, is_node = 1 <= first <= len(arcs), 1 <= first <= 6
    if word == "lay":
        head, length = others
        code = 21 if length >= 1 << 31 else 24 if not is_node or not 1 <= head <= 6 else 29 if len(arcs) == ROOM else 0
        return code or (arcs + [(first, head, length)], closed, landmarks)
    if word in ("mark", "unmark"):
        code = 24 if not is_node else 25 if word == "mark" and first in landmarks else 26 if word == "unmark" and first not in landmarks else 0
        return code or (arcs, closed, landmarks ^ {first})
    if not is_arc:
        return 20
    if word == "set":
        return 21 if others[0] >= 1 << 31 else (arcs[:first - 1] + [(*arcs[first - 1][:2], others[0])] + arcs[first:], closed, landmarks)
    code = 22 if word == "close" and first in closed else 23 if word == "reopen" and first not in closed else 0
    return code or (arcs, closed ^ {first}, landmarks)

def after_entry(state, entry):
    """The state after an entry, and the code by which it is refused, or 0."""
    new = state
    for command in entry.commands:
        new = after(new, command)
        if isinstance(new, int):
            return after(state, f"set {ARC} {entry.number}"), new
    return after(new, f"set {ARC} {entry.number}"), 0

def least(state, source, target):
    arcs, closed, _ = state
    row = {source: 0}
    for _ in range(6):
        for number, (tail, head, length) in enumerate(arcs, 1):
            if number not in closed and tail in row and row[tail] + length < row.get(head, 1 << 62):
                row[head] = row[tail] + length
    return ["d", str(source), str(target), str(row[target])] if target in row else ["x", str(source), str(target)]

def texts(state):
    """The lines of the three texts that `export` writes, but for the first of each."""
    arcs, closed, landmarks = state
    return ([f"p sp 6 {len(arcs)}"] + [f"a {tail} {head} {length}" for tail, head, length in arcs], [f"p aux sp ss {len(landmarks)}"] + [f"s {node}" for node in sorted(landmarks)],
            [f"close {number}" for number in sorted(closed)])

def random_change():
    word = random.choice(["set", "set", "set", "set", "close", "reopen", "mark", "unmark", "lay"])
    if word == "set":
        return f"set {random.randint(1, 8) if random.random() < 0.97 else 77} {random.randint(0, 99) if random.random() < 0.98 else 1 << 31}"
    if word == "lay":
        return f"lay {random.randint(1, 7)} {random.randint(1, 6)} {random.randint(0, 99)}" if random.random() < 0.02 else "set 8 1"
    return f"{word} {random.randint(1, 8 if word in ('close', 'reopen') else 6)}"

def random_group():
    return [random_change() for _ in range(random.choice([1, 1, 1, 1, 2, 5]))] if random.random() < 0.995 else [f"set {1 + number % 8} {number}" for number in range(252)]

class Client(threading.Thread):
    """Tells changes until it is let go, each under its own id as often as it takes."""

    def __init__(self, all, machine, name, kills=True, group=random_group):
        super().__init__(daemon=True)
        self.all, self.machine, self.name, self.kills, self.group, self.is_let_go, self.fault = all, machine, name, kills, group, False, None
        self.told, self.when, self.again, self.killed, self.looked = {}, [], 0, 0, 0

    def run(self):
        try:
            talk = self.all.talk(self.machine)
            while not self.is_let_go:
                talk = self.change(talk, f"{self.name}-{len(self.told)}", self.group())
            talk.close()
        except BaseException as fault:
            self.fault = fault

    def change(self, talk, identity, group):
        lines = group if len(group) == 1 else ["begin", *group, "end"]
        while True:
            try:
                answers = talk.stream(f"id {identity}", *lines)
                if self.kills and random.random() < 0.01:
                    time.sleep(random.random() * 0.03)
                    talk.wire.child.kill()
                    self.killed += 1
                answer = next(answers).split()
            except Lost:
                # Told again, maybe on another machine.
                talk.close()
                talk = self.all.talk(random.choice(self.all.machines[:3]) if self.kills else self.machine)
                self.again += 1
                continue
            if answer[0] != "unknown":
                break
            assert answer == ["unknown", identity], f"an answer {answer}"
            self.again += 1
        self.told[identity] = (group, answer)
        self.when.append(time.monotonic())
        if answer[0] == "ok" and self.kills and random.random() < 0.02:
            self.look(int(answer[1]))
        return talk

    def look(self, version):
        """One's own write is read on another machine."""
        other = random.choice([machine for machine in self.all.machines[:3] if machine is not self.machine])
        talk = self.all.talk(other)
        try:
            shown = tell(talk, f"until {version}")
            assert shown[0] == "no" or int(shown[1]) >= version, "`until` told an earlier version"
            if shown[0] == "v":
                seen, _ = ask(talk, f"arc {ARC}")
                assert seen >= version, "one's own write is not seen"
                self.looked += 1
        except Lost:
            pass
        talk.close()

class Reader(threading.Thread):
    """Asks one machine until it is let go."""

    def __init__(self, all, machine):
        super().__init__(daemon=True)
        self.all, self.machine, self.is_let_go, self.fault = all, machine, False, None
        self.answers, self.when, self.refused, self.longest = [], [], 0, 0

    def run(self):
        try:
            talk, seen, before = self.all.talk(self.machine), 0, time.monotonic()
            while not self.is_let_go:
                source, target = random.randint(1, 6), random.randint(1, 6)
                version, answer = ask(talk, f"dist {source} {target}")
                now = time.monotonic()
                if answer is None:
                    self.refused += 1
                else:
                    assert version >= seen, "a version fell"
                    seen = version
                    self.answers.append((version, source, target, answer))
                    self.when.append(now)
                    self.longest, before = max(self.longest, now - before), now
                time.sleep(0.01)
            talk.close()
        except BaseException as fault:
            self.fault = fault

class Clock(threading.Thread):
    """Sees for how long this machine ran nobody, since then the longest wait says nothing of a server."""

    def __init__(self):
        super().__init__(daemon=True)
        self.is_let_go, self.fault, self.longest = False, None, 0

    def run(self):
        before = time.monotonic()
        while not self.is_let_go:
            time.sleep(0.1)
            now = time.monotonic()
            self.longest, before = max(self.longest, now - before - 0.1), now

def judge(all, clients, readers):
    """Compares all that was told with the log, carried out by the model: the number of entries, and of answers."""
    for one in [*clients, *readers]:
        if one.fault:
            raise one.fault
    log, entries = all.log(), []
    while found := log.entries(len(entries) + 1, 1000)[0]:
        entries += found
    assert [entry.number for entry in entries] == list(range(1, len(entries) + 1)), "a number is missing"
    told = {identity: answer for client in clients for identity, answer in client.told.items()}
    assert sorted(entry.id for entry in entries) == sorted(told), "an entry is missing, doubled, or was never told"
    states, refused = [FIRST], 0
    for entry in entries:
        state, code = after_entry(states[-1], entry)
        states.append(state)
        refused += code > 0
        assert told[entry.id] == (entry.commands, ["no", str(code)] if code else ["ok", str(entry.number)]), (entry, code, told[entry.id])
    for reader in readers:
        for version, source, target, answer in reader.answers:
            assert answer == least(states[version], source, target), (version, answer)
    return states, refused

def exported(all, machines):
    """Ends the followers, and compares what their stores have, byte for byte: the lines of the three texts, but for the first of each."""
    kept = []
    for machine in machines:
        machine.end()
        folder = all.folder / f"texts-{machine.name}"
        shutil.rmtree(folder, ignore_errors=True)
        folder.mkdir()
        all.run("export", machine.store, folder)
        kept.append([(folder / name).read_text() for name in ("network.gr", "landmarks.ss", "closed.commands")])
    assert kept.count(kept[0]) == len(kept), "the stores differ"
    return tuple(text.split("\n")[1:-1] for text in kept[0])

# What is done to them, one after the other.

def restart(one, rest):
    one.kill()
    time.sleep(rest)
    one.start()

def stop_server(machine, seconds):
    machine.signal_server(signal.SIGSTOP)
    time.sleep(seconds)
    machine.signal_server(signal.SIGCONT)

def stop_member(member, seconds):
    """Calls of it get no answer in time, and what they ask for is done later."""
    member.child.send_signal(signal.SIGSTOP)
    time.sleep(seconds)
    member.child.send_signal(signal.SIGCONT)

def slow_down(all, machine, seconds):
    """A follower that is stopped for a while, and then catches up; etcd forgets what came before meanwhile, so its watch begins too early."""
    machine.child.send_signal(signal.SIGSTOP)
    time.sleep(seconds)
    log = all.log()
    log.etcd.call("kv/compaction", {"revision": str(log.entries(1, 1)[2])})
    machine.child.send_signal(signal.SIGCONT)
    print(f"faults: a follower that stood still for {seconds} s had the log again in {all.catch_up([machine])[0]:.1f} s", flush=True)

def without_majority(all, clients, readers, two):
    """Two members are down for a while: nothing is told, and all reads go on."""
    for member in two:
        member.kill()
    began = time.monotonic()
    time.sleep(12)
    end = time.monotonic()
    late = [when for client in clients for when in client.when if began + 0.3 < when < end]
    asked = [sum(began < when < end for when in reader.when) for reader in readers]
    for member in two:
        member.start()
    assert not late, f"{len(late)} changes were told without a majority"
    assert min(asked) > 10, asked
    print(f"faults: two of three members down for {end - began:.0f} s: no change was told, {asked} queries were answered on the three machines", flush=True)

def all_at_once(all):
    for machine in all.machines[:3]:
        machine.signal_server(signal.SIGKILL)
    for one in [*all.machines[:3], *all.members]:
        one.child.kill()
    for one in [*all.machines[:3], *all.members]:
        one.child.wait(LONGEST)
    time.sleep(1)
    for one in [*all.members, *all.machines[:3]]:
        one.start()

def second_follower(all):
    """One that is started by mistake on a store which has a server."""
    double = Machine(all, 0)
    double.pairs, double.name = all.folder / "pairs-double", "double"
    double.start()
    time.sleep(3)
    assert double.child.poll() is None, "the second follower ended"
    kill(double.child)
    assert "started again" in double.errors(), "the second follower had the store"

def copy(all, new):
    """A machine's follower is ended, its store copied, and the copy begins as one more machine."""
    machine = all.machines[0]
    machine.end()
    subprocess.run(["flock", "--shared", "--nonblock", machine.store, "cp", machine.store, new.store], check=True)
    machine.start()

def try_faults(all, count):
    clients = [Client(all, machine, f"client-{machine.name}") for machine in all.machines[:3]]
    readers, clock = [Reader(all, machine) for machine in all.machines[:3]], Clock()
    began, threads = time.monotonic(), [*clients, *readers, clock]
    for one in threads:
        one.start()
    steps = [lambda machine=machine, rest=rest: restart(machine, rest) for rest in (0, 1) for machine in all.machines[:3]]
    steps += [lambda machine=machine: machine.signal_server(signal.SIGKILL) for _ in range(2) for machine in all.machines[:3]]
    steps += [lambda member=member, rest=rest: restart(member, rest) for rest in (0, 3) for member in all.members]
    steps += [lambda machine=machine: stop_server(machine, 2) for machine in all.machines[:3]] + [lambda member=member: stop_member(member, 6) for member in all.members]
    often = len(steps)
    steps += [lambda: copy(all, all.machines[3]), lambda: slow_down(all, all.machines[1], 10), lambda: without_majority(all, clients, readers, all.members[:2]), lambda: second_follower(all),
              all.machines[3].start, lambda: all_at_once(all), lambda: slow_down(all, all.machines[2], 10), lambda: without_majority(all, clients, readers, all.members[1:])]
    until = began + 1800 + count / 5
    done = 0
    while sum(len(client.told) for client in clients) < count or done < len(steps):
        assert time.monotonic() < until, "it takes too long"
        for one in threads:
            if one.fault:
                raise one.fault
        time.sleep(1 + random.random())
        if done < len(steps):
            steps[done]()
        else:
            time.sleep(2)
            random.choice(steps[:often])()
        done += 1
    for one in threads:
        one.is_let_go = True
    for one in threads:
        one.join(LONGEST)
        assert not one.is_alive(), "a client does not end"
    took = time.monotonic() - began
    all.catch_up(all.machines)
    states, refused = judge(all, clients, readers)
    assert exported(all, all.machines) == texts(states[-1]), "the stores are not the model's"
    for machine in all.machines:
        machine.start()
    print(f"faults: {len(states) - 1} entries in {took:.0f} s beside {done} faults, {refused} refused, each told once as the model has it; {sum(c.killed for c in clients)} clients killed, "
          f"{sum(c.again for c in clients)} changes told again, none twice in the log; {sum(c.looked for c in clients)} writes read on another machine", flush=True)
    print(f"faults: {sum(len(r.answers) for r in readers)} answers, each right in its version, {sum(r.refused for r in readers)} times none, the longest wait for one {max(r.longest for r in readers):.1f} s "
          f"(this machine stood still for up to {clock.longest:.1f} s); four stores, one of them begun as a copy, are byte for byte the same", flush=True)

def write(all, count, machine=0):
    """So many changes, by one client."""
    with all.talk(all.machines[machine]) as talk:
        return [talk.change(f"set {1 + number % 8} {number}") for number in range(count)][-1]

def try_cut(all, _):
    """Old entries go where each machine has them; a machine that was away too long is told so, and begins with a copy."""
    for machine in all.machines[:3]:
        machine.end()
        machine.options = ["--lease", 8, "--keep", 50]
        machine.start()
    away = all.machines[3]
    if away.child is None:
        copy(all, away)
    elif away.child.poll() is None:
        away.end()
    head = write(all, 300)
    until, log = time.monotonic() + LONGEST, all.log()
    while (first := log.entries(0, 1)[0][0].number) != head - 49:
        assert time.monotonic() < until, f"the log begins with {first}, and should with {head - 49}"
        time.sleep(1)
    assert log.code(1) is None and log.value(log.key("id/", "client-a-0")) is None, "something of what was cut off is there"
    print(f"cut: the log has {head - first + 1} entries of {head}", flush=True)
    for kind, text in (("away", "has been cut off"), ("written", "somebody else wrote"), ("lost", "etcd has lost entries")):
        name = NAME
        if kind != "away":
            copy(all, away)
        if kind == "written":
            (all.folder / "stray").write_text("set 1 5\n")
            all.run("apply", away.store, all.folder / "stray")
        if kind == "lost":
            name = "lost"
            all.log(name).make(all.log().begin())
        away.start(name)
        assert away.child.wait(LONGEST) == 3 and text in away.errors().split("\n")[-2], (kind, away.errors()[-300:])
        print("cut: " + away.errors().split("\n")[-2], flush=True)
    # One that is written to at a pair of pipes, while it follows.
    copy(all, away)
    away.start()
    all.catch_up([away])
    subprocess.run([TOP / "examples/attach.sh", away.pairs], input="set 1 5\n", text=True, check=True, stdout=subprocess.DEVNULL, timeout=LONGEST)
    write(all, 1)
    assert away.child.wait(LONGEST) == 3, "a follower went on behind another's write"
    print("cut: " + away.errors().split("\n")[-2], flush=True)
    copy(all, away)
    away.start()
    write(all, 100, 1)
    all.catch_up(all.machines)
    exported(all, all.machines)
    for machine in all.machines[:3]:
        machine.options = []
        machine.start()
    print("cut: a machine that was away began with a copy, and has the same store as the others", flush=True)

def appended(all, name, count, seconds):
    """Entries a second, of etcd alone."""
    end, counts = time.monotonic() + seconds, [0] * count

    def append(place):
        log = all.log(name)
        log.etcd.urls = log.etcd.urls[place:] + log.etcd.urls[:place]
        while time.monotonic() < end:
            log.append(f"alone-{count}-{place}-{counts[place]}", ["set 1 5"])
            counts[place] += 1
    threads = [threading.Thread(target=append, args=(place,)) for place in range(count)]
    for thread in threads:
        thread.start()
    for thread in threads:
        thread.join()
    return sum(counts) / seconds

def told(all, count, seconds, size=1):
    """Changes a second that are told by tell.py, of so many commands each."""
    group = lambda: [f"set {random.randint(1, 8)} {random.randint(0, 99)}" for _ in range(size)]
    clients = [Client(all, all.machines[place], f"measured-{place}-{time.monotonic_ns()}", kills=False, group=group) for place in range(count)]
    for client in clients:
        client.start()
    time.sleep(2)
    began = time.monotonic()
    time.sleep(seconds)
    end = time.monotonic()
    for client in clients:
        client.is_let_go = True
    for client in clients:
        client.join(LONGEST)
        if client.fault:
            raise client.fault
    return sum(began < when < end for client in clients for when in client.when) / (end - began)

def served(all, seconds):
    """Changes a second of a server alone, by one session."""
    store = all.folder / "alone.store"
    all.run("create", store, all.folder / "six.gr", all.folder / "six.ss")
    server = subprocess.Popen([all.program, "serve", store], stdin=subprocess.PIPE, stdout=subprocess.PIPE, text=True)
    end, count = time.monotonic() + seconds, 0
    while time.monotonic() < end:
        server.stdin.write(f"set 1 {count}\n")
        server.stdin.flush()
        assert server.stdout.readline().startswith("ok"), "a server alone refused a change"
        count += 1
    server.stdin.close()
    server.wait(LONGEST)
    return count / seconds

def try_measure(all, _, seconds=15):
    for machine in all.machines[:3]:
        if machine.child.poll() is not None:
            machine.start()
    all.log("alone").make(all.log().begin())
    for count in (1, 3):
        print(f"measure: {count} clients: etcd alone {appended(all, 'alone', count, seconds):.0f} entries a second; by tell.py {told(all, count, seconds):.0f} changes a second, each shown on its machine", flush=True)
    print(f"measure: 3 clients, 252 commands a change: {252 * told(all, 3, seconds, 252):.0f} commands a second", flush=True)
    print(f"measure: a server alone, one session: {served(all, seconds):.0f} changes a second", flush=True)
    talks = [all.talk(machine) for machine in all.machines[:3]]
    log, times, whole = all.log(), [], []
    for number in range(300):
        began = time.monotonic()
        version = talks[0].change(f"set {1 + number % 8} {number}")
        heard = time.monotonic()
        for answer in [talk.stream(f"until {version}") for talk in talks[1:]]:
            assert next(answer).startswith("v"), "a told version was not shown on another machine"
        times.append(time.monotonic() - heard)
        whole.append(heard - began)
    for talk in talks:
        talk.close()
    times.sort()
    whole.sort()
    print(f"measure: from sent to told {1000 * whole[150]:.1f} ms, the slowest in a hundred {1000 * whole[297]:.1f} ms; from told to shown on all three {1000 * times[150]:.1f} ms, "
          f"the slowest in a hundred {1000 * times[297]:.1f} ms", flush=True)
    slow = all.machines[2]
    slow.end()
    began = log.entries(1, 1)[1]
    for number in range(2000):
        log.append(f"behind-{number}", [f"set {1 + number % 8} {number}"])
    behind = log.entries(1, 1)[1] - began
    slow.start()
    took = all.catch_up([slow])[0]
    print(f"measure: a machine that was {behind} entries behind had them in {took:.1f} s; the load of the machine was {os.getloadavg()[0]:.1f} on {os.cpu_count()} processors", flush=True)

PARTS = {"faults": try_faults, "cut": try_cut, "measure": try_measure}

def main(words):
    if not words or not os.access(words[0], os.X_OK):
        print("usage: tools/try_replicas.py PROGRAM [ENTRIES] [PART] ..", file=sys.stderr)
        return 2
    program, rest = pathlib.Path(words[0]).resolve(), words[1:]
    count = int(rest.pop(0)) if rest and rest[0].isdigit() else 10000
    signal.signal(signal.SIGTERM, lambda number, frame: sys.exit(128 + number))
    folder = pathlib.Path(tempfile.mkdtemp(prefix="roadmark-replicas-"))
    all = All(program, folder)
    try:
        all.start()
        for part in rest or PARTS:
            PARTS[part](all, count)
    except (AssertionError, Fault, subprocess.SubprocessError) as fault:
        print(f"try_replicas: {type(fault).__name__}: {fault}; all that was said stands in {folder}", file=sys.stderr)
        return 1
    finally:
        all.end()
    shutil.rmtree(folder)
    return 0

if __name__ == "__main__":
    sys.exit(main(sys.argv[1:]))
