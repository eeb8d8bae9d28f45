#!/usr/bin/env python3
"""Kills a server (-9) again and again under the load of clients, and compares all that is told with a model of the network.

    tools/kill_under_load.py [PROGRAM] [--minutes M] [--clients N] [--seed S]

Each of N clients (12) owns eight arcs, changes them alone or in groups, and asks for lengths, for M minutes (120). At the beginning of each of its sessions its arcs are as it was told last, or as the
one group says that it sent behind that, whole. Behind each kill the store has each version that was told; every tenth server ends in order in place of that. Lengths are compared with searches of our own
in the version that they name. Needs the built program, socat and flock.
"""
import argparse
import heapq
import pathlib
import random
import signal
import sys
import tempfile
import threading
import time

from many_clients import TOP, Server, ask, connect, run, version_of
from roadmark import Fault, Late, Lost, Refused

NODES, OWNED = 60, 8

class Client(threading.Thread):
    """The owner of eight arcs. What is wrong is kept in `wrong`."""

    def __init__(self, number, arcs, dice):
        super().__init__(daemon=True)
        self.own = range(1 + OWNED * number, 1 + OWNED * (number + 1))
        self.arcs, self.dice, self.server, self.is_over, self.rests = arcs, dice, None, False, threading.Event()
        # As told last, and as the group says that has no answer yet.
        self.told = {arc: (arcs[arc][2], True) for arc in self.own}
        self.sent, self.version = None, 0
        # Of this server's life.
        self.oks, self.answers = [], []
        self.wrong, self.late, self.waits, self.sessions = [], 0, 0, 0

    def run(self):
        while not self.is_over:
            server = self.server
            if server is None:
                self.rests.set()
                time.sleep(0.01)
                continue
            try:
                with connect(server.path) as session:
                    self.sessions += 1
                    self.settle(session)
                    for _ in range(self.dice.choice([3, 30, 3000])):
                        if self.is_over or self.server is not server:
                            break
                        self.change(session) if self.dice.random() < 0.5 else self.query(session)
            except Late:
                self.late += 1
            except Lost:
                time.sleep(0.02)
            except Fault as fault:
                # At its end a server takes no more.
                if self.server is server or not isinstance(fault, Refused) or fault.code != 61:
                    self.wrong.append(f"told {fault}")

    def is_awaited(self, session):
        """Whether the last version that was told is not shown within the server's patience, as on a machine that has much else to do."""
        try:
            session.until(self.version)
        except Refused as refused:
            if refused.code != 54:
                raise
            return True
        return False

    def settle(self, session):
        """Reads what became of the last group."""
        while self.is_awaited(session):
            self.waits += 1
        seen = {}
        for arc in self.own:
            _, here = session.arc(arc)
            seen[arc] = (here.length, here.is_open)
        if seen not in (self.told, self.sent):
            self.wrong.append(f"arcs {seen}, told {self.told}, sent {self.sent}")
        self.told, self.sent = seen, None

    def change(self, session):
        after, group = dict(self.told), []
        for arc in self.dice.sample(self.own, self.dice.choice([1, 1, 1, 2, 5])):
            length, is_open = after[arc]
            if self.dice.random() < 0.7:
                length = self.dice.randint(0, 99)
                group.append(f"set {arc} {length}")
            else:
                group.append(f"{'close' if is_open else 'reopen'} {arc}")
                is_open = not is_open
            after[arc] = length, is_open
        self.sent = after
        number = session.change(*group) if len(group) == 1 else session.group(group)
        self.version = number
        self.oks.append((number, {arc: after[arc] for arc in self.own if after[arc] != self.told[arc]}))
        self.told, self.sent = after, None

    def query(self, session):
        source, target = self.dice.randint(1, NODES), self.dice.randint(1, NODES)
        self.answers.append((source, target, *session.distance(source, target)))

def row_of(arcs, state, source):
    """The least length to each node, by Dijkstra's algorithm."""
    leaving = {}
    for arc, (tail, head, _) in arcs.items():
        length, is_open = state[arc]
        if is_open:
            leaving.setdefault(tail, []).append((head, length))
    row, queue = {}, [(0, source)]
    while queue:
        length, node = heapq.heappop(queue)
        if node not in row:
            row[node] = length
            for head, more in leaving.get(node, ()):
                heapq.heappush(queue, (length + more, head))
    return row

def make_store(program, folder, count, dice):
    """A network of which each client owns eight arcs: a ring, and chords by dice."""
    ends = [(node, node % NODES + 1) for node in range(1, NODES + 1)]
    ends += [tuple(dice.sample(range(1, NODES + 1), 2)) for _ in range(max(0, count * OWNED - NODES))]
    dice.shuffle(ends)
    arcs = {number + 1: (tail, head, dice.randint(1, 99)) for number, (tail, head) in enumerate(ends[:count * OWNED])}
    text = "".join(f"a {tail} {head} {length}\n" for tail, head, length in arcs.values())
    (folder / "load.gr").write_text(f"p sp {NODES} {len(arcs)}\n{text}")
    (folder / "load.ss").write_text("p aux sp ss 3\ns 1\ns 20\ns 40\n")
    store = folder / "load.store"
    assert run(program, "create", store, folder / "load.gr", folder / "load.ss") == "ok 0\n"
    return store, arcs

class Trial:
    """What was told so far, and the network as it was when the last server had ended."""

    def __init__(self, program, folder, count, dice):
        self.program, self.folder, self.dice = program, folder, dice
        self.store, self.arcs = make_store(program, folder, count, dice)
        self.clients = [Client(number, self.arcs, random.Random(dice.random())) for number in range(count)]
        self.state, self.version = {arc: (length, True) for arc, (_, _, length) in self.arcs.items()}, 0
        self.kills = self.ends = self.told = self.asked = self.untold = 0

    def life(self, ends_in_order):
        """A server under load until it is killed or ended, and the look at what is there behind it."""
        server = Server(self.program, self.folder, self.store, 16)
        began = time.monotonic()
        for client in self.clients:
            client.rests.clear()
            client.oks, client.answers, client.server = [], [], server
        # Sometimes while it opens, and otherwise a while behind its first answer.
        if self.dice.random() < 0.1 and not ends_in_order:
            time.sleep(self.dice.random())
        else:
            while not any(client.oks for client in self.clients) and time.monotonic() < began + 60:
                time.sleep(0.01)
            time.sleep(self.dice.expovariate(1 / 12))
        for client in self.clients:
            client.server = None
        if ends_in_order:
            status, _ = server.quit(60)
            if status != 0:
                self.clients[0].wrong.append(f"a server ended in order with {status}")
            self.ends += 1
        else:
            server.kill()
            self.kills += 1
        self.clients[0].wrong += [f"on standard error: {line}" for line in server.told_of()]
        self.look()

    def look(self):
        """Nothing that was told is lost, each number was told once, and each length is that of its version."""
        for client in self.clients:
            assert client.rests.wait(300), "a client is still in its session"
        oks = [ok for client in self.clients for ok in client.oks]
        groups, version = dict(oks), version_of(self.program, self.store)
        wrong = self.clients[0].wrong
        if len(groups) != len(oks) or groups and min(groups) <= self.version:
            wrong.append("a version was told twice")
        if groups and max(groups) > version:
            wrong.append(f"lost: told {max(groups)}, and the store has {version}")
        states = {self.version: self.state}
        for number in range(self.version + 1, version + 1):
            if number not in groups:
                break
            states[number] = states[number - 1] | groups[number]
        rows = {}
        for source, target, seen, length in (answer for client in self.clients for answer in client.answers):
            if seen > version:
                wrong.append(f"an answer in version {seen}, and the store has {version}")
            if seen in states:
                if (seen, source) not in rows:
                    rows[seen, source] = row_of(self.arcs, states[seen], source)
                self.asked += 1
                if rows[seen, source].get(target) != length:
                    wrong.append(f"dist {source} {target} is {length} in version {seen}")
        self.told += len(oks)
        self.untold += version - self.version - len(groups)
        self.state, self.version = self.exported(), version
        for client in self.clients:
            here = {arc: self.state[arc] for arc in client.own}
            if here not in (client.told, client.sent):
                wrong.append(f"the store has {here}, told {client.told}, sent {client.sent}")

    def exported(self):
        """The network as the store has it now."""
        with tempfile.TemporaryDirectory(dir=self.folder) as name:
            texts = pathlib.Path(name)
            run(self.program, "export", self.store, texts)
            lengths = [int(line.split()[3]) for line in (texts / "network.gr").read_text().splitlines() if line.startswith("a")]
            closed = {int(line.split()[1]) for line in (texts / "closed.commands").read_text().splitlines() if line.startswith("close")}
        return {number: (length, number not in closed) for number, length in enumerate(lengths, 1)}

    def tell(self, began):
        wrong = [line for client in self.clients for line in client.wrong]
        late, waits = (sum(getattr(client, name) for client in self.clients) for name in ("late", "waits"))
        print(f"{(time.monotonic() - began) / 60:.0f} minutes, {len(self.clients)} clients in {sum(client.sessions for client in self.clients)} sessions, {self.kills} kills, {self.ends} ends in order: "
              f"{self.told} changes told, each once and each there, {self.untold} more that were not told; {self.asked} lengths compared; {late} late, {waits} not shown in time; {len(wrong)} wrong", flush=True)
        for line in wrong[:20]:
            print("WRONG", line, flush=True)
        return not wrong

def main():
    parser = argparse.ArgumentParser(description="Kills a server under load.")
    parser.add_argument("program", nargs="?", type=pathlib.Path, default=TOP / "crates/roadmark/out/roadmark")
    parser.add_argument("--minutes", type=float, default=120)
    parser.add_argument("--clients", type=int, default=12)
    parser.add_argument("--seed", type=int, default=1)
    given = parser.parse_args()
    signal.signal(signal.SIGTERM, lambda number, frame: sys.exit(128 + number))
    with tempfile.TemporaryDirectory(prefix="kill_under_load.") as folder:
        trial = Trial(given.program.resolve(), pathlib.Path(folder), given.clients, random.Random(given.seed))
        for client in trial.clients:
            client.start()
        began = told = time.monotonic()
        is_well, lives = True, 0
        while is_well and time.monotonic() < began + 60 * given.minutes:
            lives += 1
            trial.life(lives % 10 == 0)
            if time.monotonic() > told + 300:
                told = time.monotonic()
                is_well = trial.tell(began)
        for client in trial.clients:
            client.is_over = True
        return 0 if trial.tell(began) else 1

if __name__ == "__main__":
    sys.exit(main())
