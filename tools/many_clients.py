#!/usr/bin/env python3
"""Tries a server with many clients, by socat and examples/attach.sh in front of it, and compares all that is told with a model of the network.

    tools/many_clients.py [PROGRAM] [PART] ..

The parts, all of them where none is named:
    minute   sixteen clients over a socket for a minute, changes and queries mixed
    server   the server is killed (-9) at fifty moments beside sixteen clients
    clients  the client side is killed (-9) two hundred times: in a line, in a search, before its answers were read
    deaf     a client reads no answer
Needs the built program, socat and flock.
"""
import os
import pathlib
import random
import select
import signal
import subprocess
import sys
import tempfile
import threading
import time

TOP = pathlib.Path(__file__).resolve().parent.parent
sys.path.insert(0, str(TOP / "client"))
from roadmark import Late, Lost, Session

ATTACH = TOP / "examples" / "attach.sh"
PAIRS = TOP / "examples" / "pairs.sh"
SIX = [(1, 2, 17), (1, 3, 10), (2, 4, 2), (3, 5, 0), (4, 3, 0), (4, 6, 3), (5, 2, 0), (5, 6, 20)]
LANDMARKS = (3, 6)
PATIENCE = 120

def connect(path):
    """A session over the socket, which may not be there yet, with a server that may be opening its store yet."""
    for _ in range(99):
        try:
            return Session.connect(path, PATIENCE)
        except Lost:
            time.sleep(0.01)
    return Session.connect(path, PATIENCE)

def tell(session, *lines):
    """The fields of the first line of the answer."""
    return next(session.stream(*lines)).split()

def ask(session, line):
    """The version and the answer line, or the code and None."""
    first, *rest = map(str.split, session.stream(line))
    return int(first[1]), rest[0] if rest else None

class Server:
    """A server with so many pairs, and a socket in front of it."""

    def __init__(self, program, folder, store, pairs):
        self.folder = folder
        names = subprocess.run([PAIRS, folder / "pairs", str(pairs)], capture_output=True, text=True, check=True).stdout.split()
        self.errors = open(folder / "errors", "w+")
        self.server = subprocess.Popen([program, "serve", store, *names], stdin=subprocess.PIPE, stdout=subprocess.PIPE, stderr=self.errors, text=True)
        self.path = str(folder / "roadmark.sock")
        if os.path.exists(self.path):
            os.remove(self.path)
        self.front = subprocess.Popen(["socat", "-t", "60", f"UNIX-LISTEN:{self.path},fork,backlog=100", f"EXEC:{ATTACH} {folder}/pairs"], stderr=subprocess.DEVNULL, start_new_session=True)

    def answers(self, seconds=300):
        """Waits until the store is open, which takes a while where it is large."""
        until = time.monotonic() + seconds
        while True:
            try:
                with connect(self.path) as session:
                    session.wait()
                    return self
            except Lost:
                if time.monotonic() > until:
                    raise

    def end_front(self):
        try:
            os.killpg(self.front.pid, signal.SIGKILL)
        except ProcessLookupError:
            pass
        self.front.wait()

    def quit(self, seconds=30):
        """Ends the server, and tells its status and how long that took."""
        began = time.monotonic()
        self.server.stdin.write("quit\n")
        self.server.stdin.flush()
        status = self.server.wait(seconds)
        took = time.monotonic() - began
        self.end_front()
        return status, took

    def kill(self):
        self.server.kill()
        self.server.wait()
        self.end_front()

    def told_of(self):
        self.errors.seek(0)
        return self.errors.read().split("\n")[:-1]

def run(program, *words):
    return subprocess.run([program, *words], capture_output=True, text=True).stdout

def version_of(program, store):
    return int(run(program, "check", store).split()[1])

# The model: lengths and which arcs are closed, after so many of the groups that were told.

def carried_out(state, group):
    lengths, closed, landmarks = list(state[0]), set(state[1]), set(state[2])
    for command in group:
        word, *numbers = command.split()
        numbers = [int(number) for number in numbers]
        if word == "set":
            lengths[numbers[0] - 1] = numbers[1]
        elif word == "close":
            closed.add(numbers[0])
        elif word == "reopen":
            closed.remove(numbers[0])
        elif word == "mark":
            landmarks.add(numbers[0])
        elif word == "unmark":
            landmarks.remove(numbers[0])
    return lengths, closed, landmarks

FIRST = ([length for _, _, length in SIX], set(), set(LANDMARKS))

def least(state, source):
    lengths, closed, _ = state
    row = {source: 0}
    for _ in range(6):
        for number, (tail, head, _) in enumerate(SIX):
            if number + 1 not in closed and tail in row and row[tail] + lengths[number] < row.get(head, 1 << 62):
                row[head] = row[tail] + lengths[number]
    return row

def is_right(state, query, answer):
    word, source, target = query.split()
    row = least(state, int(source))
    want = ["d", source, target, str(row[int(target)])] if int(target) in row else ["x", source, target]
    if word == "lower":
        return answer[0] == "x" and want[0] == "x" or answer[0] == "b" and (want[0] == "x" or int(answer[3]) <= int(want[3]))
    if word == "from" and int(source) not in state[2]:
        return answer == ["no", "26"]
    return answer == want

def random_change():
    word = random.choice(["set", "set", "set", "close", "reopen", "mark", "unmark"])
    if word == "set":
        return f"set {random.randint(1, 8)} {random.randint(0, 99)}"
    return f"{word} {random.randint(1, 8 if word in ('close', 'reopen') else 6)}"

class Client(threading.Thread):
    """A client that changes and asks at random, and keeps what it was told."""

    def __init__(self, server, until, asks=True):
        super().__init__(daemon=True)
        self.server, self.until, self.asks = server, until, asks
        self.oks, self.answers, self.refused, self.sessions, self.falls = [], [], 0, 0, 0

    def run(self):
        while time.monotonic() < self.until:
            try:
                with connect(self.server.path) as session:
                    self.session(session)
            except (Late, Lost):
                pass

    def session(self, session):
        self.sessions += 1
        seen = accepted = 0
        for _ in range(random.choice([3, 30, 3000])):
            if time.monotonic() >= self.until:
                break
            kind = random.random()
            if kind < 0.5 or not self.asks:
                group = [random_change() for _ in range(random.choice([1, 1, 1, 2, 5]))]
                answer = tell(session, *(group if len(group) == 1 else ["begin", *group, "end"]))
                if answer[0] == "ok":
                    accepted = int(answer[1])
                    self.oks.append((accepted, group))
                else:
                    self.refused += 1
                    if answer[1] not in ("22", "23", "25", "26"):
                        raise SystemExit(f"{group} was told {answer}")
            elif kind < 0.6:
                version = session.wait()
                self.falls += version < max(seen, accepted)
                seen = max(seen, version)
            else:
                query = f"{random.choice(['dist', 'from', 'lower'])} {random.randint(1, 6)} {random.randint(1, 6)}"
                version, answer = ask(session, query)
                if answer is None:
                    if version == 26 and query.startswith("from"):
                        continue
                    raise SystemExit(f"{query} was told no {version}")
                self.falls += version < seen
                seen = max(seen, version)
                self.answers.append((version, query, answer))

def judge(clients, first, groups):
    """Compares all that was told with the model; `groups` are those told before, by their numbers."""
    for client in clients:
        assert client.falls == 0, "a version fell within a session"
        for number, group in client.oks:
            assert number not in groups, f"ok {number} was told twice"
            groups[number] = group
    states, number = [FIRST], 0
    while number + 1 in groups:
        number += 1
        states.append(carried_out(states[-1], groups[number]))
    asked = 0
    for client in clients:
        for version, query, answer in client.answers:
            if version < len(states):
                assert is_right(states[version], query, answer), (version, query, answer)
                asked += 1
    return len(states) - 1, asked

def make_store(program, folder):
    store = folder / "six.store"
    assert run(program, "create", store, TOP / "examples/six.gr", TOP / "examples/six.ss") == "ok 0\n"
    return store

def try_minute(program, folder, seconds=60):
    store = make_store(program, folder)
    server = Server(program, folder, store, 16)
    clients = [Client(server, time.monotonic() + seconds) for _ in range(16)]
    for client in clients:
        client.start()
    for client in clients:
        client.join()
    status, took = server.quit()
    groups = {}
    version, asked = judge(clients, 0, groups)
    assert status == 0 and version == len(groups) == version_of(program, store), (status, version, len(groups))
    told = server.told_of()
    assert not told, told[:3]
    print(f"minute: 16 clients, {sum(c.sessions for c in clients)} sessions, {version} changes, each told once and kept; {asked} answers, each right in its version; "
          f"{sum(c.refused for c in clients)} refused; ended in {took:.2f} s")

def try_server(program, folder, rounds=50):
    store = make_store(program, folder)
    groups, more = {}, 0
    for turn in range(rounds):
        server = Server(program, folder, store, 16)
        clients = [Client(server, time.monotonic() + 60, asks=False) for _ in range(16)]
        for client in clients:
            client.start()
        began = time.monotonic()
        while not any(client.oks for client in clients) and time.monotonic() < began + 20:
            time.sleep(0.01)
        time.sleep(random.random() * 0.5)
        server.kill()
        for client in clients:
            client.until = 0
        for client in clients:
            client.join(20)
        numbers = sorted(number for client in clients for number, _ in client.oks)
        assert len(set(numbers)) == len(numbers) and not set(numbers) & set(groups), "told twice"
        for client in clients:
            own = [number for number, _ in client.oks]
            assert own == sorted(own), "numbers fall"
            groups.update(dict(client.oks))
        version = version_of(program, store)
        assert not groups or max(groups) <= version, (turn, max(groups), version)
        more += version - len(groups) - more
    print(f"server: {rounds} kills, {len(groups)} changes told, each told once, and each there; {more} more were there that were not told")

def grid_store(program, folder, side=300):
    """A network large enough that a search takes a while."""
    with open(folder / "grid.gr", "w") as text:
        arcs = [(row * side + column + 1, to, random.randint(1, 1000)) for row in range(side) for column in range(side)
                for to in ((row * side + (column + 1) % side) + 1, ((row + 1) % side * side + column) + 1)]
        text.write(f"p sp {side * side} {len(arcs)}\n" + "".join(f"a {tail} {head} {length}\n" for tail, head, length in arcs))
    with open(folder / "grid.ss", "w") as text:
        text.write("p aux sp ss 1\ns 1\n")
    store = folder / "grid.store"
    assert run(program, "create", store, folder / "grid.gr", folder / "grid.ss") == "ok 0\n"
    return store, side * side

def attach(folder):
    return subprocess.Popen([ATTACH, folder / "pairs"], stdin=subprocess.PIPE, stdout=subprocess.PIPE, start_new_session=True)

def hear_lines(client, count, seconds=30):
    got, until = b"", time.monotonic() + seconds
    while got.count(b"\n") < count and not got.startswith(b"no "):
        if not select.select([client.stdout], [], [], max(0, until - time.monotonic()))[0]:
            break
        part = os.read(client.stdout.fileno(), 65536)
        if not part:
            break
        got += part
    return got.decode()

def processes_of(client):
    """The processes of a client's session: the script and what it started."""
    found = []
    for name in os.listdir("/proc"):
        if name.isdigit():
            try:
                if os.getsid(int(name)) == client.pid:
                    found.append(int(name))
            except OSError:
                pass
    return found

def try_clients(program, folder, rounds=200):
    store, nodes = grid_store(program, folder)
    server = Server(program, folder, store, 1).answers()
    kinds = {"in a line": 0, "in a search": 0, "before its answers were read": 0}
    changed = 0
    for turn in range(rounds):
        kind = list(kinds)[turn % 3]
        kinds[kind] += 1
        victim = attach(folder)
        victim.stdin.write(b"from 1 2\n")
        victim.stdin.flush()
        first = hear_lines(victim, 2)
        assert first.startswith("v ") and " 1 2 " in first, first
        before = int(first.split()[1])
        if kind == "in a line":
            victim.stdin.write(b"set 1 9")
        elif kind == "in a search":
            victim.stdin.write(f"dist {random.randint(2, nodes)} {random.randint(1, nodes)}\n".encode())
        else:
            victim.stdin.write("".join(f"dist {random.randint(2, nodes)} {random.randint(1, nodes)}\n" for _ in range(5)).encode() + b"from 1 3\n" * 3000)
        victim.stdin.flush()
        time.sleep(random.random() * 0.03)
        # All of the client's side, or one of its processes, the others of which then see that the client has gone.
        group = processes_of(victim)
        for process in group if turn % 2 else random.sample(group, 1):
            try:
                os.kill(process, signal.SIGKILL)
            except ProcessLookupError:
                pass
        victim.stdin.close()
        victim.stdout.close()
        target = random.randint(4, nodes)
        follower = attach(folder)
        follower.stdin.write(f"from 1 {target}\nwait\n".encode())
        follower.stdin.flush()
        got = hear_lines(follower, 3).split("\n")
        assert len(got) == 4 and got[1].startswith(f"d 1 {target} ") and got[2].startswith("v "), (turn, kind, got[:4])
        assert int(got[2].split()[1]) == before + changed - changed, (turn, kind, before, got)
        follower.stdin.close()
        rest = follower.stdout.read()
        assert rest == b"", (turn, kind, rest[:60])
        follower.wait(30)
        victim.wait(30)
    status, took = server.quit()
    assert status == 0 and version_of(program, store) == 0
    told = server.told_of()
    print(f"clients: {rounds} kills, {', '.join(f'{count} {kind}' for kind, count in kinds.items())}: the next client on the pair saw nothing of them, no cut line was carried out; "
          f"{len(told)} lines on standard error")

def try_deaf(program, folder):
    store, nodes = grid_store(program, folder)
    server = Server(program, folder, store, 2).answers()
    victim = attach(folder)
    os.set_blocking(victim.stdin.fileno(), False)
    sent, still = 0, 0
    while still < 20:
        try:
            sent += os.write(victim.stdin.fileno(), b"from 1 77\n" * 500)
            still = 0
        except BlockingIOError:
            still += 1
            time.sleep(0.05)
    other = connect(server.path)
    slowest = 0
    for _ in range(2000):
        began = time.monotonic()
        version, answer = ask(other, f"from 1 {random.randint(2, nodes)}")
        slowest = max(slowest, time.monotonic() - began)
        assert answer is not None
    assert other.change("set 1 7") == 1
    status, took = server.quit(60)
    assert status == 0 and took < 30, (status, took)
    assert version_of(program, store) == 1
    for process in processes_of(victim):
        os.kill(process, signal.SIGKILL)
    print(f"deaf: a client that reads nothing was told {sent // 1000} kB of lines; beside it 2000 queries, the slowest {1000 * slowest:.1f} ms; the server ended in {took:.2f} s, status {status}")

PARTS = {"minute": try_minute, "server": try_server, "clients": try_clients, "deaf": try_deaf}

def main(words):
    program = pathlib.Path(words.pop(0)).resolve() if words and words[0] not in PARTS else TOP / "crates/roadmark/out/roadmark"
    for part in words or PARTS:
        with tempfile.TemporaryDirectory() as folder:
            PARTS[part](program, pathlib.Path(folder))

if __name__ == "__main__":
    main(sys.argv[1:])
