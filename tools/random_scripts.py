#!/usr/bin/env python3
"""Runs random scripts by `rehearse`, and compares each line that the program prints with a model of it: a second store, with the format
of docs/STORE_FORMAT.md and the disk of docs/DISK.md, whose pages are bytes on a disk that can be stopped, and whose distances are found by another search.

    tools/random_scripts.py [COUNT [SEED [PROGRAM]]]

runs COUNT scripts (1,000) from SEED (1) on. Needs the built program: crates/roadmark/out/roadmark, or the path that is given."""
import heapq, os, random, struct, subprocess, sys, tempfile

PAGE, OPEN = 4096, 165


class Stopped(Exception):
    """The power was cut within this call of the disk."""


class Disk:
    """Bytes, those that the last sync kept, and the places that were written since."""

    def __init__(self):
        self.content, self.synced, self.written, self.left = bytearray(), b"", set(), None

    def cut(self):
        """One call of the disk more, the last before the cut or not."""
        if self.left is not None:
            self.left -= 1
            return self.left == 0
        return False

    def write(self, at, data):
        is_cut = self.cut()
        self.content[at : at + len(data)] = data
        self.written.update(range(at, at + len(data)))
        if is_cut:
            raise Stopped

    def sync(self):
        if self.cut():
            raise Stopped
        self.synced, self.written = bytes(self.content), set()

    def stop(self, picks):
        for i, at in enumerate(sorted(self.written)):
            pick = picks[i % len(picks)]
            if pick == "old":
                self.content[at] = self.synced[at] if at < len(self.synced) else 0
            elif pick != "new":
                self.content[at] = pick
        self.synced, self.written, self.left = bytes(self.content), set(), None


class Network:
    def __init__(self, nodes, arcs, landmarks=(), room=0):
        self.nodes, self.arcs, self.landmarks = nodes, [list(arc) for arc in arcs], set(landmarks)
        self.room = max(room, len(self.arcs))

    def copy(self):
        return Network(self.nodes, self.arcs, self.landmarks, self.room)

    def refusal(self, command):
        word, number, *more = command
        if word == "lay":
            are_nodes = all(1 <= it <= self.nodes for it in (number, more[0]))
            return 21 if more[1] > 2147483647 else 24 if not are_nodes else 29 if len(self.arcs) == self.room else None
        if word in ("mark", "unmark"):
            marked = number in self.landmarks
            if not 1 <= number <= self.nodes:
                return 24
            return (25 if marked else 27 if len(self.landmarks) == 1000 else None) if word == "mark" else (None if marked else 26)
        if not 1 <= number <= len(self.arcs):
            return 20
        is_open = self.arcs[number - 1][3]
        if word == "set":
            return 21 if more[0] > 2147483647 else None
        return (None if is_open else 22) if word == "close" else (23 if is_open else None)

    def apply(self, command):
        word, number, *more = command
        if word == "lay":
            self.arcs.append([number, *more, True])
        elif word == "set":
            self.arcs[number - 1][2] = more[0]
        elif word in ("close", "reopen"):
            self.arcs[number - 1][3] = word == "reopen"
        else:
            (self.landmarks.add if word == "mark" else self.landmarks.discard)(number)

    def after(self, group):
        """The network after a group of commands, or the refusal of its first command that is not admitted after those before it."""
        network = self.copy()
        for command in group:
            if (code := network.refusal(command)) is not None:
                return None, code
            network.apply(command)
        return network, None

    def row(self, source):
        legs, found, queue = {}, {}, [(0, source)]
        for tail, head, length, is_open in self.arcs:
            if is_open:
                legs.setdefault(tail, []).append((head, length))
        while queue:
            length, node = heapq.heappop(queue)
            if node not in found:
                found[node] = length
                for head, more in legs.get(node, ()):
                    heapq.heappush(queue, (length + more, head))
        return found

    def answer(self, word, source, target):
        if not (1 <= source <= self.nodes and 1 <= target <= self.nodes):
            return "no 24"
        if word == "from" and source not in self.landmarks:
            return "no 26"
        if word != "lower":
            length = self.row(source).get(target)
            return f"x {source} {target}" if length is None else f"d {source} {target} {length}"
        bound = 0
        for row in map(self.row, sorted(self.landmarks)):
            if source in row:
                if target not in row:
                    return f"x {source} {target}"
                bound = max(bound, row[target] - row[source])
        return f"b {source} {target} {bound}"


KINDS = ["set", "close", "reopen", "mark", "unmark", "lay"]


def record(command, goes_on):
    word, number, *more = command
    return struct.pack(">BBHIII", KINDS.index(word) + 1, goes_on, 0, number, *(more + [0, 0])[:2])


class Store:
    """A store on a disk, and how it is made, opened and written."""

    def __init__(self, disk, nodes, ends, room, places):
        self.disk, self.nodes, self.ends, self.room, self.places = disk, nodes, ends, room, places
        self.words, self.laid = -(-room // 1023), -(-(room - len(ends)) // 511)
        arcs = -(-len(ends) // 511)
        self.heads = [arcs + 1, arcs + self.words + self.laid + 2]
        self.ring = self.heads[1] + self.words + self.laid + 1
        self.going = None

    def pages(self):
        return self.ring + self.places

    def read(self, page):
        return bytes(self.disk.content[page * PAGE : (page + 1) * PAGE])

    def is_open(self, page):
        return self.disk.content[page * PAGE + PAGE - 1] == OPEN

    def gate(self, page, value):
        self.disk.write(page * PAGE + PAGE - 1, bytes([value]))
        self.disk.sync()

    def head(self, epoch, version, sequence, network):
        marks = sorted(network.landmarks)
        return struct.pack(">QQQII", epoch, version, sequence, len(marks), len(network.arcs)) + b"".join(struct.pack(">I", it) for it in marks)

    def slot_page(self, network, page):
        """A word page, or an end page behind these."""
        if page < self.words:
            words = [length | (0 if is_open else 1 << 31) for _, _, length, is_open in network.arcs[page * 1023 : (page + 1) * 1023]]
            return b"".join(struct.pack(">I", it) for it in words).ljust(PAGE, b"\0")
        first = len(self.ends) + (page - self.words) * 511
        return b"".join(struct.pack(">II", tail, head) for tail, head, _, _ in network.arcs[first : first + 511]).ljust(PAGE, b"\0")

    def slot_pages(self, network, first, count):
        return b"".join(self.slot_page(network, page) for page in range(first, first + count))

    def create(self, network):
        out = bytearray(self.pages() * PAGE)
        out[0:28] = b"ROADMRK1" + struct.pack(">IIIII", 2, self.nodes, len(self.ends), self.places, self.room)
        for i, (tail, head) in enumerate(self.ends):
            at = (1 + i // 511) * PAGE + i % 511 * 8
            out[at : at + 8] = struct.pack(">II", tail, head)
        head = self.head(1, 0, 0, network)
        at = self.heads[0] * PAGE
        out[at : at + len(head)] = head
        out[at + PAGE : at + PAGE * (1 + self.words)] = self.slot_pages(network, 0, self.words)
        self.disk.write(0, bytes(out))
        self.disk.sync()
        self.gate(self.heads[0], OPEN)
        self.gate(0, OPEN)

    def open(self):
        """Reads what stands on the disk. Each assertion is a refusal that must not come."""
        self.disk.sync()
        assert len(self.disk.content) == self.pages() * PAGE and self.is_open(0)
        slots = [slot for slot in (0, 1) if self.is_open(self.heads[slot])]
        epochs = {slot: struct.unpack(">Q", self.read(self.heads[slot])[:8])[0] for slot in slots}
        assert slots and len(set(epochs.values())) == len(slots)
        self.slot = max(slots, key=epochs.get)
        page = self.read(self.heads[self.slot])
        self.epoch, self.version, sequence, count, size = struct.unpack(">QQQII", page[:32])
        marks = struct.unpack(f">{count}I", page[32 : 32 + 4 * count])
        assert 1 <= self.epoch <= sequence + 1 and sequence <= self.version and not any(page[32 + 4 * count : PAGE - 1])
        assert list(marks) == sorted(set(marks)) and len(self.ends) <= size <= self.room
        first = self.heads[self.slot] + 1
        words = b"".join(self.read(first + i)[:4092] for i in range(self.words))
        laid = b"".join(self.read(first + self.words + i)[:4088] for i in range(self.laid))
        new = size - len(self.ends)
        assert not any(words[4 * size :]) and not any(laid[8 * new :])
        ends = [*self.ends, *struct.iter_unpack(">II", laid[: 8 * new])]
        lengths = struct.unpack(f">{size}I", words[: 4 * size])
        arcs = [[*pair, word & 0x7FFFFFFF, not word >> 31] for pair, word in zip(ends, lengths)]
        self.network = Network(self.nodes, arcs, marks, self.room)
        self.unchecked = 0
        while self.unchecked < self.places:
            page = self.read(self.ring + (sequence + self.unchecked) % self.places)
            if page[-1] != OPEN or struct.unpack(">Q", page[:8])[0] != sequence + self.unchecked:
                break
            first, count = struct.unpack(">QH", page[8:18])
            assert first == self.version + 1 and 1 <= count <= 253 and not any(page[18:32]) and not any(page[32 + 16 * count : PAGE - 1])
            goes_on = 0
            for at in range(32, 32 + 16 * count, 16):
                kind, goes_on, zero, *fields = struct.unpack(">BBHIII", page[at : at + 16])
                size = {1: 2, 6: 3}.get(kind, 1)
                command = (KINDS[kind - 1], *fields[:size])
                assert goes_on < 2 and not zero and not any(fields[size:]) and self.network.refusal(command) is None
                self.network.apply(command)
                self.version += not goes_on
            assert not goes_on
            self.unchecked += 1
        self.sequence = sequence + self.unchecked
        self.going = None

    def write_gated(self, page, body):
        self.disk.write(page * PAGE, body.ljust(PAGE - 1, b"\0"))
        self.disk.sync()
        self.gate(page, OPEN)

    def commit(self, groups):
        page = self.ring + self.sequence % self.places
        records = b"".join(record(it, i + 1 < len(group)) for group in groups for i, it in enumerate(group))
        body = struct.pack(">QQH", self.sequence, self.version + 1, len(records) // 16).ljust(32, b"\0") + records
        if self.is_open(page):
            self.gate(page, 0)
        self.write_gated(page, body)
        for group in groups:
            self.network, _ = self.network.after(group)
        self.version, self.sequence, self.unchecked = self.version + len(groups), self.sequence + 1, self.unchecked + 1

    def step(self, most):
        """A part of a checkpoint: the version in the slot once it is whole, else nothing."""
        if self.going is None and not self.unchecked:
            return self.version
        other = self.heads[1 - self.slot]
        if self.going is None:
            self.going = [self.network.copy(), self.version, self.sequence, 0]
            if self.is_open(other):
                self.gate(other, 0)
        network, version, sequence, done = self.going
        count = min(most, self.words + self.laid - done)
        if count:
            self.disk.write((other + 1 + done) * PAGE, self.slot_pages(network, done, count))
        if done + count < self.words + self.laid:
            self.disk.sync()
            self.going[3] += count
            return None
        self.write_gated(other, self.head(self.epoch + 1, version, sequence, network))
        self.slot, self.epoch, self.going, self.unchecked = 1 - self.slot, self.epoch + 1, None, self.sequence - sequence
        return version


class Keeper:
    def __init__(self, network, places):
        self.disk = Disk()
        self.store = Store(self.disk, network.nodes, [tuple(arc[:2]) for arc in network.arcs], network.room, places)
        self.store.create(network)
        self.group = None
        self.begin()

    def begin(self):
        self.store.open()
        self.pending, self.accepted = [], self.store.network.copy()
        self.shown, self.view, self.task, self.aside = self.store.version, self.store.network.copy(), None, None

    def write(self, word, *numbers):
        store = self.store
        if word == "flush":
            if not self.pending or store.unchecked == store.places:
                return "no 44" if self.pending else "no 53"
            count = sum(sum(map(len, self.pending[: i + 1])) <= 253 for i in range(len(self.pending)))
            store.commit(self.pending[:count])
            del self.pending[:count]
            return f"ok {store.version}"
        if word == "step":
            version = store.step(numbers[0])
            return "step" if version is None else f"ok {version}"
        while (version := store.step(64)) is None:
            pass
        return f"ok {version}"

    def submit(self, group):
        if sum(map(len, self.pending)) + len(group) > 4096:
            return "no 50"
        network, code = self.accepted.after(group)
        if code is not None:
            return f"no {code}"
        self.pending.append(group)
        self.accepted = network
        return f"t {self.store.version + len(self.pending)}"

    def event(self, line):
        """The lines that this line of a script prints."""
        word, *fields = line.split()
        numbers = [int(it) if it.isdigit() else it for it in fields]
        if word == "begin":
            self.group = []
            return []
        if word == "end":
            group, self.group = self.group, None
            return [self.submit(group)]
        if self.group is not None:
            self.group.append((word, *numbers))
            return []
        if word in KINDS:
            return [self.submit([(word, *numbers)])]
        if word in ("flush", "checkpoint", "step"):
            return [self.write(word, *numbers)]
        if word == "task":
            if self.task is not None or self.shown == self.store.version:
                return ["no 51"]
            self.task = self.aside = (self.store.version, self.store.network.copy())
            return [f"task {self.task[0]}"]
        if word == "publish":
            if self.aside is None:
                return ["no 51"]
            self.shown, self.view = self.aside
            self.task = self.aside = None
            return [f"shown {self.shown}"]
        if word == "stop":
            told, picks = [], ["old"]
            if numbers:
                end = next(i for i, it in enumerate(numbers) if it in ("flush", "checkpoint", "step"))
                picks, self.disk.left = numbers[1:end], numbers[0]
                try:
                    told = [self.write(*numbers[end:])]
                except Stopped:
                    pass
            self.disk.stop(picks)
            self.begin()
            return [*told, "stopped", f"v {self.store.version}"]
        return [f"v {self.shown}", self.view.answer(word, *numbers)]


def random_network(dice):
    nodes = dice.choice([1, 2, 3, 6, 9])
    count = dice.choice([0, 1, 4, 12, 12, 1023, 1024, 2100, 3500])
    most = dice.choice([3, 20, 20, 2147483647])
    arcs = [(dice.randint(1, nodes), dice.randint(1, nodes), dice.randint(0, most), True) for _ in range(count)]
    return Network(nodes, arcs, room=count + dice.choice([0, 1, 3, 40, 511, 600]))


def random_command(dice, network):
    arc = dice.randint(0 if dice.random() < 0.05 else 1, max(1, min(len(network.arcs) + dice.choice([0, 0, 1, 3]), 12)))
    node = lambda: dice.randint(0 if dice.random() < 0.03 else 1, network.nodes + (dice.random() < 0.03))
    length = lambda: dice.choice([0, 1, 2, 5, 17, 2147483647, 2147483648, dice.randint(0, 99)])
    kinds = [
        (6, lambda: f"set {arc} {length()}"),
        (3, lambda: f"close {arc}"),
        (3, lambda: f"reopen {arc}"),
        (2, lambda: f"mark {node()}"),
        (1, lambda: f"unmark {node()}"),
        (4, lambda: f"lay {node()} {node()} {length()}"),
    ]
    return dice.choices([it for _, it in kinds], [weight for weight, _ in kinds])[0]()


def random_lines(dice, network):
    """A line of a script, or those of a group."""
    if dice.random() < 0.1:
        return ["begin", *(random_command(dice, network) for _ in range(dice.choice([1, 2, 2, 3, 9, 120, 253]))), "end"]
    return [random_command(dice, network) if dice.random() < 0.35 else random_event(dice, network)]


def random_event(dice, network):
    node = lambda: dice.randint(0 if dice.random() < 0.03 else 1, network.nodes + (dice.random() < 0.03))
    picks = lambda: " ".join(dice.choice(["old", "new", "0", "165", str(dice.randint(0, 255))]) for _ in range(dice.choice([1, 1, 2, 3, 8])))
    step = lambda: f"step {dice.choice([1, 1, 2, 64])}"
    kinds = [
        (6, lambda: "flush"),
        (2, lambda: "checkpoint"),
        (3, step),
        (3, lambda: "task"),
        (3, lambda: "publish"),
        (3, lambda: f"dist {node()} {node()}"),
        (2, lambda: f"from {node()} {node()}"),
        (2, lambda: f"lower {node()} {node()}"),
        (1, lambda: "stop"),
        (4, lambda: f"stop {dice.randint(1, 8)} {picks()} {dice.choice(['flush', 'flush', 'checkpoint', step()])}"),
    ]
    return dice.choices([it for _, it in kinds], [weight for weight, _ in kinds])[0]()


def main():
    count, seed = (int(it) for it in (sys.argv[1:3] + ["1000", "1"][len(sys.argv[1:3]) :]))
    program = sys.argv[3] if len(sys.argv) > 3 else os.path.join(os.path.dirname(os.path.abspath(__file__)), "../crates/roadmark/out/roadmark")
    lines, seen = 0, {}
    with tempfile.TemporaryDirectory() as room:
        for number in range(seed, seed + count):
            dice = random.Random(number)
            network, places = random_network(dice), dice.choice([1, 1, 2, 2, 3, 5])
            script = [line for _ in range(dice.choice([10, 40, 120])) for line in random_lines(dice, network)]
            with open(f"{room}/net.gr", "w") as out:
                out.write(f"p sp {network.nodes} {len(network.arcs)}\n" + "".join(f"a {t} {h} {w}\n" for t, h, w, _ in network.arcs))
            with open(f"{room}/script", "w") as out:
                out.write("".join(f"{it}\n" for it in script))
            keeper = Keeper(network, places)
            wanted = [line for it in script for line in keeper.event(it)]
            words = ["rehearse", f"{room}/net.gr", f"{room}/script", "--journal", str(places), "--room", str(network.room)]
            run = subprocess.run([program, *words], capture_output=True, text=True)
            told = run.stdout.splitlines()
            if run.returncode or told != wanted:
                at = next((i for i, pair in enumerate(zip(told, wanted)) if pair[0] != pair[1]), min(len(told), len(wanted)))
                raise SystemExit(f"script of seed {number}: line {at + 1}: told {told[at:at + 3]}, wanted {wanted[at:at + 3]} {run.stderr}")
            lines += len(told)
            for it in told:
                seen[it.split()[0]] = seen.get(it.split()[0], 0) + 1
    print(f"{count} scripts, {lines} lines, all as wanted: " + ", ".join(f"{it} {n}" for it, n in sorted(seen.items())))


if __name__ == "__main__":
    main()
