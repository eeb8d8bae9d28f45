#!/usr/bin/env python3
"""Tries the wrong bodies of tools/wrong_bodies/CRATE.txt: the proof of each function that one of them changes has to fail.

    tools/try_wrong_bodies.py [CRATE | CRATE/NAME]..          those of these crates, or these; all where none is named
    tools/try_wrong_bodies.py --gate [CRATE | CRATE/NAME]..   the edits of crates/CRATE/must-fail in their place
    tools/try_wrong_bodies.py --workers N ..                  so many crates side by side; a kit that keeps no proved work between checkouts gains little by it
    tools/try_wrong_bodies.py --fit                           whether all of both fit the sources, without a proof

Each function is proved over the contracts of those that it calls, so bodies of different functions are tried in one check: as many at once as
change different functions. One whose function is not looked at, since one that it calls is not proved, is tried once more with the rest. It
works on a copy of the crates; what was proved here before is taken over. Below a crate whose libraries are not built it builds these first.

A line of each: `refused`, with the functions that were not proved; `NOT REFUSED`; or `BAD`, where it does not fit the sources or does not compile.
Then a line of each crate, with its minutes by the clock, and at the end `N passed, M failed`.
"""
import concurrent.futures
import os
import pathlib
import re
import shutil
import subprocess
import sys
import tempfile
import threading
import time

TOP = pathlib.Path(__file__).resolve().parent.parent
FAILED = re.compile(r"^fn (\S+): ((?:not proved|no proof|could not tell).*)$", re.M)
# A function that was not looked at for itself.
WAITS = re.compile(r"it calls .*which (?:is|are) not proved|it waits for")

# The head of a function; those of an `impl` are indented.
HEAD = re.compile(r"^( *)(?:pub(?:\([a-z]+\))? )?fn (\w+)", re.M)


class Body:
    """A wrong body: its name, and for each text that it replaces the file, the old text and the new one."""

    def __init__(self, name, lines):
        self.name, self.pairs, path, old = name, [], "", ""
        for line in lines:
            if line.startswith("file: "):
                path = line[len("file: ") :].strip()
            elif line.startswith("old: "):
                old = line[len("old: ") :]
            elif line.startswith("new:"):
                self.pairs.append((path, old, line[len("new:") :].removeprefix(" ")))

    def functions(self, crate):
        """The functions of src that it changes, each by its file, its name, and whether it is a method: the last that begins before the old text ends."""
        found = set()
        for path, old, _ in self.pairs:
            text = (crate / path).read_text()
            heads = list(HEAD.finditer(text[: text.find(old) + len(old)])) if old in text else []
            if path.startswith("src/") and heads:
                found.add((path, heads[-1][2], bool(heads[-1][1])))
        return found

    def texts(self, crate):
        """The crate's files with it, by their paths. There are none where a text that it replaces does not stand there once."""
        texts = {}
        for path, old, new in self.pairs:
            text = texts.get(path) or ((crate / path).read_text() if (crate / path).is_file() else "")
            if text.count(old) != 1:
                return {}
            texts[path] = text.replace(old, new)
        return texts

    def put(self, crate):
        """Writes it into the crate's files. Answers whether it fits; nothing is written else."""
        texts = self.texts(crate)
        for path, text in texts.items():
            (crate / path).write_text(text)
        return bool(texts)


def bodies_of(name, of_gate):
    """The wrong bodies of a crate: of the gate's edits, or of the list beside this file."""
    if of_gate:
        files = sorted((TOP / "crates" / name / "must-fail").glob("*.edit"))
        return [Body(file.stem, file.read_text().split("\n")) for file in files]
    found = []
    file = TOP / "tools" / "wrong_bodies" / f"{name}.txt"
    text = file.read_text() if file.exists() else ""
    for part in re.split(r"^body: ", text, flags=re.M)[1:]:
        head, *lines = part.split("\n")
        found.append(Body(head.strip(), lines))
    return found


def linked(folder, to):
    """Copies kept work: a check replaces these files and changes none, so a link does."""
    shutil.rmtree(to, ignore_errors=True)
    shutil.copytree(folder, to, copy_function=os.link)


def copy_crates(room):
    """Copies the crates, without what the kit keeps, into a folder."""
    shutil.copytree(TOP / "crates", room / "crates", ignore=shutil.ignore_patterns("out"))
    for file in ("crates.txt", "HANDLES"):
        shutil.copy2(TOP / file, room / file)


class NotProved(Exception):
    """The crate is not proved as it stands."""


class Copy:
    """A crate in a copy of the crates, which is checked with wrong bodies."""

    def __init__(self, room, name, words):
        self.crate, self.seed, self.words = room / "crates" / name, room / "seed", words
        self.work = self.crate / "out" / "incremental"
        self.before = {file: file.read_text() for part in ("src", "specs", "proofs") for file in self.crate.glob(f"{part}/**/*") if file.is_file()}

    def check(self):
        """Checks the crate as it stands there. Answers its status and what is said."""
        ran = subprocess.run(["rt", "check", *self.words], cwd=self.crate, stdin=subprocess.DEVNULL, stdout=subprocess.PIPE, stderr=subprocess.STDOUT, text=True, errors="replace")
        return ran.returncode, ran.stdout

    def __enter__(self):
        """Proves the crate as it is, and keeps that work."""
        status, said = self.check()
        if status:
            raise NotProved(said[-2000:])
        linked(self.work, self.seed)
        return self

    def __exit__(self, *_):
        """Puts that work back, for the crates above."""
        linked(self.seed, self.work)

    def tried(self, bodies):
        """Checks the crate with these bodies. Answers those that did not fit, what failed, what waited, and what was said."""
        unfit = [body for body in bodies if not body.put(self.crate)]
        linked(self.seed, self.work)
        _, said = self.check()
        for file, text in self.before.items():
            if file.read_text() != text:
                file.write_text(text)
        found = FAILED.findall(said)
        failed = [name for name, why in found if not WAITS.search(why)]
        return unfit, failed, [name for name, why in found if WAITS.search(why)], said


def of(functions, names):
    """Those of the names that are functions of the list. A function's name stands behind its file's module, a method's behind its type, which may be another file's."""
    found = []
    for path, function, is_method in functions:
        module = "".join(f"{it}::" for it in pathlib.Path(path).with_suffix("").parts[1:] if it not in ("lib", "main"))
        before = r"[A-Z][\w+]*::" if is_method else module
        found += [name for name in names if re.search(rf"::{before}{re.escape(function)}(\b|$)", name)]
    return found


def apart(bodies, crate):
    """The first of the bodies that change different functions, and the others. Methods of one name may be one another's in what a check says, so they are apart."""
    taken, now, later = set(), [], []
    for body in bodies:
        functions = {("" if is_method else path, name) for path, name, is_method in body.functions(crate)}
        if functions & taken or not functions and now:
            later.append(body)
        else:
            now.append(body)
            taken |= functions
    return now, later


def try_together(copy, bodies):
    """Tries bodies in one check, and prints what came of each. Answers those to be tried again, and how many were not refused."""
    functions = {body.name: body.functions(copy.crate) for body in bodies}
    unfit, failed, waits, said = copy.tried(bodies)
    alone, again, missed = len(bodies) == 1, [], 0
    for body in bodies:
        hit = of(functions[body.name], failed) or (failed if alone else [])
        if hit:
            print(f"refused {body.name}: {' '.join(dict.fromkeys(hit))}", flush=True)
        elif not alone:
            again.append(body)
        else:
            missed += 1
            is_bad = body in unfit or re.search(r"\berror\[[\w-]+\]", said)
            print(f"{'BAD' if is_bad else 'NOT REFUSED'} {body.name}", flush=True)
            print("\n".join(f"    {line[:200]}" for line in said.split("\n") if "error" in line)[:600], flush=True)
    return again, missed


def try_all(copy, bodies):
    """Tries all bodies in as few checks as may be. Answers how many were not refused."""
    missed, left = 0, [bodies] if bodies else []
    while left:
        now, later = apart(left.pop(), copy.crate)
        again, more = try_together(copy, now)
        missed += more
        if len(again) == len(now):
            # (nothing was learned: one of them does not compile, say)
            left += [it for it in (later, again[len(again) // 2 :], again[: len(again) // 2]) if it]
        elif again or later:
            left.append([*again, *later])
    return missed


def do_not_fit():
    """Prints each wrong body that does not fit the sources, of the lists and of the gate. Answers how many there are."""
    count, wrong = 0, 0
    for crate in sorted((TOP / "crates").iterdir()):
        for body in [*bodies_of(crate.name, False), *bodies_of(crate.name, True)]:
            count += 1
            if not body.texts(crate):
                wrong += 1
                print(f"{crate.name}/{body.name} does not fit the sources")
    print(f"{count} wrong bodies, {wrong} that do not fit the sources")
    return wrong


def asked(words, of_gate):
    """The crates with wrong bodies that are asked for, lowest first, each with these."""
    order = re.findall(r"^(\w+):", (TOP / "crates.txt").read_text(), re.M)
    every = {name: bodies_of(name, of_gate) for name in order}
    wanted = {}
    for word in words or [name for name in order if every[name]]:
        name, _, body = word.partition("/")
        found = [it for it in every.get(name, []) if body in ("", it.name)]
        if not found:
            sys.exit(f"there is no wrong body {word}")
        wanted.setdefault(name, []).extend(it for it in found if it not in wanted.get(name, []))
    return [(name, wanted[name]) for name in order if name in wanted]


def try_crate(room, name, bodies, words):
    """Tries wrong bodies of a crate in a copy of the crates, and prints a line of it. Answers how many were not refused."""
    begun = time.monotonic()
    try:
        with Copy(room, name, words) as copy:
            missed = try_all(copy, bodies)
    except NotProved as said:
        print(f"{name} is not proved as it stands:\n{said}", flush=True)
        missed = len(bodies)
    print(f"{name}: {len(bodies) - missed} of {len(bodies)} refused, {(time.monotonic() - begun) / 60:.1f} minutes", flush=True)
    return missed


def try_crates(crates, workers):
    """Tries the wrong bodies of crates, each worker in a copy of its own. Answers how many were not refused."""
    place, words = threading.local(), ["--jobs", "1"] if workers > 1 else []

    def one(crate):
        if not hasattr(place, "room"):
            place.room = pathlib.Path(tempfile.mkdtemp(dir=top))
            copy_crates(place.room)
        return try_crate(place.room, *crate, words)

    with tempfile.TemporaryDirectory(prefix="wrong-bodies-") as top, concurrent.futures.ThreadPoolExecutor(workers) as pool:
        return sum(pool.map(one, crates))


def main(words):
    if words == ["--fit"]:
        return do_not_fit() > 0
    of_gate, workers = "--gate" in words, 1
    if "--workers" in words:
        at = words.index("--workers")
        workers, words = int(words[at + 1]), words[:at] + words[at + 2 :]
    crates = asked([word for word in words if word != "--gate"], of_gate)
    count = sum(len(bodies) for _, bodies in crates)
    missed = try_crates(crates, workers)
    print(f"{count - missed} passed, {missed} failed")
    return missed > 0


if __name__ == "__main__":
    sys.exit(main(sys.argv[1:]))
