"""The log of changes that several machines carry out: etcd keeps it, and this is how follow.py and tell.py read and write it, by etcd's JSON gateway. Python's standard library alone.

    NAME/begin            where the log begins: the version of a store, the number of the entry that it has, the arc that keeps such a number, and the counts of that version
    NAME/head             the number of the last entry
    NAME/log/NUMBER       an entry: the client's id, and 1 to 252 commands. Numbers have twenty digits
    NAME/id/ID            the number of the entry that has this id
    NAME/refused/NUMBER   the code by which each store refuses the entry
    NAME/arcs/NUMBER      how many arcs each store has behind the entry, where it lays some, or where a machine began to follow
    NAME/at/MACHINE       up to which entry a machine has the log; it goes with a lease
"""
from __future__ import annotations

import base64
import http.client
import json
import re
import urllib.parse
from collections.abc import Iterator, Sequence
from typing import Any, NamedTuple

# Commands of an entry: with its number they are a group.
MOST = 252
# A length is below this.
LENGTHS = 1 << 31
COMMAND = re.compile(r"set( [0-9]+){2}|(close|reopen|mark|unmark) [0-9]+|lay( [0-9]+){3}")
WORD = re.compile(r"[A-Za-z0-9_.-]{1,64}")

Part = dict[str, Any]

class Begin(NamedTuple):
    """Where the log begins. The room and the nodes stay; the other counts are those of the first version."""
    version: int
    entry: int
    arc: int
    room: int
    nodes: int
    arcs: int
    landmarks: int
    closed: int

class Entry(NamedTuple):
    """An entry as it was found; one that no tell.py wrote has no id, and its commands are whatever stood there."""
    number: int
    id: Any
    commands: Any

class Unreachable(Exception):
    """No member of etcd answered, so what was to be changed may be changed or not. Each call here may be made again: it then finds out."""

class NoLog(Exception):
    """There is no log of this name, or an older follow.py began it."""

def word(text: str) -> str:
    """A name or an id, as words of a call and of a line give it."""
    if not WORD.fullmatch(text):
        raise ValueError(text)
    return text

def fault_of(commands: object) -> int | None:
    """The code by which an entry is refused that no group can be made of, else None."""
    if not isinstance(commands, list) or not all(isinstance(command, str) and COMMAND.fullmatch(command) for command in commands):
        return 1
    return None if 1 <= len(commands) <= MOST else 13

def reason_in(answer: bytes) -> str:
    """What etcd says of a call that it refuses."""
    try:
        return str(json.loads(answer)["error"])
    except (ValueError, TypeError, KeyError):
        return answer[:200].decode(errors="replace")

class Etcd:
    """Calls of etcd. The member that answered last is asked first, and each of the others where it doesn't answer in so many seconds."""

    def __init__(self, urls: Sequence[str], seconds: float) -> None:
        self.urls, self.seconds = list(urls), seconds
        self.connection: http.client.HTTPConnection | None = None

    def connect(self, seconds: float) -> http.client.HTTPConnection:
        url = urllib.parse.urlsplit(self.urls[0])
        kind: type[http.client.HTTPConnection] = http.client.HTTPSConnection if url.scheme == "https" else http.client.HTTPConnection
        return kind(url.hostname or "", url.port, timeout=seconds)

    def post(self, connection: http.client.HTTPConnection, path: str, request: Part) -> http.client.HTTPResponse:
        connection.request("POST", "/v3/" + path, json.dumps(request), {"Content-Type": "application/json"})
        answer = connection.getresponse()
        if answer.status != 200:
            raise OSError(f"status {answer.status}: {reason_in(answer.read(1000))}")
        return answer

    def call(self, path: str, request: Part) -> Part:
        faults = []
        for _ in range(len(self.urls) + 1):
            kept, self.connection = self.connection, None
            connection = kept or self.connect(self.seconds)
            try:
                answer: Part = json.loads(self.post(connection, path, request).read())
                self.connection = connection
                return answer
            except (OSError, http.client.HTTPException, ValueError) as error:
                faults.append(f"{self.urls[0]}: {error}")
                connection.close()
                # A connection that was kept may just be too old, so its member is asked once more.
                if kept is None:
                    self.urls.append(self.urls.pop(0))
        raise Unreachable(f"etcd: {'; '.join(dict.fromkeys(faults))}")

    def stream(self, path: str, request: Part, seconds: float) -> Iterator[Part]:
        """The lines of an answer that goes on, until none has come for so many seconds."""
        connection = self.connect(seconds)
        try:
            answer = self.post(connection, path, request)
            while line := answer.readline():
                yield json.loads(line)
        except TimeoutError:
            return
        except (OSError, http.client.HTTPException, ValueError) as error:
            raise Unreachable(f"etcd: {error}") from None
        finally:
            connection.close()

# The parts of a transaction. Keys and values go as base64.

def spelled(text: str) -> str:
    return base64.b64encode(text.encode()).decode()

def plain(text: str) -> str:
    return base64.b64decode(text).decode(errors="replace")

def is_new(key: str) -> Part:
    return {"target": "CREATE", "key": spelled(key), "createRevision": "0"}

def has(key: str, value: str) -> Part:
    return {"target": "VALUE", "key": spelled(key), "value": spelled(value)}

def put(key: str, value: str, lease: str = "0") -> Part:
    return {"requestPut": {"key": spelled(key), "value": spelled(value), "lease": lease}}

def get(key: str) -> Part:
    return {"requestRange": {"key": spelled(key)}}

def get_from(key: str, end: str, most: int) -> Part:
    return {"requestRange": {"key": spelled(key), "range_end": spelled(end), "limit": str(most)}}

def delete(key: str) -> Part:
    return {"requestDeleteRange": {"key": spelled(key)}}

def delete_from(key: str, end: str) -> Part:
    return {"requestDeleteRange": {"key": spelled(key), "range_end": spelled(end)}}

class Log:
    """The log of one name. What it tells is linearizable: of a moment between the call and its answer."""

    def __init__(self, urls: Sequence[str], name: str, seconds: float = 4) -> None:
        self.etcd, self.name, self.head = Etcd(urls, seconds), name, 0

    def key(self, kind: str, end: str = "") -> str:
        return f"{self.name}/{kind}{end}"

    def numbered(self, kind: str, number: int) -> str:
        return f"{self.name}/{kind}/{number:020d}"

    def transact(self, compare: list[Part], success: list[Part], failure: Sequence[Part] = ()) -> tuple[bool, list[list[tuple[str, str]]], int]:
        """Whether all that was compared holds, the keys and values that each part then found, and etcd's revision."""
        answer = self.etcd.call("kv/txn", {"compare": compare, "success": success, "failure": list(failure)})
        found = [[(plain(pair["key"]), plain(pair.get("value", ""))) for pair in part.get("response_range", {}).get("kvs", [])] for part in answer.get("responses", [])]
        return answer.get("succeeded", False), found, int(answer["header"]["revision"])

    def value(self, key: str) -> str | None:
        _, [found], _ = self.transact([], [get(key)])
        return found[0][1] if found else None

    def begin(self) -> Begin:
        text = self.value(self.key("begin"))
        if text is None:
            raise NoLog(f"there is no log {self.name}: it is begun once, by follow.py --begin")
        try:
            return Begin(**json.loads(text))
        except (ValueError, TypeError):
            raise NoLog(f"log {self.name} does not keep the room and the counts of its first version, as one does that an older follow.py began: begin a log of another name") from None

    def make(self, begin: Begin) -> bool:
        """Begins the log, and tells whether it was new."""
        made, _, _ = self.transact([is_new(self.key("begin"))], [put(self.key("begin"), json.dumps(begin._asdict())), put(self.key("head"), f"{begin.entry:020d}")])
        return made

    def append(self, identity: str, commands: list[str]) -> Entry:
        """The entry that has this id: a new one behind the last, or the one that was appended before. An attempt of which no answer came is made before the next one, which
        then finds the id, or fails behind it, since the head is another by then."""
        named, text = self.key("id/", identity), json.dumps({"id": identity, "commands": commands})
        while True:
            number = self.head + 1
            made, found, _ = self.transact(
                [is_new(self.numbered("log", number)), is_new(named), has(self.key("head"), f"{self.head:020d}")],
                [put(self.numbered("log", number), text), put(self.key("head"), f"{number:020d}"), put(named, str(number))],
                [get(named), get(self.key("head"))])
            if made:
                self.head = number
                return Entry(number, identity, commands)
            known, head = found
            if not head:
                raise NoLog(f"there is no log {self.name}")
            self.head = int(head[0][1])
            if known:
                entries, _, _ = self.entries(int(known[0][1]), 1)
                if entries and entries[0].id == identity:
                    return entries[0]

    def entry(self, key: str, value: str) -> Entry:
        """An entry as it was found; one that no tell.py wrote has no commands."""
        try:
            text = json.loads(value)
            identity, commands = text["id"], text["commands"]
        except (ValueError, TypeError, KeyError):
            identity = commands = None
        return Entry(int(key.rsplit("/", 1)[1]), identity, commands)

    def entries(self, first: int, most: int = 200) -> tuple[list[Entry], int | None, int]:
        """Entries from a number on, the number of the last one, or None where there is no log, and etcd's revision: all of one moment."""
        _, [found, head], revision = self.transact([], [get_from(self.numbered("log", first), self.key("log0"), most), get(self.key("head"))])
        return [self.entry(*pair) for pair in found], int(head[0][1]) if head else None, revision

    def watch(self, first: int, revision: int, seconds: float = 5) -> Iterator[Entry]:
        """Entries from a number on as they come, until none has come for a while."""
        request = {"create_request": {"key": spelled(self.numbered("log", first)), "range_end": spelled(self.key("log0")), "start_revision": str(revision)}}
        for line in self.etcd.stream("watch", request, seconds):
            result = line.get("result", {})
            if result.get("canceled") or "error" in line:
                return
            for event in result.get("events", []):
                if "type" not in event:
                    yield self.entry(plain(event["kv"]["key"]), plain(event["kv"].get("value", "")))

    # What became of an entry. The machine that carries it out first says so, and what another one finds must be the same.

    def refuse(self, number: int, code: int) -> str:
        """Says by which code the entry is refused; what another machine has said otherwise, or nothing."""
        refused, arcs = self.numbered("refused", number), self.numbered("arcs", number)
        new, found, _ = self.transact([is_new(refused), is_new(arcs)], [put(refused, str(code))], [get(refused), get(arcs)])
        if new or found[0] == [(refused, str(code))]:
            return ""
        return f"was refused by another machine with no {found[0][0][1]}" if found[0] else f"was carried out by another machine, which has {found[1][0][1]} arcs"

    def count(self, number: int, arcs: int, lays: bool) -> str:
        """Says how many arcs there are behind the entry, which lays some or not; what another machine has said otherwise, or nothing."""
        refused, key = self.numbered("refused", number), self.numbered("arcs", number)
        new, found, _ = self.transact([is_new(key), *([is_new(refused)] if lays else [])], [put(key, str(arcs))], [get(refused), get(key)])
        if new or not lays and found[1] == [(key, str(arcs))] or found == [[], [(key, str(arcs))]]:
            return ""
        return f"was refused by another machine with no {found[0][0][1]}" if lays and found[0] else f"leaves {found[1][0][1]} arcs on another machine"

    def code(self, number: int) -> int | None:
        """The code by which the entry was refused, or 0; None where the entry has been cut off, and its code with it."""
        _, [entry, code], _ = self.transact([], [get(self.numbered("log", number)), get(self.numbered("refused", number))])
        return (int(code[0][1]) if code else 0) if entry else None

    # Where each machine is, and what all of them have.

    def lease(self, seconds: int) -> str:
        return str(self.etcd.call("lease/grant", {"TTL": str(seconds), "ID": "0"})["ID"])

    def keep(self, lease: str) -> bool:
        """Whether the lease is there still."""
        return int(self.etcd.call("lease/keepalive", {"ID": lease}).get("result", {}).get("TTL", 0)) > 0

    def stand(self, machine: str, number: int, lease: str) -> None:
        self.transact([], [put(self.key("at/", machine), str(number), lease)])

    def least(self) -> int:
        """The least number at which a machine is."""
        _, [found], _ = self.transact([], [get_from(self.key("at/"), self.key("at0"), 0)])
        return min((int(value) for _, value in found), default=0)

    def cut(self, last: int) -> int:
        """Takes away entries up to this number with their ids and refusals, a hundred at most, since a transaction has 128 parts; tells how many there were."""
        entries = [entry for entry in self.entries(0, 100)[0] if entry.number <= last]
        if entries:
            behind = entries[-1].number + 1
            self.transact([], [delete_from(self.numbered(kind, 0), self.numbered(kind, behind)) for kind in ("log", "refused", "arcs")]
                          + [delete(self.key("id/", entry.id)) for entry in entries if isinstance(entry.id, str)])
        return len(entries)
