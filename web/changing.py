"""Changes as JSON: `POST /changes` and `POST /suppose`."""
import json
from typing import Any

from maps import Map
from osrm import Question, Reply, Wrong, question_of
from pools import Turn
from reaching import Isochrone
from roadmark import Refused

MOST_CHANGES, MOST_QUERIES, MOST_NUMBER = 253, 16, 9_223_372_036_854_775_807
# What each change has beside its own number.
KINDS = {"close": (), "reopen": (), "set": ("length",), "mark": (), "unmark": (), "lay": ("length",)}

Supposed = dict[int, int | None]


def numeral(value: Any) -> int:
    if isinstance(value, bool) or not isinstance(value, int) or not 0 <= value <= MOST_NUMBER:
        raise Wrong("InvalidBody", f"{json.dumps(value)[:40]} is no number that a change may have")
    return value


def change_line(change: Any) -> str:
    """The line of a change: {"close": 7}, {"reopen": 7}, {"set": 8, "length": 40}, {"mark": 3}, {"unmark": 3} or {"lay": [5, 2], "length": 4}."""
    kind = next(iter(change), "") if isinstance(change, dict) else ""
    if kind not in KINDS or set(change) != {kind, *KINDS[kind]}:
        raise Wrong("InvalidBody", f"{json.dumps(change)[:80]} is no change: it is one of close, reopen, set with length, mark, unmark, lay with length")
    value = change[kind]
    if kind == "lay" and (not isinstance(value, list) or len(value) != 2):
        raise Wrong("InvalidBody", "lay has two nodes, [FROM, TO]")
    numbers = [*(value if kind == "lay" else [value]), *(change[key] for key in KINDS[kind])]
    return " ".join([kind, *(str(numeral(number)) for number in numbers)])


def document(data: bytes, keys: set[str]) -> dict[str, Any]:
    """The JSON object of a body, which has just these keys."""
    try:
        found = json.loads(data)
    except (ValueError, RecursionError):
        raise Wrong("InvalidBody", "the body is no JSON") from None
    if not isinstance(found, dict) or set(found) != keys:
        raise Wrong("InvalidBody", f"the body is an object with {' and '.join(sorted(keys))}")
    return found


def group_of(changes: Any) -> list[str]:
    if not isinstance(changes, list) or not 1 <= len(changes) <= MOST_CHANGES:
        raise Wrong("InvalidBody", f"changes is a list of 1 to {MOST_CHANGES}")
    return [change_line(change) for change in changes]


class Change:
    """A group that is carried out, all of it or nothing."""

    def __init__(self, data: bytes) -> None:
        self.lines = group_of(document(data, {"changes"})["changes"])

    def answer(self, turn: Turn) -> Reply:
        version = turn.session.group(self.lines, seconds=turn.left)
        return Reply(version, {"code": "Ok", "version": version})


def asked(places: Map, address: Any) -> Question:
    """The question of an address, as a GET of it would have it."""
    if not isinstance(address, str):
        raise Wrong("InvalidBody", "queries are addresses")
    path, _, query = address.lstrip("/").partition("?")
    return Isochrone(places, query) if path == "isochrone" else question_of(places, path, query)


class Supposition:
    """Questions that are answered as if a group had been carried out. Nothing is kept."""

    def __init__(self, places: Map, data: bytes) -> None:
        body = document(data, {"changes", "queries"})
        self.lines, queries = group_of(body["changes"]), body["queries"]
        if not isinstance(queries, list) or not 1 <= len(queries) <= MOST_QUERIES:
            raise Wrong("InvalidBody", f"queries is a list of 1 to {MOST_QUERIES} addresses")
        self.questions = [asked(places, query) for query in queries]

    def answer(self, turn: Turn) -> Reply:
        version = turn.session.suppose(self.lines, seconds=turn.left)
        try:
            turn.supposed = self.arcs(turn)
            answers = [question.answer(turn).body for question in self.questions]
        finally:
            # Where the session is over, what it supposed is gone with it.
            if turn.session.fault is None:
                turn.session.forget(seconds=turn.left)
        return Reply(version, {"code": "Ok", "version": version, "answers": answers})

    def arcs(self, turn: Turn) -> Supposed:
        """The arcs that the group names, as they stand in what is supposed. One that it lays itself is on no map."""
        state: dict[int, tuple[int, bool]] = {}
        for kind, number, *more in (line.split() for line in self.lines):
            arc = int(number)
            if kind not in ("close", "reopen", "set"):
                continue
            if arc not in state:
                try:
                    stored = turn.session.arc(arc, seconds=turn.left)[1]
                except Refused:
                    continue
                state[arc] = stored.length, stored.is_open
            length, is_open = state[arc]
            state[arc] = int(more[0]) if kind == "set" else length, kind == "reopen" or is_open and kind != "close"
        return {arc: length if is_open else None for arc, (length, is_open) in state.items()}
