"""The table of answers, held against the manual: what each line of a session answers, and what is no answer to it."""
from __future__ import annotations

import pathlib
import re
import unittest

from roadmark import ANSWERS, CODES, COMMANDS, OVER_A_LOG, Expected, Garbled, Talk, fields_of

PAGES = pathlib.Path(__file__).resolve().parents[2] / "docs"

# A line, and whole answers to it, as docs/MANUAL.md has them.
RIGHT = [
    ("close 7", ["ok 1"]), ("close 7", ["no 22"]), ("close 7", ["no 64"]), ("set 8 4", ["ok 281474976710656"]), ("lay 6 1 7", ["ok 1"]),
    ("dist 1 6", ["v 0", "d 1 6 15"]), ("dist 6 1", ["v 0", "x 6 1"]), ("dist 1 9", ["v 0", "no 24"]), ("dist 1 6", ["no 61"]), ("dist 1 6", ["s 0", "d 1 6 22"]),
    ("dist 0001 6", ["v 0", "d 1 6 15"]), ("dist\t 1\t6 \r", ["v 0", "d 1 6 15"]), ("from 3 6", ["v 0", "d 3 6 5"]), ("from 1 6", ["v 0", "no 26"]),
    ("lower 5 6", ["v 0", "b 5 6 5"]), ("lower 6 1", ["v 0", "x 6 1"]), ("lower 1 6", ["no 1"]),
    ("arc 7", ["v 0", "a 7 5 2 0 open"]), ("arc 7", ["v 1", "a 7 5 2 0 closed"]), ("arc 9", ["v 1", "no 20"]),
    ("arcs 5 2", ["v 1", "arcs 5 2 7"]), ("arcs 6 1", ["v 1", "arcs 6 1"]), ("arcs 5 2", ["v 1", "arcs 5 2 7 9"]), ("arcs 7 1", ["v 1", "no 24"]),
    ("landmarks", ["v 1", "landmarks 2", "s 3", "s 6"]), ("landmarks", ["v 1", "landmarks 0"]), ("closed", ["v 1", "closed 1", "close 7"]), ("closed", ["no 60"]),
    ("table 1 2 1 6 4", ["v 0", "d 1 6 15", "d 1 4 12"]), ("table 2 1 1 6 4", ["v 0", "d 1 4 12", "x 6 4"]), ("table 1 1 1 9", ["v 0", "no 24"]), ("table 0 1 4", ["no 1"]),
    ("reach 1 10", ["v 0", "reach 1 4", "d 1 1 0", "d 1 2 10", "d 1 3 10", "d 1 5 10"]), ("reach 9 1", ["v 0", "no 24"]),
    ("reached 4 2", ["s 0", "reached 4 2", "d 2 4 2", "d 4 4 0"]), ("nearest 1 1", ["v 0", "nearest 1 1", "d 1 3 10"]), ("nearest 6 1", ["v 0", "nearest 6 0"]),
    ("route 5 4", ["v 0", "route 5 4 2 2", "a 7 5 2 0 open", "a 3 2 4 2 open"]), ("route 3 3", ["v 0", "route 3 3 0 0"]), ("route 6 1", ["s 0", "x 6 1"]), ("route 1 9", ["v 0", "no 24"]), ("route 1", ["no 1"]),
    ("wait", ["v 1"]), ("wait", ["no 61"]), ("until 1", ["v 3"]), ("until 99", ["no 54"]),
    ("state", ["state shown 0 durable 0 accepted 0 pending 0 unchecked 0 pages 64 landmarks 2 readers 1 left 16777216 flusher on builder on arcs 8 room 10 clients 0 pairs 0 waiting 0 uptime 3"]), ("state", ["no 61"]),
    ("copy monday", ["copied 1"]), ("copy monday", ["no 46"]), ("copy a.b", ["no 1"]), ("forget", ["forgotten"]), ("forget", ["no 1"]),
    ("hello", ["no 1"]), ("set 1 -5", ["no 5"]), ("begin 7", ["no 1"]), ("end", ["no 1"]), ("quit now", ["no 1"]), ("landmarks 1", ["no 1"]), ("\x0bquit", ["no 1"]),
]

# A line, what of an answer to it is right, and a line that is none.
WRONG: list[tuple[str, list[str], str]] = [
    ("close 7", [], "v 1"), ("close 7", [], "ok"), ("close 7", [], "ok x"), ("close 7", [], "ok -1"), ("close 7", [], "ok 1 2"), ("close 7", [], ""), ("close 7", [], "OK 1"), ("close 7", [], "unknown x"),
    ("close 7", [], "ok 1\r"), ("close 7", [], " ok 1"), ("dist 1 6", [], "d 1 6 15"), ("dist 1 6", ["v 0"], "v 0"), ("dist 1 6", ["v 0"], "d 1 6"), ("dist 1 6", ["v 0"], "d 1 2 10"), ("dist 1 6", ["v 0"], "x 6 1"),
    ("dist 1 6", ["v 0"], "d 1 6 015"), ("lower 1 6", [], "s 0"), ("lower 1 6", ["v 0"], "d 1 6 15"), ("arc 7", ["v 0"], "a 9 1 1 3 open"), ("arc 7", ["v 0"], "a 7 5 2 0 shut"),
    ("arcs 5 2", ["v 0"], "arcs 5 2 x"), ("landmarks", ["v 0"], "closed 2"), ("landmarks", ["v 0", "landmarks 2", "s 3"], "close 6"), ("closed", ["v 0", "closed 1"], "no 24"), ("route 5 2", ["v 0"], "route 5 4 2 2"), ("route 5 2", ["v 0"], "d 5 2 0"), ("route 5 2", ["v 0", "route 5 2 0 1"], "x 5 2"), ("route 5 2", ["v 0"], "x 2 5"),
    ("table 1 2 1 6 4", ["v 0", "d 1 6 15"], "no 24"), ("table 1 2 1 6 4", ["v 0"], "reach 1 4"), ("reach 1 10", ["v 0"], "reach 2 4"), ("reach 1 10", ["v 0", "reach 1 4"], "x 1 1"),
    ("wait", [], "ok 1"), ("state", [], "state shown"), ("copy a", [], "ok 1"), ("forget", [], "forgotten 1"), ("hello", [], "v 1"), ("hello", [], "hello"), ("table x", ["v 0"], "d 1 6 15"),
    ("dist a b", ["v 0"], "d 1 6 15"), ("dist 1 6", [], "v 0\0"), ("dist 1 6", [], "v 1\\xff"),
]

def expected(line: str) -> Expected:
    answer = Talk().expect(line)
    assert answer is not None
    return answer

def first_cells(known: str) -> list[str]:
    """The first cells of the manual's tables, whichever page has them: each table that has a row whose first cell is so."""
    tables = [[row.removeprefix("| ").split(" | ")[0] for row in table.split("\n")] for page in sorted(PAGES.glob("*.md")) for table in re.findall(r"(?:^\|.*\n)+", page.read_text(), re.MULTILINE)]
    return [cell for table in tables if any(re.fullmatch(known, cell) for cell in table) for cell in table]

class Answers(unittest.TestCase):
    def test_each_line_of_the_manual_has_a_row(self) -> None:
        words = {words.split()[0] for cell in first_cells("`quit`") for words in re.findall("`([a-z][^`]*)`", cell)}
        self.assertEqual(words - (OVER_A_LOG.keys() - ANSWERS.keys()), {*ANSWERS, "end"})

    def test_each_number_of_the_manual_has_its_name(self) -> None:
        self.assertEqual({int(number): name for cell in first_cells("22 AlreadyClosed.*") for number, name in re.findall("([0-9]+) ([A-Z][A-Za-z]+)", cell)}, CODES)

    def test_right_answers_end_where_they_end(self) -> None:
        for line, answer in RIGHT:
            with self.subTest(line=line, answer=answer):
                whole = expected(line)
                self.assertEqual([whole.take(each) for each in answer], [True] * (len(answer) - 1) + [False])
                self.assertEqual(whole.code, int(answer[-1][3:]) if answer[-1].startswith("no ") else 0)
                self.assertEqual(whole.is_supposed, answer[0].startswith("s ") and line.split()[0] != "state")

    def test_nothing_more_is_taken_behind_the_end(self) -> None:
        for line, answer in RIGHT:
            with self.subTest(line=line), self.assertRaises(Garbled):
                whole = expected(line)
                for each in [*answer, answer[-1]]:
                    whole.take(each)

    def test_what_is_no_answer(self) -> None:
        for line, front, wrong in WRONG:
            with self.subTest(line=line, wrong=wrong):
                answer = expected(line)
                for each in front:
                    self.assertTrue(answer.take(each))
                with self.assertRaises(Garbled):
                    answer.take(wrong)

    def test_versions(self) -> None:
        for line, answer, version in (("close 7", "ok 5", 5), ("dist 1 6", "s 3", 3), ("wait", "v 9", 9), ("copy a", "copied 4", 4), ("forget", "forgotten", None), ("close 7", "no 22", None)):
            whole = expected(line)
            whole.take(answer)
            self.assertEqual(whole.version, version)

class Groups(unittest.TestCase):
    def test_a_group_is_answered_at_its_end(self) -> None:
        for word, answer in (("begin", "ok 1"), ("suppose", "suppose 1"), ("begin", "no 23"), ("suppose", "no 13")):
            talk = Talk()
            for line in (word, "close 7", "# night works", "", "dist 1 6", "quit 7", "begin", "suppose", "end 7", "  "):
                self.assertIsNone(talk.expect(line))
            whole = talk.expect(" end\r")
            assert whole is not None
            self.assertFalse(whole.take(answer))
            self.assertIsNotNone(talk.expect("wait"))

    def test_the_answer_of_the_other_group_is_none(self) -> None:
        for word, wrong in (("begin", "suppose 1"), ("suppose", "ok 1"), ("suppose", "v 1")):
            talk = Talk()
            talk.expect(word)
            whole = talk.expect("end")
            assert whole is not None
            self.assertRaises(Garbled, whole.take, wrong)

    def test_quit_ends_it_within_a_group_too(self) -> None:
        for lines in (["quit"], [" quit\r"], ["begin", "quit"], ["suppose", "close 7", "quit"]):
            talk = Talk()
            self.assertEqual([talk.expect(line) for line in lines], [None] * len(lines))
            self.assertTrue(talk.is_over)

    def test_lines_without_an_answer(self) -> None:
        for line in ("", " \t", "# any", "#", "quit", " quit", "\r"):
            self.assertIsNone(Talk().expect(line))

    def test_a_session_over_a_log(self) -> None:
        talk = Talk(OVER_A_LOG)
        self.assertIsNone(talk.expect("id day-1"))
        self.assertIsNotNone(talk.expect("id day 1"))
        self.assertIsNotNone(talk.expect("id a:b"))
        for lines in (["close 7"], ["begin", "close 7", "end"]):
            *_, whole = [talk.expect(line) for line in lines]
            assert whole is not None
            self.assertFalse(whole.take("unknown day-1"))
            self.assertEqual(whole.unknown, "day-1")
        self.assertEqual({word for word, row in OVER_A_LOG.items() if "unknown" in row.words}, {*COMMANDS, "begin"})

    def test_fields(self) -> None:
        self.assertEqual(fields_of(" set \t1  2\r"), ["set", "1", "2"])
        self.assertEqual(fields_of("set\x0b1 2\r\r"), ["set\x0b1", "2\r"])
        self.assertEqual(fields_of(" \t"), [])
