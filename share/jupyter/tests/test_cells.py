"""The lines of a cell, and what they write."""
import unittest
from typing import List, Tuple
from unittest.mock import patch

from apl import Array, Line
from aplkernel import output
from aplkernel.cells import is_open, lines_of, only_name
from aplkernel.output import CUT, Output
from aplkernel.tables import has_table, table


class Cells(unittest.TestCase):
    def test_lines(self) -> None:
        self.assertEqual(lines_of("A\r\n  B\n\n"), ["A", "  B", "", ""])

    def test_open_definitions(self) -> None:
        for code in ["∇Z←MEAN V", " ∇ Z ← A F B ; X ;⎕IO\nZ←A", "2+2\n∇F\n\n∇F[⎕]∇", "∇F\n∇\n∇G", "∇F\n∇ ⍝"]:
            self.assertTrue(is_open(code), code)
        for code in ["", "2+2", "∇F\n1\n ∇ ", "∇F[⎕]∇", "∇", "∇F 1", "∇A F B C", "'∇F'", "⍝ ∇F"]:
            self.assertFalse(is_open(code), code)

    def test_only_names(self) -> None:
        for line, name in [("M", "M"), ("  ∆x_1 ⍝ all", "∆x_1"), ("M+1", ""), ("⎕IO", ""), ("", ""), ("3", ""), ("A B", ""), (")SI", "")]:
            self.assertEqual(only_name(line), name, line)


class Outputs(unittest.TestCase):
    def setUp(self) -> None:
        self.sent: List[str] = []
        self.output = Output(self.sent.append)
        self.now = 10.0
        clock = patch("aplkernel.output.time.monotonic", lambda: self.now)
        clock.start()
        self.addCleanup(clock.stop)

    def written(self, *texts: str) -> None:
        """Has lines be written."""
        self.output.add([Line(it) for it in texts])

    def test_pieces(self) -> None:
        self.written("1")
        self.written("2", "3")
        self.assertEqual(self.sent, ["1\n"])
        self.now += output.PAUSE
        self.written()
        self.assertEqual(self.sent, ["1\n", "2\n3\n"])
        self.written("4")
        self.output.flush()
        self.assertEqual(self.sent[2:], ["4\n"])

    def test_the_report_is_left_out(self) -> None:
        report = ["RANK ERROR", "      A", "      ^"]
        self.written("1")
        self.output.add([Line(it, "report") for it in report])
        self.now += 1
        self.output.flush()
        self.assertEqual((self.sent, self.output.report, self.output.last), (["1\n"], report, report[-1]))
        self.output.begin()
        self.output.flush()
        self.assertEqual((self.sent, self.output.report, self.output.last), (["1\n"], [], ""))

    def test_what_looks_like_one_is_shown(self) -> None:
        self.written("RANK ERROR", "      A", "      ^")
        self.assertEqual((self.sent, self.output.report), (["RANK ERROR\n      A\n      ^\n"], []))

    def test_too_much(self) -> None:
        for _ in range(3):
            self.now += 1
            self.written("A" * 299_999)
        self.assertEqual([len(it) for it in self.sent], [300_000, 200_000 + 1 + len(CUT)])
        self.assertTrue(self.sent[1].endswith(f"A\n{CUT}"))


class Tables(unittest.TestCase):
    def test_which(self) -> None:
        tables: List[Tuple[int, ...]] = [(1, 1), (200, 10), (2, 1000)]
        others: List[Tuple[int, ...]] = [(), (3,), (0, 2), (2, 0), (1, 2, 3), (201, 1), (200, 11)]
        self.assertEqual(([has_table(it) for it in tables], [has_table(it) for it in others]), ([True] * 3, [False] * 7))

    def test_tables(self) -> None:
        self.assertRegex(table(Array((2, 2), (1, -2, 3, 4))),
                         "^<table[^>]*><tr><td>1</td><td>¯2</td></tr><tr><td>3</td><td>4</td></tr></table>$")
        self.assertRegex(table(Array((2, 3), "<A B &")),
                         "^<table[^>]*><tr><td[^>]*>&lt;A </td></tr><tr><td[^>]*>B &amp;</td></tr></table>$")


if __name__ == "__main__":
    unittest.main()
