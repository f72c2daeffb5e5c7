"""The lines that are typed."""
import unittest

from apl_many.lines import MOST_LINES, lines_of


class Lines(unittest.TestCase):
    def test_lines(self) -> None:
        ends = b"A\r\n\r\nB\r"
        for data, lines in ((b"", []), (b"\n", [""]), (b"A", ["A"]), (b"A\n", ["A"]), (ends, ["A", "", "B\r"]), ("2×3\n".encode(), ["2×3"])):
            self.assertEqual(lines_of(data), lines)

    def test_the_longest(self) -> None:
        for character, count in (("A", 2000), ("×", 1000)):
            lines = [character * count, ""]
            self.assertEqual(lines_of("\n".join([*lines, ""]).encode()), lines)
            with self.assertRaisesRegex(ValueError, "line 2 has over 2,000 bytes"):
                lines_of(f"A\n{character * count}A\n".encode())

    def test_the_most(self) -> None:
        self.assertEqual(len(lines_of(b"\n" * MOST_LINES)), MOST_LINES)
        with self.assertRaisesRegex(ValueError, "over 1,000,000 lines"):
            lines_of(b"\n" * MOST_LINES + b"A")

    def test_no_text(self) -> None:
        with self.assertRaisesRegex(ValueError, "no UTF-8 at byte 2"):
            lines_of(b"A\n\xff\n")
        with self.assertRaisesRegex(ValueError, "number 0"):
            lines_of(b"A\0\n")
