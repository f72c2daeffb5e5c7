"""Arrays as Python has them and as the machine has them."""
import random
import unittest
from typing import Any, List, Tuple

from apl import Array, Faulted, Refused
from apl.arrays import LANGUAGE
from tests.support import OfSession

# Values with the statement that makes the same.
PAIRS: List[Tuple[Any, str]] = [
    (5, "5"), (-5, "¯5"), (True, "1"), (2**63 - 1, "9223372036854775807"), (-(2**63), "¯9223372036854775808"),
    ([], "⍳0"), ([7], ",7"), ([1, -2, 3], "1 ¯2 3"), ((1, 2), "1 2"), ("", "''"), ("A", ",'A'"), ("IT'S", "'IT''S'"), ("  ", "'  '"),
    ([[1, 2, 3], [4, 5, 6]], "2 3⍴⍳6"), (["AB", "CD"], "2 2⍴'ABCD'"), ([[[1], [2]]], "1 2 1⍴1 2"), ([["A"], ["B"]], "2 1 1⍴'AB'"),
    ([[], []], "2 0⍴0"), ([""], "1 0⍴''"), (Array((), "A"), "'A'"), (Array((0,), ""), "''"), (Array((0, 3), ()), "0 3⍴0"),
    (Array((1,) * 8, (7,)), "1 1 1 1 1 1 1 1⍴7"),
]
WRONG: List[Tuple[Any, type]] = [
    (1.5, TypeError), (None, TypeError), ({}, TypeError), ([1, None], TypeError), (b"AB", TypeError), (2**63, ValueError),
    (-(2**63) - 1, ValueError), ([1, 2**70], ValueError), ([1, "A"], ValueError), ([[1], [1, 2]], ValueError), (["A", "AB"], ValueError),
    ([[1], ["A"]], ValueError), ([[1], 2], ValueError), ("é", ValueError), ("\n", ValueError), ("\t", ValueError), ("A" * 1_000_001, ValueError),
    ([[[[[[[[[1]]]]]]]]], ValueError), ([[]] * 1_000_001, ValueError),
]


class Values(OfSession):
    def test_each_pair(self) -> None:
        for value, statement in PAIRS:
            with self.subTest(statement):
                self.session.set("V", value)
                self.session.run(f"W←{statement}")
                self.assertEqual(self.session.array("V"), self.session.array("W"))
                self.assertEqual(self.session.array("V"), Array.of(value))

    def test_there_and_back(self) -> None:
        for value, _ in PAIRS:
            if not isinstance(value, (tuple, Array)):
                self.session.set("V", value)
                self.assertEqual(self.session.value("V"), value)

    def test_elements_of_another_kind(self) -> None:
        self.session.run("True←5")
        self.session.set("V", Array((2,), (True, 7)))
        self.assertEqual(self.session.value("V"), [1, 7])
        for items in ((1.5,), ("A",), (None,)):
            with self.assertRaisesRegex(TypeError, "an element is a whole number, not"):
                Array((1,), items)  # type: ignore[arg-type]

    def test_each_character(self) -> None:
        text = "".join(sorted(LANGUAGE))
        self.session.set("V", text)
        self.assertEqual(self.session.value("V"), text)

    def test_long_values_in_both_origins(self) -> None:
        dice = random.Random(1)
        long: List[Any] = [
            [dice.randrange(-(2**63), 2**63) for _ in range(2_000)], "'" * 3_000, "".join(dice.choices(sorted(LANGUAGE), k=5_000)),
            [[dice.randrange(10) for _ in range(100)] for _ in range(30)], ["ABC'" * 50] * 20]
        for origin in (0, 1):
            self.session.run(f"⎕IO←{origin}")
            for value in long:
                self.session.set("V", value)
                self.assertEqual(self.session.value("V"), value)
        self.assertEqual([it.name for it in self.session.names()], ["V"])

    def test_where_one_line_has_just_room(self) -> None:
        for length in range(480, 520):
            self.session.set("V", "A" * length)
            self.session.set("W", [0] * (length // 2))
            self.assertEqual((self.session.value("V"), self.session.value("W")), ("A" * length, [0] * (length // 2)))

    def test_names_in_use_stay(self) -> None:
        self.session.set("⍙python0", 5)
        self.session.set("V", "A" * 1_000)
        self.assertEqual([it.name for it in self.session.names()], ["V", "⍙python0"])
        self.assertEqual(self.session.value("⍙python0"), 5)

    def test_a_local(self) -> None:
        for line in ("∇F X", "÷0×X", "∇", "X←1", "F 2"):
            self.session.run(line)
        self.session.set("X", "A" * 1_000)
        self.assertEqual(self.session.value("X"), "A" * 1_000)
        self.session.run("→")
        self.assertEqual(self.session.value("X"), 1)

    def test_names_that_take_no_value(self) -> None:
        for line in ("∇F", "∇"):
            self.session.run(line)
        values: List[Any] = [5, "A" * 1_000]
        for value in values:
            with self.assertRaises(Faulted):
                self.session.set("F", value)
            for name in ("2", "⎕LC", "⎕", "", "A[1]", "A←B", "A ", "é", "A" * 33):
                with self.assertRaises(ValueError):
                    self.session.set(name, value)
        self.session.set("⎕IO", 0)
        with self.assertRaises(Faulted):
            self.session.set("⎕IO", 2)
        self.assertEqual(self.session.run("⎕IO").text, "0")
        self.assertEqual([it.name for it in self.session.names()], ["F"])

    def test_an_open_definition(self) -> None:
        self.session.run("∇F")
        with self.assertRaises(Refused) as caught:
            self.session.set("V", 5)
        self.assertEqual(caught.exception.reason, "definition")
        self.session.run("∇")
        self.assertEqual(self.session.listing("F"), ["F"])

    def test_what_is_no_array(self) -> None:
        for value, error in WRONG:
            with self.subTest(str(value)[:40]), self.assertRaises(error):
                self.session.set("V", value)
        self.assertEqual(self.session.names(), [])


class Arrays(unittest.TestCase):
    def test_a_shape_that_does_not_fit(self) -> None:
        wrong: List[Any] = [((2,), (1,)), ((-1,), ()), ((), ()), ((), "AB"), ((2, 2), "ABC")]
        for shape, items in wrong:
            with self.assertRaises(ValueError):
                Array(shape, items)
