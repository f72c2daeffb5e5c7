"""Arrays as Python has them, and as they are typed."""
from __future__ import annotations

from bisect import bisect_right
from dataclasses import dataclass
from itertools import accumulate
from math import prod
from typing import Any, Iterator, List, Optional, Sequence, Tuple, Union

# A number, a text, or a list of such whose items have one shape.
Value = Union[int, str, List["Value"]]
Items = Union[str, Tuple[int, ...]]

LANGUAGE = frozenset([*map(chr, range(32, 127)), *"¯×÷←↑→↓∆∇∊∘∧∨≠≤≥⊖⊤⊥⌈⌊⌽⌿⍀⍉⍋⍎⍒⍕⍙⍝⍱⍲⍳⍴⎕"])
MOST_AXES, MOST_ITEMS = 8, 1_000_000
# The most characters of a typed line, and those that are left in one for items of a long array.
MOST_TYPED, MOST_OF_ITEMS = 500, 450


@dataclass(frozen=True)
class Array:
    """An array as the machine has it: its shape, and its elements in ravel order, a text for characters, else numbers."""

    shape: Tuple[int, ...]
    items: Items

    def __post_init__(self) -> None:
        """Has True and False be 1 and 0. Raises ValueError where the machine has no such array, and TypeError where an element is no number."""
        if len(self.shape) > MOST_AXES or prod(max(n, 1) for n in self.shape) > MOST_ITEMS:
            raise ValueError(f"an array has at most {MOST_AXES} axes and {MOST_ITEMS:,} elements")
        if any(n < 0 for n in self.shape) or prod(self.shape) != len(self.items):
            raise ValueError(f"{len(self.items)} elements have not the shape {self.shape}")
        if isinstance(self.items, str):
            if wrong := set(self.items) - LANGUAGE:
                raise ValueError(f"no characters of the language: {''.join(sorted(wrong))!r}")
            return
        if {*map(type, self.items)} - {int}:
            # another kind is typed by its name, as True, which may be that of a variable
            if other := next((type(it) for it in self.items if not isinstance(it, int)), None):
                raise TypeError(f"an element is a whole number, not {other.__name__}")
            object.__setattr__(self, "items", tuple(map(int, self.items)))
        if self.items and not -(2**63) <= min(self.items) <= max(self.items) < 2**63:
            raise ValueError("a number has 64 bits")

    @classmethod
    def of(cls, value: Union[Value, Array, Sequence[Any]]) -> Array:
        """Returns the array of a value: a number is a scalar, a text a vector, also one of one character, and a list has an axis more than
        its items, which must have one shape and type. An empty list is an empty vector of numbers.

        Raises ValueError where they haven't, and TypeError where something is neither a whole number, a text nor a list.
        """
        if isinstance(value, Array):
            return value
        if isinstance(value, str):
            return cls((len(value),), value)
        if isinstance(value, int):
            return cls((), (int(value),))
        if not isinstance(value, (list, tuple)):
            raise TypeError(f"a value is made of whole numbers, texts and lists, not of {type(value).__name__}")
        if all(isinstance(it, int) for it in value):
            return cls((len(value),), tuple(map(int, value)))
        return cls._joined([cls.of(it) for it in value])

    @classmethod
    def _joined(cls, parts: List[Array]) -> Array:
        """Returns the array whose items along a new first axis are these."""
        first, shape = parts[0], (len(parts), *parts[0].shape)
        if any(it.shape != first.shape or isinstance(it.items, str) != isinstance(first.items, str) for it in parts):
            raise ValueError("the items of a list have several shapes or types")
        if isinstance(first.items, str):
            return cls(shape, "".join(it.items for it in parts if isinstance(it.items, str)))
        return cls(shape, tuple(n for it in parts for n in it.items if isinstance(n, int)))

    def lists(self) -> Value:
        """Returns the array as Python has it: a scalar is a number or a text of one character, a vector of characters a text, another
        vector a list of numbers, and an array of more axes a list of its items along the first one.

        A text of one character may be a scalar or a vector, and an empty list has no type: where that counts, look at the array itself.
        """
        found: List[Any] = list(self.items)
        axes = self.shape
        if isinstance(self.items, str) and axes:
            width, axes = axes[-1], axes[:-1]
            found = [self.items[k * width:(k + 1) * width] for k in range(prod(axes))]
        for axis in range(len(axes) - 1, -1, -1):
            found = [found[k * axes[axis]:(k + 1) * axes[axis]] for k in range(prod(axes[:axis]))]
        value: Value = found[0]
        return value

    def shaped(self) -> str:
        """Returns what is typed before elements to give them the shape."""
        return " ".join(map(str, self.shape)) + "⍴" if self.shape else ""

    def typed(self, name: str) -> Optional[str]:
        """Returns the line that gives a name the array, or None where it is too long for one."""
        if len(self.items) > MOST_TYPED:
            return None
        line = f"{name}←{self.shaped()}{spelled(self.items)}"
        return line if len(line) <= MOST_TYPED else None

    def pieces(self, name: str) -> Iterator[str]:
        """Returns lines that give a name the elements as a vector, whatever ⎕IO is."""
        yield f"{name}←{len(self.items)}⍴{spelled(self.items[:0])}"
        start = 0
        while start < len(self.items):
            piece = prefix(self.items[start:start + MOST_OF_ITEMS])
            yield f"{name}[{start}+⍳{len(piece)}]←{spelled(piece)}"
            start += len(piece)


def spelled(items: Items) -> str:
    """Returns how elements are typed, as a scalar or a vector; of no elements one that has their type."""
    if isinstance(items, str):
        return "'" + items.replace("'", "''") + "'"
    return " ".join(map(str, items)).replace("-", "¯") or "0"


def prefix(items: Items) -> Items:
    """Returns as many of the first elements as have room in a line."""
    sizes = [2 if it == "'" else 1 for it in items] if isinstance(items, str) else [len(str(n)) + 1 for n in items]
    return items[:bisect_right(list(accumulate(sizes)), MOST_OF_ITEMS)]
