"""Growables: rows of bound arrays and null slots, appended until one is refused."""

from .arrays import are_crowded, are_unjoined, fits
from .kernels import ranges
from .read import write_rows
from .registry import needs, read_arguments, step_of
from .text import COUNTS, Refused, Run, Unjudged, Usage, joined, size
from .types import ELEMENTS, null_slot, physical

TYPED = {"GrowableNull": ("null",), "GrowableBoolean": ("bool",), "GrowablePrimitive": ELEMENTS}
TYPED |= {"GrowableUtf8": ("utf8", "large_utf8"), "GrowableBinary": ("binary", "large_binary")}
TYPED |= {"GrowableFixedSizeBinary": ("fsb",), "GrowableList": ("list", "large_list")}
TYPED |= {"GrowableFixedSizeList": ("fsl",), "GrowableStruct": ("struct",), "GrowableMap": ("map",)}
TYPED |= {"GrowableUnion": ("union",), "GrowableDictionary": ("dict",)}
STEPS = {"extend": ["n", "n", "n"], "extend_into": ["n", "P"], "extend_validity": ["n"]}
STEPS |= {"len": [], "as_box": [], "into_array": []}  # kinds of arguments
NESTED = ("fsb", "fsl", "struct", "union", "dict")  # of these the model knows no memory
ROOM = 2**44  # a capacity that no memory has


class Growable:
    """The rows so far, and whether a call has been refused."""

    def __init__(self, arrays, capacity):
        if not arrays or any(array.type != arrays[0].type for array in arrays):
            raise Usage("arrays of a growable")
        self.arrays, self.rows, self.failed = arrays, [], False
        self.type = arrays[0].type
        if are_unjoined(arrays):
            raise Refused("Overflow")
        kind = physical(self.type)
        if capacity > 10**6 and kind != "null":
            if capacity < ROOM or kind in NESTED:
                raise Unjudged("capacity")
            raise Refused("OutOfMemory")

    def extend(self, index, start, length):
        """Appends rows of a bound array."""
        if index >= len(self.arrays) or start + length > len_of(self.arrays[index]):
            raise Usage("range of a growable")
        rows = self.arrays[index].rows[start : start + length]
        return self.append(rows, are_crowded(self.arrays, index, range(start, start + length)))

    def extend_into(self, index, predicate):
        """Appends the rows of a bound array at which a predicate is true, by a call for each run of them."""
        if index >= len(self.arrays) or len(predicate) != len_of(self.arrays[index]):
            raise Usage("rows of a filter")
        answers = [self.extend(index, start, length) for start, length in ranges(predicate)]
        refused = [answer for answer in answers if not answer.isdigit()]
        return refused[0] if refused else self.len()

    def extend_validity(self, additional):
        """Appends null slots."""
        return self.append(Run(null_slot(self.type), additional), False)

    def append(self, rows, is_crowded):
        """Appends rows, or refuses once and for all."""
        if self.failed:
            return "Failed"
        if size(self.rows) + size(rows) >= COUNTS or is_crowded:
            self.failed = True
            return "Overflow"
        grown = joined([self.rows, rows])
        if not fits(self.type, grown):
            self.failed = True
            return "Overflow"
        if size(rows) > 10**6 and physical(self.type) != "null":
            if size(rows) < ROOM or physical(self.type) in NESTED:
                raise Unjudged("memory")
            self.failed = True
            return "OutOfMemory"
        self.rows = grown
        return self.len()

    def len(self):
        """How many rows there are."""
        return str(size(self.rows))

    def as_box(self):
        """An array of the rows so far; the growable is then empty."""
        if self.failed:
            return "Failed"
        rows, self.rows = self.rows, []
        return write_rows(self.type, rows)


def len_of(array):
    """How many rows an array has."""
    return size(array.rows)


def read_step(text):
    """The name of a step, and its arguments."""
    name, arguments = step_of(text)
    needs(name in STEPS)
    return name, read_arguments(STEPS[name], arguments)


def grow(arrays, capacity, name, texts, kind=Growable):
    """What the steps of a line with a growable of this name answer."""
    steps, is_typed = [read_step(text) for text in texts], name != "make_growable"
    needs(not is_typed or all(array.kind in TYPED[name] for array in arrays))
    grown, answers = kind(arrays, capacity), []
    for i, (step, arguments) in enumerate(steps):
        if step == "into_array":
            needs(is_typed and i == len(steps) - 1)
            step = "as_box"
        answers.append(getattr(grown, step)(*arguments))
    return " ".join(answers) or "none"
