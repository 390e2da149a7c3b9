"""The names of calls, the kinds of their arguments, and how these are read."""

from .read import read_array, read_offsets, read_scalar
from .text import Unjudged, Usage, count, number, read_bits, read_bytes, split, within
from .types import BYTES, ELEMENTS, INTEGERS, TEXTS, read_type

CALLS = {}  # name: (kinds of arguments, function)
STEPS = {}  # name: function of the steps of a line


def call(name, kinds):
    """Names a call. Its arguments are of these kinds; a last one with a star takes all that are left."""

    def known(function):
        CALLS[name] = kinds.split(), function
        return function

    return known


def needs(holds):
    """A condition of a call."""
    if not holds:
        raise Usage("condition")


def array_of(*kinds):
    """A reader of arrays of one of these kinds."""

    def reader(text):
        array = read_array(text)
        needs(array.kind in kinds)
        return array

    return reader


def offsets_of(text):
    """A width and offsets of it."""
    width = {"offsets32": "i32", "offsets64": "i64"}.get(text[:9])
    if width is None:
        raise Unjudged("no offsets")
    return width, read_offsets(width, within(text[9:], "[", "]"))


READERS = {"A": read_array, "B": read_bits, "T": read_type, "S": read_scalar, "W": str, "n": count, "O": offsets_of,
           "i": lambda text: number(text, -(2**63), 2**63 - 1), "x": read_bytes,
           "m": lambda text: None if text == "none" else count(text),
           "V": lambda text: None if text == "none" else read_bits(text),
           "P": lambda text: array_of("bool")(text).rows, "I": lambda text: array_of(*INTEGERS)(text).rows,
           "L": lambda text: list(array_of("i32")(text).stored), "list": array_of("list", "large_list"),
           "primitive": array_of(*ELEMENTS), "boolean": array_of("bool"), "utf8": array_of(*TEXTS),
           "binary": array_of(*BYTES)} | {kind: array_of(kind) for kind in ("fsl", "fsb", "map", "struct", "union", "dict")}


def read_arguments(kinds, texts):
    """The arguments of a call by their kinds."""
    if kinds and kinds[-1].endswith("*"):
        kinds = kinds[:-1] + [kinds[-1][:-1]] * (len(texts) - len(kinds) + 1)
    needs(len(kinds) == len(texts))
    return [READERS[kind](text) for kind, text in zip(kinds, texts)]


def step_of(text):
    """The name of a step and the texts of its arguments."""
    name, bracket, _ = text.partition("(")
    if not bracket:
        raise Unjudged("no step")
    return name, split(within(text[len(name) :], "(", ")"), ",")
