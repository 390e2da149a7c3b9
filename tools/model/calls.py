"""The calls of the cases by their names, each with the kinds of its arguments."""

from . import kernels, memory  # noqa: F401 (memory names its calls)
from .growables import TYPED, Growable, grow
from .read import read_array, write_rows, write_scalar
from .registry import CALLS, STEPS, call, needs, read_arguments
from .text import Refused, Run, Unjudged, Usage, count, listed, same, size, words, write_bits
from .types import (BYTES, ELEMENTS, INTERVALS, TEXTS, Type, can_nullif, can_take, carried, has_equality, has_order, is_carried,
                    is_ordered, is_ordered_through, is_unordered_interval, logical, null_slot, physical_name, type_through,
                    write_type)

BOOL = Type("bool")
FLAT = ("bool", *ELEMENTS, *TEXTS, *BYTES, "fsb")


def show(value):
    """The text of an answer."""
    if value is None:
        return "none"
    if isinstance(value, bool):
        return "true" if value else "false"
    if isinstance(value, tuple):
        return write_rows(*value)
    return str(value)


def shown(arrays):
    """The texts of several arrays, or `none`."""
    return " ".join(write_rows(*array) for array in arrays) or "none"


def parted(array):
    """An array as its type and its rows."""
    return array.type, array.rows


def answer(line):
    """What a line answers."""
    if not line.strip() or line.startswith("#"):
        return line
    try:
        name, *arguments = words(line)
        if name in STEPS:
            return STEPS[name](arguments)
        if name == "make_growable" or name in TYPED:
            return growable_line(name, arguments)
        if name not in CALLS:
            return "unknown"
        kinds, function = CALLS[name]
        return show(function(*read_arguments(kinds, arguments)))
    except Refused as refused:
        return f"error {refused}"
    except Usage:
        return "usage"
    except (Unjudged, RecursionError, OverflowError):
        return "?"


def growable_line(name, arguments, kind=Growable):
    """A line of a growable: `USE_VALIDITY CAPACITY ARRAY .. : STEP ..`."""
    needs(len(arguments) >= 3 and ":" in arguments[2:])
    colon = arguments.index(":", 2)
    if arguments[0] not in ("t", "f"):
        raise Unjudged("no truth value")
    arrays = [read_array(text) for text in arguments[2:colon]]
    return grow(arrays, count(arguments[1]), name, arguments[colon + 1 :], kind)


# Types and arrays.

call("DataType::to_physical_type", "T")(physical_name)
call("DataType::to_logical_type", "T")(lambda t: write_type(logical(t)))
call("DataType::is_carried", "T")(is_carried)
call("DataType::clone", "T")(write_type)
call("DataType::eq", "T T")(lambda a, b: a == b)
call("try_new", "A")(parted)
call("AnyArray::len", "A")(lambda a: size(a.rows))
call("AnyArray::is_empty", "A")(lambda a: size(a.rows) == 0)
call("AnyArray::data_type", "A")(lambda a: write_type(a.type))
call("AnyArray::clone", "A")(parted)
call("AnyArray::eq", "A A")(lambda a, b: a.type == b.type and same(a.rows, b.rows))
call("AnyArray::slice", "A n n")(lambda a, o, n: parted(a.sliced(o, n)))
call("AnyArray::sliced", "A n n")(lambda a, o, n: parted(a.sliced(o, n)))
call("Chunk::into_arrays", "A*")(lambda *arrays: shown(map(parted, chunk(arrays))))
call("Scalar::new", "S")(write_scalar)
call("AnyScalar::is_valid", "S")(lambda s: s.slot is not None)
call("AnyScalar::data_type", "S")(lambda s: write_type(s.type))
call("AnyKeys::len", "dict")(len)
call("AnyOffsetsBuffer::len", "list")(lambda a: len(a.offsets))
call("UnionArray::start", "union")(lambda a: a.start)
call("FixedSizeListArray::size", "fsl")(lambda a: logical(a.type).params[0])
call("FixedSizeBinaryArray::size", "fsb")(lambda a: logical(a.type).params[0])
call("are_within", "I n")(kernels.are_within)


@call("AnyArray::null_count", "A")
def null_count(a):
    """How many rows are null."""
    if isinstance(a.rows, Run):
        return a.rows.count if a.rows.slot is None else 0
    return sum(row is None for row in a.rows)


@call("AnyArray::validity", "A")
def validity(a):
    """The validity, where there is one."""
    return None if a.validity is None else write_bits(a.validity)


@call("AnyArray::is_valid", "A n")
def is_valid(a, i):
    """Whether a row is not null."""
    needs(i < size(a.rows))
    return a.rows[i] is not None


@call("with_validity", "A V")
def with_validity(a, bits):
    """What is stored under another validity."""
    needs(a.kind not in ("null", "union", "dict") and (bits is None or len(bits) == len(a)))
    rows = listed(a.stored)
    return a.type, rows if bits is None else [row if bit else None for bit, row in zip(bits, rows)]


@call("new_empty_array", "T")
def new_empty_array(t):
    """No rows."""
    return carried(t), []


@call("new_null_array", "T n")
def new_null_array(t, n):
    """So many null slots."""
    kernels.make_room(carried(t), n)
    return t, Run(null_slot(t), n)


def chunk(arrays):
    """Columns of one length."""
    if len({size(array.rows) for array in arrays}) > 1:
        raise Refused("Lengths")
    return arrays


@call("Chunk::try_new", "A*")
def chunk_try_new(*arrays):
    """The count of rows and the columns."""
    rows = size(chunk(arrays)[0].rows) if arrays else 0
    return " ".join([str(rows)] + [write_rows(*parted(array)) for array in arrays])


@call("AnyKeys::key", "dict n")
def key(a, i):
    """The key of a row."""
    needs(i < len(a))
    return a.keys[i]


@call("AnyOffsetsBuffer::start_end", "list n")
def start_end(a, i):
    """Where a row lies in the child."""
    needs(i + 1 < len(a.offsets))
    return f"{a.offsets[i]} {a.offsets[i + 1]}"


@call("UnionArray::index", "union n")
def index(a, i):
    """The field and the row of it."""
    needs(i < len(a))
    return "{} {}".format(*a.index(i))


@call("FlatArray::equal_range", "A n A n n")
def equal_range(a, start, b, other_start, length):
    """Whether rows of two arrays are the same."""
    needs(a.kind in FLAT and a.type == b.type)
    needs(start + length <= len(a) and other_start + length <= len(b))
    return a.rows[start : start + length] == b.rows[other_start : other_start + length]


# Selection.


def listed_ranges(ranges):
    """The texts of ranges, or `none`."""
    return " ".join(f"({','.join(map(str, one))})" for one in ranges) or "none"



call("concatenate::concatenate", "A*")(lambda *arrays: kernels.concatenate(arrays))
call("join_arrays", "A*")(lambda *arrays: kernels.join(arrays))
call("window::shift", "A i")(kernels.shift)
call("filter::filter", "A P")(kernels.filtered)
call("if_then_else::if_then_else", "P A A")(kernels.if_then_else)
call("if_then_else::if_then_else_ranges", "P")(lambda p: listed_ranges(kernels.sides(p)))
call("Filter::ranges", "P")(lambda p: listed_ranges(kernels.ranges(p)))
call("take::take", "A I")(kernels.take)
call("take::can_take", "T")(can_take)
for module, kind in {"fixed_size_binary": "fsb", "fixed_size_list": "fsl", "structure": "struct"}.items():
    call(f"take::{module}::take", f"{kind} I")(kernels.take)
for module in ("primitive", "boolean", "utf8", "binary", "list", "map", "union", "dict"):
    call(f"take::{module}::take", f"{module} I")(kernels.take)


@call("filter::filter_chunk", "P A*")
def filter_chunk(p, *columns):
    """Each column filtered."""
    return shown([kernels.filtered(column, p) for column in chunk(columns)])


@call("filter::build_filter", "P A*")
def build_filter(p, *arrays):
    """How many rows the filter keeps, of how many, and what it keeps of each array, or why it refuses."""
    head = f"{sum(row is True for row in p)} {len(p)}"
    return " ".join([head] + [applied(p, array) for array in arrays])


def applied(p, array):
    """The rows of an array that a filter keeps, or the name of its refusal."""
    try:
        return write_rows(*kernels.filtered(array, p))
    except Refused as refused:
        return str(refused)


@call("filter::extend_from_word", "primitive primitive n")
def extend_from_word(out, values, word):
    """The values whose bit is set, behind those that are there."""
    needs(out.type == values.type and None not in out.rows + values.rows and len(values) <= 64)
    return out.type, out.rows + [row for k, row in enumerate(values.rows) if word >> k & 1]


# Logic.


def truths(rows):
    """Rows of truth values."""
    return BOOL, list(rows)


def row_by_row(function):
    """A function of two rows for two lists of one length."""

    def of_rows(lhs, rhs):
        needs(len(lhs) == len(rhs))
        return truths(map(function, lhs, rhs))

    return of_rows


def with_scalar(function):
    """A function of two rows for a list and a Boolean scalar."""

    def of_scalar(rows, scalar):
        needs(scalar.kind == "bool")
        return truths(function(row, scalar.slot) for row in rows)

    return of_scalar


for module, conjunction, disjunction in (("boolean", kernels.both, kernels.either),
                                         ("boolean_kleene", kernels.kleene_both, kernels.kleene_either)):
    for word, function in (("and", conjunction), ("or", disjunction)):
        call(f"{module}::{word}", "P P")(row_by_row(function))
        call(f"{module}::{word}_scalar", "P S")(with_scalar(function))
    call(f"{module}::any", "P")(lambda p: True in p)
    call(f"{module}::all", "P")(lambda p: all(row is True for row in p))
call("boolean::not", "P")(lambda p: truths(None if row is None else not row for row in p))
call("boolean::is_null", "A")(lambda a: truths(row is None for row in a.rows))
call("boolean::is_not_null", "A")(lambda a: truths(row is not None for row in a.rows))


@call("utils::combine_validities", "V V")
def combine_validities(lhs, rhs):
    """The rows that are valid on both sides."""
    if lhs is None or rhs is None:
        bits = lhs if rhs is None else rhs
        return None if bits is None else write_bits(bits)
    needs(len(lhs) == len(rhs))
    return write_bits(a and b for a, b in zip(lhs, rhs))


@call("utils::check_same_len", "A A")
def check_same_len(lhs, rhs):
    """Refuses lengths that differ."""
    chunk([lhs, rhs])
    return "ok"


call("length::can_length", "T")(lambda t: t.word in TEXTS)
call("substring::can_substring", "T")(lambda t: t.word in (*TEXTS, *BYTES))
call("nullif::can_nullif", "T T")(can_nullif)


@call("length::length", "A")
def length_of(a):
    """The bytes of each text."""
    if a.type.word not in TEXTS:
        raise Refused("LengthType")
    rows = [None if row is None else len(row.encode()) for row in a.rows]
    return Type("i32" if a.type.word == "utf8" else "i64"), rows


@call("substring::substring", "A i m")
def substring(a, start, length):
    """A part of each row."""
    if a.type.word not in (*TEXTS, *BYTES):
        raise Refused("SubstringType")
    return a.type, [kernels.part(row, start, length) for row in a.rows]


def nulled(a, rows):
    """The rows of an array but those that equal others."""
    return a.type, [kernels.nulled(left, right) for left, right in zip(a.rows, rows)]


@call("nullif::primitive_nullif", "primitive primitive")
def primitive_nullif(a, b):
    """Null where the rows are equal."""
    needs(a.kind == b.kind and len(a) == len(b))
    return nulled(a, b.rows)


@call("nullif::nullif", "primitive primitive")
def nullif(a, b):
    """The same of arrays of one type."""
    needs(a.type == b.type)
    return primitive_nullif(a, b)


@call("nullif::primitive_nullif_scalar", "primitive S")
def primitive_nullif_scalar(a, s):
    """Null where the rows equal a value."""
    needs(a.kind == s.kind and s.slot is not None)
    return nulled(a, [s.slot] * len(a))


@call("nullif::nullif_scalar", "primitive S")
def nullif_scalar(a, s):
    """The same of a scalar of the array's type."""
    needs(a.type == s.type)
    return primitive_nullif_scalar(a, s)


# Comparison.


def compared(name, lhs, rhs):
    """Rows of two lists compared by a relation or by whether they are the same."""
    if name.endswith("_and_validity"):
        return truths((a == b) == (name == "eq_and_validity") for a, b in zip(lhs, rhs))
    return truths(kernels.related(name, a, b) for a, b in zip(lhs, rhs))


def is_equality(name):
    """Whether a relation asks for equality alone."""
    return name.startswith(("eq", "neq"))


def of_arrays(name):
    """A relation of any two arrays."""

    def relate(a, b):
        needs(logical(a.type) == logical(b.type) and size(a.rows) == size(b.rows))
        needs((has_equality if is_equality(name) else has_order)(a.type))
        return compared(name, a.rows, b.rows)

    return relate


def of_scalar(name):
    """A relation of any array and a scalar, read through dictionaries."""

    def relate(a, s):
        needs(logical(a.type) == logical(s.type))
        needs((has_equality if is_equality(name) else has_order)(type_through(a.type)))
        rows = [kernels.through(row) for row in listed(a.rows)]
        return compared(name, rows, [kernels.through(s.slot)] * len(rows))

    return relate


def of_typed(name):
    """A relation of two arrays of one layout."""

    def relate(a, b):
        needs(a.kind == b.kind and len(a) == len(b))
        needs(is_equality(name) or a.kind not in INTERVALS)
        return compared(name, a.rows, b.rows)

    return relate


def of_value(name):
    """A relation of an array and a value of its layout."""

    def relate(a, s):
        widths = (TEXTS, BYTES)
        if a.kind != s.kind and any(a.kind in pair and s.kind in pair for pair in widths):
            raise Unjudged("width of a scalar")
        needs(a.kind == s.kind and s.slot is not None)
        needs(is_equality(name) or a.kind not in INTERVALS)
        return compared(name, a.rows, [s.slot] * len(a))

    return relate


def by_name(relate):
    """A relation that is named by an argument."""

    def related(name, a, b):
        if name not in RELATIONS:
            raise Unjudged("no relation")
        needs(a.kind not in INTERVALS)
        return relate(name)(a, b)

    return related


RELATIONS = tuple(kernels.HOLDS)
SAMENESS = ("eq_and_validity", "neq_and_validity")
MODULES = ("primitive", "boolean", "utf8", "binary")
for name in (*RELATIONS, *SAMENESS):
    scalar = name.replace("eq", "eq_scalar", 1) if name in SAMENESS else name + "_scalar"
    call(f"comparison::{name}", "A A")(of_arrays(name))
    call(f"comparison::{scalar}", "A S")(of_scalar(name))
    for module in MODULES:
        call(f"comparison::{module}::{name}", f"{module} {module}")(of_typed(name))
        call(f"comparison::{module}::{scalar}", f"{module} S")(of_value(name))
for module in MODULES:
    call(f"comparison::{module}::relate", f"W {module} {module}")(by_name(of_typed))
    call(f"comparison::{module}::relate_scalar", f"W {module} S")(by_name(of_value))
for name in RELATIONS:
    ordered, through = is_ordered, is_ordered_through
    if is_equality(name):
        ordered = lambda t: is_ordered(t) or is_unordered_interval(t)
        through = lambda t: is_ordered_through(t) or is_unordered_interval(t)
    call(f"comparison::can_{name}", "T")(ordered)
    call(f"comparison::can_{name}_scalar", "T")(through)


def finish(is_equal):
    """What a comparison is under the validities of both sides."""

    def finished(out, lhs, rhs):
        sides = [[True] * len(out) if bits is None else bits for bits in (lhs, rhs)]
        needs(all(len(bits) == len(out) for bits in sides))
        return truths(kernels.finished(*row, is_equal) for row in zip(out, *sides))

    return finished


call("comparison::finish_eq_validities", "P V V")(finish(True))
call("comparison::finish_neq_validities", "P V V")(finish(False))
