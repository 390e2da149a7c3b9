"""The kernels as functions over rows."""

from .arrays import are_crowded, are_unjoined, fits
from .text import COUNTS, Refused, Run, Unjudged, Usage, joined, listed, size
from .types import logical, null_slot, physical


def fitting(t, rows):
    """Rows of a type, refused where they do not fit."""
    if not fits(t, rows):
        raise Refused("Overflow")
    return t, rows


def concatenate(arrays):
    """All rows of all arrays."""
    if not arrays:
        raise Refused("ConcatenateEmpty")
    if any(array.type != arrays[0].type for array in arrays):
        raise Refused("ConcatenateTypes")
    return join(arrays)


def join(arrays):
    """All rows of arrays of one type."""
    if not arrays or any(array.type != arrays[0].type for array in arrays):
        raise Usage("arrays to join")
    if are_unjoined(arrays) or sum(size(array.rows) for array in arrays) >= 2**64:
        raise Refused("Overflow")
    if any(are_crowded(arrays, n, range(size(array.rows))) for n, array in enumerate(arrays)):
        raise Refused("Overflow")
    return fitting(arrays[0].type, joined([array.rows for array in arrays]))


WIDTHS = {"i128": 16, "i256": 32, "days_ms": 8, "months_days_ns": 16, "bool": 1, "large_utf8": 8, "large_binary": 8}
WIDTHS |= {"large_list": 8, "union": 1, "null": 0} | {f"{sign}{bits}": bits // 8 for sign in "iu" for bits in (8, 16, 32, 64)}


def make_room(t, n):
    """Refuses so many null slots where a count does not fit, or no memory has room for them."""
    t, kind = logical(t), physical(t)
    by = t.params[0] if kind in ("fsb", "fsl") else WIDTHS.get(t.params[0] if kind == "dict" else kind, 4)
    if kind in ("fsb", "fsl") and by * n >= COUNTS:
        raise Refused("Overflow")
    if kind == "fsl":
        make_room(t.item, by * n)
    elif kind == "struct" or t.word == "union_sparse":
        for f in t.fields:
            make_room(f.type, n)
    elif kind == "union":
        make_room(t.item, min(n, 1))
    taken = n if kind == "fsl" else by * n
    if kind != "null" and taken > 2**30:
        raise Refused("OutOfMemory") if taken >= 2**50 else Unjudged("memory")


def shift(array, offset):
    """The rows moved, with null slots where none comes."""
    rows = array.rows
    if abs(offset) > size(rows) or offset == -(2**63):
        raise Refused("ShiftOffset")
    gap = Run(null_slot(array.type), abs(offset))
    kept = rows[: size(rows) - offset] if offset > 0 else rows[-offset:]
    return fitting(array.type, joined([gap, kept] if offset > 0 else [kept, gap]))


def filtered(array, predicate):
    """The rows at which the predicate is true."""
    if size(array.rows) != len(predicate):
        raise Usage("lengths")
    return fitting(array.type, [row for row, keep in zip(array.rows, predicate) if keep is True])


def runs(keys):
    """Each run of equal keys: the key, where it begins and how long it is."""
    found = []
    for i, key in enumerate(keys):
        if found and found[-1][0] == key:
            found[-1][2] += 1
        else:
            found.append([key, i, 1])
    return found


def ranges(predicate):
    """The ranges of the rows at which the predicate is true: where each begins and how long it is."""
    return [(start, length) for is_true, start, length in runs(row is True for row in predicate) if is_true]


def sides(predicate):
    """The ranges of the rows of each side, in their order: 0 where the predicate is true, 1 where false, 2 where null."""
    return [tuple(run) for run in runs({True: 0, False: 1, None: 2}[row] for row in predicate)]


def take(array, indices):
    """The rows that the indices name, and null slots where an index is null."""
    if not are_within(indices, size(array.rows)):
        raise Usage("index")
    empty = null_slot(array.type)
    return fitting(array.type, [empty if i is None else array.rows[i] for i in indices])


def are_within(indices, length):
    """Whether each index that is not null is that of a row."""
    return all(i is None or 0 <= i < length for i in indices)


def if_then_else(predicate, lhs, rhs):
    """The left rows where the predicate is true, the right ones where it is false."""
    if lhs.type != rhs.type:
        raise Refused("IfThenElseTypes")
    if not len(predicate) == size(lhs.rows) == size(rhs.rows):
        raise Refused("IfThenElseLengths")
    chosen = [i for i, choice in enumerate(predicate) if choice is False]
    if are_unjoined([lhs, rhs]) or are_crowded([lhs, rhs], 1, chosen):
        raise Refused("Overflow")
    empty = null_slot(lhs.type)
    sides = zip(predicate, listed(lhs.rows), listed(rhs.rows))
    return fitting(lhs.type, [empty if p is None else left if p else right for p, left, right in sides])


# Logic, where None is a truth value that is not known.


def both(a, b):
    """Both are true."""
    return None if a is None or b is None else a and b


def either(a, b):
    """One is true."""
    return None if a is None or b is None else a or b


def kleene_both(a, b):
    """False where a side is false."""
    return False if a is False or b is False else both(a, b)


def kleene_either(a, b):
    """True where a side is true."""
    return True if a is True or b is True else either(a, b)


# Relations of two slots.

HOLDS = {"eq": lambda a, b: a == b, "neq": lambda a, b: a != b, "lt": lambda a, b: a < b,
         "lt_eq": lambda a, b: a <= b, "gt": lambda a, b: a > b, "gt_eq": lambda a, b: a >= b}


def related(name, a, b):
    """Whether a relation holds; null where a side is."""
    if a is None or b is None:
        return None
    if isinstance(a, str):
        a, b = a.encode(), b.encode()
    return HOLDS[name](a, b)


def through(slot):
    """A slot through its dictionaries."""
    while isinstance(slot, tuple) and slot[0] == "&":
        slot = slot[1]
    return slot


def nulled(a, b):
    """Null where both are valid and equal, else the left."""
    return None if b is not None and a == b else a


def part(slot, start, length):
    """A part of a text by characters, of bytes by bytes."""
    if slot is None:
        return None
    begin = min(start, len(slot)) if start >= 0 else max(0, len(slot) + start)
    return slot[begin:] if length is None else slot[begin : begin + length]


def finished(out, left, right, is_equal):
    """What a comparison of stored values is under the validities of both sides."""
    if out is None or left and right:
        return out
    return (left == right) == is_equal
