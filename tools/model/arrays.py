"""Arrays: a type, what is stored, and the parts that its rows are read from."""

from .text import COUNTS, LIMIT, Refused, Run, Unjudged, Usage, joined, listed, mapped, size
from .types import (BYTES, FLOATS, INTEGERS, TEXTS, field_ids, is_carried, logical, null_slot,
                    physical)


class Array:
    """An array of any kind. `stored` has a slot for each row, null rows too."""

    def __init__(self, t, kind, stored, validity=None, **parts):
        self.type, self.kind, self.stored, self.validity = t, kind, stored, validity
        self.offsets = parts.get("offsets")  # of lists and maps
        self.children = parts.get("children", [])
        self.keys = parts.get("keys")  # of dictionaries, None where null
        self.ids = parts.get("ids")  # of unions
        self.places = parts.get("places")  # of dense unions: rows of the children
        self.start = parts.get("start", 0)  # of sparse unions
        self.rows = stored if validity is None else masked(validity, stored)

    @property
    def child(self):
        """The one child of a list or a dictionary."""
        return self.children[0]

    def __len__(self):
        return size(self.rows)

    def sliced(self, offset, length):
        """So many rows from a place on."""
        if offset + length > size(self.rows):
            raise Usage("slice")
        end = offset + length

        def part(items, more=0):
            return None if items is None else items[offset : end + more]

        children = self.children
        if self.kind == "struct":
            children = [child.sliced(offset, length) for child in children]
        if self.kind == "fsl":
            by = logical(self.type).params[0]
            children = [self.child.sliced(offset * by, length * by)]
        start = self.start + offset if self.kind == "union" and self.places is None else 0
        return Array(self.type, self.kind, part(self.stored), part(self.validity), children=children,
                     offsets=part(self.offsets, 1), keys=part(self.keys), ids=part(self.ids),
                     places=part(self.places), start=start)

    def index(self, i):
        """The field of a union's row by its number, and the row of it."""
        field = field_ids(self.type).index(self.ids[i])
        return field, self.start + i if self.places is None else self.places[i]


def masked(validity, stored):
    """The rows of what is stored."""
    return [row if valid else None for valid, row in zip(validity, listed(stored), strict=True)]


def check(holds, part):
    """Refuses where a part of an array is not as the format has it."""
    if not holds:
        raise Refused(f"OutOfSpec({part})")


def fits_rows(validity, rows):
    """Whether a validity, if there is one, has a bit for each row."""
    return validity is None or len(validity) == rows


def check_kind(t, kind):
    """Refuses a type that is not carried or has another layout."""
    check(is_carried(t) and physical(t) == kind, "Kind")


def check_children(t, children):
    """Refuses children that are not one for each field, of its type."""
    check([f.type for f in logical(t).fields] == [child.type for child in children], "Child")


def null_array(t, length):
    """An array of the null type."""
    check_kind(t, "null")
    return Array(t, "null", Run(None, length))


def flat_array(t, kind, values, validity):
    """An array of truth values or of numbers."""
    check_kind(t, kind)
    check(fits_rows(validity, len(values)), "Length")
    return Array(t, kind, values, validity)


def byte_array(t, kind, offsets, values, validity):
    """An array of texts or of bytes."""
    check_kind(t, kind)
    check(fits_rows(validity, len(offsets) - 1), "Length")
    check(offsets[-1] <= len(values), "Offsets")
    rows = [values[first:end] for first, end in zip(offsets, offsets[1:])]
    if kind in TEXTS:
        try:
            rows = [row.decode() for row in rows]
        except UnicodeDecodeError:
            check(False, "Utf8")
    return Array(t, kind, rows, validity)


def fixed_bytes(t, values, validity):
    """An array of bytes of a fixed size."""
    check_kind(t, "fsb")
    by = logical(t).params[0]
    check(len(values) % by == 0 and fits_rows(validity, len(values) // by), "Length")
    return Array(t, "fsb", [values[i : i + by] for i in range(0, len(values), by)], validity)


def list_array(t, kind, offsets, child, validity):
    """An array of lists or of maps."""
    check_kind(t, kind)
    check_children(t, [child])
    check(fits_rows(validity, len(offsets) - 1), "Length")
    check(offsets[-1] <= size(child.rows), "Offsets")
    stored = [items(child.rows, first, end) for first, end in zip(offsets, offsets[1:])]
    return Array(t, kind, stored, validity, offsets=offsets, children=[child])


def items(rows, first, end):
    """A row of a list."""
    part = rows[first:end]
    return ("[", part if size(part) > LIMIT else tuple(listed(part)))


def fixed_lists(t, child, validity):
    """An array of lists of a fixed size."""
    check_kind(t, "fsl")
    check_children(t, [child])
    by, rows = logical(t).params[0], child.rows
    count = size(rows) // by
    check(size(rows) % by == 0 and fits_rows(validity, count), "Length")
    if isinstance(rows, Run):
        stored = Run(items(rows, 0, by), count)
    else:
        stored = [items(rows, i * by, i * by + by) for i in range(count)]
    return Array(t, "fsl", stored, validity, children=[child])


def struct_array(t, children, validity):
    """An array of structs."""
    check_kind(t, "struct")
    check_children(t, children)
    counts = {size(child.rows) for child in children}
    check(len(counts) == 1 and fits_rows(validity, max(counts)), "Length")
    columns = [child.rows for child in children]
    if all(isinstance(column, Run) for column in columns):
        stored = Run(("(", tuple(column.slot for column in columns)), max(counts))
    else:
        stored = [("(", parts) for parts in zip(*map(listed, columns))]
    return Array(t, "struct", stored, validity, children=children)


def union_array(t, ids, children, places):
    """An array of unions."""
    check_kind(t, "union")
    check_children(t, children)
    is_dense = logical(t).word == "union_dense"
    check((places is not None) == is_dense, "Length")
    if is_dense:
        check(len(places) == len(ids), "Length")
    else:
        check(all(size(child.rows) == len(ids) for child in children), "Length")
    by_id = dict(zip(field_ids(t), children))
    at = places if is_dense else range(len(ids))
    inside = (0 <= p < size(by_id[i].rows) for i, p in zip(ids, at) if i in by_id)
    check(all(inside), "Offsets")
    check(set(ids) <= set(by_id), "TypeId")
    stored = [(":", i, by_id[i].rows[p]) for i, p in zip(ids, at)]
    return Array(t, "union", stored, ids=ids, children=children, places=places)


def dictionary_array(t, keys, values):
    """An array of dictionaries, its keys an array of integers."""
    check(is_carried(t) and physical(t) == "dict" and logical(t).params[0] == keys.kind, "Kind")
    check_children(t, [values])
    places = keys.rows
    check(all(0 <= key < size(values.rows) for key in places if key is not None), "Key")
    stored = [None if key is None else ("&", values.rows[key]) for key in places]
    return Array(t, "dict", stored, keys.validity, keys=places, children=[values])


# Which rows fit, and what dictionaries do when they are joined.

GREATEST = {"utf8": 2**31 - 1, "binary": 2**31 - 1, "list": 2**31 - 1, "map": 2**31 - 1}
GREATEST |= {"large_utf8": 2**63 - 1, "large_binary": 2**63 - 1, "large_list": 2**63 - 1}


def fits(t, rows):
    """Whether an array of the type can hold the rows: all its counts and offsets fit."""
    t, kind = logical(t), physical(t)
    if size(rows) >= COUNTS:
        return False
    if kind in (*TEXTS, *BYTES):
        return sum(map(bytes_in, listed(rows))) <= GREATEST[kind]
    if kind == "fsb":
        return t.params[0] * size(rows) < COUNTS
    if kind in ("list", "large_list", "map"):
        inner = [row[1] for row in listed(rows) if row is not None]
        return sum(map(size, inner)) <= GREATEST[kind] and fits(t.item, joined(inner))
    if kind == "fsl":
        return t.params[0] * size(rows) < COUNTS and fits(t.item, fixed_items(t, rows))
    if kind in ("struct", "union"):
        return all(fits_field(t, rows, i) for i in range(len(t.fields)))
    return True


def bytes_in(row):
    """How many bytes a row has."""
    return 0 if row is None else len(row.encode() if isinstance(row, str) else row)


def fixed_items(t, rows):
    """The rows of the child of a fixed-size list."""
    if isinstance(rows, Run):
        slot = null_slot(t.item) if rows.slot is None else rows.slot[1][0]
        return Run(slot, t.params[0] * rows.count)
    empty = Run(null_slot(t.item), t.params[0])
    return joined([empty if row is None else row[1] for row in rows])


def fits_field(t, rows, i):
    """Whether the rows of one field of a struct or a union fit."""
    inner = t.fields[i].type
    empty = null_slot(inner)
    if t.word == "struct":
        return fits(inner, mapped(lambda row: empty if row is None else row[1][i], rows))
    own = field_ids(t)[i]
    if t.word == "union_sparse":
        return fits(inner, mapped(lambda row: row[2] if row[1] == own else empty, rows))
    dense = [row[2] for row in listed(rows) if row[1] == own]
    return len(dense) <= 2**31 and fits(inner, dense)


def is_crowded(before, array, i):
    """Whether a valid key that row i names does not fit when grown by the dictionaries before."""
    if array.kind not in ("list", "large_list", "map", "fsl", "struct", "union", "dict"):
        return False
    if array.rows[i] is None:
        return False
    if array.kind == "dict":
        grown = array.keys[i] + sum(len(other.child) for other in before)
        return grown > INTEGERS[logical(array.type).params[0]][1]
    return any(is_crowded([other.children[field] for other in before], array.children[field], row)
               for field, row in named(array, i))


def named(array, i):
    """The fields and rows of children that a row names."""
    if array.kind == "struct":
        return [(field, i) for field in range(len(array.children))]
    if array.kind == "union":
        return [array.index(i)]
    if isinstance(array.child.rows, Run):
        return []
    if array.kind == "fsl":
        by = logical(array.type).params[0]
        return [(0, row) for row in range(i * by, i * by + by)]
    return [(0, row) for row in range(array.offsets[i], array.offsets[i + 1])]


def are_crowded(arrays, n, rows):
    """Whether one of the rows of the n-th array is crowded behind the arrays before it."""
    if isinstance(arrays[n].rows, Run):
        return False
    return any(is_crowded(arrays[:n], arrays[n], i) for i in rows)


def are_unjoined(arrays):
    """Whether dictionaries in the arrays can't be joined."""
    if len(arrays) < 2:
        return False
    below = [[array.children[i] for array in arrays] for i in range(len(arrays[0].children))]
    if arrays[0].kind == "dict":
        values = below[0]
        if not fits(values[0].type, joined([array.rows for array in values])):
            return True
        if any(are_crowded(values, n, range(len(values[n]))) for n in range(len(values))):
            return True
    return any(map(are_unjoined, below))


def no_floats(t):
    """Judges no rows of types that have a float in them."""
    if physical(t) in FLOATS:
        raise Unjudged("no arrays")
    for f in t.fields:
        no_floats(f.type)
