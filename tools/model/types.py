"""Data types: their text, their layout, and what is asked of them alone."""

from typing import NamedTuple

from .text import COUNTS, Unjudged, Usage, cut, number, split

INTEGERS = {f"i{n}": (-(2 ** (n - 1)), 2 ** (n - 1) - 1) for n in (8, 16, 32, 64)}
INTEGERS |= {f"u{n}": (0, 2**n - 1) for n in (8, 16, 32, 64)}
NUMBERS = INTEGERS | {f"i{n}": (-(2 ** (n - 1)), 2 ** (n - 1) - 1) for n in (128, 256)}
INTERVALS = ("days_ms", "months_days_ns")
ELEMENTS = (*NUMBERS, *INTERVALS)
FLOATS = ("f16", "f32", "f64")
PLAIN = (*INTEGERS, *FLOATS, *"null bool date32 date64 utf8 large_utf8 binary large_binary".split())
UNITS = ("s", "ms", "us", "ns")
SPANS = ("year_month", "day_time", "month_day_nano")
LISTS = ("list", "large_list", "map", "sorted_map")
UNIONS = ("union_sparse", "union_dense")
DICTIONARIES = ("dict", "ordered_dict")
TEXTS = ("utf8", "large_utf8")
BYTES = ("binary", "large_binary")


class Field(NamedTuple):
    """A named child of a type."""

    name: str
    type: "Type"
    nullable: bool


class Type(NamedTuple):
    """A data type: its word, what stands between the brackets, and its children."""

    word: str
    params: tuple = ()
    fields: tuple = ()
    ids: tuple | None = None

    @property
    def item(self):
        """The type of the first child."""
        return self.fields[0].type


def read_type(text):
    """A type of its text."""
    if text in PLAIN:
        return Type(text)
    word, bracket, rest = text.partition("<")
    if not bracket or rest[-1:] != ">":
        raise Unjudged(f"no type: {text[:40]}")
    return typed(word, split(rest[:-1], ","))


def typed(word, parts):
    """A type of its word and the parts between its brackets."""
    first = parts[0] if parts else ""
    if word in ("time32", "time64", "duration") and parts in [[unit] for unit in UNITS]:
        return Type(word, (first,))
    if word == "timestamp" and first in UNITS and len(parts) in (1, 2):
        return Type(word, (first, parts[1] if len(parts) == 2 else None))
    if word == "interval" and parts in [[span] for span in SPANS]:
        return Type(word, (first,))
    if word in ("decimal", "decimal256") and len(parts) == 2:
        return Type(word, tuple(number(part, 0, COUNTS - 1) for part in parts))
    if word == "fsb" and len(parts) == 1:
        return Type(word, (number(first, 0, COUNTS - 1),))
    if word == "fsl" and len(parts) == 2:
        return Type(word, (number(first, 0, COUNTS - 1),), (read_field(parts[1]),))
    if word in LISTS and len(parts) == 1:
        return Type(word, (), (read_field(first),))
    if word == "struct":
        return Type(word, (), tuple(map(read_field, parts)))
    if word in UNIONS:
        return read_union(word, parts)
    if word in DICTIONARIES and len(parts) == 2 and first in INTEGERS:
        return Type(word, (first,), (Field("item", read_type(parts[1]), True),))
    if word == "ext" and len(parts) in (2, 3):
        meta = parts[1] if len(parts) == 3 else None
        return Type(word, (first, meta), (Field("item", read_type(parts[-1]), True),))
    raise Unjudged(f"no type: {word}")


def read_field(text):
    """A field of its text."""
    name, rest = cut(text, ":") or ("item", text)
    if not (name[:1].isalpha() or name[:1] == "_"):
        raise Unjudged("no name")
    nullable = not rest.endswith("!")
    return Field(name, read_type(rest if nullable else rest[:-1]), nullable)


def read_union(word, parts):
    """A union, of fields that all have an id or none."""
    pairs = [cut(part, ":") for part in parts]
    given = [bool(pair) and pair[0].lstrip("-").isdigit() for pair in pairs]
    if any(given) and not all(given):
        raise Unjudged("some ids")
    if not any(given):
        return Type(word, (), tuple(map(read_field, parts)))
    ids = tuple(number(pair[0], -(2**31), 2**31 - 1) for pair in pairs)
    return Type(word, (), tuple(read_field(pair[1]) for pair in pairs), ids)


def write_type(t):
    """The text of a type."""
    if t.word in PLAIN:
        return t.word
    parts = [str(part) for part in t.params if part is not None]
    if t.word in (*DICTIONARIES, "ext"):
        parts.append(write_type(t.item))
    else:
        ids = [""] * len(t.fields) if t.ids is None else [f"{i}:" for i in t.ids]
        parts += [i + write_field(f) for i, f in zip(ids, t.fields)]
    return f"{t.word}<{','.join(parts)}>"


def write_field(f):
    """The text of a field."""
    name = "" if f.name == "item" else f.name + ":"
    return name + write_type(f.type) + ("" if f.nullable else "!")


def logical(t):
    """The type without the extensions around it."""
    while t.word == "ext":
        t = t.item
    return t


STORED = {"date32": "i32", "time32": "i32", "date64": "i64", "time64": "i64", "timestamp": "i64"}
STORED |= {"duration": "i64", "decimal": "i128", "decimal256": "i256", "sorted_map": "map"}
STORED |= {"union_sparse": "union", "union_dense": "union", "ordered_dict": "dict"}
STORED_SPANS = dict(zip(SPANS, ("i32", *INTERVALS)))


def physical(t):
    """The word of the layout; of a dictionary that of all of them."""
    t = logical(t)
    return STORED_SPANS[t.params[0]] if t.word == "interval" else STORED.get(t.word, t.word)


NAMES = {"days_ms": "DaysMs", "months_days_ns": "MonthDayNano", "fsb": "FixedSizeBinary"}
NAMES |= {"null": "Null", "bool": "Boolean", "utf8": "Utf8", "large_utf8": "LargeUtf8"}
NAMES |= {"binary": "Binary", "large_binary": "LargeBinary", "list": "List", "struct": "Struct"}
NAMES |= {"large_list": "LargeList", "fsl": "FixedSizeList", "map": "Map", "union": "Union"}
NAMES |= {word: "Int" + word[1:] for word in NUMBERS if word[0] == "i"}
NAMES |= {word: "UInt" + word[1:] for word in NUMBERS if word[0] == "u"}
NAMES |= {word: "Float" + word[1:] for word in FLOATS}


def physical_name(t):
    """The layout as it is printed for debugging."""
    word = physical(t)
    if word == "dict":
        return f"Dictionary({NAMES[logical(t).params[0]]})"
    return f"Primitive({NAMES[word]})" if word in (*ELEMENTS, *FLOATS) else NAMES[word]


def field_ids(t):
    """The type ids of a union's fields."""
    t = logical(t)
    return list(range(len(t.fields))) if t.ids is None else list(t.ids)


def is_carried(t):
    """Whether there are arrays of the type."""
    if not all(is_carried(f.type) for f in t.fields) or t.word in FLOATS:
        return False
    if t.word in ("fsb", "fsl"):
        return t.params[0] >= 1
    if t.word in ("map", "sorted_map"):
        entries = logical(t.item)
        return entries.word == "struct" and len(entries.fields) == 2
    if t.word in UNIONS:
        ids = field_ids(t)
        known = set(ids) <= set(range(128))
        return 0 < len(t.fields) == len(ids) == len(set(ids)) and known
    return t.word != "struct" or bool(t.fields)


def null_slot(t):
    """What stands where no row is chosen."""
    t = logical(t)
    return (":", field_ids(t)[0], null_slot(t.item)) if t.word in UNIONS else None


def type_through(t):
    """The type of the values through dictionaries, at any depth."""
    while t.word in (*DICTIONARIES, "ext"):
        t = t.item
    return t


def has_equality(t):
    """Whether rows of the type are compared."""
    return physical(t) in ("bool", *ELEMENTS, *FLOATS, *TEXTS, *BYTES)


def has_order(t):
    """Whether rows of the type stand in an order."""
    return has_equality(t) and physical(t) not in INTERVALS


def is_ordered(t):
    """Whether the order comparisons are offered for the type."""
    words = ("bool", *INTEGERS, *TEXTS, *BYTES, "date32", "date64", "time32", "time64")
    return t.word in (*words, "timestamp", "duration", "decimal") or t == Type("interval", ("year_month",))


def is_ordered_through(t):
    """The same with a scalar: through dictionaries."""
    if logical(t).word in DICTIONARIES:
        return is_ordered_through(logical(t).item)
    return is_ordered(t)


def is_unordered_interval(t):
    """Whether the type is an interval that has equality alone."""
    return logical(t).word == "interval" and physical(t) in INTERVALS


def can_take(t):
    """Whether `take` is offered for the type."""
    if t.word in ("struct", *UNIONS):
        return is_carried(t) and all(can_take(f.type) for f in t.fields)
    taken = is_ordered(t) or t.word in ("null", "interval", "fsb", "fsl", *LISTS, *DICTIONARIES)
    return taken and is_carried(t)


def can_nullif(left, right):
    """Whether `nullif` is offered for arrays of these types."""
    return left == right and physical(left) in ELEMENTS


def carried(t):
    """The type, where arrays of it are carried."""
    if not is_carried(t):
        raise Usage("not carried")
    return t
