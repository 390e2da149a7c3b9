"""Arrays and scalars of their text, and their text."""

from . import arrays as made
from .text import (COUNTS, LIMIT, Refused, Unjudged, Usage, count, cut, hexed, listed, number, parted_slices,
                   quoted, read_bytes, read_letters, repeated, small, split, unquoted, within)
from .types import (BYTES, DICTIONARIES, ELEMENTS, INTEGERS, NUMBERS, TEXTS, Type, field_ids, is_carried, logical,
                    physical, read_type, write_type)

OFFSETS = {"utf8": "i32", "binary": "i32", "list": "i32", "map": "i32"}
OFFSETS |= {"large_utf8": "i64", "large_binary": "i64", "large_list": "i64"}
ZEROS = {"bool": False, "days_ms": ("dm", 0, 0), "months_days_ns": ("mdn", 0, 0, 0)}
ZEROS |= {"utf8": "", "large_utf8": "", "binary": b"", "large_binary": b""}


def read_element(kind, text):
    """A number, or the parts of an interval or of a wide number."""
    if kind == "i256":
        high, low = wide_parts(text, 2)
        return (number(high, *NUMBERS["i128"]) << 128) + number(low, 0, 2**128 - 1)
    if kind == "days_ms":
        return ("dm", *(number(part, *NUMBERS["i32"]) for part in wide_parts(text, 2)))
    if kind == "months_days_ns":
        months, days, ns = wide_parts(text, 3)
        return ("mdn", *(number(part, *NUMBERS["i32"]) for part in (months, days)), number(ns, *NUMBERS["i64"]))
    return number(text, *NUMBERS[kind])


def wide_parts(text, wanted):
    """Numbers parted by colons."""
    parts = text.split(":")
    if len(parts) != wanted:
        raise Unjudged("parts of a number")
    return parts


def read_value(kind, text):
    """What is stored in a row of an array without children."""
    if kind == "bool":
        if text not in ("t", "f"):
            raise Unjudged("no truth value")
        return text == "t"
    if kind in TEXTS:
        return unquoted(text)
    return hexed(text) if kind in (*BYTES, "fsb") else read_element(kind, text)


def read_rows(t, texts):
    """The array of a type that these rows stand for."""
    made.no_floats(t)
    return build(t, [read_row(t, text) for text in texts])


def read_row(t, text):
    """Whether a row is valid, and what is stored in it: texts of rows where it has children."""
    t, kind = logical(t), physical(t)
    if kind == "union":
        if text == "_":
            return True, (field_ids(t)[0], "_")
        own, rest = cut(text, ":") or ("", "")
        return True, (number(own, -(2**31), 2**31 - 1), rest)
    valid = not text.startswith("_")
    rest = text if valid else text[1:]
    if not rest and not valid:
        return False, None
    if kind == "null":
        raise Unjudged("null type")
    if kind == "dict":
        if rest[:1] == "_" or rest == "&":
            raise Unjudged("row of a dictionary")
        return valid, rest[1:] if rest[:1] == "&" else rest
    if kind in ("list", "large_list", "map", "fsl"):
        return valid, repeated(within(rest, "[", "]"))
    if kind == "struct":
        return valid, split(within(rest, "(", ")"), ",")
    return valid, read_value(kind, rest)


def build(t, rows, is_kept=False):
    """The array of rows that were read. With `is_kept` a validity is there though no row is null."""
    kind, inner = physical(t), logical(t)
    made.check(is_carried(t), "Kind")
    validity = [valid for valid, _ in rows]
    validity = validity if is_kept or not all(validity) else None
    contents = [content for _, content in rows]
    if kind == "null":
        return made.null_array(t, len(rows))
    if kind == "union":
        return build_union(t, inner, contents)
    if kind == "dict":
        return build_dictionary(t, inner, contents, validity)
    if kind in ("list", "large_list", "map"):
        contents = [content or [] for content in contents]
        offsets = [0]
        for content in contents:
            offsets.append(offsets[-1] + len(content))
        child = read_rows(inner.item, [text for content in contents for text in content])
        return made.list_array(t, kind, offsets, child, validity)
    if kind == "fsl":
        return build_fixed(t, inner, contents, validity)
    if kind == "struct":
        width = len(inner.fields)
        contents = [["_"] * width if content is None else content for content in contents]
        if any(len(content) != width for content in contents):
            raise Unjudged("width of a struct")
        children = [read_rows(f.type, [content[i] for content in contents]) for i, f in enumerate(inner.fields)]
        return made.struct_array(t, children, validity)
    return build_flat(t, kind, inner, contents, validity)


def build_flat(t, kind, inner, contents, validity):
    """An array without children."""
    zero = bytes(small(inner.params[0] * bool(contents))) if kind == "fsb" else ZEROS.get(kind, 0)
    stored = [zero if content is None else content for content in contents]
    if kind == "fsb" and any(len(value) != inner.params[0] for value in stored):
        raise Unjudged("fixed size")
    return made.Array(t, kind, stored, validity)


def build_fixed(t, inner, contents, validity):
    """Lists of a fixed size."""
    by = inner.params[0]
    if any(content is not None and len(content) != by for content in contents):
        raise Unjudged("fixed size")
    if by * len(contents) > LIMIT:
        if physical(inner.item) != "null" or any(contents) or by * len(contents) >= COUNTS:
            raise Unjudged("too many rows")
        return made.fixed_lists(t, made.null_array(inner.item, by * len(contents)), validity)
    texts = [text for content in contents for text in (["_"] * by if content is None else content)]
    return made.fixed_lists(t, read_rows(inner.item, texts), validity)


def build_union(t, inner, contents):
    """A union: in a sparse one the other fields are null, in a dense one rows lie in order."""
    known, columns, places = field_ids(t), [[] for _ in inner.fields], []
    if any(own not in known for own, _ in contents):
        raise Unjudged("no such id")
    for own, text in contents:
        field = known.index(own)
        places.append(len(columns[field]))
        for i, column in enumerate(columns):
            if i == field:
                column.append(text)
            elif inner.word == "union_sparse":
                column.append("_")
    children = [read_rows(f.type, column) for f, column in zip(inner.fields, columns)]
    places = places if inner.word == "union_dense" else None
    return made.union_array(t, [own for own, _ in contents], children, places)


def build_dictionary(t, inner, contents, validity):
    """A dictionary of the distinct texts of rows in order of first occurrence."""
    distinct = list(dict.fromkeys(content for content in contents if content is not None))
    places = {text: place for place, text in enumerate(distinct)}
    key = inner.params[0]
    if len(distinct) - 1 > INTEGERS[key][1]:
        raise Refused("Overflow")
    keys = [0 if content is None else places[content] for content in contents]
    return made.dictionary_array(t, made.Array(Type(key), key, keys, validity), read_rows(inner.item, distinct))


def read_array(text):
    """An array of its text, in rows or in parts, with slices."""
    text, slices = parted_slices(text)
    t, rest = headed(text, "[{")
    if rest[0] == "[":
        is_kept = rest.endswith("?")
        made.no_floats(t)
        texts = repeated(within(rest[:-1] if is_kept else rest, "[", "]"))
        if is_kept and physical(t) in ("null", "union"):
            raise Unjudged("no validity")
        array = build(t, [read_row(t, row) for row in texts], is_kept)
    else:
        array = read_parts(t, within(rest, "{", "}"))
    for offset, length in slices:
        array = array.sliced(offset, length)
    return array


def headed(text, brackets):
    """The type that a text begins with, and what follows from a bracket on."""
    depth = 0
    for i, sign in enumerate(text):
        depth += {"<": 1, ">": -1}.get(sign, 0)
        if depth == 0 and sign in brackets:
            return read_type(text[:i]), text[i:]
    raise Unjudged("no bracket")


PARTS = {"null": "len", "bool": "values validity", "fsb": "values validity", "fsl": "values validity"}
PARTS |= {"struct": "values validity", "union": "types values offsets", "dict": "keys values"}


def read_parts(t, text):
    """An array of its parts, as they are."""
    parts = dict(part.partition("=")[::2] for part in split(text, ";"))
    kind = parts.pop("kind", physical(t))
    if kind not in (*ELEMENTS, *OFFSETS, *PARTS):
        raise Unjudged("no such kind")
    known = PARTS.get(kind, "values validity" if kind in ELEMENTS else "offsets values validity").split()
    needed = set(known) - {"validity", "offsets" if kind == "union" else ""}
    if not needed <= set(parts) <= set(known):
        raise Unjudged("parts")
    validity = read_letters(parts["validity"]) if "validity" in parts else None
    return of_parts(t, kind, parts, validity)


def of_parts(t, kind, parts, validity):
    """What the constructor of a kind makes of parts."""
    values = parts.get("values", "")
    if kind == "null":
        return made.null_array(t, count(parts["len"]))
    if kind == "bool":
        return made.flat_array(t, kind, read_letters(values), validity)
    if kind in ELEMENTS:
        return made.flat_array(t, kind, [read_element(kind, row) for row in repeated(values)], validity)
    if kind == "fsb":
        return made.fixed_bytes(t, hexed(values), validity)
    if kind in OFFSETS:
        offsets = read_offsets(OFFSETS[kind], parts["offsets"])
        if kind in (*TEXTS, *BYTES):
            return made.byte_array(t, kind, offsets, read_bytes(values), validity)
        return made.list_array(t, kind, offsets, read_array(values), validity)
    if kind == "fsl":
        return made.fixed_lists(t, read_array(values), validity)
    if kind == "dict":
        keys = read_array(parts["keys"])
        if keys.kind not in INTEGERS:
            raise Usage("keys")
        return made.dictionary_array(t, keys, read_array(values))
    children = [read_array(child) for child in split(values, "|")]
    if kind == "struct":
        return made.struct_array(t, children, validity)
    ids = [number(one, -128, 127) for one in repeated(parts["types"])]
    places = parts.get("offsets")
    places = places if places is None else [number(one, *NUMBERS["i32"]) for one in repeated(places)]
    return made.union_array(t, ids, children, places)


def read_offsets(width, text):
    """Offsets, which do not fall and begin at 0 or later."""
    offsets = [number(one, *NUMBERS[width]) for one in repeated(text)]
    rising = bool(offsets) and offsets[0] >= 0 and all(a <= b for a, b in zip(offsets, offsets[1:]))
    made.check(rising, "Offsets")
    return offsets


def write_slot(t, slot):
    """The text of a row."""
    t, kind = logical(t), physical(t)
    if slot is None:
        return "_"
    if kind == "bool":
        return "t" if slot else "f"
    if kind in TEXTS:
        return quoted(slot)
    if kind in (*BYTES, "fsb"):
        return "x" + slot.hex()
    if kind == "i256":
        return f"{slot >> 128}:{slot & (2**128 - 1)}"
    if kind in ("days_ms", "months_days_ns"):
        return ":".join(map(str, slot[1:]))
    if kind == "dict":
        inner = write_slot(t.item, slot[1])
        return ("&" if inner[0] in "_&" else "") + inner
    if kind == "union":
        return f"{slot[1]}:{write_slot(t.fields[field_ids(t).index(slot[1])].type, slot[2])}"
    if kind == "struct":
        return "(" + ",".join(write_slot(f.type, part) for f, part in zip(t.fields, slot[1])) + ")"
    if kind in ("list", "large_list", "map", "fsl"):
        return "[" + ",".join(write_slot(t.item, item) for item in listed(slot[1])) + "]"
    return str(slot)


def write_rows(t, rows):
    """The text of an array."""
    return f"{write_type(t)}[{','.join(write_slot(t, row) for row in listed(rows))}]"


class Scalar:
    """A single value: its type, its kind, and a slot; the slot of a dictionary's value is Dict."""

    def __init__(self, t, kind, slot):
        self.type, self.kind, self.slot = t, kind, slot


def scalar_of(t, kind, slot):
    """A scalar of parts."""
    if kind in ELEMENTS:
        made.check_kind(t, kind)
        return Scalar(t, kind, slot)
    if kind in ("bool", *TEXTS, *BYTES):
        if t.word != kind:
            raise Usage("scalar of an extension")
        return Scalar(t, kind, slot)
    raise Usage("no scalar")


def dictionary_scalar(t, inner):
    """A scalar of a dictionary, around another scalar or none."""
    made.check(logical(t).word in DICTIONARIES, "Kind")
    made.check(inner is None or logical(logical(t).item) == logical(inner.type), "Child")
    return Scalar(t, "dict", None if inner is None else ("&", inner.slot))


def read_scalar(text):
    """A scalar of its text."""
    t, rest = headed(text, "({")
    if rest[0] == "(":
        return scalar_of_row(t, within(rest, "(", ")"))
    parts = dict(part.partition("=")[::2] for part in split(within(rest, "{", "}"), ";"))
    value, kind = parts.get("value", ""), parts.get("kind", physical(t))
    if kind == "dict" or "kind" not in parts:
        return dictionary_scalar(t, None if value == "none" else read_scalar(value))
    if set(parts) != {"kind", "value"} or kind not in ELEMENTS:
        raise Unjudged("parts of a scalar")
    return scalar_of(t, kind, None if value in ("none", "_") else read_element(kind, value))


def scalar_of_row(t, text):
    """A scalar of a row's text."""
    kind = physical(t)
    if kind == "dict":
        if text[:1] == "_":
            return dictionary_scalar(t, None)
        inner = text[1:] if text[:1] == "&" else text
        return dictionary_scalar(t, scalar_of_row(logical(t).item, inner))
    if kind not in (*ELEMENTS, "bool", *TEXTS, *BYTES):
        raise Usage("no scalar")
    if text[:1] == "_":
        return scalar_of(t, kind, None)
    return scalar_of(t, kind, read_value(kind, text))


def write_scalar(scalar):
    """The text of a scalar."""
    return f"{write_type(scalar.type)}({write_slot(scalar.type, scalar.slot)})"
