"""Random lines: every call, with arguments that mostly meet its conditions."""

from .calls import CALLS, MODULES, RELATIONS, SAMENESS
from .growables import TYPED
from .random_arrays import LISTS, TIMES, UNIONS, Maker
from .types import (BYTES, INTEGERS, INTERVALS, TEXTS, Type, has_equality, physical, write_type)

LONGEST = 2000
FLAT = (*INTEGERS, *TEXTS, *BYTES, "bool", "date32", *TIMES)
KINDS = {"primitive": (*INTEGERS, "date32", "date64", "time32", "timestamp", "interval", "decimal", "decimal256"),
         "boolean": ("bool",), "utf8": TEXTS, "binary": BYTES, "list": ("list", "large_list"),
         "fixed_size_list": ("fsl",), "structure": ("struct",), "dict": ("dict", "ordered_dict")}
GROWN = {"GrowableBoolean": "boolean", "GrowablePrimitive": "primitive", "GrowableUtf8": "utf8",
         "GrowableBinary": "binary", "GrowableList": "list", "GrowableFixedSizeList": "fixed_size_list",
         "GrowableStruct": "structure", "GrowableDictionary": "dict"}
KINDS |= {"null": ("null",), "map": ("map", "sorted_map"), "fixed_size_binary": ("fsb",), "union": UNIONS}
GROWN |= {"GrowableNull": "null", "GrowableMap": "map", "GrowableUnion": "union",
          "GrowableFixedSizeBinary": "fixed_size_binary"}


def random_lines(seed, count):
    """So many lines, the same for a seed."""
    maker = Maker(seed)
    for _ in range(count):
        line = None
        while line is None or len(line) > LONGEST:
            maker.spoiled, maker.crowds = maker.chance(0.12), maker.chance(0.1)
            line = maker.choices(GROUPS, SHARES)[0](maker)
        yield line


def types_line(m):
    """A question about types alone."""
    name = m.choice([name for name in CALLS if CALLS[name][0] in (["T"], ["T", "T"])])
    types = [m.type() if m.chance(0.8) else odd_type(m) for _ in CALLS[name][0]]
    if len(types) == 2 and m.chance(0.6):
        types[1] = types[0]
    return " ".join([name, *map(write_type, types)])


def odd_type(m):
    """A type that is not carried."""
    odd = m.choice((Type("f32"), Type("f64"), Type("struct"), Type("fsb", (0,)), Type("union_dense")))
    return m.choice((odd, m.dictionary(odd), Type("struct", (), (m.field(0), m.field(0)._replace(type=odd)))))


def memory_line(m):
    """A call on bits, bytes, offsets or buffers."""
    return m.choice((bitmap_line, bitmap_line, bitmap_steps, offsets_line, offsets_steps, buffer_line))(m)


def bits(m, n):
    """A bitmap of so many bits."""
    letters, at, tail = m.bits(n).partition("@")
    return f"bits[{letters}]{at}{tail}"


def inside(m, n):
    """A range of so many rows."""
    start = m.randint(0, n)
    return start, m.other(m.randint(0, n - start))


def bitmap_line(m):
    """A call on one or two bitmaps."""
    n = m.length()
    one, other, (start, count) = bits(m, n), bits(m, m.other(n)), inside(m, n)
    name = m.choice("from_bools new_zeroed new_constant len is_empty get_bit word unset_bits slice sliced equal_range and or "
                    "and_not not eq clone run_at runs".split())
    more = {"get_bit": m.other(m.randrange(max(n, 1))), "word": m.randint(0, 3), "and": other, "or": other,
            "and_not": other, "eq": m.choice((one, other)), "slice": f"{start} {count}", "sliced": f"{start} {count}",
            "runs": f"{start} {count}", "equal_range": f"{start} {m.choice((one, other))} {start} {count}",
            "run_at": f"{start} {start + count}"}.get(name, "")
    if name == "new_constant":
        return f"Bitmap::{name} {m.choice('tf')} {m.randint(0, 70)}"
    return f"Bitmap::{name} {m.randint(0, 70) if name == 'new_zeroed' else one} {more}".rstrip()


def bitmap_steps(m):
    """A bitmap that grows."""
    steps = [m.choice(("new()", f"with_capacity({m.length()})"))]
    for _ in range(m.randint(1, 6)):
        n = m.length()
        start, count = inside(m, n)
        steps.append(m.choice((f"push({m.choice('tf')})", f"extend_constant({n},{m.choice('tf')})", "len()", "is_empty()",
                               f"extend_from_bitmap({bits(m, n)},{start},{count})",
                               f"push_word({m.getrandbits(64)},{m.other(m.choice((1, 7, 63, 64)))})")))
    if m.chance(0.1):
        steps += ["extend_constant(18446744073709551615,t)", "push(t)"]
    return " ".join(["MutableBitmap", *steps])


def offsets(m, width):
    """Offsets of a width, and how many rows they have."""
    n = m.length()
    texts = [m.choice((0, 0, 1, 5))]
    for _ in range(n):
        texts.append(texts[-1] + m.choice((0, 1, 2, 2, 3)))
    if m.chance(0.05):
        texts[-1] = 2 ** (width - 1) - 1
    if m.spoils():
        texts[0] = m.choice((-1, 999999))
    return f"offsets{width}[{','.join(map(str, texts))}]", n


def offsets_line(m):
    """A call on offsets."""
    text, n = offsets(m, m.choice((32, 64)))
    start, count = inside(m, n)
    name = m.choice("try_from len last start_end range slice clone".split())
    more = {"start_end": m.other(m.randrange(max(n, 1))), "range": f"{start} {count}", "slice": f"{start} {count + 1}"}
    return f"OffsetsBuffer::{name} {text} {more.get(name, '')}".rstrip()


def offsets_steps(m):
    """Offsets that grow."""
    width = m.choice((32, 64))
    steps = [f"with_capacity({m.randint(0, 9)})"]
    for _ in range(m.randint(1, 6)):
        text, n = offsets(m, width)
        start, count = inside(m, n)
        steps.append(m.choice((f"try_push_usize({m.choice((0, 1, 3, 2**31 - 5, 2**63 - 9, 2**64 - 1))})", "len()",
                               f"extend_constant({m.length()})", f"try_extend_from_slice({text},{start},{count})",
                               f"try_extend_from_valid({text},{start},{bits(m, start + count)})", "last()")))
    return " ".join([f"Offsets{width}", *steps])


def buffer_line(m):
    """A call on a buffer, or on bytes."""
    n = m.length()
    start, count = inside(m, n)
    if m.chance(0.2):
        return f"append_span x{m.randbytes(m.randint(0, 3)).hex()} x{m.randbytes(n).hex()} {start} {start + count}"
    name = m.choice("from_vec slice sliced clone len is_empty".split())
    return f"Buffer::{name} {m.array(Type('i32'), n)} {f'{start} {count}' if 'slice' in name else ''}".rstrip()


def array_line(m):
    """A question to an array."""
    t, n = m.type(), m.length(5)
    name = m.choice("try_new try_new try_new AnyArray::len AnyArray::is_empty AnyArray::null_count AnyArray::data_type "
                    "AnyArray::validity AnyArray::clone AnyArray::is_valid AnyArray::slice AnyArray::sliced "
                    "AnyArray::eq with_validity".split())
    more = ""
    if name == "AnyArray::is_valid":
        more = m.other(m.randrange(max(n, 1)))
    elif "slice" in name:
        more = "{} {}".format(*inside(m, n))
    elif name == "AnyArray::eq":
        text = m.array(t, n)
        return f"{name} {text} {m.choice((text, m.array(t, n), m.array(m.type(), n)))}"
    elif name == "with_validity":
        t, n = m.type(2, (*FLAT, *LISTS, "struct", "fsl")), m.length()
        more = m.choice(("none", bits(m, m.other(n))))
    return f"{name} {m.array(t, n)} {more}".rstrip()


ODD = ("struct<>{values=}", "f32{kind=i32;values=1}", "fsb<0>{values=x}", "fsl<0,i32>{values=i32[]}",
       "list<f32>{offsets=0;values=i32[]}", "map<i32>{offsets=0,1;values=i32[1]}", "i32{kind=bool;values=t}",
       "utf8{kind=large_utf8;offsets=0;values=x}", "list<i32>{kind=large_list;offsets=0;values=i32[]}",
       "dict<i8,bool>{keys=i16[0];values=bool[t]}", "utf8{offsets=0,1,2;values=xc3a9}", "utf8{offsets=0,1;values=xff}",
       "union_sparse<i32>{types=0;values=i32[1];offsets=0}", "union_dense<i32>{types=0;values=i32[1]}",
       "null{kind=null;len=3}", "bool{kind=null;len=1}", "null{len=18446744073709551615}@18446744073709551615+0",
       "union_dense<2:i32,1:i32>{types=1,2,1;values=i32[1,2]|i32[3];offsets=0,1,0}", "struct<i32>{values=}")


def odd_line(m):
    """Parts that a constructor refuses, or hardly takes."""
    return f"try_new {m.choice(ODD)}"


def layout_line(m):
    """A question to the parts of an array."""
    n = m.length(5)
    name, words = m.choice((("AnyKeys::key", "dict"), ("AnyKeys::len", "dict"), ("AnyOffsetsBuffer::start_end", "list"),
                            ("AnyOffsetsBuffer::len", "list"), ("UnionArray::index", "union"), ("are_within", "dict"),
                            ("UnionArray::start", "union"), ("FixedSizeListArray::size", "fixed_size_list"),
                            ("FixedSizeBinaryArray::size", "fixed_size_binary"), ("FlatArray::equal_range", "list")))
    if name == "are_within":
        return f"{name} {m.indices(m.choice(tuple(INTEGERS)), n, 5)} {m.randint(3, 6)}"
    if name == "FlatArray::equal_range":
        t, (start, count) = m.type(0, FLAT), inside(m, n)
        text = m.array(t, n)
        return f"{name} {text} {start} {m.choice((text, m.array(t, n)))} {start} {count}"
    more = m.other(m.randrange(max(n, 1))) if CALLS[name][0][-1] == "n" else ""
    return f"{name} {m.array(m.type(2, KINDS[words]), n)} {more}".rstrip()


def new_line(m):
    """An array of null slots, or of no rows, or a batch."""
    if m.chance(0.3):
        name, n = m.choice(("Chunk::try_new", "Chunk::into_arrays")), m.length(4)
        return " ".join([name] + [m.array(m.type(2), m.other(n)) for _ in range(m.randint(0, 3))])
    t = odd_type(m) if m.spoils() else m.type()
    return f"new_null_array {write_type(t)} {m.length(4)}" if m.chance(0.6) else f"new_empty_array {write_type(t)}"


def scalar_type(m):
    """A type that scalars have, dictionaries of such too."""
    t = m.type(0, FLAT)
    while physical(t) == "fsb":
        t = m.type(0, FLAT)
    return m.dictionary(t) if m.chance(0.3) else t


def scalar_line(m):
    """A question to a scalar."""
    return f"{m.choice(('Scalar::new', 'AnyScalar::is_valid', 'AnyScalar::data_type'))} {m.scalar(scalar_type(m))}"


def grown_line(m):
    """A growable and its steps."""
    name = m.choice(("make_growable", "make_growable", *TYPED))
    t = m.type(3) if name == "make_growable" else m.type(2, KINDS[GROWN[name]])
    counts = [m.length(4) for _ in range(m.randint(1, 3))]
    arrays = [m.array(m.type() if m.chance(0.03) and m.spoils() else t, n) for n in counts]
    steps = []
    for _ in range(m.randint(1, 7)):
        i = m.randrange(len(counts))
        start, count = inside(m, counts[i])
        predicate = m.array(Type("bool"), m.other(counts[i]) if m.chance(0.2) else counts[i])
        step = m.choices((f"extend({m.other(i) if m.chance(0.2) else i},{start},{count})", f"extend_into({i},{predicate})",
                          f"extend_validity({m.randint(0, 3)})", "len()", "as_box()"), (6, 3, 2, 1, 2))[0]
        steps.append(step)
    steps.append(m.choice(("as_box()", "into_array()")) if name != "make_growable" else "as_box()")
    return " ".join([name, m.choice("tf"), str(m.choice((0, 1, 10))), *arrays, ":", *steps])


def select_line(m):
    """A selection of rows."""
    n, t = m.length(), m.type(3)
    if n > 6 and m.chance(0.6):
        t = m.flat()
    predicate = m.array(Type("bool"), n)
    name = m.choice("concatenate::concatenate join_arrays window::shift filter::filter filter::filter_chunk "
                    "filter::build_filter if_then_else::if_then_else if_then_else::if_then_else "
                    "concatenate::concatenate filter::extend_from_word".split())
    other = m.type() if m.spoils() else t
    if name in ("concatenate::concatenate", "join_arrays"):
        arrays = [m.array(t, m.length(4)) for _ in range(m.choice((0, 1, 1, 2, 2) if m.spoils() else (1, 2, 2)))]
        return " ".join([name, m.array(other, m.length(4)), *arrays] if arrays or m.chance(0.5) else [name])
    if name == "window::shift":
        return f"{name} {m.array(t, n)} {m.other(m.randint(-n, n))}"
    if name == "if_then_else::if_then_else":
        return f"{name} {predicate} {m.array(t, m.other(n))} {m.array(other, n)}"
    if name == "filter::filter":
        return f"{name} {m.array(t, m.other(n))} {predicate}"
    if name == "filter::extend_from_word":
        t = m.type(0, KINDS["primitive"])
        values = [f"{write_type(t)}{{values={','.join(m.element(physical(t)) for _ in range(c))}}}" for c in (m.length(3), n)]
        return f"{name} {' '.join(values)} {m.choice((m.getrandbits(64), 2**64 - 1, 5))}"
    columns = [m.array(m.type(2) if n < 7 else m.flat(), m.other(n)) for _ in range(m.randint(0, 2))]
    return " ".join([name, predicate, *columns])


def ranges_line(m):
    """The runs of a predicate."""
    name = m.choice(("Filter::ranges", "if_then_else::if_then_else_ranges"))
    return f"{name} {m.array(Type('bool'), m.choice((m.length(), m.length(), 63, 64, 65, 128, 130)))}"


def crowded_line(m):
    """Dictionaries with narrow keys and many values, joined."""
    m.crowds, n = True, m.randint(0, 4)
    t = m.dictionary(m.choice((m.flat(), m.dictionary(m.flat()))))._replace(params=(m.choice(("i8", "u8")),))
    for _ in range(m.choice((0, 0, 1, 2))):
        word = m.choice(("list", "large_list", "fsl", "struct", *UNIONS, "dict"))
        t = m.dictionary(t) if word == "dict" else m.nested(word, 0)._replace(fields=(m.field(0)._replace(type=t),), ids=None)
    counts = [n, n] + [m.randint(0, 4)] * m.randint(0, 1)
    arrays = [m.array(t, count) for count in counts]
    steps = ["extend({},{},{})".format(i, *inside(m, counts[i])) for i in m.choices(range(len(counts)), k=3)]
    return m.choice((f"concatenate::concatenate {' '.join(arrays)}", f"join_arrays {' '.join(arrays)}",
                     f"make_growable f 0 {' '.join(arrays)} : {' '.join(steps)} as_box() len() extend_validity(1)",
                     f"if_then_else::if_then_else {m.array(Type('bool'), n)} {' '.join(arrays[:2])}",
                     f"take::take {arrays[0]} {m.indices('u8', 3, n)}", f"window::shift {arrays[0]} {m.randint(-n, n)}"))


def take_line(m):
    """Rows by index, of any array or of a kind."""
    modules = (*MODULES, "list", "fixed_size_list", "structure", "dict", "map", "union", "fixed_size_binary")
    name, n = m.choice(("take",) * 4 + modules), m.length(4)
    t = m.type(3) if name == "take" else m.type(2, KINDS[name])
    values = m.array(t, n) if not m.chance(0.1) else m.array(m.flat(), n)
    name = "take::take" if name == "take" else f"take::{name}::take"
    return f"{name} {values} {m.indices(m.choice(tuple(INTEGERS)), m.length(), n)}"


def logic_line(m):
    """Logic, validities, lengths, parts of texts."""
    n = m.length()
    p, q = m.array(Type("bool"), n), m.array(Type("bool"), m.other(n))
    module = m.choice(("boolean", "boolean_kleene"))
    scalar = m.scalar(Type("bool"))
    texts = m.array(m.flat() if m.spoils() else m.type(0, (*TEXTS, *BYTES)), n)
    validities = [m.choice(("none", bits(m, n), bits(m, m.other(n)))) for _ in "lr"]
    part = f"{m.choice((0, 1, 2, -1, -2, 9, -9, 2**40, -(2**63), 2**63 - 1))} {m.choice(('none', 0, 1, 2, 2**64 - 1))}"
    return m.choice((f"{module}::{m.choice(('and', 'or'))} {p} {q}", f"{module}::{m.choice(('any', 'all'))} {p}",
                     f"{module}::{m.choice(('and', 'or'))}_scalar {p} {scalar}", f"boolean::not {p}",
                     f"boolean::{m.choice(('is_null', 'is_not_null'))} {m.array(m.type(), min(n, 6))}",
                     f"utils::combine_validities {' '.join(validities)}", f"length::length {texts}",
                     f"utils::check_same_len {p} {m.array(m.type(1), m.other(n))}", f"substring::substring {texts} {part}",
                     f"comparison::finish_{m.choice(('eq', 'neq'))}_validities {p} {' '.join(validities)}"))


def nullif_line(m):
    """Values taken away."""
    n, t = m.length(), m.type(0, KINDS["primitive"])
    name, other = m.choice(("nullif", "primitive_nullif")), m.type(0, KINDS["primitive"]) if m.spoils() else t
    if m.chance(0.5):
        return f"nullif::{name} {m.array(t, n)} {m.array(other, m.other(n))}"
    return f"nullif::{name}_scalar {m.array(t, n)} {m.scalar(other, 0.05)}"


def compared_line(m):
    """A comparison, typed or not."""
    module, n = m.choice((None, None, *MODULES)), m.length()
    name = m.choice((*RELATIONS, *RELATIONS, *SAMENESS))
    t = m.type(0, KINDS[module]) if module else m.type(0, FLAT)
    while not has_equality(t) or (physical(t) in INTERVALS and name[0] in "lg" and m.chance(0.9)):
        t = m.type(0, KINDS[module]) if module else m.type(0, FLAT)
    prefix = f"comparison::{module}::" if module else "comparison::"
    by_value = module and name in RELATIONS and m.chance(0.3)
    if m.chance(0.5):
        other = m.type() if m.spoils() else t
        name = f"relate {name}" if by_value else name
        return f"{prefix}{name} {m.array(t, n)} {m.array(other, m.other(n))}"
    if not module and m.chance(0.4):
        t = m.dictionary(m.dictionary(t) if m.chance(0.3) else t)
    scalar = name.replace("eq", "eq_scalar", 1) if name in SAMENESS else name + "_scalar"
    scalar = f"relate_scalar {name}" if by_value else scalar
    return f"{prefix}{scalar} {m.array(t, n)} {m.scalar(t, 0.05 if module else 0.25)}"


GROUPS, SHARES = zip((types_line, 5), (memory_line, 12), (array_line, 14), (odd_line, 1), (layout_line, 5), (new_line, 4),
                     (scalar_line, 2), (grown_line, 16), (select_line, 18), (ranges_line, 4), (crowded_line, 6), (take_line, 10),
                     (logic_line, 9), (nullif_line, 4), (compared_line, 16))
