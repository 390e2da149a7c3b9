"""The calls on bits, buffers and offsets."""

from .registry import STEPS, call, needs, offsets_of, step_of
from .text import COUNTS, Refused, Unjudged, Usage, count, read_bits, write_bits
from .types import NUMBERS

ROOM = 2**44  # what no memory has


def truth(text):
    """A bit."""
    if text not in ("t", "f"):
        raise Unjudged("no truth value")
    return text == "t"


def write_offsets(width, offsets):
    """The text of offsets."""
    return f"offsets{width[1:]}[{','.join(map(str, offsets))}]"


def write_values(values):
    """The text of numbers of 32 bits."""
    return f"i32[{','.join(map(str, values))}]"


def part(items, offset, length):
    """So many items from a place on."""
    needs(offset + length <= len(items))
    return items[offset : offset + length]


def bitwise(function):
    """A function of two bits for two lists of bits."""

    def of_bits(a, b):
        needs(len(a) == len(b))
        return write_bits(map(function, a, b))

    return of_bits


call("Bitmap::from_bools", "B")(write_bits)
call("Bitmap::clone", "B")(write_bits)
call("Bitmap::len", "B")(len)
call("Bitmap::is_empty", "B")(lambda b: not b)
call("Bitmap::unset_bits", "B")(lambda b: b.count(False))
call("Bitmap::not", "B")(lambda b: write_bits(not bit for bit in b))
call("Bitmap::eq", "B B")(lambda a, b: a == b)
call("Bitmap::and", "B B")(bitwise(lambda a, b: a and b))
call("Bitmap::or", "B B")(bitwise(lambda a, b: a or b))
call("Bitmap::and_not", "B B")(bitwise(lambda a, b: a and not b))
call("Bitmap::word", "B n")(lambda b, j: sum(bit << k for k, bit in enumerate(b[64 * j : 64 * j + 64])))
for name in ("Bitmap::slice", "Bitmap::sliced"):
    call(name, "B n n")(lambda b, o, n: write_bits(part(b, o, n)))
call("Bitmap::equal_range", "B n B n n")(lambda a, s, b, o, n: part(a, s, n) == part(b, o, n))
call("Buffer::from_vec", "L")(write_values)
call("Buffer::clone", "L")(write_values)
call("Buffer::len", "L")(len)
call("Buffer::is_empty", "L")(lambda values: not values)
for name in ("Buffer::slice", "Buffer::sliced"):
    call(name, "L n n")(lambda values, o, n: write_values(part(values, o, n)))
call("OffsetsBuffer::try_from", "O")(lambda o: write_offsets(*o))
call("OffsetsBuffer::clone", "O")(lambda o: write_offsets(*o))
call("OffsetsBuffer::len", "O")(lambda o: len(o[1]))
call("OffsetsBuffer::last", "O")(lambda o: o[1][-1])


@call("Bitmap::new_zeroed", "n")
def new_zeroed(n):
    """So many bits that are not set."""
    if n >= 2**48:
        raise Refused("OutOfMemory")
    if n > 10**5:
        raise Unjudged("memory")
    return write_bits([False] * n)


@call("Bitmap::new_constant", "W n")
def new_constant(value, n):
    """So many bits that are equal to a truth value."""
    if n >= 2**48:
        raise Refused("OutOfMemory")
    if n > 10**5:
        raise Unjudged("memory")
    return write_bits([value == "t"] * n)


@call("Bitmap::get_bit", "B n")
def get_bit(bits, i):
    """A bit."""
    needs(i < len(bits))
    return bits[i]


@call("Bitmap::run_at", "B n n")
def run_at(bits, start, end):
    """The bit at a place, and where its run ends."""
    needs(start < end <= len(bits))
    i = start
    while i < end and bits[i] == bits[start]:
        i += 1
    return f"{'true' if bits[start] else 'false'} {i}"


@call("Bitmap::runs", "B n n")
def runs(bits, start, length):
    """Runs of bits that are not set and of such that are, until none is left."""
    rest, found = part(bits, start, length), []
    while rest:
        unset = rest.index(True) if True in rest else len(rest)
        after = rest[unset:]
        ones = after.index(False) if False in after else len(after)
        found.append(f"({unset},{ones})")
        rest = after[ones:]
    return " ".join(found) or "none"


@call("Bitmap::repeated", "B n n n")
def repeated(bits, start, length, times):
    """Each bit of a part so many times."""
    bits = part(bits, start, length)
    needs(len(bits) * times < 2**64)
    if len(bits) * times >= 2**48:
        raise Refused("OutOfMemory")
    if len(bits) * times > 10**5:
        raise Unjudged("memory")
    return write_bits([bit for bit in bits for _ in range(times)])


@call("OffsetsBuffer::start_end", "O n")
def start_end(offsets, i):
    """Where a row begins and ends."""
    needs(i + 1 < len(offsets[1]))
    return f"{offsets[1][i]} {offsets[1][i + 1]}"


@call("OffsetsBuffer::range", "O n n")
def offsets_range(offsets, start, length):
    """Where rows begin and end."""
    needs(start + length < len(offsets[1]))
    return f"{offsets[1][start]} {offsets[1][start + length]}"


@call("OffsetsBuffer::slice", "O n n")
def offsets_slice(offsets, start, length):
    """So many offsets from a place on."""
    needs(length >= 1)
    return write_offsets(offsets[0], part(offsets[1], start, length))


@call("append_span", "x x n n")
def append_span(out, values, start, end):
    """Bytes with some of others behind them."""
    needs(start <= end <= len(values))
    return "x" + (out + values[start:end]).hex()


def bitmap_steps(steps):
    """A line of a bitmap that grows."""
    needs(steps)
    name, arguments = step_of(steps[0])
    if name == "with_capacity" and len(arguments) == 1:
        capacity = count(arguments[0])
        if capacity > 10**6:
            raise Refused("OutOfMemory") if capacity >= 2**48 else Unjudged("memory")
    else:
        needs(name == "new" and not arguments)
    bits, answers = [], []
    for step in steps[1:]:
        name, arguments = step_of(step)
        if name in ("len", "is_empty") and not arguments:
            answers.append(str(len(bits)) if name == "len" else "false" if bits else "true")
            continue
        more = appended_bits(name, arguments)
        if isinstance(more, list):
            bits += more
        elif more + len(bits) >= COUNTS:
            answers.append("Overflow")
        elif more >= 2**48:
            answers.append("OutOfMemory")
        else:
            raise Unjudged("memory")
    return " ".join(answers + [write_bits(bits)])


def appended_bits(name, arguments):
    """The bits that a step appends; their number where they are too many to be listed."""
    if name == "push" and len(arguments) == 1:
        return [truth(arguments[0])]
    if name == "extend_constant" and len(arguments) == 2:
        times, bit = count(arguments[0]), truth(arguments[1])
        return [bit] * times if times <= 10**5 else times
    if name == "extend_from_bitmap" and len(arguments) == 3:
        return part(read_bits(arguments[0]), count(arguments[1]), count(arguments[2]))
    if name == "push_word" and len(arguments) == 2:
        word, length = map(count, arguments)
        needs(length <= 64)
        return [bool(word >> k & 1) for k in range(length)]
    raise Usage("step")


def offsets_steps(width):
    """Lines of offsets of a width that grow."""

    def run(steps):
        needs(steps)
        name, arguments = step_of(steps[0])
        needs(name == "with_capacity" and len(arguments) == 1)
        capacity = count(arguments[0])
        if capacity > 10**6:
            raise Refused("OutOfMemory") if capacity >= ROOM else Unjudged("memory")
        offsets, answers = [0], []
        for step in steps[1:]:
            name, arguments = step_of(step)
            if name in ("len", "last") and not arguments:
                answers.append(str(len(offsets) if name == "len" else offsets[-1]))
                continue
            lengths = appended_lengths(width, name, arguments)
            if lengths is None:
                answers.append("OutOfMemory")
            elif offsets[-1] + sum(lengths) > NUMBERS[width][1]:
                answers.append("Overflow")
            else:
                for length in lengths:
                    offsets.append(offsets[-1] + length)
        return " ".join(answers + [write_offsets(width, offsets)])

    return run


def appended_lengths(width, name, arguments):
    """The lengths of the rows that a step appends; None where no memory has room for them."""
    if name == "try_push_usize" and len(arguments) == 1:
        return [count(arguments[0])]
    if name == "extend_constant" and len(arguments) == 1:
        times = count(arguments[0])
        if 10**5 < times < ROOM:
            raise Unjudged("memory")
        return [0] * times if times < ROOM else None
    if name in ("try_extend_from_slice", "try_extend_from_valid") and len(arguments) == 3:
        other, offsets = offsets_of(arguments[0])
        needs(other == width)
        start = count(arguments[1])
        lengths = [end - first for first, end in zip(offsets, offsets[1:])]
        if name == "try_extend_from_slice":
            return part(lengths, start, count(arguments[2]))
        bits = read_bits(arguments[2])
        needs(start <= len(bits) <= len(lengths))
        return [length if bit else 0 for length, bit in zip(lengths[start:], bits[start:])]
    raise Usage("step")


STEPS |= {"MutableBitmap": bitmap_steps, "Offsets32": offsets_steps("i32"), "Offsets64": offsets_steps("i64")}
