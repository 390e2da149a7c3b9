"""Pieces of a line, the ways in which a line is refused, and long runs of one slot."""

LIMIT = 2**24  # more rows than these are counted and never listed
COUNTS = 2**64


class Refused(Exception):
    """The call refuses: the answer is `error NAME`."""


class Usage(Exception):
    """A condition of the call, or the form of its arguments, does not hold."""


class Unjudged(Exception):
    """The line is outside of what the model knows."""


class Run:
    """One slot so many times, also more often than fits memory."""

    def __init__(self, slot, count):
        self.slot, self.count = slot, count

    def __iter__(self):
        return iter(listed(self))

    def __getitem__(self, part):
        if isinstance(part, slice):
            first = part.start or 0
            return Run(self.slot, (self.count if part.stop is None else part.stop) - first)
        return self.slot


def size(rows):
    """How many rows there are."""
    return rows.count if isinstance(rows, Run) else len(rows)


def listed(rows):
    """The rows as a list."""
    if not isinstance(rows, Run):
        return rows
    if rows.count > LIMIT:
        raise Unjudged("too many rows")
    return [rows.slot] * rows.count


def same(rows, others):
    """Whether two lists of rows are equal."""
    if isinstance(rows, Run) and isinstance(others, Run):
        return rows.count == others.count and (rows.count == 0 or rows.slot == others.slot)
    return size(rows) == size(others) and listed(rows) == listed(others)


def joined(pieces):
    """One list of rows after the other."""
    pieces = [piece for piece in pieces if size(piece)]
    if len(pieces) == 1:
        return pieces[0]
    total = sum(map(size, pieces))
    if pieces and all(isinstance(piece, Run) and piece.slot == pieces[0].slot for piece in pieces):
        return Run(pieces[0].slot, total)
    if total > LIMIT:
        raise Unjudged("too many rows")
    return [row for piece in pieces for row in piece]


def mapped(change, rows):
    """Each row changed."""
    if isinstance(rows, Run):
        return Run(change(rows.slot), rows.count)
    return [change(row) for row in rows]


def split(text, separator):
    """Parts the text outside quotes and brackets; an empty text has no part."""
    parts, depth, first, i = [], 0, 0, 0
    while i < len(text):
        sign = text[i]
        if sign == '"':
            i = end_of_quote(text, i)
        elif sign in "([{<":
            depth += 1
        elif sign in ")]}>":
            depth -= 1
        elif sign == separator and depth == 0:
            parts.append(text[first:i])
            first = i + 1
        i += 1
    return parts + [text[first:]] if text else []


def end_of_quote(text, i):
    """The place of the quote that ends the one at place i."""
    i += 1
    while i < len(text) and text[i] != '"':
        i += 2 if text[i] == "\\" else 1
    if i >= len(text):
        raise Unjudged("open quote")
    return i


def cut(text, separator):
    """The text before and after the first separator outside quotes and brackets, or None."""
    parts = split(text, separator)
    return (parts[0], text[len(parts[0]) + 1 :]) if len(parts) > 1 else None


def words(line):
    """The words of a line: parted by spaces outside quotes."""
    found, first, i = [], 0, 0
    while i < len(line):
        if line[i] == '"':
            i = end_of_quote(line, i)
        elif line[i] == " ":
            found.append(line[first:i])
            first = i + 1
        i += 1
    return [word for word in found + [line[first:]] if word]


def within(text, opening, closing):
    """What stands between two brackets that are the first and the last character."""
    if len(text) < 2 or text[0] != opening or text[-1] != closing:
        raise Unjudged(f"no {opening}{closing}: {text[:40]}")
    return text[1:-1]


def number(text, least, greatest):
    """A decimal number; outside its range it is a fault of usage."""
    digits = text[1:] if text[:1] == "-" else text
    if not (digits.isascii() and digits.isdigit()):
        raise Unjudged(f"no number: {text[:40]}")
    value = int(text)
    if not least <= value <= greatest:
        raise Usage("number")
    return value


def count(text):
    """A number of rows or a place."""
    return number(text, 0, COUNTS - 1)


def repeated(text):
    """The items of a list, those with `*N` so many times."""
    items = []
    for item in split(text, ","):
        one, star, times = item.rpartition("*")
        if star and times.isdigit() and one and item[-1] != '"':
            items += [one] * small(int(times))
        elif item:
            items.append(item)
        else:
            raise Unjudged("empty item")
    return items


def small(times):
    """A number of repetitions that can be listed."""
    if times > LIMIT:
        raise Unjudged("too many rows")
    return times


ESCAPES = {'"': '"', "\\": "\\", "n": "\n"}


def unquoted(text):
    """The text between quotes."""
    inner, out, i = within(text, '"', '"'), [], 0
    while i < len(inner):
        if inner[i] == '"' or (inner[i] == "\\" and inner[i + 1 : i + 2] not in ESCAPES):
            raise Unjudged("quote or escape")
        out.append(ESCAPES[inner[i + 1]] if inner[i] == "\\" else inner[i])
        i += 2 if inner[i] == "\\" else 1
    return "".join(out)


def quoted(text):
    """A text between quotes."""
    return '"' + text.replace("\\", "\\\\").replace('"', '\\"').replace("\n", "\\n") + '"'


def hexed(text):
    """Bytes of `x` and pairs of digits."""
    digits = text[1:]
    if text[:1] != "x" or len(digits) % 2 or not set(digits) <= set("0123456789abcdef"):
        raise Unjudged(f"no bytes: {text[:40]}")
    return bytes.fromhex(digits)


def read_bytes(text):
    """Bytes, as digits or as a text."""
    return unquoted(text).encode() if text[:1] == '"' else hexed(text)


def parted_slices(text):
    """A text without the slices at its end, and these as pairs of offset and length."""
    slices = []
    while True:
        head, at, tail = text.rpartition("@")
        offset, plus, length = tail.partition("+")
        if not (at and plus and offset.isdigit() and length.isdigit()):
            return text, slices[::-1]
        slices.append((count(offset), count(length)))
        text = head


def sliced(items, slices):
    """A list sliced in turn; a slice outside is a fault of usage."""
    for offset, length in slices:
        if offset + length > size(items):
            raise Usage("slice")
        items = items[offset : offset + length]
    return items


def read_letters(text):
    """Bits as letters, and slices of these."""
    text, slices = parted_slices(text)
    bits, i = [], 0
    while i < len(text):
        if text[i] not in "tf":
            raise Unjudged("no bit")
        first = i
        i += 1
        if text[i : i + 1] == "*":
            end = i + 1
            while end < len(text) and text[end].isdigit():
                end += 1
            bits += [text[first] == "t"] * small(number(text[i + 1 : end], 0, COUNTS - 1))
            i = end
        else:
            bits.append(text[first] == "t")
    return sliced(bits, slices)


def read_bits(text):
    """Bits between brackets, and slices of these."""
    text, slices = parted_slices(text)
    if not text.startswith("bits"):
        raise Unjudged("no bits")
    return sliced(read_letters(within(text[4:], "[", "]")), slices)


def write_bits(bits):
    """Bits between brackets."""
    return "bits[" + "".join("t" if bit else "f" for bit in bits) + "]"
