"""Random types, rows and arrays as text, hostile in what they store where no row is."""

from random import Random

from .text import quoted
from .types import (BYTES, ELEMENTS, INTEGERS, LISTS, NUMBERS, SPANS, TEXTS, UNIONS, UNITS, Field, Type, field_ids,
                    logical, physical, write_type)

WORDS = (*INTEGERS, *TEXTS, *BYTES, "bool", "null", "date32", "date64")
TIMES = ("time32", "time64", "duration", "timestamp", "interval", "decimal", "decimal256", "fsb")
NESTS = (*LISTS, *UNIONS, "fsl", "struct", "dict", "dict", "ordered_dict", "ext", "struct", "list")
LETTERS = ("a", "b", "é", "€", "😀", '"', "\\", "\n", "@1+2", " ", "_", "&", ",", "]")


def write_bits(bits):
    """Bits as letters, long runs shortened."""
    text, i = "", 0
    while i < len(bits):
        end = i
        while end < len(bits) and bits[end] == bits[i]:
            end += 1
        letter = "t" if bits[i] else "f"
        text += letter * (end - i) if end - i < 3 else f"{letter}*{end - i}"
        i = end
    return text


class Maker(Random):
    """Makes texts. With `spoiled` set, the next thing that may be wrong is."""

    spoiled = False
    crowds = False  # whether narrow dictionaries have many values, so that joined keys do not fit

    def spoils(self):
        """Whether something is to be wrong here, once a line."""
        if self.spoiled and self.random() < 0.4:
            self.spoiled = False
            return True
        return False

    def chance(self, share):
        """Whether something that has this share happens."""
        return self.random() < share

    def length(self, most=6):
        """A count of rows: small mostly, and now and then about the words of 64."""
        if most == 6 and self.chance(0.06):
            return self.choice((60, 63, 64, 65, 66, 70, 127, 128, 129, 130))
        return self.randint(0, most)

    def other(self, n):
        """A count that is mostly this one."""
        return n + self.randint(1, 2) if self.spoils() else n

    # Types.

    def type(self, depth=3, words=None):
        """A carried type, of these words at the top where they are given."""
        word = self.choice(words or (WORDS if depth == 0 or self.chance(0.35) else (*TIMES, *NESTS, *NESTS)))
        if word in ("time32", "time64", "duration"):
            return Type(word, (self.choice(UNITS),))
        if word == "timestamp":
            return Type(word, (self.choice(UNITS), self.choice((None, "UTC", "+01:00"))))
        if word == "interval":
            return Type(word, (self.choice(SPANS),))
        if word.startswith("decimal"):
            return Type(word, (self.randint(1, 38), self.randint(0, 9)))
        if word == "fsb":
            return Type(word, (self.randint(1, 3),))
        return self.nested(word, max(depth - 1, 0)) if word in (*NESTS, "ext") else Type(word)

    def nested(self, word, depth):
        """A type with children."""
        if word == "fsl":
            return Type(word, (self.randint(1, 3),), (self.field(depth),))
        if word in ("map", "sorted_map"):
            entries = Type("struct", (), (self.field(max(depth - 1, 0)), self.field(max(depth - 1, 0))))
            return Type(word, (), (Field(self.choice(("item", "entries")), entries, True),))
        if word in LISTS:
            return Type(word, (), (self.field(depth),))
        if word in ("dict", "ordered_dict"):
            return self.dictionary(self.type(depth), word)
        if word == "ext":
            return Type(word, (self.choice("xy"), self.choice((None, "m"))), (Field("item", self.type(depth), True),))
        fields = tuple(self.field(depth) for _ in range(self.randint(1, 3)))
        given = word in UNIONS and self.chance(0.5)
        return Type(word, (), fields, tuple(self.sample(range(128), len(fields))) if given else None)

    def dictionary(self, t, word="dict"):
        """A dictionary of a type."""
        return Type(word, (self.choice(("i8", "u8", *INTEGERS)),), (Field("item", t, True),))

    def field(self, depth):
        """A child of a type."""
        return Field(self.choice(("item", "item", "item", "a", "_b")), self.type(depth), self.chance(0.9))

    def flat(self):
        """A type without children."""
        return self.type(0, (*WORDS, *TIMES))

    # Rows.

    def row(self, t, nulls=0.25):
        """A row; a null one with something beneath it or without."""
        t, kind = logical(t), physical(t)
        if kind == "union":
            if self.chance(nulls / 3):
                return "_"
            i = self.randrange(len(t.fields))
            return f"{field_ids(t)[i]}:{self.row(t.fields[i].type)}"
        if kind == "null" or self.chance(nulls / 2):
            return "_"
        if kind == "dict":
            text = self.row(t.item, 0.15)
            text = "&" + text if text[0] in "_&" else text
        else:
            text = self.value(t, kind)
        return "_" + text if self.chance(nulls / 2) else text

    def value(self, t, kind):
        """The text of a row that is no null."""
        if kind == "bool":
            return self.choice("tf")
        if kind in ELEMENTS:
            return self.element(kind)
        if kind in TEXTS:
            return quoted(self.characters())
        if kind in BYTES:
            return "x" + self.randbytes(self.choice((0, 1, 1, 2))).hex()
        if kind == "fsb":
            return "x" + bytes(self.choice((0, 1, 255)) for _ in range(t.params[0])).hex()
        if kind == "struct":
            return "(" + ",".join(self.row(f.type) for f in t.fields) + ")"
        count = t.params[0] if kind == "fsl" else self.randint(0, 3)
        if count > 1 and self.chance(0.1):
            return f"[{self.row(t.item)}*{count}]"
        return "[" + ",".join(self.row(t.item) for _ in range(count)) + "]"

    def characters(self):
        """A short text."""
        return "".join(self.choice(LETTERS) for _ in range(self.choice((0, 1, 1, 1, 2, 3))))

    def element(self, kind):
        """A number, or the numbers of an interval."""
        if kind == "days_ms":
            return f"{self.element('i32')}:{self.element('i32')}"
        if kind == "months_days_ns":
            return f"{self.element('i32')}:{self.element('i32')}:{self.element('i64')}"
        if kind == "i256":
            return f"{self.element('i128')}:{self.choice((0, 1, 7, 2**128 - 1))}"
        least, greatest = NUMBERS[kind]
        if self.chance(0.02) and self.spoils():
            return str(greatest + 1)
        return str(max(least, self.choice((0, 1, 1, 2, 2, 3, -1, 5, 100, least, greatest))))

    def rows(self, t, n):
        """So many rows, long runs of one of them shortened."""
        texts = []
        while n > 0:
            count = min(n, self.randint(2, 40)) if n > 20 and self.chance(0.4) else 1
            row = self.row(t)
            texts.append(row if count == 1 else f"{row}*{count}")
            n -= count
        return ",".join(texts)

    # Arrays.

    def array(self, t, n, depth=0):
        """An array of so many rows: its rows or its parts, whole or a slice."""
        before, behind = (self.randint(0, 3), self.randint(0, 2)) if self.chance(0.3) else (0, 0)
        total = before + n + behind
        if self.chance(0.9 if self.crowds else 0.4):
            kind = "kind=i128;" if physical(t) in INTEGERS and self.spoils() else ""
            text = f"{write_type(t)}{{{kind}{self.parts(t, total, depth)}}}"
        else:
            kept = "?" if self.chance(0.1) and physical(t) not in ("null", "union") else ""
            text = f"{write_type(t)}[{self.rows(t, total)}]{kept}"
        if before or behind or self.chance(0.03):
            text += f"@{before}+{self.other(n + behind)}" if behind else f"@{before}+{self.other(n)}"
            text += f"@0+{n}" if behind else ""
        return text

    def parts(self, t, n, depth):
        """The parts of an array of so many rows."""
        inner, kind = logical(t), physical(t)
        if kind == "null":
            return f"len={n}"
        if kind == "union":
            return self.union_parts(inner, n, depth)
        if kind == "dict":
            return self.dictionary_parts(inner, n, depth)
        validity = f";validity={self.bits(self.other(n))}" if self.chance(0.5) else ""
        if kind == "bool":
            return f"values={self.bits(n)}{validity}"
        if kind in ELEMENTS:
            return f"values={','.join(self.element(kind) for _ in range(n))}{validity}"
        if kind == "fsb":
            return f"values=x{self.randbytes(n * inner.params[0]).hex()}{'00' * self.spoils()}{validity}"
        if kind == "struct":
            counts = [self.other(n) for _ in inner.fields]
            children = "|".join(self.array(f.type, c, depth + 1) for f, c in zip(inner.fields, counts))
            return f"values={children}{validity}"
        if kind == "fsl":
            return f"values={self.array(self.child(inner.item), self.other(n * inner.params[0]), depth + 1)}{validity}"
        return self.offset_parts(inner, kind, n, depth) + validity

    def child(self, t):
        """The type of a child, which is mostly this one."""
        return self.flat() if self.spoils() else t

    def bits(self, n):
        """Letters of so many bits, perhaps a slice."""
        before, behind = (self.randint(1, 70), self.randint(0, 9)) if self.chance(0.2) else (0, 0)
        bits = [self.chance(0.5)] * self.randint(0, 40) if n > 20 else []
        bits = [self.chance(0.6) for _ in range(before + n + behind - len(bits))] + bits
        text = write_bits(bits[: before + n + behind])
        return f"{text}@{before}+{n}" if before or behind else text

    def offset_parts(self, t, kind, n, depth):
        """Offsets that need not begin at 0, over values that go on behind the last."""
        first = self.choice((0, 0, 1, 2))
        if kind in TEXTS:
            rows = [self.characters().encode() for _ in range(n)]
        else:
            rows = [self.randbytes(self.randint(0, 2)) for _ in range(n)]
        offsets = [first]
        for row in rows:
            offsets.append(offsets[-1] + len(row))
        if self.spoils():
            offsets[-1] += self.choice((-2, 9))
        text = f"offsets={','.join(map(str, offsets))};values="
        if kind in (*TEXTS, *BYTES):
            values = self.randbytes(first) + b"".join(rows) + self.randbytes(self.randint(0, 2))
            return text + "x" + values.hex()
        return text + self.array(self.child(t.item), first + sum(map(len, rows)) + self.randint(0, 2), depth + 1)

    def union_parts(self, t, n, depth):
        """Types, children, and offsets of a dense union, of which several may name one row."""
        is_dense = t.word == "union_dense"
        fields = [self.randrange(len(t.fields)) for _ in range(n)]
        counts = [self.randint(1, 3) if is_dense else self.other(n) for _ in t.fields]
        ids = [self.choice((-1, 127)) if self.spoils() else field_ids(t)[i] for i in fields]
        children = "|".join(self.array(f.type, count, depth + 1) for f, count in zip(t.fields, counts))
        text = f"types={','.join(map(str, ids))};values={children}"
        places = ",".join(str(self.other(self.randrange(counts[i]))) for i in fields)
        return text + f";offsets={places}" if is_dense else text

    def dictionary_parts(self, t, n, depth):
        """Keys and values; for narrow keys now and then many values, so that joined keys do not fit."""
        greatest = INTEGERS[t.params[0]][1]
        many = greatest < 256 and self.chance(0.8 if self.crowds else 0.1)
        count = self.randint(greatest // 3, greatest) if many else self.randint(1, 4)
        is_flat = not t.item.fields
        values = self.array(self.child(t.item), count, depth + 1)
        if many and is_flat:
            values = f"{write_type(t.item)}[{self.row(t.item)}*{count}]"
        return f"keys={self.indices(t.params[0], n, count)};values={values}"

    def indices(self, kind, n, bound):
        """Numbers of rows, with anything beneath nulls."""
        texts = []
        for _ in range(n):
            place = self.choice((0, bound - 1, self.randrange(max(bound, 1)))) if bound else None
            if bound == 0 or self.chance(0.2):
                texts.append(self.choice(("_", f"_{self.element(kind)}")))
            else:
                texts.append(str(min(self.other(place), INTEGERS[kind][1])))
        return f"{kind}[{','.join(texts)}]"

    def scalar(self, t, nulls=0.25):
        """A scalar of a type."""
        return f"{write_type(t)}({self.row(t, nulls)})"
