"""What a line may answer where one request for memory of it is refused."""

from itertools import count

from .calls import answer, growable_line
from .growables import TYPED, Growable
from .registry import STEPS, step_of
from .text import words

ASKED = ("len", "is_empty", "last")  # steps that take no memory


def refusals(line):
    """The answers of a line one request of which is refused, other than that of a line none of which is."""
    name, *arguments = words(line)
    if name in STEPS:
        found = builders(name, arguments)
    elif name == "make_growable" or name in TYPED:
        found = growables(name, arguments)
    elif name == "filter::build_filter":
        found = filters(line)
    elif name == "filter::extend_from_word":
        found = {"OutOfMemory " + answer(f"try_new {arguments[0]}")}
    else:
        found = set()
    return found | {"error OutOfMemory"}


def growables(name, arguments):
    """Growables of which a growth is refused, the first, the second, and so on: then each later call has failed."""
    whole, found = growable_line(name, arguments), set()
    for growths in count():
        refused = growable_line(name, arguments, refusing(growths))
        if refused == whole:
            return found
        found.add(refused)


def refusing(growths):
    """Growables that refuse the growth behind so many."""

    class Refusing(Growable):
        left = growths

        def is_refused(self):
            """Whether this growth is the one that is refused."""
            self.left -= 1
            self.failed |= self.left == -1
            return self.left == -1

        def append(self, rows, is_crowded):
            """Appends rows, or refuses once and for all."""
            return "OutOfMemory" if not self.failed and self.is_refused() else super().append(rows, is_crowded)

        def as_box(self):
            """An array of the rows so far; a refused one takes none of them."""
            return "OutOfMemory" if not self.failed and self.is_refused() else super().as_box()

    return Refusing


def builders(name, steps):
    """Bits and offsets under construction: a step that is refused changes nothing."""
    found = set()
    for i in range(1, len(steps)):
        if step_of(steps[i])[0] not in ASKED:
            before = len(STEPS[name](steps[:i]).split(" ")) - 1
            answers = STEPS[name](steps[:i] + steps[i + 1 :]).split(" ")
            found.add(" ".join(answers[:before] + ["OutOfMemory"] + answers[before:]))
    return found


def filters(line):
    """A prepared filter that is refused one array's rows: it goes on with the array behind."""
    given = words(answer(line))
    return {" ".join(given[:i] + ["OutOfMemory"] + given[i + 1 :]) for i in range(2, len(given))}
