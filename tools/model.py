#!/usr/bin/env python3
"""An independent model of the cases, written from the definitions over rows.

usage: tools/model.py                      answers each line of standard input by a line
       tools/model.py --random SEED COUNT  prints random lines, the same for a seed

Blank lines and lines that begin with # are copied. A line that the model can't judge is answered by ?.
"""

import sys

sys.dont_write_bytecode = True

from model.calls import answer  # noqa: E402


def main(arguments):
    """Runs the command line."""
    sys.setrecursionlimit(10_000)
    sys.set_int_max_str_digits(0)
    if not arguments:
        for line in sys.stdin:
            print(answer(line.rstrip("\n").removesuffix("\r")), flush=True)
    elif len(arguments) == 3 and arguments[0] == "--random":
        from model.lines import random_lines

        for line in random_lines(int(arguments[1]), int(arguments[2])):
            print(line)
    else:
        sys.exit(__doc__)


if __name__ == "__main__":
    main(sys.argv[1:])
