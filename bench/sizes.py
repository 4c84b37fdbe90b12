#!/usr/bin/env python3
"""How many bytes the values take that are moved most often.

    python3 bench/sizes.py

Each size is a line `prove!(size_of::<Type>() ..)` of the sources, which the checker proves, so nothing is built here.
Prints them, and ends with status 1 where one of the types below has no such line, or one that allows more.
"""
import pathlib
import re
import sys

CRATES = pathlib.Path(__file__).resolve().parent.parent / "crates"
LINE = re.compile(r"prove!\(size_of::<(\w+)>\(\) (?:==|<=) (\d+)\)")

# the most bytes that a value of each type may take
MOST = {
    "Text": 16,
    "Value": 32,
    "ModRef": 8,
    "Raised": 8,
    "NsState": 8,
    "Spec": 8,
    "Slot": 16,
    "Outcome": 16,
    "Event": 56,
    "Reply": 40,
    "Entry": 104,
}


def proved_sizes():
    """The size of each type that a line of the sources proves."""
    return {
        name: int(size)
        for source in sorted(CRATES.glob("*/src/**/*.rt"))
        for name, size in LINE.findall(source.read_text())
    }


def main():
    sizes = proved_sizes()
    wrong = []
    for name, most in MOST.items():
        size = sizes.get(name)
        print(f"{name}: {'no line' if size is None else f'{size} bytes'}, at most {most}")
        if size is None or size > most:
            wrong.append(name)
    if wrong:
        sys.exit("too large: " + ", ".join(wrong))


if __name__ == "__main__":
    main()
