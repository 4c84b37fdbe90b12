#!/usr/bin/env python3.12
"""Compares reports with runs: what a report says that each import means, and what a run of it gets.

    python3.12 bench/report_against_run.py PROGRAM [SEEDS]    PROGRAM is the built program, SEEDS how many trees are made (40)

Each tree is made by its seed: modules, packages and portions of namespaces in two folders, none of which does anything. One
module asks for names of all kinds, each in a `try`, and prints what it gets. The lines of its report are compared with what
the run prints: the file, the portions or the error. Prints each difference, and ends with status 1 where there is one.
"""
import pathlib
import random
import re
import subprocess
import sys
import tempfile

NAMES = ["a", "b", "c", "d"]
FOLDERS = ["x", "y"]
ASKS = 40


def grow(draw, folder, depth):
    """Puts modules, packages and portions into a folder."""
    for name in NAMES:
        kind = draw.choice(["none", "module", "package", "portion", "both"])
        if kind in ("module", "both"):
            (folder / f"{name}.py").write_text("")
        if kind in ("package", "portion", "both") and depth < 3:
            inside = folder / name
            inside.mkdir()
            if kind == "package":
                (inside / "__init__.py").write_text("")
            grow(draw, inside, depth + 1)


def dotted(draw):
    """A name of some of the parts, now and then with one that the interpreter has."""
    first = draw.choice([*NAMES, *NAMES, "sys", "importlib", "pyimport"])
    return ".".join([first, *(draw.choice(NAMES) for _ in range(draw.randrange(3)))])


def asked(draw):
    """An import statement, with what it binds and the name that it asks for."""
    kind = draw.randrange(4)
    if kind == 0:
        name = dotted(draw)
        return f"import {name} as it", name
    if kind == 1:
        name, member = dotted(draw), draw.choice(NAMES)
        return f"from {name} import {member} as it", f"{name}:{member}"
    dots = "." * draw.randrange(1, 4)
    name = draw.choice(["", dotted(draw)])
    member = draw.choice(NAMES)
    return f"from {dots}{name} import {member} as it", None


def script(statements):
    """A module that makes each import and prints what it got, a line for each."""
    lines = []
    for statement, _ in statements:
        lines += ["try:", f"    {statement}", "    print(it)", "except ImportError as e:", "    print(e)"]
    return "\n".join(lines) + "\n"


def expected(line):
    """What a run of it prints, as a pattern, by a line of the report."""
    what, means = line.split(" -> ")
    name = re.escape(what.split(":")[0] if ":" in what else what)
    if means == "no parent package":
        return "attempted relative import with no known parent package"
    if means == "beyond top-level package":
        return "attempted relative import beyond top-level package"
    if means.startswith("missing "):
        return f"No module named '{re.escape(means[len('missing '):])}'"
    if means.startswith("not a package "):
        front = re.escape(means[len("not a package ") :])
        return rf"No module named '{front}\.[^.']+'; '{front}' is not a package"
    if means.startswith("name in "):
        member = re.escape(what.split(":")[1])
        return rf"cannot import name '{member}' from '{name}' \(.*\)"
    if means == "builtin":
        return r"<module '.*' \(built-in\)>"
    if means.startswith("namespace "):
        return r"<module '.*' \(namespace\)>|<module '.*' \(namespace\) from .*>"
    file = re.escape(means.removeprefix("package "))
    return rf"<module '.*' from '{file}'>"


def told(program, top):
    """The lines of the module that asks, without their places."""
    done = subprocess.run([program, "report", "--path", ":".join(FOLDERS), FOLDERS[0]], cwd=top, capture_output=True, text=True)
    if done.returncode not in (0, 1) or done.stderr:
        sys.exit(f"the report ended with status {done.returncode}: {done.stderr}")
    ours = [line.split(": ", 1) for line in done.stdout.splitlines()]
    return [line for place, line in ours if place.startswith("x/here/asks.py:")]


def got(program, top):
    """What a run prints."""
    done = subprocess.run([program, "run", "--path", ":".join(FOLDERS), "main.py"], cwd=top, capture_output=True, text=True)
    if done.returncode != 0:
        sys.exit(f"the run ended with status {done.returncode}: {done.stderr}")
    return done.stdout.splitlines()


def compare(program, seed, top):
    """Makes the tree of a seed, and prints what differs: how many lines were compared, and how many differ."""
    draw = random.Random(seed)
    for folder in FOLDERS:
        (top / folder).mkdir()
        grow(draw, top / folder, 0)
    here = top / "x" / "here"
    here.mkdir()
    (here / "__init__.py").write_text("")
    statements = [asked(draw) for _ in range(ASKS)]
    (here / "asks.py").write_text(script(statements))
    (top / "main.py").write_text("import here.asks\n")
    lines, prints = told(program, top), got(program, top)
    if len(lines) != len(prints):
        print(f"seed {seed}: {len(lines)} lines and {len(prints)} prints")
        return len(lines), 1
    differ = 0
    for (statement, _), line, printed in zip(statements, lines, prints, strict=True):
        if not re.fullmatch(expected(line), printed):
            print(f"seed {seed}: {statement}: the report says {line!r}, the run {printed!r}")
            differ += 1
    return len(lines), differ


def main():
    program = str(pathlib.Path(sys.argv[1]).resolve())
    seeds = int(sys.argv[2]) if sys.argv[2:] else 40
    all_lines = all_differ = 0
    for seed in range(seeds):
        with tempfile.TemporaryDirectory() as top:
            lines, differ = compare(program, seed, pathlib.Path(top))
        all_lines, all_differ = all_lines + lines, all_differ + differ
    print(f"{all_lines} lines of reports compared with runs, {all_differ} differ")
    sys.exit(1 if all_differ else 0)


if __name__ == "__main__":
    main()
