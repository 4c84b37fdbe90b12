#!/usr/bin/env python3.12
"""Runs made rounds over made trees with the program and with the CPython that runs this script, 3.12, and compares them.

    bench/rounds_in_cpython.py PROGRAM [SEED..] [--from SEED] [--count N] [--show]

PROGRAM is the path of the program: `pyimport` at the top, once it is built, or `out/pyimport_main` below its crate. For
each seed a tree is made as `random_in_cpython.py` makes it, with two to four rounds of one script each. Before a round
files are put, removed and changed, files become folders and the other way round, and folders get another time or keep
theirs. The program gets a rounds file. One process of CPython makes the same edits, sets the times of the folders, and
runs the scripts one after another, each in a `__main__` of its own (`cpython_runner.py`). Compared are what is printed, the
lines of errors, and the status. Without seeds, N of them are taken from SEED on: 200 from 0. Prints each seed whose runs
differ, with the first line that does, and how many were run. Exit status 1 where a seed differs, but by the rule that
`random_in_cpython.py` tells of. Left out is what that script leaves out.
"""
import os
import random

import random_in_cpython as trees
import rows_in_cpython

FIRST_TIME = 1000
# Never edited: the count of bodies, by which each run ends, and what may get the entry `None` and so imports nothing.
KEPT = ["st", *trees.LEAVES]


def folders_of(files):
    """All folders of a tree of files, the root too."""
    found = {""}
    for path in files:
        parts = path.split("/")[:-1]
        found |= {"/".join(parts[:n]) for n in range(1, len(parts) + 1)}
    return found


def is_kept(path):
    # (without that `__init__.py` there would be a namespace below a package that may be taken out: CPython looks there for its path)
    return path.rpartition("/")[2].removesuffix(".py") in KEPT or path.endswith("p/s/__init__.py")


def edit_of(pick, known, texts, turn):
    """One edit: its kind, its path, and the text or the time. `known` are paths of files, `texts` are bodies."""
    path = pick.choice(known)
    folder = path.rpartition("/")[0]
    roll = pick.random()
    if roll < 0.5:
        return "file", path, pick.choice(texts)
    if roll < 0.65:
        return "remove", path, None
    if roll < 0.7 and "/" in folder:
        return "remove", folder, None
    if roll < 0.75 and folder:
        # (a module becomes a folder, and a package a file)
        return pick.choice([("dir", path, FIRST_TIME), ("file", f"{folder}.py", pick.choice(texts))])
    return "dir", folder or pick.choice(trees.FOLDERS[1:]), pick.choice([FIRST_TIME, FIRST_TIME + turn])


def made_of(pick):
    """A tree, as a map from paths to texts, the search path, and the rounds, each with its edits and its script."""
    files, path = trees.made_of(pick)
    others, _ = trees.made_of(pick)
    tail = files.pop("main.py").split("\nimport sys\n")[-1]
    del others["main.py"]
    for folder in trees.FOLDERS[1:]:
        files.setdefault(f"{folder}/i.py", "x = 1\n")
    known = sorted(name for name in {*files, *others} if not is_kept(name))
    texts = [text for name, text in [*files.items(), *others.items()] if not is_kept(name)]
    rounds = []
    count = pick.randrange(2, 5)
    for turn in range(count):
        edits = [edit_of(pick, known, texts, turn) for _ in range(pick.randrange(5))]
        script = f"s{turn}.py"
        lines = ["import st", "st.n = 0", *trees.Body(pick, "", is_main=True).lines(8), "import sys"]
        # (what is left of the modules is told at the very end: `hasattr` of a namespace's path searches it here, and not there)
        files[script] = "".join(line + "\n" for line in lines) + (tail if turn == count - 1 else "")
        rounds.append((edits, script))
    return files, path, rounds


def spelled(rounds):
    """The rounds file."""
    lines = ["pyimport-rounds 1"]
    for edits, script in rounds:
        lines.append("round")
        for kind, path, given in edits:
            shown = {"file": rows_in_cpython.quoted, "dir": str, "remove": lambda _: ""}[kind](given)
            lines.append(f"{kind} {path} {shown}".rstrip())
        lines.append(f"script {script}")
    return "".join(line + "\n" for line in lines)


def in_cpython(folder, path, rounds, times, is_alone):
    rounds = [([(kind, at, as_bytes(given)) for kind, at, given in edits], [script]) for edits, script in rounds]
    return trees.in_cpython(folder, path, rounds, times, is_alone)


def as_bytes(given):
    return given.encode() if isinstance(given, str) else given


def both(program, seed):
    """The files and the path of a seed, what CPython makes of them, alone or not, and what the program does."""
    files, path, rounds = made_of(random.Random(seed))
    files["r.txt"] = spelled(rounds)
    times = {name: FIRST_TIME for name in folders_of(files)}

    def in_folder(run):
        def timed(folder):
            # (the time of the root can't be edited, and the rounds file stands in it)
            for name in sorted(times, reverse=True):
                os.utime(folder / name, (FIRST_TIME, FIRST_TIME))
            return run(folder)

        return trees.in_folder(files, timed)

    theirs = lambda is_alone: in_folder(lambda folder: in_cpython(folder, path, rounds, times, is_alone))
    return files, path, theirs, in_folder(lambda folder: trees.in_program(program, folder, path, ["--rounds", "r.txt"]))


if __name__ == "__main__":
    trees.main(both, __doc__)
