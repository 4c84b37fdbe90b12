#!/usr/bin/env python3
"""Whether each trace that a run writes is accepted: bench/check_runs.py PROGRAM [--seeds N] [--from SEED] [--no-rows]

Each call of `run` of `rows_runs` that begins with files alone is made in a real folder, with `--trace`; one whose name begins
with `units of` with each budget from 1 on, until it ends well. So is each example, and N trees (200) that are made by seeds, of
modules that import each other in circles, each with sixteen scripts at once. `pyimport check` has to accept each of these traces,
with the counts of the plain judge, which is asked too where a trace is short. Prints each that is told otherwise, with its seed.
Status 1 where there is one. Needs Python 3.11 alone.
"""
import argparse
import os
import pathlib
import random
import re
import subprocess
import sys
import tempfile

import examples
import plain_judge
import plain_rounds
import plain_thread
import rows_in_cpython

CALL = re.compile(
    r"(?:#.*\n)*row (?P<name>.*)\n(?P<files>(?:(?:file|dir|pieces) .*\n|[|/].*\n)*)words run (?P<words>.*)\n(?:run|allow)"
)
OPTIONS = ("--path", "--fuel", "--rounds")
TRACE = "its trace"
LONGEST = 4_000
SCRIPTS, MODULES = 16, 12


def rows():
    """The calls of the table that begin with files alone: a name, the files, the words behind `run`."""
    for block in (rows_in_cpython.CRATES / "rows_runs" / "stdin").read_text().split("\n\n"):
        parts = CALL.match(block + "\n")
        words = parts["words"].split(" ") if parts else []
        if words and "--bundles" not in words:
            yield parts["name"], parts["files"], [word for word in words if word != "--trace"]


def plant(folder, files):
    """Makes the folders and files of a row."""
    for kind, path, given in rows_in_cpython.edits_of(files):
        place = folder / path
        (place if kind == "dir" else place.parent).mkdir(parents=True, exist_ok=True)
        if kind == "file":
            place.write_bytes(given)


def set_times(folder, files=""):
    """Gives folders the times of a row, which is 0 where it tells none."""
    times = dict(re.findall(r"^dir (\S+) (\d+)$", files, flags=re.M))
    for path, _, _ in os.walk(folder):
        time = int(times.get(os.path.relpath(path, folder), 0))
        os.utime(path, (time, time))


class Words:
    """The words behind `run`: its options with what they name, and the scripts."""

    def __init__(self, words):
        at = 0
        while at < len(words) and words[at] in OPTIONS:
            at += 2
        self.options, self.scripts = words[:at], words[at:]
        given = dict(zip(words[:at:2], words[1:at:2]))
        self.path = given["--path"].split(":") if "--path" in given else None
        self.fuel, self.rounds = int(given.get("--fuel", 1_000_000)), given.get("--rounds")

    def case(self, folder):
        """What a trace is judged against by the plain judge."""
        files = plain_thread.Files.below(folder)
        files.found[(TRACE,)] = b""
        if self.rounds is None:
            return plain_judge.Case(files, self.scripts, self.path, self.fuel)
        rounds = plain_rounds.rounds_of(files, (folder / self.rounds).read_text())
        return plain_judge.Case.in_rounds(rounds, self.path, self.fuel)


class Checks:
    """What was checked so far."""

    def __init__(self, program):
        self.program, self.traces, self.plain, self.refused = program, 0, 0, 0

    def call(self, folder, *words):
        return subprocess.run([self.program, *words], cwd=folder, capture_output=True)

    def check(self, name, folder, words, files=""):
        """Runs scripts in a folder and judges their trace. The status of the run."""
        given = Words(words)
        # (the trace stands in the folder from the beginning, so listings have it before and behind the run)
        (folder / TRACE).touch()
        set_times(folder, files)
        done = self.call(folder, "run", "--trace", *words)
        if not done.stdout.startswith(b"pyimport-trace"):
            return None
        (folder / TRACE).write_bytes(done.stdout)
        set_times(folder, files)
        said = self.call(folder, "check", *given.options, TRACE, *given.scripts)
        is_short = done.stdout.count(b"\n") <= LONGEST
        self.compare(name, plain_judge.judged(given.case(folder), done.stdout) if is_short else None, said)
        return done.returncode

    def compare(self, name, plain, said):
        told = said.stdout.decode().removesuffix("\n") or said.stderr.decode()
        self.traces += 1
        self.plain += plain is not None
        if not told.startswith("yes") or plain not in (None, told):
            self.refused += 1
            print(f"{name}: check says {told!r}, the plain judge {plain!r}", flush=True)

    def show(self, title):
        print(f"{title}: {self.traces} traces, {self.plain} of them judged twice, {self.refused} told otherwise", flush=True)


def check_rows(checks):
    for name, files, words in rows():
        with tempfile.TemporaryDirectory() as place:
            folder = pathlib.Path(place).resolve()
            plant(folder, files)
            fuel = 0
            if name.startswith("units of"):
                while checks.check(f"{name}, {fuel + 1} units", folder, ["--fuel", str(fuel + 1), *words], files) == 3:
                    fuel += 1
            checks.check(name, folder, words, files)


def check_examples(checks):
    for path in sorted((examples.ROOT / "examples").glob("*/trace.txt")):
        words = examples.words_of(path.parent) or sorted(it.name for it in path.parent.glob("s*.py"))
        if words:
            with tempfile.TemporaryDirectory() as place:
                folder = pathlib.Path(place).resolve()
                subprocess.run(["cp", "-r", f"{path.parent}/.", folder], check=True)
                checks.check(path.parent.name, folder, words)


# Made trees.


def body(pick, number):
    """A module that imports others, in one form or another."""
    lines = [f'print("m{number} begins")', f"x = {number}"]
    for _ in range(pick.randrange(1, 4)):
        other = pick.choice([f"m{pick.randrange(MODULES)}", f"p.m{pick.randrange(MODULES)}"])
        forms = [f"import {other}", f"import {other} as it", f"from {other} import x as y", f"from {other} import *"]
        lines += ["try:", f"    {pick.choice(forms)}", "except ImportError as e:", "    print(e)"]
    if pick.random() < 0.15:
        lines.append('raise ValueError("bad")')
    if pick.random() < 0.15:
        lines += ["import sys", f'sys.modules.pop("m{pick.randrange(MODULES)}", None)']
    return "".join(line + "\n" for line in lines)


def script(pick):
    """A script that imports, reloads and uses lazy modules, and goes on where that fails."""
    forms = ["import {}", "import {} as m", "from {} import x", 'import pyimport; print(pyimport.lazy("{}").x)']
    forms += ["import importlib, {0} as m; importlib.reload(m)"]
    lines = []
    for _ in range(pick.randrange(1, 4)):
        name = pick.choice([f"m{pick.randrange(MODULES)}", f"p.m{pick.randrange(MODULES)}"])
        lines += ["try:", f"    {pick.choice(forms).format(name)}", "except Exception as e:", "    print(e)"]
    return "".join(line + "\n" for line in lines)


def made_of(pick):
    files = {f"m{n}.py": body(pick, n) for n in range(MODULES)} | {f"p/m{n}.py": body(pick, n) for n in range(MODULES)}
    files["p/__init__.py"] = body(pick, MODULES) if pick.random() < 0.5 else ""
    return files | {f"s{n}.py": script(pick) for n in range(SCRIPTS)}


def check_made(checks, seeds):
    for seed in seeds:
        with tempfile.TemporaryDirectory() as place:
            folder = pathlib.Path(place).resolve()
            for path, text in made_of(random.Random(seed)).items():
                (folder / path).parent.mkdir(exist_ok=True)
                (folder / path).write_text(text)
            checks.check(f"seed {seed}", folder, [f"s{n}.py" for n in range(SCRIPTS)])


def all_parts(given):
    """How many traces are told otherwise."""
    parts = [] if given.no_rows else [("rows", check_rows), ("examples", check_examples)]
    seeds = range(given.first, given.first + given.seeds)
    parts.append((f"seeds {seeds.start} to {seeds.stop - 1}", lambda checks: check_made(checks, seeds)))
    refused = 0
    for title, part in parts:
        checks = Checks(given.program.resolve())
        part(checks)
        checks.show(title)
        refused += checks.refused
    return refused


def main():
    words = argparse.ArgumentParser(description=__doc__.split("\n")[0])
    words.add_argument("program", type=pathlib.Path)
    words.add_argument("--seeds", type=int, default=200)
    words.add_argument("--from", type=int, default=0, dest="first")
    words.add_argument("--no-rows", action="store_true")
    given = words.parse_args()
    sys.exit(1 if plain_judge.deeply(lambda: all_parts(given)) else 0)


if __name__ == "__main__":
    main()
