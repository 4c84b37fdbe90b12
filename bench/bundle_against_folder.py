#!/usr/bin/env python3
"""Runs made trees and scripts over folders and over the bundles of these folders, and compares the two.

    bench/bundle_against_folder.py PROGRAM [SEED..] [--from SEED] [--count N]

PROGRAM is the path of the program: `pyimport` at the top, once it is built, or `out/pyimport_main` below its crate. For
each seed a tree of files is made, as `random_in_cpython.py` makes it: modules and packages of the same names in several
folders, portions of namespace packages, a script. Some of the folders have names that end with `.pyb`. They are first
run as they are, by `run`. Then `bundle` writes the bundle of each, which takes the folder's place and its name, and
`run --bundles` is made over it. Each bundle is compared with the one that this script makes by the rules of
docs/bundles.md. What is printed, the errors, the status and the trace must be the same, byte by byte: a folder in a
bundle has time 0, so the folders get that time before they are run. Without seeds, N of them are taken from SEED on:
1,000 from 0. Prints each seed that differs, with the first line that does, and how many were run. Exit status 1 where one
differs.
"""
import argparse
import os
import pathlib
import random
import shutil
import subprocess
import sys
import tempfile

import random_in_cpython

# Folders whose names a bundle may have, and one that stays a folder.
BUNDLED = ["d1.pyb", "d2.pyb"]
random_in_cpython.FOLDERS = ["", *BUNDLED, "d3"]
SECONDS = 60


def bundle_of(folder):
    """The bundle of a folder, by the rules of docs/bundles.md."""
    found = [path for path in folder.rglob("*") if path.is_file()]
    files = {str(path.relative_to(folder)): path.read_bytes() for path in found}
    paths = sorted(files, key=lambda path: [part.encode() for part in path.split("/")])
    lines = ["PYB1"] + [f"{len(files[path])} {path}" for path in paths] + ["end", ""]
    return "\n".join(lines).encode() + b"".join(files[path] for path in paths)


def forget_times(top):
    """Gives each folder the time that a folder in a bundle has."""
    for folder in [top, *(path for path in top.rglob("*") if path.is_dir())]:
        os.utime(folder, (0, 0))


def called(program, folder, words):
    """What a call writes to both outputs, and its status."""
    done = subprocess.run([program, *words], cwd=folder, capture_output=True, timeout=SECONDS)
    return done.stdout, done.stderr, done.returncode


def runs(program, folder, path, options):
    """What a run gives, and what it gives with a trace."""
    forget_times(folder)
    words = ["run", *options, *([f"--path={path}"] if path else []), "main.py"]
    return called(program, folder, words), called(program, folder, [words[0], "--trace", *words[1:]])


def put_bundles(program, folder, names):
    """Puts the bundle of each of these folders into its place."""
    for name in names:
        wanted = bundle_of(folder / name)
        bundle, told, status = called(program, folder, ["bundle", name])
        if (bundle, told, status) != (wanted, b"", 0):
            return f"another bundle of {name}: status {status}, {told!r}"
        shutil.rmtree(folder / name)
        (folder / name).write_bytes(bundle)
    return None


def first_difference(plain, bundled):
    for (out, err, status), (other_out, other_err, other_status) in zip(plain, bundled):
        if status != other_status:
            return f"status {status} over folders, {other_status} over bundles"
        for mine, other in ((out, other_out), (err, other_err)):
            if mine != other:
                ours, theirs = [*mine.split(b"\n"), None], [*other.split(b"\n"), None]
                place = next(n for n, (a, b) in enumerate(zip(ours, theirs)) if a != b)
                return f"line {place + 1}: {ours[place]!r} over folders, {theirs[place]!r} over bundles"
    return None


def difference(program, seed):
    """Where the run over bundles differs from the one over folders, None where it does not."""
    pick = random.Random(seed)
    files, path = random_in_cpython.made_of(pick)
    with tempfile.TemporaryDirectory() as name:
        folder = pathlib.Path(name).resolve()
        random_in_cpython.plant(folder, files)
        names = [name for name in BUNDLED if (folder / name).exists() and pick.random() < 0.8]
        plain = runs(program, folder, path, [])
        other = put_bundles(program, folder, names)
        return other or first_difference(plain, runs(program, folder, path, ["--bundles"]))


def main():
    words = argparse.ArgumentParser(description=__doc__.split("\n")[0])
    words.add_argument("program", type=pathlib.Path)
    words.add_argument("seeds", type=int, nargs="*")
    words.add_argument("--from", type=int, default=0, dest="first")
    words.add_argument("--count", type=int, default=1000)
    given = words.parse_args()
    seeds = given.seeds or range(given.first, given.first + given.count)
    others = 0
    for seed in seeds:
        other = difference(given.program.resolve(), seed)
        if other:
            others += 1
            print(f"seed {seed}: {other}", flush=True)
    print(f"{len(seeds)} seeds, {others} that differ")
    sys.exit(1 if others else 0)


if __name__ == "__main__":
    main()
