#!/usr/bin/env python3
"""Tries wrong bodies that stand outside the gate: those of `edits/CRATE/*.edit`, which the prover must refuse too.

    bench/wrong_bodies.py [CRATE..]

Copies each crate, with those below it and what `rt check` kept of them, into a scratch repository, puts its edits into
`must-fail` there and runs `rt must-fail`. With no names, all crates with edits are tried, which takes hours on a new
machine: name those that were changed. Prints what `rt must-fail` says of each edit, and the crates of which one was not
refused. Exit status 1 where there is such a crate, or one with no edits.
"""
import pathlib
import shutil
import subprocess
import sys
import tempfile

import scratch

EDITS = scratch.ROOT / "edits"


def copied(folder, crate):
    """A repository of the crate and those below it, with its edits from outside the gate alone."""
    lines = scratch.crate_lines()
    names = scratch.with_those_below(lines, [crate])
    for name in names:
        shutil.copytree(scratch.ROOT / "crates" / name, folder / "crates" / name)
        shutil.rmtree(folder / "crates" / name / "must-fail", ignore_errors=True)
    (folder / "crates.txt").write_text("\n".join(lines[name] for name in names) + "\n")
    if (scratch.ROOT / "HANDLES").exists():
        shutil.copy(scratch.ROOT / "HANDLES", folder / "HANDLES")
    shutil.copytree(EDITS / crate, folder / "crates" / crate / "must-fail")


def are_refused(crate):
    """Whether each of the crate's edits is refused."""
    with tempfile.TemporaryDirectory() as folder:
        copied(pathlib.Path(folder), crate)
        done = subprocess.run(["rt", "must-fail", crate], cwd=folder, capture_output=True, text=True)
    print(f"{crate}:\n{done.stdout}{done.stderr}", flush=True)
    return done.returncode == 0


def main():
    with_edits = sorted(path.name for path in EDITS.iterdir() if any(path.glob("*.edit")))
    crates = sys.argv[1:] or with_edits
    unknown = [crate for crate in crates if crate not in with_edits]
    if unknown:
        sys.exit(f"no edits in edits/ for {', '.join(unknown)}")
    others = [crate for crate in crates if not are_refused(crate)]
    if others:
        sys.exit(f"not refused, or not tried: {', '.join(others)}")


if __name__ == "__main__":
    main()
