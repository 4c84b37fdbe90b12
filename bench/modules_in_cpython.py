#!/usr/bin/env python3.12
"""Compares the rows of modules as programs with `python -m` of the CPython that runs this script, 3.12.

    python3.12 bench/modules_in_cpython.py

Takes the calls of `rows_runs` that run one module, puts the files of each in a folder and runs the module there. The output,
the status and the error must be those of the row; of an error CPython's last line is compared, and of one in a source its kind.
It leaves out what is below a note that this language differs. Prints how many rows were compared, and each row that is
answered otherwise. Exit status 1 where there is one.
"""
import os
import pathlib
import re
import subprocess
import sys
import tempfile

import rows_in_cpython

CALL = re.compile(
    r"(?:#.*\n)*row (?P<name>.*)\n(?P<files>(?:(?:file|dir|pieces) .*\n|[|/].*\n)*)"
    r"words module (?:--path (?P<path>\S+) )?(?P<module>[^-\s]\S*)\n"
    r"run\nout\n(?P<out>(?:[|/] .*\n)*)(?:err\n(?P<err>(?:[|/] .*\n)*))?status (?P<status>[01])\n(?:run with each .*\n)*\n*"
)
OPTIONS = "-S -s -B -X utf8 -W ignore".split()


def calls():
    """The calls that run one module, but for those below a note that this language differs, and those that only this project
    answers so.
    """
    notes = ""
    for block in (rows_in_cpython.CRATES / "rows_runs" / "stdout").read_text().split("\n\n"):
        if block.startswith("#"):
            notes = block
        parts = CALL.fullmatch(block + "\n")
        if parts and not notes.startswith(rows_in_cpython.OWN_RULES) and not rows_in_cpython.is_own(wanted(parts)):
            yield parts


def last_of(errors):
    """The line that ends a traceback, or what `runpy` says of a module that it does not run, without its words around an error."""
    last = errors.splitlines()[-1] if errors else ""
    refused = last.removeprefix(f"{sys.executable}: ")
    within = re.fullmatch(r"Error while finding module specification for '.*?' \((.*)\)", refused)
    if within:
        return within[1]
    return f"ImportError: {refused}" if refused != last else last


def in_cpython(folder, parts):
    """The output, the error and the status of `python -m`, with paths from the folder on."""
    for kind, path, given in rows_in_cpython.edits_of(parts["files"]):
        at = folder / path
        (at if kind == "dir" else at.parent).mkdir(parents=True, exist_ok=True)
        if kind == "file":
            at.write_bytes(given)
    # A path of the call is all of the search path, before the library's; without one it begins with the folder.
    words = [*OPTIONS, *(["-P"] if parts["path"] else []), "-m", parts["module"]]
    environment = {**os.environ, "PYTHONPATH": parts["path"] or ""}
    done = subprocess.run([sys.executable, *words], cwd=folder, env=environment, capture_output=True, timeout=60)
    out, err = (text.decode().replace(f"{folder}/", "") for text in (done.stdout, done.stderr))
    return out, last_of(err), str(done.returncode)


def wanted(parts):
    """What the row says of them."""
    error = rows_in_cpython.lines_of(parts["err"] or "").rstrip("\n").removeprefix(f"{parts['module']}: ")
    return rows_in_cpython.lines_of(parts["out"]), error, parts["status"]


def comparable(answer):
    """An answer in which an error of a source is told by its kind."""
    out, error, status = answer
    kind = error.partition(":")[0]
    kind = rows_in_cpython.OF_ITS_KIND.get(kind, kind)
    return out, kind if kind == "SyntaxError" else error, status


def main():
    if sys.version_info[:2] != (3, 12):
        sys.exit("this needs CPython 3.12")
    count = others = 0
    for parts in calls():
        with tempfile.TemporaryDirectory() as folder:
            answered = in_cpython(pathlib.Path(folder).resolve(), parts)
        count += 1
        if comparable(wanted(parts)) != comparable(answered):
            others += 1
            print(f"{parts['name']}\n    here    {wanted(parts)}\n    CPython {answered}")
    print(f"{count} modules as programs compared, {others} answered otherwise")
    sys.exit(1 if others else 0)


if __name__ == "__main__":
    main()
