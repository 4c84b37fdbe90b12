#!/usr/bin/env python3.12
"""How long reports take, and how much memory, beside CPython's `modulefinder` and the bare calls of the system.

    python3.12 bench/report_rate.py PROGRAM    measures this program

Makes trees of packages, each with 50 files of 40 lines: five import statements, and functions and assignments as one writes
them. The largest has 10,000 files in 200 folders. Reports each tree, finds its modules with `modulefinder`, and makes the bare
calls that a report cannot do without: each folder is listed, each file is looked at, opened and read. All times are those of
the processor, the least of several; that of `modulefinder` is without the start of the interpreter. Prints them with the peak
of memory, which is told as no less than that of the interpreter that starts the program. Ends with status 1 where a report of
the largest tree takes more than MOST_OF_FINDER of the time of `modulefinder` or more than MOST_MEMORY, or where twice the
files take more than MOST_TIMES the time.
"""
import os
import pathlib
import subprocess
import sys
import tempfile

FOLDERS = (50, 100, 200)
FILES = 50
LINES = 40
ROUNDS = 5
MOST_OF_FINDER = 0.15
MOST_MEMORY = 64 * 2**20
MOST_TIMES = 2.4

FINDER = """\
import modulefinder, sys, time
folders, files = int(sys.argv[1]), int(sys.argv[2])
finder = modulefinder.ModuleFinder(path=["."])
began = time.process_time()
for folder in range(folders):
    for file in range(1, files):
        finder.import_hook(f"p{folder}.m{file}")
print(time.process_time() - began, len(finder.modules))
"""

BARE = """\
import os, sys, time
began = time.process_time()
for folder in sorted(os.listdir(".")):
    for name in sorted(os.listdir(folder)):
        path = f"{folder}/{name}"
        os.stat(path)
        file = os.open(path, os.O_RDONLY)
        while os.read(file, 4096):
            pass
        os.close(file)
print(time.process_time() - began)
"""

BODY = """\
limit = 40 + {file}
names = ["one", "two", "three"]
kept = []
total = 0


def size(items, least):
    count = 0
    at = 0
    while at < len(items):
        if items[at] == least:
            count = count + 1
        at = at + 1
    return count


def keep(name, value):
    if name in kept:
        return value
    elif value > limit and not name == "":
        value = value * 2 + limit // 3
    else:
        raise ValueError("no value for " + name)
    return value


try:
    total = size(names, "two") + keep("file", limit + 1)
except ValueError as error:
    print("not kept", error)
    total = -1
else:
    print("kept", total, names[0])
"""


def module(number):
    """The package and the name of the module of this number; the first file of each folder is the package's own."""
    return number // FILES, f"m{max(number % FILES, 1)}"


def source(folder, file):
    """A file of 40 lines, which imports files before it, so that no chain of imports is long."""
    before = folder * FILES + file or 1
    there, first = module(before * 5 // 7)
    other, second = module(before * 2 // 3)
    near, nearer = max(file * 3 // 4, 1), max(file * 6 // 7, 1)
    imports = [
        "import sys",
        f"import p{there}.{first} as first",
        f"from p{other} import {second}",
        f"from . import m{near} as near",
        f"from .m{nearer} import size as measure, keep",
    ]
    return "\n".join(imports) + "\n\n\n" + BODY.format(file=file)


def write(top, folders):
    for folder in range(folders):
        package = top / f"p{folder}"
        package.mkdir(parents=True)
        for file in range(FILES):
            text = source(folder, file)
            if text.count("\n") != LINES:
                sys.exit(f"{text.count(chr(10))} lines")
            (package / (f"m{file}.py" if file else "__init__.py")).write_text(text)


def report(program, top):
    """The seconds of the processor and the peak bytes of one report, and how many lines it has."""
    with tempfile.TemporaryFile() as out:
        child = subprocess.Popen([program, "report", "."], cwd=top, stdout=out)
        _, status, usage = os.wait4(child.pid, 0)
        out.seek(0)
        lines = out.read().count(b"\n")
    child.returncode = os.waitstatus_to_exitcode(status)
    if child.returncode != 0:
        sys.exit(f"the report ended with status {child.returncode}")
    return usage.ru_utime + usage.ru_stime, usage.ru_maxrss * 1024, lines


def in_cpython(script, top, *words):
    """The numbers that a script of CPython prints."""
    done = subprocess.run([sys.executable, "-c", script, *words], cwd=top, capture_output=True, text=True)
    if done.returncode != 0:
        sys.exit(done.stderr)
    return [float(word) for word in done.stdout.split()]


def measure(program, top, folders):
    """The least seconds of a report, of `modulefinder` and of the bare calls, and the most bytes of a report."""
    write(top, folders)
    runs = [report(program, top) for _ in range(ROUNDS)]
    if runs[0][2] != folders * FILES * 6:
        sys.exit(f"{runs[0][2]} lines of {folders * FILES} files")
    finders = [in_cpython(FINDER, top, str(folders), str(FILES)) for _ in range(2)]
    if finders[0][1] < folders * FILES:
        sys.exit(f"modulefinder found {finders[0][1]} modules")
    bare = min(in_cpython(BARE, top)[0] for _ in range(ROUNDS))
    return min(run[0] for run in runs), min(found[0] for found in finders), bare, max(run[1] for run in runs)


def main():
    if not sys.argv[1:]:
        sys.exit(__doc__)
    program = str(pathlib.Path(sys.argv[1]).resolve())
    times = []
    for folders in FOLDERS:
        with tempfile.TemporaryDirectory() as top:
            spent, finder, bare, peak = measure(program, pathlib.Path(top), folders)
        print(f"{folders * FILES} files in {folders} folders: {spent * 1e3:.0f} ms, {peak / 2**20:.1f} MiB;", end=" ")
        print(f"modulefinder {finder * 1e3:.0f} ms ({spent / finder:.3f}), bare calls {bare * 1e3:.0f} ms ({spent / bare:.1f})", flush=True)
        times.append(spent)
    growths = [after / before for before, after in zip(times, times[1:])]
    print("twice the files: " + ", ".join(f"{growth:.2f} times the time" for growth in growths))
    bounds = {"modulefinder": spent / finder > MOST_OF_FINDER, "memory": peak > MOST_MEMORY, "growth": max(growths) > MOST_TIMES}
    if any(bounds.values()):
        sys.exit("bounds passed: " + ", ".join(name for name, passed in bounds.items() if passed))


if __name__ == "__main__":
    main()
