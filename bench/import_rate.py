#!/usr/bin/env python3.12
"""How long imports take, beside the Python that runs this file (CPython 3.12), which is measured with bytecode files and
without.

    python3.12 bench/import_rate.py            builds the program in a scratch repository with `rt run`, which proves the
                                               crates, an hour on a new machine
    python3.12 bench/import_rate.py PROGRAM    measures this one

Makes real folders: flat modules, packages of modules, a chain, modules at the end of a long path, and one module that is
imported again and again. The time of a script is that of its process without that of an empty script; CPython is timed
inside its process, without its start and with the script compiled before. Beside them stand the bare calls of the system
without which no import goes: the file of each module is looked at, opened, read to its end and closed, by this Python.
Prints the times, how many times CPython's each is, and what a module costs as there are more of them. Ends with status 1
where one takes more than the part of CPython's time without bytecode files that WORK names, or where four times the
modules take more than MOST_GROWTH times the time.
"""
import os
import pathlib
import subprocess
import sys
import tempfile
import time

import scratch

ROUNDS = 3
FUEL = "--fuel=2000000"
MOST_GROWTH = 2.2 * 2.2
FLAT = (1_000, 4_000, 16_000)
PACKAGES, IN_A_PACKAGE = 40, 40
CHAIN = 95
ENTRIES, AT_THE_END = 64, 500
AGAIN = 20_000
A_READ = 65_536

TIMED = """import sys, time
sys.path[:] = sys.argv[1].split(":")
sys.path_importer_cache.clear()
sys.setrecursionlimit(10_000)
source = compile(open("main.py").read(), "main.py", "exec")
began = time.perf_counter()
exec(source, {"__name__": "__main__"})
print(time.perf_counter() - began)
"""


def write(folder, files):
    for name, text in files.items():
        (folder / name).parent.mkdir(parents=True, exist_ok=True)
        (folder / name).write_text(text)


def importing(names):
    return "".join(f"import {name}\n" for name in names)


def flat(count):
    """Modules beside the script."""
    names = [f"m{n}" for n in range(count)]
    return {"main.py": importing(names), **{f"{name}.py": "x = 1\n" for name in names}}


def packages():
    files, names = {}, []
    for p in range(PACKAGES):
        files[f"p{p}/__init__.py"] = "x = 1\n"
        for m in range(IN_A_PACKAGE):
            files[f"p{p}/m{m}.py"] = "x = 1\n"
            names.append(f"p{p}.m{m}")
    return {"main.py": importing(names), **files}


def chain():
    """Modules of which each imports the next one before it ends."""
    files = {f"m{n}.py": f"import m{n + 1}\n" for n in range(CHAIN - 1)}
    return {"main.py": "import m0\n", **files, f"m{CHAIN - 1}.py": "x = 1\n"}


def long_path():
    """Modules in the last of many entries, of which each other has one file."""
    names = [f"m{n}" for n in range(AT_THE_END)]
    others = {f"d{n}/other{n}.py": "x = 1\n" for n in range(ENTRIES - 1)}
    return {"main.py": importing(names), **others, **{f"d{ENTRIES - 1}/{name}.py": "x = 1\n" for name in names}}


def again():
    return {"main.py": "import m\n" * AGAIN, "m.py": "x = 1\n"}


# the folders that are made, with their files, their search path, how many imports the script makes, and which part of
# CPython's time without bytecode files they may take at most, if that is bounded
LONG_PATH = ":".join(f"d{n}" for n in range(ENTRIES))
WORK = {
    **{f"{count} flat modules": (flat(count), "", count, 0.25) for count in FLAT},
    f"{PACKAGES} packages of {IN_A_PACKAGE} modules": (packages(), "", PACKAGES * IN_A_PACKAGE, 0.33),
    f"a chain of {CHAIN} modules": (chain(), "", CHAIN, 0.16),
    f"{AT_THE_END} modules at the end of {ENTRIES} entries": (long_path(), LONG_PATH, AT_THE_END, 0.30),
    f"{AGAIN} imports of one module": (again(), "", AGAIN, None),
}


def measure(words, folder):
    """The least time of several runs in seconds, and what the last one wrote. Ends the whole script where one fails."""
    times = []
    for _ in range(ROUNDS):
        began = time.perf_counter()
        done = subprocess.run(words, cwd=folder, capture_output=True, text=True)
        times.append(time.perf_counter() - began)
        if done.returncode != 0:
            sys.exit(f"{words} ended with status {done.returncode}\n{done.stderr}")
    return min(times), done.stdout


def here(program, folder, path):
    words = [program, "run", FUEL, *(["--path", path] if path else []), "main.py"]
    return measure(words, folder)[0]


def in_cpython(folder, path, is_kept):
    """The least time that CPython takes inside its process. Where bytecode files are kept, a first run writes them."""
    words = [sys.executable, "-I", "-S", *([] if is_kept else ["-B"]), "-c", TIMED, path]
    if is_kept:
        measure(words, folder)
    return min(float(measure(words, folder)[1]) for _ in range(ROUNDS))


def bare_calls(folder, files):
    """The least time of the calls that a search and a load of these files need, in seconds."""
    paths = [str(folder / name) for name in files if name != "main.py" and "other" not in name]
    times = []
    for _ in range(ROUNDS):
        began = time.perf_counter()
        for path in paths:
            os.stat(path)
            opened = os.open(path, os.O_RDONLY)
            while os.read(opened, A_READ):
                pass
            os.close(opened)
        times.append(time.perf_counter() - began)
    return min(times)


def report(program, top):
    """Measures each kind of work, prints it, and gives the seconds of each, and the names of those past their bounds."""
    empty = top / "empty"
    write(empty, {"main.py": ""})
    start = here(program, empty, "")
    seconds, passed = {}, []
    for number, (name, (files, path, count, most)) in enumerate(WORK.items()):
        folder = top / f"w{number}"
        write(folder, files)
        spent = max(here(program, folder, path) - start, 1e-9)
        # (the folder has no bytecode files until the second of these has written them)
        without, kept = in_cpython(folder, path, False), in_cpython(folder, path, True)
        seconds[name] = spent
        if most is not None and spent > most * without:
            passed.append(name)
        print(f"{name}: {spent * 1e3:.1f} ms, {spent / count * 1e6:.1f} us each;", end=" ")
        print(f"CPython {kept * 1e3:.1f} ms with bytecode files ({spent / kept:.2f} times),", end=" ")
        print(f"{without * 1e3:.1f} ms without ({spent / without:.2f} times);", end=" ")
        print(f"the bare calls {bare_calls(folder, files) * 1e3:.1f} ms")
    return seconds, passed


def main():
    with tempfile.TemporaryDirectory() as top:
        top = pathlib.Path(top)
        (top / "program").mkdir()
        program = pathlib.Path(sys.argv[1]).resolve() if sys.argv[1:] else scratch.build(top / "program", "pyimport_main")
        seconds, passed = report(program, top)
    growths = [seconds[f"{b} flat modules"] / seconds[f"{a} flat modules"] for a, b in zip(FLAT, FLAT[1:])]
    print("four times the flat modules: " + ", ".join(f"{growth:.2f} times the time" for growth in growths))
    for name in passed:
        print(f"too slow: {name}")
    sys.exit(1 if passed or max(growths) > MOST_GROWTH else 0)


if __name__ == "__main__":
    main()
