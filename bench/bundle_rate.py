#!/usr/bin/env python3.12
"""How long imports from a bundle take, beside those from the folder that it lists, and beside the Python that runs this
file (CPython 3.12) with the same modules in a zip.

    python3.12 bench/bundle_rate.py            builds the program in a scratch repository with `rt run`, which proves the
                                               crates, an hour on a new machine
    python3.12 bench/bundle_rate.py PROGRAM    measures this one

Makes folders of flat modules and of packages, writes the bundle of each with `bundle`, and a zip without compression
with `zipfile`. The three are measured in turn, again and again. A time is what the processor worked, and the median
counts, so that a busy machine changes little. The time of a script is that of its process without that of an empty
script; CPython is timed inside its process, without its start and with the script compiled before. Prints the times,
what a module costs, and, where there is `strace`, how many calls of the system each takes and how often the index of the
bundle is read. Ends with status 1 where imports from a bundle take longer than those from the folder, or more than
MOST_OF_ZIP of CPython's, where four times the modules take more than MOST_GROWTH times the time, or where an index is
not read just once.
"""
import pathlib
import resource
import shutil
import statistics
import subprocess
import sys
import tempfile
import zipfile

import import_rate
import scratch

# A bundle has at most 4,096 files.
FLAT = (250, 1_000, 4_000)
PACKAGES, IN_A_PACKAGE = 40, 40
TURNS = 9
MOST_GROWTH = 5
MOST_OF_FOLDER = 1.0
MOST_OF_ZIP = 0.15

IN_CPYTHON = import_rate.TIMED.replace("perf_counter", "process_time")
WAYS = {"the folder": ["--path=d"], "the bundle": ["--bundles", "--path=d.pyb"]}


def flat(count):
    return {f"m{n}.py": "x = 1\n" for n in range(count)}, [f"m{n}" for n in range(count)]


def packages(count, inner):
    files, names = {}, []
    for p in range(count):
        files[f"p{p}/__init__.py"] = "x = 1\n"
        for m in range(inner):
            files[f"p{p}/m{m}.py"] = "x = 1\n"
            names.append(f"p{p}.m{m}")
    return files, names


WORK = {
    **{f"{count} flat modules": flat(count) for count in FLAT},
    f"{PACKAGES} packages of {IN_A_PACKAGE} modules": packages(PACKAGES, IN_A_PACKAGE),
}


def called(words, folder):
    """The seconds that the processor worked for a call, and what it wrote. Ends the whole script where it fails."""
    before = resource.getrusage(resource.RUSAGE_CHILDREN)
    done = subprocess.run(words, cwd=folder, capture_output=True, text=True)
    after = resource.getrusage(resource.RUSAGE_CHILDREN)
    if done.returncode != 0:
        sys.exit(f"{words} ended with status {done.returncode}\n{done.stderr}")
    return after.ru_utime + after.ru_stime - before.ru_utime - before.ru_stime, done.stdout


def prepare(program, folder, files, names):
    """Puts the script, the folder, its bundle and its zip there."""
    import_rate.write(folder, {"main.py": import_rate.importing(names), "empty/main.py": ""})
    import_rate.write(folder / "d", files)
    (folder / "d.pyb").write_text(called([program, "bundle", "d"], folder)[1])
    with zipfile.ZipFile(folder / "d.zip", "w", zipfile.ZIP_STORED) as made:
        for name, text in files.items():
            made.writestr(name, text)


def run(program, words):
    return [program, "run", import_rate.FUEL, *words, "main.py"]


def one_turn(program, folder):
    """The seconds of the imports each way, each measured once."""
    start = called(run(program, []), folder / "empty")[0]
    seconds = {way: max(called(run(program, words), folder)[0] - start, 1e-9) for way, words in WAYS.items()}
    in_cpython = [sys.executable, "-I", "-S", "-B", "-c", IN_CPYTHON, "d.zip"]
    return {**seconds, "CPython": float(called(in_cpython, folder)[1])}


def measured(program, folder):
    """The median of the seconds each way."""
    turns = [one_turn(program, folder) for _ in range(TURNS)]
    return {way: statistics.median(turn[way] for turn in turns) for way in turns[0]}


def system_calls(program, folder, words):
    """The calls of the system that a run makes, a line each."""
    called(["strace", "-f", "-o", folder / "calls", *run(program, words)], folder)
    return (folder / "calls").read_text().splitlines()


def look_at_calls(program, folder):
    """Prints how many calls of the system each way takes, and gives how often the bundle is read from its front."""
    calls = {way: system_calls(program, folder, words) for way, words in WAYS.items()}
    told = ", ".join(f"{len(lines)} from {way}" for way, lines in calls.items())
    fronts = sum('"PYB1' in line for line in calls["the bundle"])
    print(f"    calls of the system: {told}; the index is read {fronts} times")
    return fronts


def report(program, top):
    """Measures each kind of work, prints it, and gives its seconds, and how often each index is read."""
    seconds, fronts = {}, []
    for number, (name, (files, names)) in enumerate(WORK.items()):
        folder = top / f"w{number}"
        prepare(program, folder, files, names)
        times = seconds[name] = measured(program, folder)
        plain, bundle, cpython = times["the folder"], times["the bundle"], times["CPython"]
        print(f"{name}: {plain * 1e3:.1f} ms from the folder, {bundle * 1e3:.1f} ms from the bundle,", end=" ")
        print(f"{bundle / len(names) * 1e6:.1f} us each ({bundle / plain:.2f} times);", end=" ")
        print(f"CPython {cpython * 1e3:.1f} ms from a zip ({bundle / cpython:.2f} times)", flush=True)
        fronts += [look_at_calls(program, folder)] if shutil.which("strace") else []
    return seconds, fronts


def is_slow(times):
    bundle = times["the bundle"]
    return bundle > MOST_OF_FOLDER * times["the folder"] or bundle > MOST_OF_ZIP * times["CPython"]


def main():
    with tempfile.TemporaryDirectory() as top:
        top = pathlib.Path(top)
        (top / "program").mkdir()
        program = pathlib.Path(sys.argv[1]).resolve() if sys.argv[1:] else scratch.build(top / "program", "pyimport_main")
        seconds, fronts = report(program, top)
    bundles = [seconds[f"{count} flat modules"]["the bundle"] for count in FLAT]
    growths = [more / few for few, more in zip(bundles, bundles[1:])]
    print("four times the flat modules: " + ", ".join(f"{growth:.2f} times the time" for growth in growths))
    slow = [name for name, times in seconds.items() if is_slow(times)]
    sys.exit(1 if slow or max(growths) > MOST_GROWTH or any(count != 1 for count in fronts) else 0)


if __name__ == "__main__":
    main()
