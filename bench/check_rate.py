#!/usr/bin/env python3
"""How long judging a trace takes, beside the run that wrote it: bench/check_rate.py PROGRAM

Two runs: a script that imports 16,000 flat modules, and one of 20,000 turns of a counting loop; each once and at half the size.
The time is that of the processor, the least of several. Ends with status 1 where `check` takes more than twice the time of its
run, where twice the trace takes more than 2.2 times the time, or where it takes more memory than 12 times the bytes of its trace
beside that of the trace of an empty script. What the system counts for a child begins with the memory of Python, which starts
it: so the peak is read of the process itself, which is stopped at its end for that. Needs Python 3 alone, on Linux.
"""
import ctypes
import os
import pathlib
import subprocess
import sys
import tempfile

ROUNDS = 5
FUEL = "--fuel=2000000"
MODULES, TURNS = 16_000, 20_000
MOST_OF_THE_RUN, MOST_AT_TWICE, MOST_BYTES_OF_A_BYTE = 2.0, 2.2, 12

TRACE_ME, GO_ON, SET_OPTIONS = 0, 7, 0x4200
STOP_AT_EXIT, AT_EXIT = 0x40, 6


def trace_call(request, process, data=None):
    """A call of the system by which a process is traced."""
    libc = ctypes.CDLL(None, use_errno=True)
    if libc.ptrace(ctypes.c_long(request), ctypes.c_long(process), None, ctypes.c_void_p(data)):
        sys.exit(f"ptrace: {os.strerror(ctypes.get_errno())}")


def held(process):
    """The most bytes that a process held in memory so far."""
    lines = pathlib.Path(f"/proc/{process}/status").read_text().splitlines()
    return next(int(line.split()[1]) * 1024 for line in lines if line.startswith("VmHWM:"))


def measure(words, folder, kept):
    """The seconds of the processor of one process, whose output goes into a file."""
    with open(kept, "wb") as out:
        child = subprocess.Popen(words, cwd=folder, stdout=out)
        _, status, usage = os.wait4(child.pid, 0)
    child.returncode = os.waitstatus_to_exitcode(status)
    if child.returncode:
        sys.exit(f"{words} ended with status {child.returncode}: {kept.read_text()[:200]}")
    return usage.ru_utime + usage.ru_stime


def peak(words, folder):
    """The peak bytes of one process: it is traced, and stops at its exit with its memory still there."""
    child = subprocess.Popen(words, cwd=folder, stdout=subprocess.DEVNULL, preexec_fn=lambda: trace_call(TRACE_ME, 0))
    most = 0
    _, status = os.waitpid(child.pid, 0)
    trace_call(SET_OPTIONS, child.pid, STOP_AT_EXIT)
    while os.WIFSTOPPED(status):
        if status >> 16 == AT_EXIT:
            most = held(child.pid)
        trace_call(GO_ON, child.pid)
        _, status = os.waitpid(child.pid, 0)
    child.returncode = os.waitstatus_to_exitcode(status)
    if child.returncode:
        sys.exit(f"{words} ended with status {child.returncode}")
    return most


def best(words, folder, kept):
    """The least time of several runs."""
    return min(measure(words, folder, kept) for _ in range(ROUNDS))


def flat_modules(folder, count):
    for number in range(count):
        (folder / f"m{number}.py").write_text("x = 1\n")
    return "".join(f"import m{number}\n" for number in range(count))


def loop_turns(folder, count):
    return f"n = 0\nwhile n < {count}:\n    n = n + 1\n"


def judged(program, top, make, count):
    """The times of a run and of the judging of its trace, the memory of the latter, and the bytes of the trace."""
    folder = top / "src"
    folder.mkdir()
    (folder / "main.py").write_text(make(folder, count))
    run = best([program, "run", FUEL, "--trace", "src/main.py"], top, top / "trace")
    words = [program, "check", FUEL, "trace", "src/main.py"]
    check = best(words, top, top / "said")
    if not (top / "said").read_text().startswith("yes"):
        sys.exit(f"{count}: {(top / 'said').read_text()}")
    return run, check, peak(words, top), (top / "trace").stat().st_size


def of_size(program, make, count):
    with tempfile.TemporaryDirectory() as top:
        return judged(program, pathlib.Path(top), make, count)


def compare(program, title, make, count, least):
    """The bounds that one kind of run passes."""
    half = of_size(program, make, count // 2)
    run, check, most_held, size = of_size(program, make, count)
    bounds = {
        "the time of its run": (check / run, MOST_OF_THE_RUN),
        "half its trace": (check / half[1], MOST_AT_TWICE),
        "the bytes of its trace": ((most_held - least) / size, MOST_BYTES_OF_A_BYTE),
    }
    print(f"{count} {title}: run {run * 1e3:.0f} ms, check {check * 1e3:.0f} ms and {most_held / 2**20:.1f} MiB, trace {size} bytes")
    for what, (times, most) in bounds.items():
        print(f"    {times:.2f} times {what}, at most {most}")
    return [f"{title}: {what}" for what, (times, most) in bounds.items() if times > most]


def main():
    if len(sys.argv) != 2:
        sys.exit(__doc__)
    program = str(pathlib.Path(sys.argv[1]).resolve())
    least = of_size(program, loop_turns, 0)[2]
    passed = compare(program, "flat modules", flat_modules, MODULES, least)
    passed += compare(program, "loop turns", loop_turns, TURNS, least)
    if passed:
        sys.exit("bounds passed: " + ", ".join(passed))


if __name__ == "__main__":
    main()
