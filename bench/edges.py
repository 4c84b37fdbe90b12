#!/usr/bin/env python3
"""Tries the program where it meets the system: odd folders and files, odd outputs, and long names.

    bench/edges.py PROGRAM [CASE..] [--show]

PROGRAM is the path of the program: `pyimport` at the top, once it is built, or `out/pyimport_main` below its crate. Each case
makes files in a folder of its own, runs the program there, and says what must come. Where this script is run as root, the
program is run as nobody, so that permissions count. Prints the cases that came otherwise, with `--show` all, and how many
there were. Exit status 1 where one came otherwise. Needs Python 3 alone.
"""
import argparse
import os
import pathlib
import resource
import shutil
import signal
import subprocess
import sys
import tempfile

import preload

SECONDS = 600
NOBODY = 65534


def used():
    """The seconds of the processor that ended calls have taken."""
    all_calls = resource.getrusage(resource.RUSAGE_CHILDREN)
    return all_calls.ru_utime + all_calls.ru_stime


class Came:
    """What came of a call, and the seconds of the processor that it took."""

    def __init__(self, out, err, status, seconds):
        self.out, self.err, self.status, self.seconds = out, err, status, seconds

    def __repr__(self):
        cut = [text if len(text) < 400 else text[:400] + "..." for text in (self.out, self.err)]
        return f"out {cut[0]!r}, err {cut[1]!r}, status {self.status}, {self.seconds:.2f} s"


class Room:
    """A folder in which the program is run."""

    def __init__(self, program, folder):
        self.program, self.folder = program, folder

    def files(self, files):
        preload.make_files(self.folder, files)

    def at(self, path):
        return os.path.join(self.folder, path)

    def run(self, *words, limits=None, out=None, is_ignored=False):
        """What comes of the program with these words, under limits of the system."""

        def before():
            if is_ignored:
                signal.signal(signal.SIGXFSZ, signal.SIG_IGN)
            for kind, limit in (limits or {}).items():
                resource.setrlimit(kind, (limit, limit))

        who = {"user": NOBODY, "group": NOBODY, "extra_groups": []} if os.geteuid() == 0 else {}
        earlier = used()
        process = subprocess.Popen([self.program, *words], cwd=self.folder, env={}, stdin=subprocess.DEVNULL,
                                   stdout=out or subprocess.PIPE, stderr=subprocess.PIPE, preexec_fn=before,
                                   restore_signals=not is_ignored, **who)
        try:
            told, err = process.communicate(timeout=SECONDS)
            status = process.returncode
        except subprocess.TimeoutExpired:
            process.kill()
            told, err = process.communicate()
            status = "no end"
        told = told.decode(errors="replace") if told is not None else ""
        return Came(told, err.decode(errors="replace"), status, used() - earlier)


def old_folder(room):
    """A folder whose time lies before 1970 has the time 0, and is searched like any other."""
    room.files({"main.py": "import a\nprint(a)\n", "d/a.py": "print('a')\n"})
    os.utime(room.at("d"), (-86400, -86400))
    traced = room.run("run", "--trace", "--path", "d", "main.py")
    plain = room.run("run", "--path", "d", "main.py")
    told = '0 dirset "d" 0 ["a.py"] -> done\n'
    return [traced, plain], told in traced.out and plain.status == 0 and plain.out == "a\n<module 'a' from 'd/a.py'>\n"


def passed_over(room, mode):
    """Whether a module is found behind a folder of this mode, which has one of that name too."""
    room.files({"main.py": "import a\n", "d/a.py": "print('d')\n", "e/a.py": "print('e')\n"})
    os.chmod(room.at("d"), mode)
    came = room.run("run", "--path", "d:e", "main.py")
    os.chmod(room.at("d"), 0o755)
    return [came], came.status == 0 and came.out == "e\n"


def shut_folder(room):
    """A folder of the path that may be neither read nor searched is passed over."""
    return passed_over(room, 0)


def unsearched_folder(room):
    """A folder of the path that may be read and not searched is passed over."""
    return passed_over(room, 0o444)


def unread_folder(room):
    """A folder of the path that may be searched and not read is passed over."""
    return passed_over(room, 0o111)


def shut_package(room):
    """A package that may be neither read nor searched is no package, as in CPython, but a portion of a namespace."""
    room.files({"main.py": "import p\nprint(p)\nimport p.a\n", "p/__init__.py": "", "p/a.py": ""})
    os.chmod(room.at("p"), 0)
    came = room.run("run", "main.py")
    os.chmod(room.at("p"), 0o755)
    return [came], came.status == 1 and came.err == "main.py: ModuleNotFoundError: No module named 'p.a'\n"


def shut_script(room):
    """A script that may not be read is a fault of a file."""
    room.files({"main.py": "print(1)\n"})
    os.chmod(room.at("main.py"), 0)
    came = room.run("run", "main.py")
    return [came], came.status == 4 and came.err == "pyimport: file fault\n" and came.out == ""


def shut_module(room):
    """A module that may not be read is one too, of the script that imports it; what was printed before stays."""
    room.files({"main.py": "print(1)\nimport a\n", "a.py": "print('a')\n"})
    os.chmod(room.at("a.py"), 0)
    came = room.run("run", "main.py")
    return [came], came.status == 4 and came.err == "main.py: file fault\n" and came.out == "1\n"


def pipe_as_script(room):
    """A script that is a pipe cannot be opened."""
    os.mkfifo(room.at("main.py"))
    came = room.run("run", "main.py")
    return [came], came.status == 2 and came.err == "pyimport: cannot open script 'main.py'\n"


def device_as_script(room):
    """A script that is a device, behind a link, cannot be opened."""
    os.symlink("/dev/zero", room.at("main.py"))
    came = room.run("run", "main.py")
    return [came], came.status == 2 and came.err == "pyimport: cannot open script 'main.py'\n"


def linked_ring(room):
    """A link that leads to itself is nothing."""
    room.files({"main.py": "import a\n"})
    os.symlink("a.py", room.at("a.py"))
    came = room.run("run", "main.py")
    return [came], came.status == 1 and came.err == "main.py: ModuleNotFoundError: No module named 'a'\n"


def bytes_as_name(room):
    """Names that are no text are left out of a listing."""
    room.files({"main.py": "import a\n", "a.py": "print('a')\n"})
    pathlib.Path(os.fsdecode(os.fsencode(room.at("")) + b"\xff.py")).write_text("")
    came = room.run("run", "--trace", "main.py")
    return [came], came.status == 0 and '["a.py","main.py"]' in came.out


def error_of_two_lines(room):
    """The text of an error stands as it is, also where it has a line end, so a script can write a line of another one."""
    room.files({"main.py": 'raise ValueError("x\\nother.py: fuel spent")\n'})
    came = room.run("run", "main.py")
    return [came], came.status == 1 and came.err == "main.py: ValueError: x\nother.py: fuel spent\n"


def limited(room, is_ignored):
    room.files({"main.py": "x = 'a' * 1000\nn = 0\nwhile n < 100:\n    n = n + 1\n    print(x)\n", "out": ""})
    os.chmod(room.at("out"), 0o666)
    with open(room.at("out"), "wb") as out:
        came = room.run("run", "main.py", limits={resource.RLIMIT_FSIZE: 4096}, out=out, is_ignored=is_ignored)
    return came, pathlib.Path(room.at("out")).read_text() == (("a" * 1000 + "\n") * 5)[:4096]


def limit_on_files(room):
    """A write past the limit on file sizes ends the program by its signal, and what was written before stays."""
    came, is_front = limited(room, False)
    return [came], came.status == -signal.SIGXFSZ and is_front


def limit_on_files_told(room):
    """Where that signal is ignored the write fails: status 5, and the output has a prefix."""
    came, is_front = limited(room, True)
    return [came], came.status == 5 and is_front


def full_device(room):
    """An output that takes nothing: status 5."""
    room.files({"main.py": "print(1)\n"})
    with open("/dev/full", "wb") as out:
        came = room.run("run", "main.py", out=out)
    return [came], came.status == 5 and came.err == ""


def closed_reader(room):
    """A pipe whose reader is gone: status 5, or the end by the signal of a pipe."""
    room.files({"main.py": "print(1)\n"})
    reads, writes = os.pipe()
    os.close(reads)
    with os.fdopen(writes, "wb") as out:
        came = room.run("run", "main.py", out=out)
    return [came], came.status in (5, -signal.SIGPIPE)


def little_memory(room):
    """Where memory ends: status 6, and what was printed is a front."""
    room.files({"main.py": "print(1)\nn = 0\nwhile True:\n    n = n + 1\n"})
    came = room.run("run", "main.py", limits={resource.RLIMIT_AS: 32 << 20})
    return [came], came.status == 6 and came.err == "" and came.out in ("", "1\n")


def no_threads(room):
    """Two scripts where no thread can be made, which run all the same."""
    room.files({"s0.py": "import a\nprint('s0')\n", "s1.py": "import a\nprint('s1')\n", "a.py": "print('a')\n"})
    came = room.run("run", "s0.py", "s1.py", limits={resource.RLIMIT_NPROC: 1})
    return [came], came.status == 0 and came.out in ("a\ns0\ns1\n", "a\ns1\ns0\n")


def little_stack(room):
    """A source whose tree is 400,000 levels deep, with a stack of 256 kB."""
    room.files({"main.py": "0" + "+0" * 400000 + "\n"})
    came = room.run("run", "main.py", limits={resource.RLIMIT_STACK: 256 << 10})
    return [came], came.status == 0 and came.err == ""


DEEP = "RecursionError: maximum recursion depth exceeded"
PARTS = 4000
UNITS = 20000
NESTED = 190


def long_name(room, files):
    room.files({"main.py": "import " + ".".join(["a"] * PARTS) + "\n", **files})
    came = room.run("run", "--fuel", str(UNITS), "main.py")
    return [came], came.seconds < 1 and came.status == 1 and came.err == f"main.py: {DEEP}\n"


def long_name_of_nothing(room):
    """A name of 4,000 parts, with 20,000 units, ends within a second, where there is no module of the first part."""
    return long_name(room, {})


def long_name_of_module(room):
    """The same where the first part is a module."""
    return long_name(room, {"a.py": ""})


def long_name_again(room):
    """The same name again and again, until 20,000 units are spent."""
    name = ".".join(["a"] * PARTS)
    room.files({"main.py": f"while True:\n    try: import {name}\n    except RecursionError: pass\n"})
    came = room.run("run", "--fuel", str(UNITS), "main.py")
    return [came], came.seconds < 1 and came.status == 3


def nested(room, files):
    """What comes of a name of 190 parts, each in the folder of the one before it."""
    room.files({"main.py": "import " + ".".join(["a"] * NESTED) + "\nprint(len(a.__path__))\n"})
    for depth in range(NESTED):
        room.files({"/".join(["a"] * (depth + 1) + [file]): "" for file in files})
    came = room.run("run", "--fuel", str(UNITS), "main.py")
    return [came], came.seconds < 1 and (came.status, came.out, came.err)


def nested_packages(room):
    """A name of 190 parts, each a package in the folder of the one before it, with 20,000 units, within a second."""
    shown, came = nested(room, ["__init__.py"])
    return shown, came == (0, "1\n", "")


def nested_namespaces(room):
    """The same where each part is a namespace, each of which looks at the path of the one before it: the units are spent."""
    shown, came = nested(room, ["data"])
    return shown, came == (3, "", "main.py: fuel spent\n")


CASES = [
    *[old_folder, shut_folder, unsearched_folder, unread_folder, shut_package, shut_script, shut_module],
    *[pipe_as_script, device_as_script, linked_ring, bytes_as_name],
    *[error_of_two_lines, limit_on_files, limit_on_files_told, full_device, closed_reader],
    *[little_memory, no_threads, little_stack],
    *[long_name_of_nothing, long_name_of_module, long_name_again, nested_packages, nested_namespaces],
]


def main():
    words = argparse.ArgumentParser()
    words.add_argument("program")
    words.add_argument("cases", nargs="*")
    words.add_argument("--show", action="store_true")
    given = words.parse_args()
    chosen = [case for case in CASES if not given.cases or case.__name__ in given.cases]
    wrong = 0
    with tempfile.TemporaryDirectory() as room:
        os.chmod(room, 0o755)
        program = shutil.copy(given.program, os.path.join(room, "program"))
        os.chmod(program, 0o755)
        for case in chosen:
            folder = os.path.join(room, case.__name__)
            os.mkdir(folder)
            shown, is_right = case(Room(program, folder))
            wrong += not is_right
            if given.show or not is_right:
                print(f"{'as it must' if is_right else 'OTHERWISE'}: {case.__name__}: {case.__doc__}")
                for came in shown:
                    print(f"    {came}")
    print(f"{len(chosen)} cases, {wrong} otherwise")
    sys.exit(1 if wrong else 0)


main()
