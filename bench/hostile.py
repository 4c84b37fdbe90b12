#!/usr/bin/env python3
"""Gives the program hostile sources, traces, rounds files and bundles, and looks that each ends as it must, in time.

    bench/hostile.py PROGRAM [CASE..] [--made COUNT] [--from SEED] [--show]

PROGRAM is the path of the program: `pyimport` at the top, once it is built, or `out/pyimport_main` below its crate. Each named
case has what it must come to: the status and the error output, or how that begins. Then COUNT made cases, 300 if it is not
said: sources, traces, rounds files and bundles that are good but for some bytes that were changed, cut or put in at random.
They must end with a status of their command, a line of its form on the error output, and no signal. Each call has
ten seconds of the processor. Prints what came otherwise, with `--show` every named case with its time, and how many there were. Exit status 1
where one came otherwise.
"""
import argparse
import collections
import os
import random
import re
import resource
import subprocess
import sys
import tempfile

import preload

SECONDS = 10
WAITING = 600
MOST = 1048576
STATUSES = {"run": (0, 1, 3), "check": (0, 1), "convert": (0, 1), "bundle": (0,)}
KINDS = r"[A-Z_][A-Za-z]*"

Case = collections.namedtuple("Case", "words files status err")


def nested(count, head):
    return "".join(" " * n + head + "\n" for n in range(count)) + " " * count + "pass\n"


def module(source, text):
    """The import of a module of this source, which raises an error of this text."""
    return Case(["run", "main.py"], {"main.py": "import m\n", "m.py": source}, 1, f"main.py: {text}\n")


def script(source, status, err):
    return Case(["run", "main.py"], {"main.py": source}, status, err)


def filled(line, length=MOST):
    """The line again and again, as often as it has room."""
    return line * (length // len(line.encode()))


SPENT = "main.py: fuel spent\n"
DEEP = "RecursionError: maximum recursion depth exceeded"
RING = "import sys\nif 'r' in sys.modules: del sys.modules['r']\nimport r\n"

CASES = {
    "parentheses": module("(" * MOST, "SyntaxError: line 1: too deep"),
    "parentheses, as script": script("(" * MOST, 1, "main.py: SyntaxError: line 1: too deep\n"),
    "one byte too many": module("(" * (MOST + 1), "SyntaxError: source is longer than 1048576 bytes"),
    "65 blocks": module(nested(65, "if 1:"), "SyntaxError: line 65: too deep"),
    "a million blocks in one line": module(filled("if 1:"), "SyntaxError: line 1: invalid syntax"),
    "string not closed": module("x = 1\ny = '" + "a" * 100, "SyntaxError: line 2: string not closed"),
    "long string not closed": module('x = """' + filled("a\n", MOST - 7), "SyntaxError: line 1: string not closed"),
    "bytes of zero": module("\0" * MOST, "SyntaxError: line 1: bad character"),
    "no text at the end": module(b"#" * (MOST - 1) + b"\xff", "SyntaxError: line 1: source is not UTF-8"),
    "digits": module("x = " + "1" * (MOST - 4), "ProfileError: number past 128 bits"),
    "zeros": script("x = " + "0" * (MOST - 4), 0, ""),
    "one name": script("a" * MOST, 1, "main.py: NameError: name 'aaa"),
    "sum of many numbers": script("0" + "+0" * 400000, 0, ""),
    "sum of more": script("0" + filled("+0", MOST - 1), 3, SPENT),
    "not, a million times": script(filled("not ", MOST - 1) + "x", 1, "main.py: SyntaxError: line 1: too deep\n"),
    "empty lines": script("\n" * MOST, 0, ""),
    "semicolons": script(filled("pass;"), 0, ""),
    "statements": script(filled("pass\n"), 0, ""),
    "names of marks": script("a" + filled("\u0301\u0323", MOST - 1), 1, "main.py: NameError: name '"),
    "names of long forms": script(filled("\ufdfa"), 1, "main.py: "),
    "text that doubles": script("x = 'a'\nwhile True:\n    x = x + x\n", 1, "main.py: ProfileError: text too long\n"),
    "text that grows": script("x = ''\nwhile True:\n    x = x + 'a'\n", 3, SPENT),
    "list 65 deep": script("x = []\nwhile True:\n    x = [x]\n", 1, "main.py: ProfileError: list too deep\n"),
    "list that doubles": script("x = [1]\nwhile True:\n    x = x + x\n", 1, "main.py: ProfileError: list too long\n"),
    "list of itself twice": script("x = [1]\nwhile True:\n    x = [x, x]\n", 3, SPENT),
    "comparing what is wide": script(
        "x = [1]\ny = [1]\nn = 0\nwhile n < 14:\n    x = [x, x]\n    y = [y, y]\n    n = n + 1\nwhile x == y:\n    pass\n", 3, SPENT
    ),
    "failing imports": script("while True:\n    try:\n        import nope\n    except ImportError:\n        pass\n", 3, SPENT),
    "failing bodies": Case(
        ["run", "main.py"],
        {"main.py": "while True:\n    try: import m\n    except ValueError: pass\n", "m.py": "raise ValueError\n"}, 3, SPENT
    ),
    "failing parses": Case(
        ["run", "--fuel", "200000", "main.py"],
        {"main.py": "while True:\n    try: import m\n    except SyntaxError: pass\n", "m.py": "(" * MOST}, 3, SPENT
    ),
    "reloads": Case(
        ["run", "main.py"], {"main.py": "import importlib, m\nwhile True: importlib.reload(m)\n", "m.py": "pass\n"}, 3, SPENT
    ),
    "lazy modules": script(
        "import pyimport\nn = 0\nwhile True:\n    n = n + 1\n    try: pyimport.lazy('m' + str(n))\n    except ImportError: pass\n", 3, SPENT
    ),
    "a search path without end": script(
        "import sys\nwhile True: sys.path.append('d')\n", 1, "main.py: ProfileError: list too long\n"
    ),
    "modules without end": script("import sys\nn = 0\nwhile True:\n    n = n + 1\n    sys.modules['m' + str(n)] = sys\n", 3, SPENT),
    "variables without end": Case(
        ["run", "main.py"], {"main.py": "import m\n", "m.py": "".join(f"v{n} = {n}\n" for n in range(50000))}, 0, ""
    ),
    "recursion": script("def f():\n    f()\nf()\n", 1, f"main.py: {DEEP}\n"),
    "recursion that is caught": script(
        "def f():\n    try: f()\n    except RecursionError: f()\nf()\n", 3, SPENT
    ),
    "a module that loads itself": Case(["run", "main.py"], {"main.py": "import r\n", "r.py": RING}, 1, f"main.py: {DEEP}\n"),
    "prints without end": script("while True: print('a' * 60000)\n", 3, SPENT),
    "finally without end": script("while True:\n    try: raise ValueError\n    finally: continue\n", 1, "main.py: ProfileError: line 3:"),
    "4,000 entries": Case(["run", "--path", ":".join("d" * 1 for _ in range(4096)), "main.py"], {"main.py": "import a\n"}, 1, "main.py: Mod"),
    "4,097 entries": Case(["run", "--path", ":".join("d" for _ in range(4097)), "main.py"], {"main.py": ""}, 2, "pyimport: usage: "),
    "a star of a million names": Case(
        ["run", "main.py"], {"main.py": "from m import *\n", "m.py": "__all__ = ['x'" + filled(", 'x'", 900000) + "]\n"}, 1,
        "main.py: ProfileError: list too long\n",
    ),
    "no trace": Case(["convert", "t"], {"t": b"\xff" * MOST}, 1, "pyimport: line 1: "),
    "a trace of open lists": Case(
        ["convert", "t"], {"t": "pyimport-trace 2\n0 ask a -> value " + "[" * MOST + "\n"}, 1, "pyimport: line 2: "
    ),
    "a trace of one line": Case(["convert", "t"], {"t": "pyimport-trace 2\n" + "0" * MOST}, 1, "pyimport: line 2: "),
    "a trace of ends": Case(
        ["check", "t", "main.py"], {"main.py": "", "t": "pyimport-trace 2\n" + "0 end normal 1000000 -> done\n" * 30000}, 1, ""
    ),
    "no rounds": Case(["run", "--rounds", "r"], {"r": "\0" * MOST}, 2, "pyimport: rounds 'r' line 1 is refused\n"),
    "rounds without end": Case(
        ["run", "--rounds", "r"], {"r": "pyimport-rounds 1\n" + "round\n" * 170000}, 2, "pyimport: rounds 'r' line "
    ),
    "rounds too long": Case(["run", "--rounds", "r"], {"r": "#" * (MOST + 1)}, 2, "pyimport: rounds 'r' is too long\n"),
}

GOOD_SOURCE = '''"""A module."""
import sys, importlib as lib
from p import x, y as z
from . import q
from .p import *
try:
    import fast as json
except (ImportError, KeyError) as e:
    raise
else:
    pass
finally:
    n = [1, (2, "\\u00e9"), -3 // 2 % 5][0]
def f(a, b):
    global n
    while a < b and not a == 3 or b in [1, 2]:
        a += 1
        if a is None: continue
        elif a > 2: break
    return f(b, a)
print("a", repr(n), f)
del n
sys.modules["a"] = None
'''
GOOD_TRACE = """pyimport-trace 2
0 ask a -> missing
0 take a -> mine 0
0 pathget -> path [""]
0 dirget "" a -> nolisting
0 dirset "" 0 ["a.py","main.py"] -> done
0 add a file("a.py") "" -> load 1 4
0 finish 1 good -> kept module(4,a,"a.py")
0 ask a -> module module(4,a,"a.py")
0 set 0 a module(4,a,"a.py") raw -> done
0 end normal 1000000 -> done
"""
GOOD_ROUNDS = """pyimport-rounds 1
round
file a.py "print(\\"one\\")\\n"
script s0.py
round
file a.py "print(\\"two\\")\\n"
dir d 5
remove d
script s1.py
"""
ROUND_FILES = {"s0.py": "import a\n", "s1.py": "import importlib, a\nimportlib.reload(a)\n"}
PIECES = [
    *["(", ")", "[", "]", "'", '"""', "\\", "\n", "\r", "\t", " ", "    ", ":", ",", ".", "=", "+=", "0", "1" * 40, "é", "ﬁ", "\0", "#"],
    *["import ", "from ", "def ", "while ", "try:", "finally:", "except ", "return", "pass", "None", "->", "hex(", "module(", "-1"],
]


def changed(pick, text):
    """The bytes of a text with a few of them changed, cut, doubled or put in."""
    found = bytearray(text.encode())
    for _ in range(pick.randint(1, 5)):
        at = pick.randint(0, len(found))
        to = min(len(found), at + pick.choice([0, 1, 1, 5, 40]))
        piece = pick.choice(
            [b"", bytes([pick.randrange(256)]), pick.choice(PIECES).encode(), bytes(found[at:to]) * pick.choice([2, 70])]
        )
        found[at:to] = piece
    return bytes(found)


def made(seed):
    """A case by its seed, without what it must come to."""
    pick = random.Random(seed)
    kind = pick.choice(["script", "module", "trace", "check", "rounds"])
    if kind == "script":
        return Case(["run", "--fuel", "20000", "main.py"], {"main.py": changed(pick, GOOD_SOURCE)}, None, None)
    if kind == "module":
        files = {"main.py": "import m\n", "m.py": changed(pick, GOOD_SOURCE), "p.py": "x = 1\ny = 1\n"}
        return Case(["run", "--fuel", "20000", "main.py"], files, None, None)
    if kind == "trace":
        return Case(["convert", "t"], {"t": changed(pick, GOOD_TRACE)}, None, None)
    if kind == "check":
        return Case(["check", "t", "main.py"], {"main.py": "import a\n", "a.py": "", "t": changed(pick, GOOD_TRACE)}, None, None)
    return Case(["run", "--fuel", "20000", "--rounds", "r"], {**ROUND_FILES, "r": changed(pick, GOOD_ROUNDS)}, None, None)


Came = collections.namedtuple("Came", "out err status seconds")


def limit():
    resource.setrlimit(resource.RLIMIT_CPU, (SECONDS, SECONDS))


def run(program, folder, case):
    preload.make_files(folder, case.files)
    before = resource.getrusage(resource.RUSAGE_CHILDREN)
    try:
        done = subprocess.run([program, *case.words], cwd=folder, env={}, stdin=subprocess.DEVNULL, capture_output=True,
                              timeout=WAITING, preexec_fn=limit)
        came = done.stdout, done.stderr, done.returncode
    except subprocess.TimeoutExpired as late:
        came = late.stdout or b"", late.stderr or b"", "no end"
    after = resource.getrusage(resource.RUSAGE_CHILDREN)
    seconds = after.ru_utime + after.ru_stime - before.ru_utime - before.ru_stime
    return Came(*(text.decode(errors="replace") for text in came[:2]), came[2], round(seconds, 2))


def is_as_said(case, came):
    """Whether a named case came to what it must. An error output that is said without its end begins so."""
    is_whole = case.err == "" or case.err.endswith("\n")
    return came.status == case.status and (came.err == case.err if is_whole else came.err.startswith(case.err))


def is_of_its_form(case, came):
    """Whether a made case came to a status and an error output of its command."""
    if came.status == 2:
        return re.fullmatch(r"pyimport: rounds 'r' line \d+ is refused\n|pyimport: cannot open script '[^\n]*'\n", came.err) is not None
    if came.status not in STATUSES[case.words[0]]:
        return False
    if case.words[0] == "convert":
        return came.status == 0 or re.fullmatch(r"pyimport: line \d+: [A-Za-z ]+\n", came.err) is not None
    if case.words[0] == "check":
        return came.err == "" and re.match(r"yes entries |no: line \d+: ", came.out) is not None
    lines = re.compile(rf"([^\n]*: (fuel spent|{KINDS}(: .*)?)\n)+", re.S)
    return came.err == "" if came.status == 0 else lines.fullmatch(came.err) is not None


def cut(came):
    return came._replace(out=came.out[:200], err=came.err[:300])


def main():
    words = argparse.ArgumentParser()
    words.add_argument("program")
    words.add_argument("cases", nargs="*")
    words.add_argument("--made", type=int, default=300)
    words.add_argument("--from", type=int, default=0, dest="first")
    words.add_argument("--show", action="store_true")
    given = words.parse_args()
    program = os.path.abspath(given.program)
    named = [name for name in CASES if not given.cases or name in given.cases]
    seeds = [] if given.cases else range(given.first, given.first + given.made)
    wrong, slowest, statuses = 0, Came("", "", 0, 0.0), collections.Counter()
    for name, case, judge in [(name, CASES[name], is_as_said) for name in named] + [
        (f"seed {seed}", made(seed), is_of_its_form) for seed in seeds
    ]:
        with tempfile.TemporaryDirectory() as folder:
            came = run(program, folder, case)
        is_right = judge(case, came)
        wrong += not is_right
        statuses[came.status] += 1
        slowest = max(slowest, came, key=lambda it: it.seconds)
        if not is_right or (given.show and name in CASES):
            print(f"{'as it must' if is_right else 'OTHERWISE'}: {name}: {cut(came)}")
    told = ", ".join(f"{status}: {count}" for status, count in sorted(statuses.items(), key=str))
    print(f"{len(named)} named cases and {len(seeds)} made ones, by their statuses {told}; the slowest took {slowest.seconds:.1f} s; "
          f"{wrong} otherwise")
    sys.exit(1 if wrong else 0)


main()
