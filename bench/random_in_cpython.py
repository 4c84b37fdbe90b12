#!/usr/bin/env python3.12
"""Runs made trees and scripts with the program and with the CPython that runs this script, 3.12, and compares them.

    bench/random_in_cpython.py PROGRAM [SEED..] [--from SEED] [--count N] [--show]

PROGRAM is the path of the program: `pyimport` at the top, once it is built, or `out/pyimport_main` below its crate. For
each seed a tree of files is made: modules and packages of the same names in several folders, namespace packages, a
script. Their bodies import each other in every form, in rings too, and change `sys.path`, `sys.modules`, attributes and
`__path__`, load modules again, and fail. Compared are what is printed, in its order, the line of the error that ends the
script, and the status. Without seeds, N of them are taken from SEED on: 200 from 0. Prints each seed whose runs differ,
with the first line that does, and how many were run; with `--show`, the files of each named seed and both answers.
Exit status 1 where a seed differs, but by the rule below.

What this language has by rules of its own is left out, or taken out of the texts: modules are told by their names, since
a module that is loaded again keeps the file that it is told with; whether a module is initialising, which a reload within
its first load changes in CPython; hints at similar names; and the text that CPython has for a submodule that is loading.
Only a module that imports nothing gets `None` as its entry. What is not left out is a package whose body fails while what
it imported stays: CPython looks it up once more behind a submodule of that, and runs its body again (`docs/differences.md`
has this rule). A seed that differs is run once more by a CPython that imports such a submodule alone; where that agrees, the
seed differs by this rule alone. Of two thousand seeds about one does, such as 3498, 9333 and 10165.
"""
import argparse
import pathlib
import random
import re
import subprocess
import sys
import tempfile

import rows_in_cpython

FOLDERS = ["", "d1", "d2", "d3"]
PLAIN = ["a", "b", "c", "d"]
LEAVES = ["h", "i"]
INNER = ["a", "m", "n"]
PORTIONS = ["k", "l", "m"]
VARIABLES = ["x", "y", "z"]
FUNCTIONS = ["f", "g"]
# Bodies do something only until so many have begun, so that each run ends.
MOST_BODIES = 25
SECONDS = 60

# Names of modules that stand somewhere, most of them in several folders.
MODULES = [
    *PLAIN,
    *LEAVES,
    *["p", "p.a", "p.m", "p.n", "p.s", "p.s.a", "p.s.m"],
    *["q", "q.a", "q.m"],
    *["ns", "ns.k", "ns.l", "ns.m", "ns.u", "ns.u.k"],
]
ABSENT = ["nowhere", "p.nowhere", "ns.nowhere", "a.nowhere"]
PACKAGES = ["p", "q", "p.s"]
# What may get another entry, or none. The front of a name of three parts is never taken out: CPython looks it up again
# behind such an import. No parent of a namespace is, since CPython looks there for its path.
REPLACED = [*PLAIN, *LEAVES, "p.a", "p.m", "p.n", "p.s.a", "p.s.m", "q", "q.a", "q.m", "ns.k", "ns.l", "ns.m", "ns.u.k"]
# What is put into the place of another: never `None`, and no namespace, whose path is another type in CPython.
COPIED = [name for name in MODULES if name not in [*LEAVES, "ns", "ns.u"]]

HEAD = """import sys, importlib, st
st.n = st.n + 1
print("begin", __name__, __package__, st.n)
"""


class Body:
    """Makes the lines of one body, at random."""

    def __init__(self, pick, package, is_main=False):
        self.pick = pick
        self.package = package
        self.is_main = is_main
        self.is_in_function = False
        # Names that may be bound, with those of their modules.
        self.bound = []

    def module(self):
        return self.pick.choice(MODULES if self.pick.random() < 0.95 else ABSENT)

    def variable(self):
        return self.pick.choice(VARIABLES)

    def number(self):
        return self.pick.randrange(100)

    def place(self):
        """A module, as an expression: a name with dots, most often one that an import has bound, or an entry."""
        if self.bound and self.pick.random() < 0.7:
            return self.pick.choice(self.bound)
        name = self.module()
        return name if name in LEAVES or self.pick.random() < 0.2 else f'sys.modules["{name}"]'

    # Statements, each a list of lines.

    def imports(self):
        name = self.module()
        if self.pick.random() < 0.25:
            return [f"import {name} as _one", "print(_one.__name__)"]
        names = [name, self.module()] if self.pick.random() < 0.3 else [name]
        self.bound += names
        return [f"import {', '.join(names)}"]

    def names(self, children):
        wanted = [*VARIABLES, *FUNCTIONS, *children, *children]
        items = self.pick.sample(wanted, self.pick.choice([1, 1, 2]))
        return ", ".join(name if self.pick.random() < 0.8 else f"{name} as _{name}" for name in dict.fromkeys(items))

    def imports_from(self):
        name = self.module()
        return [f"from {name} import {self.names(children_of(name))}"]

    def imports_all(self):
        if self.is_in_function:
            return self.imports_from()
        return [f"from {self.module()} import *"]

    def imports_relative(self):
        dots = self.pick.choice([".", ".", ".", "..", "..."])
        if self.pick.random() < 0.5:
            return [f"from {dots} import {self.names(INNER)}"]
        inner = self.pick.choice([*INNER, "s", "k", "s.a"])
        if self.pick.random() < 0.2 and not self.is_in_function:
            return [f"from {dots}{inner} import *"]
        return [f"from {dots}{inner} import {self.names([])}"]

    def reads(self):
        place, x = self.place(), self.variable()
        forms = ["{0}.{1}", 'hasattr({0}, "{1}")', 'getattr({0}, "{1}", None)', "{0}.__name__", "{0}.__package__"]
        return [f"print({self.pick.choice(forms).format(place, x)})"]

    def reads_own(self):
        return [f"print({self.pick.choice([self.variable(), '__name__', '__package__'])})"]

    def sets(self):
        return [f"{self.place()}.{self.variable()} = {self.number()}"]

    def sets_own(self):
        return [f"{self.variable()} = {self.number()}"]

    def deletes(self):
        place = self.place()
        children = children_of(place) if self.pick.random() < 0.5 else []
        return [f"del {place}.{self.pick.choice([*VARIABLES, *children])}"]

    def calls(self):
        return [f"print({self.place()}.{self.pick.choice(FUNCTIONS)}())"]

    def asks(self):
        name = self.module()
        forms = ['"{0}" in sys.modules', '"{0}" not in sys.modules', 'sys.modules.get("{0}") is None']
        forms += ['sys.modules["{0}"] is None', 'sys.modules.get("{0}", 5) == 5']
        return [f"print({self.pick.choice(forms).format(name)})"]

    def drops(self):
        name = self.pick.choice(REPLACED)
        forms = ['del sys.modules["{0}"]', 'sys.modules.pop("{0}")', 'print(sys.modules.pop("{0}", None) is None)']
        return [self.pick.choice(forms).format(name)]

    def replaces(self):
        if self.pick.random() < 0.25:
            return [f'sys.modules["{self.pick.choice(LEAVES)}"] = None']
        return [f'sys.modules["{self.pick.choice(REPLACED)}"] = sys.modules["{self.pick.choice(COPIED)}"]']

    def reloads(self):
        name = self.pick.choice(MODULES)
        place = name if self.pick.random() < 0.3 else f'sys.modules["{name}"]'
        return [f"print(importlib.reload({place}).__name__)"]

    def grows(self):
        folder = self.pick.choice(FOLDERS)
        forms = [f'sys.path.append("{folder}")', f'sys.path.insert(0, "{folder}")', f'sys.path.insert(-1, "{folder}")']
        return [self.pick.choice([*forms, "importlib.invalidate_caches()", "print(sys.path)", "print(len(sys.path))"])]

    def turns(self):
        """Changes the path of a package."""
        place = self.pick.choice(PACKAGES)
        folder = f'{self.pick.choice(FOLDERS[1:])}/{place.replace(".", "/")}'
        forms = [f'{place}.__path__ = {place}.__path__ + ["{folder}"]', f'{place}.__path__ = ["{folder}"]']
        forms += [f"print({place}.__path__)", f"print(len({place}.__path__))", "print(len(ns.__path__))"]
        return [self.pick.choice(forms)]

    def fails(self):
        if self.pick.random() < 0.5:
            return []
        forms = ['raise ValueError("bad")', 'raise KeyError("key")', 'raise ImportError("none")', "nowhere", "[1][5]"]
        return [self.pick.choice(forms)]

    def statement(self, depth):
        """A statement of any kind, most of them with a handler for what they raise."""
        weighted = [
            (self.imports, 7),
            (self.imports_from, 6),
            (self.imports_all, 2),
            (self.imports_relative, 5 if self.package else 1),
            (self.reads, 5),
            (self.reads_own, 1),
            (self.sets, 2),
            (self.sets_own, 1),
            (self.deletes, 2),
            (self.calls, 2),
            (self.asks, 2),
            (self.drops, 4),
            (self.replaces, 3),
            (self.reloads, 4),
            (self.grows, 2),
            (self.turns, 2),
            (self.fails, 1),
        ]
        kinds, weights = zip(*weighted)
        lines = self.pick.choices(kinds, weights)[0]() or ["pass"]
        if depth and self.pick.random() < 0.15:
            lines = self.compound(lines, depth)
        return self.handled(lines) if self.pick.random() < (0.99 if self.is_main else 0.9) else lines

    def handled(self, lines):
        last = ["except Exception as _e:", "    print(_e)"]
        if not self.is_main and self.pick.random() < 0.1:
            last = ["except LookupError:", '    print("lookup")']
        return [
            "try:",
            *indented(lines),
            "except ImportError as _e:",
            '    print("import", _e, _e.name)',
            *last,
            *(["else:", '    print("good")'] if self.pick.random() < 0.2 else []),
            *(["finally:", '    print("finally")'] if self.pick.random() < 0.1 else []),
        ]

    def compound(self, lines, depth):
        turn = f"_turn{depth}"
        inner = indented([*lines, *self.statement(depth - 1)])
        return self.pick.choice(
            [
                [f"{turn} = 0", f"while {turn} < 2:", f"    {turn} = {turn} + 1", *inner],
                [f'if "{self.module()}" in sys.modules:', *inner, "else:", *indented(self.statement(depth - 1))],
                ["try:", *inner, "finally:", '    print("end of try")'],
            ]
        )

    def functions(self):
        lines = []
        for name in FUNCTIONS:
            if self.pick.random() < 0.5:
                self.is_in_function = True
                inner = [*self.statement(1), f"return {self.pick.choice([self.variable(), str(self.number())])}"]
                self.is_in_function, self.bound = False, []
                turn = [f"if st.n < {MOST_BODIES}:", *indented(inner)]
                lines += [f"def {name}():", "    st.n = st.n + 1", *indented(turn), "    return 0"]
        return lines

    def all_names(self):
        if self.pick.random() < 0.8:
            return []
        chosen = self.pick.sample([*VARIABLES, *INNER, *FUNCTIONS], 2)
        return [f"__all__ = [{', '.join(repr(name) for name in chosen)}]".replace("'", '"')]

    def lines(self, count):
        first = [line for _ in range(count // 3) for line in self.handled(self.imports())]
        inner = [line for _ in range(count) for line in self.statement(2)]
        return [
            *HEAD.splitlines(),
            *[f"{x} = {self.number()}" for x in VARIABLES if self.pick.random() < 0.6],
            *self.all_names(),
            *self.functions(),
            f"if st.n < {MOST_BODIES}:",
            *indented([*first, *inner] or ["pass"]),
            'print("end", __name__)',
        ]


def indented(lines):
    return ["    " + line for line in lines]


def children_of(place):
    """The names of modules that may stand below one."""
    name = place.removeprefix('sys.modules["').removesuffix('"]')
    if name.startswith("ns"):
        return [*PORTIONS, "u"]
    return [*INNER, "s"] if name in PACKAGES else INNER


def leaf(pick):
    return ['print("leaf", __name__)', f"x = {pick.randrange(100)}", f"y = {pick.randrange(100)}"]


def told(name):
    """Lines that tell what is left of a module at the end."""
    return [
        f'_m = sys.modules.get("{name}")',
        "if _m is not None:",
        f'    print("{name}", _m.__name__, _m.__package__, getattr(_m, "__file__", "-"), hasattr(_m, "__path__"))',
        f'    print(getattr(_m, "x", "-"), getattr(_m, "y", "-"), hasattr(_m, "a"), hasattr(_m, "m"), hasattr(_m, "s"))',
    ]


def made_of(pick):
    """A tree, as a map from paths to texts, and the search path."""
    files = {"st.py": ["n = 0"]}

    def put(path, package, count=5):
        files[path] = Body(pick, package).lines(pick.randrange(count + 1))

    for folder in FOLDERS:
        front = f"{folder}/" if folder else ""
        likely = 0.8 if not folder else 0.35
        for name in PLAIN:
            if pick.random() < likely:
                put(f"{front}{name}.py", "")
        for name in LEAVES:
            if pick.random() < likely:
                files[f"{front}{name}.py"] = leaf(pick)
        for package, inner in (("p", INNER), ("p/s", ["a", "m"]), ("q", ["a", "m"])):
            is_package = pick.random() < likely or not folder
            if is_package and (package != "p/s" or f"{front}p/__init__.py" in files):
                put(f"{front}{package}/__init__.py", package, 3)
                for name in inner:
                    if pick.random() < 0.8:
                        put(f"{front}{package}/{name}.py", package)
            elif pick.random() < 0.3 and package != "p/s":
                put(f"{front}{package}.py", "")
        for name in PORTIONS:
            if pick.random() < 0.45:
                put(f"{front}ns/{name}.py", "ns")
        if pick.random() < 0.4 or not folder:
            put(f"{front}ns/u/k.py", "ns/u", 2)
    tail = [line for name in MODULES for line in told(name)]
    files["main.py"] = [*Body(pick, "", is_main=True).lines(18), "import sys", *tail]
    entries = ["", *pick.sample(FOLDERS[1:], pick.randrange(3))]
    pick.shuffle(entries)
    return {path: "".join(line + "\n" for line in lines) for path, lines in files.items()}, ":".join(entries)


def plant(folder, files):
    for path, text in files.items():
        (folder / path).parent.mkdir(parents=True, exist_ok=True)
        (folder / path).write_text(text)


def without_own(text):
    """The text without what each side tells by rules of its own."""
    text = re.sub(r"cannot access submodule '(\w+)' of module '([\w.]+)'", r"module '\2' has no attribute '\1'", text)
    text = text.replace("from partially initialized module", "from").replace("partially initialized module", "module")
    text = text.replace(" (most likely due to a circular import)", "")
    text = re.sub(r"(cannot import name '\w+' from '[\w.]+') \([^()\n]*\)", r"\1", text)
    return re.sub(r"\. Did you (mean|forget)\b.*", "", text)


def answer(words, folder):
    """What a run of the program prints, its lines of errors, and its status."""
    try:
        done = subprocess.run(words, cwd=folder, capture_output=True, encoding="utf-8", timeout=SECONDS)
    except subprocess.TimeoutExpired:
        return "", f"no answer in {SECONDS} seconds", "-1"
    return without_own(done.stdout), without_own(done.stderr), str(done.returncode)


def in_cpython(folder, path, rounds, times, is_alone):
    out, err, status = rows_in_cpython.run_in_cpython(folder, path.split(":"), rounds, times, is_alone)
    return without_own(out), without_own(err), status


def in_program(program, folder, path, last):
    return answer([program, "run", *([f"--path={path}"] if path else []), *last], folder)


def in_folder(files, run):
    """What a run in a folder with these files gives."""
    with tempfile.TemporaryDirectory() as name:
        folder = pathlib.Path(name).resolve()
        plant(folder, files)
        return run(folder)


def both(program, seed):
    """The files and the path of a seed, what CPython makes of them, alone or not, and what the program does."""
    files, path = made_of(random.Random(seed))
    rounds = [([], ["main.py"])]
    theirs = lambda is_alone: in_folder(files, lambda folder: in_cpython(folder, path, rounds, None, is_alone))
    return files, path, theirs, in_folder(files, lambda folder: in_program(program, folder, path, ["main.py"]))


def first_difference(wanted, came):
    told = lambda out, err, status: [*out.splitlines(), f"error: {err}", f"status: {status}", ""]
    ours, theirs = told(*came), told(*wanted)
    place = next(n for n, (mine, other) in enumerate(zip(ours, theirs)) if mine != other)
    return f"line {place + 1}: here {ours[place]!r}, CPython {theirs[place]!r}"


def show(files, path, wanted, came):
    for name, text in files.items():
        print(f"==== {name}\n{text}", end="")
    print(f"==== path {path!r}")
    for title, (out, err, status) in (("CPython", wanted), ("here", came)):
        print(f"==== {title}, status {status}\n{out}{err}")


def main(both, description):
    """Compares what `both` gives for each seed that the words name."""
    if sys.version_info[:2] != (3, 12):
        sys.exit("this needs CPython 3.12")
    words = argparse.ArgumentParser(description=description.split("\n")[0])
    words.add_argument("program", type=pathlib.Path)
    words.add_argument("seeds", type=int, nargs="*")
    words.add_argument("--from", type=int, default=0, dest="first")
    words.add_argument("--count", type=int, default=200)
    words.add_argument("--show", action="store_true")
    given = words.parse_args()
    seeds = given.seeds or range(given.first, given.first + given.count)
    others, by_rule = [], []
    for seed in seeds:
        files, path, theirs, came = both(given.program.resolve(), seed)
        wanted = theirs(False)
        if given.show and given.seeds:
            show(files, path, wanted, came)
        if wanted == came:
            continue
        is_rule = theirs(True) == came
        (by_rule if is_rule else others).append(seed)
        print(f"seed {seed}{', by the rule' if is_rule else ''}: {first_difference(wanted, came)}", flush=True)
    print(f"{len(seeds)} seeds, {len(others)} that differ, {len(by_rule)} that differ by the rule alone")
    sys.exit(1 if others else 0)


if __name__ == "__main__":
    main(both, __doc__)
