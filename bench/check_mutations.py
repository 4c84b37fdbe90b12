#!/usr/bin/env python3
"""Damages traces line by line, and compares what the program says of each with the plain judge:

    bench/check_mutations.py PROGRAM [TITLE..] [--every N]     all, or those of these titles; each N-th damaged trace alone

Each line of each trace is dropped, doubled, and exchanged with the next one of its thread and with the next one of another;
its reply is replaced by other replies that fit its event, and each number, name and text in it by another one. `pyimport check`
must say of each the line and the cause that `plain_judge.py` says. The traces are made by `plain_runs.py`, so that a tree can
fail in one and threads meet as they should; the program must accept each as it is. Prints for each trace how many damaged ones
of each kind are accepted after all: exchanges of events that do not touch each other, most of them. Status 1 where something
is said otherwise. Needs Python 3.11 alone.
"""
import argparse
import collections
import concurrent.futures
import pathlib
import random
import re
import subprocess
import sys
import tempfile

import plain_judge
import plain_runs
import plain_thread
import plain_trace as trace

AT_ONCE = 8
LINES = "\n".join
ONE = {"src/main.py": 'import a\nprint("main")\n', "src/a.py": 'print("a")\n'}
PACKAGE = {
    "src/main.py": "import p.b\nfrom p import c as d, x\nfrom p.b import *\n",
    "src/p/__init__.py": "x = 1\n",
    "src/p/b.py": "from . import c\nfrom .c import y\n_h = 2\n",
    "src/p/c.py": "y = [1, (2,)]\n",
}
NAMESPACE = {
    "src/main.py": 'import ns.x, sys\nsys.path.append("lib")\nimport ns.y\nprint(ns.__path__)\n',
    "src/ns/x.py": "",
    "lib/ns/y.py": "",
}
RELOAD = {
    "src/main.py": "import importlib, m\nm.keep = 1\nm = importlib.reload(m)\nimportlib.reload(m.n)\n",
    "src/m.py": 'import n\nprint("m")\n',
    "src/n.py": "import importlib, n\nimportlib.reload(n)\n",
}
LAZY = {
    "src/main.py": 'import pyimport\nm = pyimport.lazy("m")\nprint(m.x)\nm.x = 2\ndel m.x\nhasattr(m, "x")\n',
    "src/m.py": 'print("body")\nx = 1\n',
}
CIRCLE = {"src/s0.py": "import a\n", "src/s1.py": "import b\n", "src/a.py": "import b\n", "src/b.py": "import a\n"}
RING = {f"src/s{n}.py": f"import {name}\n" for n, name in enumerate("abc")}
RING |= {f"src/{name}.py": f'import {other}\nprint("{name}")\n' for name, other in ("ab", "bc", "ca")}
DEADLOCK = {
    "src/s0.py": "import a\n",
    "src/s1.py": "import b\n",
    "src/a.py": 'import sys\ndel sys.modules["a"]\nimport b\n',
    "src/b.py": "import a\n",
}
DEEP = {
    "src/main.py": "import p.a\n",
    "src/p/__init__.py": "",
    "src/p/a.py": "import importlib, b\nimportlib.reload(b)\n",
    "src/b.py": "import sys\n" + 'if "c" in sys.modules: import d\nimport c\n',
    "src/c.py": "",
    "src/d.py": "while True: pass\n",
}
SHARED = {
    "src/s0.py": 'import sys, importlib\nimport st\nst.f(1)\nsys.modules["old"] = st\nimportlib.invalidate_caches()\n',
    "src/s1.py": LINES(
        [
            "import sys, st",
            "try:",
            "    print(st.f(2))",
            '    sys.modules.pop("st", None)',
            "    raise ValueError(str(st))",
            "except ValueError as e:",
            "    print(e)",
            "finally:",
            '    sys.path.insert(0, "lib")',
            "import st",
            "",
        ]
    ),
    "src/st.py": "n = 0\ndef f(by):\n    global n\n    n = n + by\n    return n\n",
}


class Sample:
    """A tree with scripts, and what its trace must hold to be of use."""

    def __init__(self, title, files, wanted=(), scripts=("src/main.py",), path="src", fuel=1_000_000, stops=()):
        self.title, self.files, self.wanted, self.scripts = title, files, wanted, list(scripts)
        self.path, self.fuel, self.stops = path, fuel, stops

    def words(self, trace):
        return ["check", "--path", self.path, "--fuel", str(self.fuel), trace, *self.scripts]

    def case(self, folder):
        for path, text in self.files.items():
            (folder / path).parent.mkdir(parents=True, exist_ok=True)
            (folder / path).write_text(text)
        return plain_judge.Case(plain_thread.Files.below(folder), self.scripts, self.path.split(":"), self.fuel)

    def trace(self, case):
        """The first trace with the words that are wanted, of those with the seeds 0, 1, 2 .."""
        for seed in range(1000):
            text = plain_runs.history(case, random.Random(seed).choice, self.stops)
            if all(word in text for word in self.wanted):
                return text
        sys.exit(f"{self.title}: no trace has {self.wanted}")


TWO, THREE = ("src/s0.py", "src/s1.py"), ("src/s0.py", "src/s1.py", "src/s2.py")
SAMPLES = [
    Sample("an import", ONE),
    Sample("a package", PACKAGE, ["names", "__package__"]),
    Sample("a namespace", NAMESPACE, ["nsset", "pathadd"]),
    Sample("a reload", RELOAD, ["busy", "reloadend"]),
    Sample("a lazy module", LAZY, ["yours"]),
    Sample("a circle of two", CIRCLE, ["wait", "cycle"], TWO),
    Sample("a ring of three", RING, ["wait b", "wait c", "cycle"], THREE),
    Sample("a deadlock", DEADLOCK, ["deadlock"], TWO),
    Sample("a spent budget", DEEP, ["finish 6 bad", "reloadend 6 5", "end fuel"], fuel=120),
    Sample("a failed read", DEEP, ["bad", "end read"], stops=[(0, 61)]),
    Sample("shared functions", SHARED, ["source", "invalidate", "was module", "wait"], TWO),
]

# Damage.

PIECE = re.compile(r'"(?:[^"\\]|\\.)*"|-?\b[0-9]+\b|[^\W\d]\w*(?:\.[^\W\d]\w*)*')


class Damage:
    """The damaged traces of a trace, which is taken as lines without the first."""

    def __init__(self, text):
        self.lines = text.splitlines()[1:]
        self.entries = trace.read_trace(text.encode())[1]
        pieces = [piece for line in self.lines for piece in PIECE.findall(line)]
        words = {*trace.EVENTS, *trace.REPLIES, "end", "normal", "raised"}
        self.names = sorted({it for it in pieces if it[0] not in '"-0123456789' and it not in words})
        self.replies = collections.defaultdict(set)
        for it in self.entries:
            self.replies[it.reply[0]].add(it.reply_text)

    def put(self, at, *lines):
        return [*self.lines[:at], *lines, *self.lines[at + 1 :]]

    def exchanged(self, at, is_own):
        """The trace with a line and the next one of its thread, or of another, exchanged."""
        thread = self.entries[at].thread
        other = next((n for n in range(at + 1, len(self.lines)) if (self.entries[n].thread == thread) == is_own), None)
        if other is None:
            return
        lines = list(self.lines)
        lines[at], lines[other] = lines[other], lines[at]
        yield lines

    def other_replies(self, at):
        it = self.entries[at]
        fitting = [word for word in trace.REPLIES if trace.fits(it.event, (word,))]
        texts = {text for word in fitting for text in self.replies[word] | self.made_up(word)} - {it.reply_text}
        return [self.put(at, f"{it.thread} {it.event_text} -> {text}") for text in sorted(texts)]

    def made_up(self, word):
        """Replies of a word, whether the trace has one or not."""
        module = 'module(4,a,"src/a.py")'
        fields = {"module": module, "cycle": module, "busy": module, "wait": "a", "mine": "1", "begun": "1", "load": "2 5"}
        fields |= {"value": "1", "path": "[]", "names": '["x"]', "loaded": f'{module} ""', "yours": '2 ""', "state": "ns([],0,[]) 0"}
        pairs = {"kept": ("absent", "halted"), "unset": trace.UNSET, "slot": ("absent", "halted"), "was": ("absent", "halted")}
        pairs |= {"listing": ("0 yes yes", "0 no no")}
        made = {f"{word} {it}" for it in pairs.get(word, [fields[word]] if word in fields else [])}
        return made or {word}

    def other_pieces(self, at):
        """The trace with one number, name or text of a line changed."""
        line = self.lines[at]
        for found in PIECE.finditer(line):
            for other in self.others(found[0]):
                yield self.put(at, line[: found.start()] + other + line[found.end() :])

    def others(self, piece):
        if piece[0] == '"':
            return [piece[:-1] + 'x"', '""']
        if piece[0] in "-0123456789":
            return [str(int(piece) + 1), str(int(piece) - 1), "0" + piece]
        after = self.names.index(piece) + 1 if piece in self.names else 0
        return [self.names[after % len(self.names)], piece + "x"]

    def all(self):
        """Each damaged trace, beside the kind of damage."""
        for at, line in enumerate(self.lines):
            kinds = {
                "dropped": [self.put(at)],
                "doubled": [self.put(at, line, line)],
                "exchanged with one of its thread": self.exchanged(at, True),
                "exchanged with one of another thread": self.exchanged(at, False),
                "with another reply": self.other_replies(at),
                "with another piece": self.other_pieces(at),
            }
            for kind, traces in kinds.items():
                for lines in traces:
                    if lines != self.lines:
                        yield kind, at, trace.FIRST + "".join(it + "\n" for it in lines)


def said(program, folder, sample, text):
    """What the program says of a trace."""
    with tempfile.NamedTemporaryFile("w", dir=folder, suffix=".txt") as file:
        file.write(text)
        file.flush()
        done = subprocess.run([program, *sample.words(pathlib.Path(file.name).name)], cwd=folder, capture_output=True, text=True)
    is_told = done.returncode == (0 if done.stdout.startswith("yes") else 1) and not done.stderr
    return done.stdout.removesuffix("\n") if is_told else f"status {done.returncode}: {done.stdout}{done.stderr}"


class Tally:
    """What was compared of one trace."""

    def __init__(self):
        self.all, self.accepted, self.causes, self.others = 0, collections.Counter(), collections.Counter(), 0

    def add(self, kind, ours, theirs, where, text):
        self.all += 1
        if ours.startswith("yes"):
            self.accepted[kind] += 1
        self.causes[ours.split(" ")[-1] if ours.startswith("no") else "yes"] += 1
        if ours != theirs:
            self.others += 1
            kept = pathlib.Path(tempfile.mkdtemp(prefix="check_mutations")) / "t.txt"
            kept.write_text(text)
            print(f"{where}: the program says {theirs!r}, the plain judge {ours!r}: {kept}", flush=True)

    def show(self, title, lines):
        causes = ", ".join(f"{count} {cause}" for cause, count in sorted(self.causes.items()))
        print(f"{title}: {lines} lines, {self.all} traces: {causes}; {self.others} told otherwise", flush=True)
        for kind, count in self.accepted.items():
            print(f"    accepted, {kind}: {count}")


def compared(program, sample, every):
    """How many damaged traces of a sample are told otherwise."""
    with tempfile.TemporaryDirectory() as name:
        folder = pathlib.Path(name).resolve()
        case, tally = sample.case(folder), Tally()
        whole = sample.trace(case)
        damaged = [("as it is", 0, whole), *list(Damage(whole).all())[::every]]
        with concurrent.futures.ThreadPoolExecutor(AT_ONCE) as pool:
            answers = pool.map(lambda one: said(program, folder, sample, one[2]), damaged)
            for (kind, at, text), theirs in zip(damaged, answers):
                where = f"{sample.title}, line {at + 2} {kind}"
                tally.add(kind, plain_judge.judged(case, text.encode()), theirs, where, text)
    tally.show(sample.title, whole.count("\n") - 1)
    return tally.others


def main():
    words = argparse.ArgumentParser(description=__doc__.split("\n")[0])
    words.add_argument("program", type=pathlib.Path)
    words.add_argument("titles", nargs="*")
    words.add_argument("--every", type=int, default=1)
    given = words.parse_args()
    program = str(given.program.resolve())
    chosen = [it for it in SAMPLES if not given.titles or it.title in given.titles]
    others = plain_judge.deeply(lambda: sum(compared(program, it, given.every) for it in chosen))
    sys.exit(1 if others else 0)


if __name__ == "__main__":
    main()
