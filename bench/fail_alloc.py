#!/usr/bin/env python3
"""Runs the program with each of its allocations refused in turn, and looks at what it leaves.

    bench/fail_alloc.py PROGRAM [ROW..] [--most N] [--show]

PROGRAM is the path of the program: `pyimport` at the top, once it is built, or `out/pyimport_main` below its crate. Each
row is a call over real files. For k from 1 on the call is made with its k-th allocation refused, and once more with all
from the k-th on, until it makes fewer than k. Each time it must end, within ten seconds of the processor, with status 6 or
as the row says, and what is written must be a prefix of what the row says; no signal may end it. Where threads run, the
k-th allocation is another one each time, so a row with threads ends behind 20 numbers in a row that were not reached.

Prints for each row how many allocations were refused and what came of it, and each call that ended otherwise. Exit status 1
where there is one. Without words all rows are tried; `--most N` ends each behind N allocations; `--show` prints what each
call came to. Needs a C compiler, which builds a small library that stands before the system's allocator.
"""
import argparse
import collections
import os
import pathlib
import resource
import subprocess
import sys
import tempfile

import preload

SECONDS = 10
WAITING = 600
NO_MEMORY = 6
NOT_REACHED = 20

# The allocator's calls of the C library, but for the one that is to be refused. What is refused is told by a byte to a
# descriptor. The rows are small: no number of them comes near the most that an int holds.
LIBRARY = r"""
#include <errno.h>
#include <stdatomic.h>
#include <stddef.h>
#include <stdlib.h>
#include <unistd.h>

extern void *__libc_malloc(size_t);
extern void *__libc_calloc(size_t, size_t);
extern void *__libc_realloc(void *, size_t);
extern void *__libc_memalign(size_t, size_t);

static atomic_long made;
static long refused, is_begun, goes_on, told;

__attribute__((constructor)) static void begin(void) {
    const char *at = getenv("REFUSED"), *on = getenv("GOES_ON"), *fd = getenv("TOLD");
    refused = at ? atol(at) : 0;
    goes_on = on ? atol(on) : 0;
    told = fd ? atol(fd) : -1;
    unsetenv("LD_PRELOAD");
    is_begun = 1;
}

static int is_refused(void) {
    if (!is_begun || refused == 0) return 0;
    long now = atomic_fetch_add(&made, 1) + 1;
    if (now == refused && told >= 0 && write(told, "x", 1) != 1) _exit(99);
    if (now != refused && !(goes_on && now > refused)) return 0;
    errno = ENOMEM;
    return 1;
}

void *malloc(size_t size) { return is_refused() ? NULL : __libc_malloc(size); }
void *calloc(size_t count, size_t size) { return is_refused() ? NULL : __libc_calloc(count, size); }
void *realloc(void *old, size_t size) { return is_refused() ? NULL : __libc_realloc(old, size); }
void *memalign(size_t align, size_t size) { return is_refused() ? NULL : __libc_memalign(align, size); }
void *aligned_alloc(size_t align, size_t size) { return is_refused() ? NULL : __libc_memalign(align, size); }

int posix_memalign(void **into, size_t align, size_t size) {
    if (is_refused()) return ENOMEM;
    void *found = __libc_memalign(align, size);
    if (!found) return ENOMEM;
    *into = found;
    return 0;
}
"""

CORE = '''"""Core."""
import sys
try:
    import fastjson as json
except ImportError:
    from . import plainjson as json

count = 0

def start(name):
    global count
    count = count + 1
    print("start", name, json.kind, count)
'''

Row = collections.namedtuple("Row", "words files outcomes")
Outcome = collections.namedtuple("Outcome", "out err status")


def good(*outs):
    """That a call writes one of these and ends well."""
    return [Outcome(out.encode(), b"", 0) for out in outs]


APPLICATION = {
    "run.py": 'from app.core import start\nstart("x")\n',
    "src/app/__init__.py": '"""The app."""\n',
    "src/app/plainjson.py": 'kind = "plain"\n',
    "src/app/core.py": CORE,
}
SHARED = {
    "s0.py": 'import shared\nprint("s0")\n',
    "s1.py": 'import shared\nprint("s1")\n',
    "shared.py": 'print("shared")\n',
}
LAZY = {
    "m.py": 'print("body")\nx = 1\n',
    "main.py": 'import pyimport\nm = pyimport.lazy("m")\nprint("before")\nprint(m.x)\nprint(m.x)\n',
}
RELOAD = {
    "m.py": 'print("body")\n',
    "main.py": "import importlib\nimport m\nm.keep = 1\nm = importlib.reload(m)\nprint(m.keep)\n",
}
GROWING = {
    "d1/ns/x.py": 'print("x")\n',
    "d2/ns/y.py": 'print("y")\n',
    "d3/ns/z.py": 'print("z")\n',
    "main.py": 'import ns.x\nimport ns.y\nimport sys\nsys.path.append("d3")\nimport ns.z\nprint(ns.__path__)\n',
}
GROWN = "x\ny\nz\n['d1/ns', 'd2/ns', 'd3/ns']\n"
ROUNDS = {
    "s0.py": "import a\n",
    "s1.py": "import importlib\nimport a\nimportlib.reload(a)\n",
    "r.txt": 'pyimport-rounds 1\nround\nfile a.py "print(\\"one\\")\\n"\nscript s0.py\n'
    'round\nfile a.py "print(\\"two\\")\\n"\nscript s1.py\n',
}
MISSING = [Outcome(b"", b"main.py: ModuleNotFoundError: No module named 'nope'\n", 1)]
BUNDLE = 'PYB1\n11 a.py\nend\nprint("a")\n'

# Those without outcomes come to what the same call comes to without a refusal, which then must end well.
ROWS = {
    "application": Row(["run", "--path", "src", "run.py"], APPLICATION, good("start x plain 1\n")),
    "shared": Row(["run", "s0.py", "s1.py"], SHARED, good("shared\ns0\ns1\n", "shared\ns1\ns0\n")),
    "application-traced": Row(["run", "--trace", "--path", "src", "run.py"], APPLICATION, []),
    "missing": Row(["run", "main.py"], {"main.py": "import nope\n"}, MISSING),
    "namespace": Row(["run", "--path", "d1:d2", "main.py"], GROWING, good(GROWN)),
    "lazy": Row(["run", "main.py"], LAZY, good("before\nbody\n1\n1\n")),
    "reload": Row(["run", "main.py"], RELOAD, good("body\nbody\n1\n")),
    "rounds": Row(["run", "--rounds", "r.txt"], ROUNDS, good("one\ntwo\n")),
    "gen": Row(["gen", "7", "2", "2"], {}, good("modules 2 scripts 2 loads 2 prints 2 status 0\n")),
    "bundle": Row(["bundle", "d"], {"d/a.py": 'print("a")\n'}, good(BUNDLE)),
}


def limit():
    resource.setrlimit(resource.RLIMIT_CPU, (SECONDS, SECONDS))


class Call:
    """A call of the program in a folder with the files of a row."""

    def __init__(self, program, library, row, folder):
        self.program, self.library, self.row, self.folder = program, library, row, folder
        preload.make_files(folder, row.files)

    def made(self, number, goes_on):
        """What comes of it where the allocation of a number is refused, and whether it came to that one. A number of 0
        refuses none."""
        reads, writes = os.pipe()
        with os.fdopen(reads, "rb") as told:
            where = {"LD_PRELOAD": self.library, "REFUSED": str(number), "GOES_ON": str(int(goes_on)), "TOLD": str(writes)}
            try:
                done = subprocess.run([self.program, *self.row.words], cwd=self.folder, env=where, capture_output=True,
                                      stdin=subprocess.DEVNULL, pass_fds=[writes], timeout=WAITING, preexec_fn=limit)
                outcome = Outcome(done.stdout, done.stderr, done.returncode)
            except subprocess.TimeoutExpired as late:
                outcome = Outcome(late.stdout or b"", late.stderr or b"", "no end")
            os.close(writes)
            return outcome, told.read() != b""


def is_right(outcome, outcomes):
    """Whether what came is one of these outcomes, or want of memory with a beginning of one."""
    if outcome in outcomes:
        return True
    return outcome.status == NO_MEMORY and any(
        known.out.startswith(outcome.out) and known.err.startswith(outcome.err) for known in outcomes
    )


def tried(name, call, most, show):
    """Refuses each allocation of a row. Prints what came of it, and tells whether each call ended as it must."""
    outcomes = call.row.outcomes
    whole, _ = call.made(0, False)
    if whole not in (outcomes or [whole._replace(status=0)]):
        print(f"{name}: without a refusal it is {whole}")
        return False
    outcomes = outcomes or [whole]
    came, wrong, number, missed = collections.Counter(), 0, 0, 0
    threads = len(outcomes) > 1 or "gen" in call.row.words
    while missed < (NOT_REACHED if threads else 1) and number < most:
        number += 1
        is_reached = False
        for goes_on in (False, True):
            outcome, reached = call.made(number, goes_on)
            is_reached = is_reached or reached
            came["as without" if outcome in outcomes else f"status {outcome.status}"] += reached
            if show or not is_right(outcome, outcomes):
                print(f"{name}: allocation {number}{' and all behind it' if goes_on else ''}: {outcome}")
            wrong += not is_right(outcome, outcomes)
        missed = 0 if is_reached else missed + 1
    told = ", ".join(f"{kind} {count} times" for kind, count in sorted(came.items()) if count)
    print(f"{name}: {number - missed} allocations, each refused alone and with all behind it: {told}; {wrong} otherwise", flush=True)
    return wrong == 0


def main():
    words = argparse.ArgumentParser()
    words.add_argument("program")
    words.add_argument("rows", nargs="*")
    words.add_argument("--most", type=int, default=sys.maxsize)
    words.add_argument("--show", action="store_true")
    given = words.parse_args()
    for name in given.rows:
        if name not in ROWS:
            sys.exit(f"no row is named {name}; there are {', '.join(ROWS)}")
    all_right = True
    with tempfile.TemporaryDirectory() as room:
        library = preload.build(room, "refuse", LIBRARY)
        for name in given.rows or ROWS:
            folder = pathlib.Path(room) / name
            folder.mkdir()
            call = Call(os.path.abspath(given.program), library, ROWS[name], folder)
            all_right = tried(name, call, given.most, given.show) and all_right
    sys.exit(0 if all_right else 1)


if __name__ == "__main__":
    main()
