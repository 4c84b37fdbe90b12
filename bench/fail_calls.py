#!/usr/bin/env python3
"""Runs the program with each of its calls on files failing in turn, and with outputs that take so many bytes.

    bench/fail_calls.py PROGRAM [ROW..] [--show]

PROGRAM is the path of the program: `pyimport` at the top, once it is built, or `out/pyimport_main` below its crate. The rows
are those of `fail_alloc.py`, over real files. For k from 1 on the k-th of the calls that look at a file, open, list or read it
fails with an error of the device: the status must be 4, a line must tell a file fault, and what was printed must be a
prefix of what the row says. For each n below the length of an output, it takes n bytes and is full: the status must be 5, it
must have these bytes, and the other one all of its own. No call may end by a signal, or take ten seconds of the processor.

Where several scripts run at once only the status and the lines are looked at. Prints for each row how many calls failed and
how many bytes were refused, and each call of the program that came otherwise. Exit status 1 where there is one. Needs a C
compiler, which builds a small library that stands before the C library.
"""
import argparse
import os
import pathlib
import resource
import subprocess
import sys
import tempfile

import preload
from fail_alloc import ROWS, Outcome

SECONDS = 10
WAITING = 600
FAILED, FULL = 4, 5

LIBRARY = r"""
#define _GNU_SOURCE
#include <dlfcn.h>
#include <errno.h>
#include <fcntl.h>
#include <stdarg.h>
#include <stdatomic.h>
#include <stdlib.h>
#include <sys/stat.h>
#include <unistd.h>

static atomic_long made;
static long failing, told = -1, room[3] = {-1, -1, -1};

static long number(const char *name, long other) { const char *found = getenv(name); return found ? atol(found) : other; }

__attribute__((constructor)) static void begin(void) {
    failing = number("FAILING", 0);
    told = number("TOLD", -1);
    room[1] = number("OUT_ROOM", -1);
    room[2] = number("ERR_ROOM", -1);
}

static ssize_t put(int fd, const void *from, size_t count) {
    static ssize_t (*real)(int, const void *, size_t);
    if (!real) real = dlsym(RTLD_NEXT, "write");
    return real(fd, from, count);
}

static int fails(void) {
    if (failing == 0 || atomic_fetch_add(&made, 1) + 1 != failing) return 0;
    if (told >= 0 && put(told, "x", 1) != 1) _exit(99);
    errno = EIO;
    return 1;
}

ssize_t write(int fd, const void *from, size_t count) {
    if (fd != 1 && fd != 2) return put(fd, from, count);
    if (room[fd] < 0) return put(fd, from, count);
    if (room[fd] == 0) { errno = ENOSPC; return -1; }
    ssize_t sent = put(fd, from, count < (size_t)room[fd] ? count : (size_t)room[fd]);
    if (sent > 0) room[fd] -= sent;
    return sent;
}

int statx(int dir, const char *path, int flags, unsigned mask, struct statx *found) {
    static int (*real)(int, const char *, int, unsigned, struct statx *);
    if (!real) real = dlsym(RTLD_NEXT, "statx");
    return fails() ? -1 : real(dir, path, flags, mask, found);
}

int open(const char *path, int flags, ...) {
    static int (*real)(const char *, int, ...);
    if (!real) real = dlsym(RTLD_NEXT, "open");
    va_list rest;
    va_start(rest, flags);
    int mode = flags & O_CREAT ? va_arg(rest, int) : 0;
    va_end(rest);
    return fails() ? -1 : real(path, flags, mode);
}

int openat(int dir, const char *path, int flags, ...) {
    static int (*real)(int, const char *, int, ...);
    if (!real) real = dlsym(RTLD_NEXT, "openat");
    va_list rest;
    va_start(rest, flags);
    int mode = flags & O_CREAT ? va_arg(rest, int) : 0;
    va_end(rest);
    return fails() ? -1 : real(dir, path, flags, mode);
}

ssize_t getdents64(int fd, void *into, size_t count) {
    static ssize_t (*real)(int, void *, size_t);
    if (!real) real = dlsym(RTLD_NEXT, "getdents64");
    return fails() ? -1 : real(fd, into, count);
}

ssize_t read(int fd, void *into, size_t count) {
    static ssize_t (*real)(int, void *, size_t);
    if (!real) real = dlsym(RTLD_NEXT, "read");
    return fails() ? -1 : real(fd, into, count);
}
"""


def limit():
    resource.setrlimit(resource.RLIMIT_CPU, (SECONDS, SECONDS))


class Call:
    """A call of the program in a folder with the files of a row."""

    def __init__(self, program, library, row, folder):
        self.program, self.library, self.row, self.folder = program, library, row, folder
        self.is_alone = len(row.outcomes) < 2 and "gen" not in row.words
        preload.make_files(folder, row.files)

    def made(self, **faults):
        """What comes of it with these faults, and whether a call failed."""
        reads, writes = os.pipe()
        with os.fdopen(reads, "rb") as told:
            where = {"LD_PRELOAD": self.library, "TOLD": str(writes), **{name: str(number) for name, number in faults.items()}}
            try:
                done = subprocess.run([self.program, *self.row.words], cwd=self.folder, env=where, capture_output=True,
                                      stdin=subprocess.DEVNULL, pass_fds=[writes], timeout=WAITING, preexec_fn=limit)
                outcome = Outcome(done.stdout, done.stderr, done.returncode)
            except subprocess.TimeoutExpired as late:
                outcome = Outcome(late.stdout or b"", late.stderr or b"", "no end")
            os.close(writes)
            return outcome, told.read() != b""


def right_where_failed(call, whole, came):
    if came.status != FAILED or not came.err.endswith(b": file fault\n"):
        return False
    return not call.is_alone or "--trace" in call.row.words or "--rounds" in call.row.words or whole.out.startswith(came.out)


def right_where_full(call, whole, came, name, room):
    if not call.is_alone:
        return came.status == FULL and len(came.out if name == "OUT_ROOM" else came.err) == room
    cut = (whole.out[:room], whole.err) if name == "OUT_ROOM" else (whole.out, whole.err[:room])
    return came == Outcome(*cut, FULL)


class Tally:
    def __init__(self, name, show):
        self.name, self.show, self.wrong = name, show, 0

    def note(self, what, came, is_right):
        self.wrong += not is_right
        if self.show or not is_right:
            print(f"{self.name}: {what}: {came}")


def each_call(call, whole, tally):
    """Lets each call on a file fail. Tells how many did."""
    number = 0
    while True:
        came, has_failed = call.made(FAILING=number + 1)
        if not has_failed:
            return number
        number += 1
        tally.note(f"call {number}", came, right_where_failed(call, whole, came))


def each_byte(call, whole, tally):
    """Lets each output be full behind each number of bytes. Tells how many lengths were tried."""
    tried = 0
    for name, output in (("OUT_ROOM", whole.out), ("ERR_ROOM", whole.err)):
        for room in range(len(output)):
            came, _ = call.made(**{name: room})
            tally.note(f"{name} {room}", came, right_where_full(call, whole, came, name, room))
            tried += 1
    return tried


def main():
    words = argparse.ArgumentParser()
    words.add_argument("program")
    words.add_argument("rows", nargs="*")
    words.add_argument("--show", action="store_true")
    given = words.parse_args()
    wrong = 0
    with tempfile.TemporaryDirectory() as room:
        library = preload.build(room, "fail", LIBRARY)
        for name in given.rows or ROWS:
            folder = pathlib.Path(room) / name
            folder.mkdir()
            call = Call(os.path.abspath(given.program), library, ROWS[name], folder)
            whole, _ = call.made()
            tally = Tally(name, given.show)
            calls = each_call(call, whole, tally)
            lengths = each_byte(call, whole, tally)
            wrong += tally.wrong
            print(f"{name}: {calls} calls on files failed, {lengths} lengths of outputs; {tally.wrong} otherwise", flush=True)
    sys.exit(1 if wrong else 0)


main()
