#!/usr/bin/env python3
"""A second judge of stored traces, slow and plain:

    bench/plain_judge.py [--path LIST] [--fuel N] (TRACE SCRIPT.. | --rounds FILE TRACE)

Says what `pyimport check` with these words has to say of a trace, and is written from the pages alone (docs/check.md and the
pages that it names): the trace is read (`plain_trace.py`), replayed on a machine of dictionaries (`plain_machine.py`), and each
script is run on the replies that the trace has (`plain_running.py`), over the files of this folder. What stands beside a trace
counts, as for `check`. Status 0 for yes, 1 for no. Needs Python 3.11 alone.
"""
import argparse
import pathlib
import sys
import threading

import plain_machine
import plain_rounds
import plain_running
import plain_thread
import plain_trace as trace

ORDER = ("thread", "call", "allowed", "reply", "text", "end")
# A script of 200 open calls nests deeper in Python than Python allows at first.
DEEPEST, STACK = 1_000_000, 512 * 1024 * 1024
COUNTED = (("loads", ("load", "yours")), ("waits", ("wait",)), ("cycles", ("cycle",)), ("deadlocks", ("deadlock",)))


class Case:
    """What a trace is judged against: scripts with their texts and the files of their rounds, a search path, and a budget."""

    def __init__(self, files, scripts, path=None, fuel=1_000_000):
        self.scripts, self.texts, self.trees, self.begins, self.fuel = [], [], [], [], fuel
        self.path = path
        if scripts:
            self.path = [scripts[0].rpartition("/")[0]] if path is None else path
            self.add_round(files, scripts)

    @classmethod
    def in_rounds(cls, rounds, path=None, fuel=1_000_000):
        case = cls(None, [], [""] if path is None else path, fuel)
        for files, scripts in rounds:
            case.add_round(files, scripts)
        return case

    def add_round(self, files, scripts):
        self.begins += [len(self.scripts)] * len(scripts)
        self.trees += [files] * len(scripts)
        self.texts += [files.found[tuple(script.split("/"))] for script in scripts]
        self.scripts += scripts


def replayed(case, entries):
    """The first entry that the machine does not make, with the cause, or None."""
    machine = plain_machine.Machine(case.scripts, case.texts, case.path, case.begins)
    for at, it in enumerate(entries):
        if it.thread >= machine.scripts:
            return at, "thread"
        if not machine.allowed(it.thread, it.event):
            return at, "allowed"
        if trace.spelled(trace.REPLIES, machine.step(it.thread, it.event)) != it.reply_text:
            return at, "reply"
    return None


def stop_of(own):
    """What a script had paid before a call of the tree failed, by its first End, or None."""
    first = next((it.event for it in own if it.event[0].startswith("end ")), ("",))
    return first[1] if first[0] == "end read" else None


def followed(case, entries, number):
    """The entry at which a script parts from a trace, with the cause, or None."""
    places = [at for at, it in enumerate(entries) if it.thread == number]
    own = [entries[at] for at in places]
    script = plain_running.Script(case.trees[number], number, case.texts[number], case.fuel, own, stop_of(own))
    parts = script.parts()
    if parts is None:
        return None
    return (places[parts.place], "call") if parts.place < len(places) else (len(entries), "end")


def judged(case, data):
    """The line that says what a trace is."""
    try:
        number, entries = trace.read_trace(data)
    except trace.NoTrace as why:
        return f"no: line {why.line}: text"
    if number == 1:
        return "no: line 1: text"
    faults = [replayed(case, entries), *(followed(case, entries, it) for it in range(len(case.scripts)))]
    least = min(((at, ORDER.index(why)) for at, why in filter(None, faults)), default=None)
    if least:
        return f"no: line {least[0] + 2}: {ORDER[least[1]]}"
    counts = [f"{name} {sum(it.reply[0] in words for it in entries)}" for name, words in COUNTED]
    return " ".join(["yes entries", str(len(entries)), *counts])


def deeply(work):
    """Does some work with room for deep calls."""
    answers = []
    sys.setrecursionlimit(DEEPEST)
    threading.stack_size(STACK)
    thread = threading.Thread(target=lambda: answers.append(work()))
    thread.start()
    threading.stack_size(0)
    thread.join()
    if not answers:
        sys.exit("plain_judge: no answer")
    return answers[0]


def case_of(given, files, path):
    """What the words of a call name."""
    if given.rounds is None:
        return Case(files, given.scripts, path, given.fuel)
    text = pathlib.Path(given.rounds).read_bytes().decode()
    return Case.in_rounds(plain_rounds.rounds_of(files, text), path, given.fuel)


def main():
    words = argparse.ArgumentParser(description=__doc__.split("\n")[0])
    words.add_argument("--path")
    words.add_argument("--fuel", type=int, default=1_000_000)
    words.add_argument("--rounds")
    words.add_argument("trace")
    words.add_argument("scripts", nargs="*")
    given = words.parse_args()
    path = None if given.path is None else given.path.split(":")
    case = case_of(given, plain_thread.Files.below("."), path)
    said = deeply(lambda: judged(case, pathlib.Path(given.trace).read_bytes()))
    print(said)
    sys.exit(0 if said.startswith("yes") else 1)


if __name__ == "__main__":
    main()
