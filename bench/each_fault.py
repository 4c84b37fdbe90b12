#!/usr/bin/env python3
"""Makes every call of `rows_runs` once more with each call of its tree failing in turn, and with each output that is full.

    bench/each_fault.py PROGRAM [WORD..] [--show]

PROGRAM is the table program `rows_runs`: `crates/rows_runs/out/rows_runs`, once `rt run` or the gate has built it. Of
each plain `run` of the table it takes the files and the words, and asks the program for more rows, of which it says

- that with the k-th call of a tree failing, for each k until the call makes fewer, the status is 4 and a line tells a file
  fault; where one script runs and no trace is written, what was printed is a prefix of what is printed without it;
- that with room for n bytes of the output, for each n below its length, the status is 5, the output has just these, and
  the error output is as without; and the same of the error output. Status 2 stays, whatever the outputs do.

Of an output of more than 64 bytes a hundred lengths or fewer are tried. Trees that are forked fail too, each in turn.
Where a round has several scripts at once, one schedule may make more calls of a tree than another: there each call must
come to either, a file fault or what it comes to without it.
Words limit it to rows in whose names one of them stands. Prints how many calls were made, and each that came to something
else; with `--show` what each row of the table came to. Exit status 1 where one came to something else. Left out are calls
of several scripts at once, whose order is the system's (the table has rows of them), and made workloads.
"""
import argparse
import collections
import pathlib
import subprocess
import sys

TABLE = pathlib.Path(__file__).resolve().parent.parent / "crates" / "rows_runs" / "stdin"
BEGINS = ("row ", "file ", "dir ", "pieces ", "|", "/")
FIRST_CALLS, MOST_CALLS = 24, 3000
REFUSED, FAILED, FULL = 2, 4, 5
SHORT = 64
LENGTHS = 100

Call = collections.namedtuple("Call", "name holdings words")
Outcome = collections.namedtuple("Outcome", "out err status")
# What is to fail: a call of a tree, `-` or the number of its fork; or an output behind so many bytes.
Fault = collections.namedtuple("Fault", "row kind number")


def calls():
    """The calls of the plain rows of the table, each once."""
    found, name, holdings, words, is_plain = {}, "", [], "", True
    for line in TABLE.read_text().split("\n"):
        if line.startswith("row "):
            name, holdings, words = line[len("row ") :], [], ""
        elif line.startswith(BEGINS):
            holdings.append(line)
        elif line.startswith("words"):
            words = line
        elif line.startswith(("fail ", "room ", "err_room ", "allow ")):
            is_plain = False
        elif line.startswith("run"):
            if is_plain and line == "run" and is_alone(words.split(" ")[1:]):
                found.setdefault((tuple(holdings), words), Call(name, holdings, words))
            is_plain = True
    return list(found.values())


def is_alone(words):
    """Whether one script runs at a time."""
    if not words or words[0] == "gen":
        return False
    if words[0] not in ("run", "module"):
        return True
    return "--rounds" in " ".join(words) or len(others(words)) <= 1


def others(words):
    """The words behind the options of a call."""
    left = words[1:]
    while left and left[0].startswith("-"):
        left = left[2 if left[0] in ("--path", "--fuel") else 1 :]
    return left


def rows_of(call, faults):
    lines = ["row " + call.name, *call.holdings, call.words]
    for fault in faults:
        lines += [*([fault.row] if fault.row else []), "run"]
    return lines


def read_bytes(told):
    """The bytes that an output is told to have, by the lines behind its name."""
    found = b""
    for line in told:
        if line.startswith("| ") or line == "|":
            found += line[2:].encode() + b"\n"
        elif line.startswith("/ "):
            found += line[2:].encode()
        elif line.startswith("bytes hex("):
            found += bytes.fromhex(line[len("bytes hex(") : -1])
        else:
            sys.exit(f"a line that tells no output: {line}")
    return found


def read_outcome(lines):
    """What a call came to, by the lines behind `run`."""
    split = lines.index("err") if "err" in lines else len(lines)
    return Outcome(read_bytes(lines[1:split]), read_bytes(lines[split + 1 :]), None)


def ask(program, asked):
    """What comes of calls, each with its faults."""
    sent = [line for call, faults in asked for line in rows_of(call, faults)]
    done = subprocess.run([program], input="\n".join(sent).encode() + b"\n", capture_output=True)
    lines = done.stdout.decode().split("\n")
    if done.returncode != 0:
        sys.exit(f"{program} ended with status {done.returncode} behind {lines[-5:]}")
    at, outcomes = 0, []
    for call, faults in asked:
        at += len(call.holdings) + 2
        came = []
        for fault in faults:
            at += 2 if fault.row else 1
            end = next(k for k in range(at, len(lines)) if lines[k].startswith("status "))
            status = int(lines[end][len("status ") :])
            came.append(read_outcome(lines[at:end])._replace(status=status))
            at = end + 1
        outcomes.append(came)
    return outcomes


def lengths(output):
    step = 1 if len(output) <= SHORT else max(1, len(output) // LENGTHS)
    return sorted({*range(0, len(output), step), *range(max(0, len(output) - 1), len(output))})


def forks(call):
    """The trees of a call: the one that is handed in, and its forks."""
    rounds = sum(line.startswith("| script ") for line in call.holdings)
    if any(word in call.words for word in ("--rounds", "--bundles")):
        return ["-", *map(str, range(rounds + 2))]
    words = call.words.split(" ")[1:]
    return ["-", *map(str, range(len(others(words))))] if words[:1] == ["check"] else ["-"]


def full_outputs(whole):
    return [Fault(f"room {n}", "out", n) for n in lengths(whole.out)] + [
        Fault(f"err_room {n}", "err", n) for n in lengths(whole.err)
    ]


def is_ordered(call):
    """Whether its calls of trees come in one order, since no round has several scripts."""
    scripts = 0
    for line in call.holdings:
        if line == "| round":
            scripts = 0
        scripts += line.startswith("| script ")
        if scripts > 1:
            return False
    return True


def right_where_full(call, whole, fault, came):
    """Whether a call came to what it must, where an output took so many bytes."""
    cut = {"out": (whole.out[: fault.number], whole.err), "err": (whole.out, whole.err[: fault.number])}
    return came == Outcome(*cut[fault.kind], REFUSED if whole.status == REFUSED else FULL)


def right_where_failed(call, whole, came):
    if came.status != FAILED or b": file fault\n" not in came.err:
        return False
    return "--trace" in call.words or "--rounds" in call.words or whole.out.startswith(came.out)


class Tally:
    """How many calls were made, and which came to something else."""

    def __init__(self):
        self.made, self.wrong = collections.Counter(), 0

    def note(self, call, fault, whole, came, is_right):
        self.made[fault.kind] += 1
        if not is_right:
            self.wrong += 1
            print(f"{call.name}, {call.words}, {fault.row}: {came}, and without it {whole}")


def try_outputs(program, all_calls, wholes, tally):
    asked = [(call, full_outputs(whole)) for call, whole in zip(all_calls, wholes)]
    for (call, faults), whole, came in zip(asked, wholes, ask(program, asked)):
        for fault, outcome in zip(faults, came):
            tally.note(call, fault, whole, outcome, right_where_full(call, whole, fault, outcome))


def try_trees(program, all_calls, wholes, tally):
    """Lets each call of each tree fail. Where the last number still fails, more are tried. Tells how many failed."""
    left = [(call, whole, tree, 1) for call, whole in zip(all_calls, wholes) for tree in forks(call)]
    failed = collections.Counter()
    count = FIRST_CALLS
    while left:
        asked = [(call, [Fault(f"fail {tree} {k}", "tree", k) for k in range(k, k + count)]) for call, _, tree, k in left]
        more = []
        for (call, whole, tree, k), (_, faults), came in zip(left, asked, ask(program, asked)):
            is_over = False
            for fault, outcome in zip(faults, came):
                is_over = is_over or outcome == whole
                failed[call.name] += outcome != whole
                may_fail = not is_over or not is_ordered(call)
                right = outcome == whole or may_fail and right_where_failed(call, whole, outcome)
                tally.note(call, fault, whole, outcome, right)
            if not is_over and k + count < MOST_CALLS:
                more.append((call, whole, tree, k + count))
        left, count = more, count * 4
    return failed


def main():
    words = argparse.ArgumentParser()
    words.add_argument("program")
    words.add_argument("words", nargs="*")
    words.add_argument("--show", action="store_true")
    given = words.parse_args()
    chosen = [call for call in calls() if not given.words or any(word in call.name for word in given.words)]
    wholes = [came[0] for came in ask(given.program, [(call, [Fault("", "whole", 0)]) for call in chosen])]
    tally = Tally()
    try_outputs(given.program, chosen, wholes, tally)
    failed = try_trees(given.program, chosen, wholes, tally)
    if given.show:
        for name, count in failed.items():
            print(f"{name}: {count} calls of its trees")
    made = ", ".join(f"{count} with {kind}" for kind, count in sorted(tally.made.items()))
    print(f"{len(chosen)} calls of the table; {made}; {sum(failed.values())} calls of trees failed; {tally.wrong} otherwise")
    sys.exit(1 if tally.wrong else 0)


main()
