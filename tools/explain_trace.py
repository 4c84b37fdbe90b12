#!/usr/bin/env python3
"""Says where scripts failed: tools/explain_trace.py TRACE [SCRIPT..]

A trace is what `pyimport run --trace` writes (docs/trace.md); `-` reads it from standard input. Of each script that did not
end normally it says in which module's body that happened, by which chain of imports that body was reached, and what the last
ten events of the script were before it. A trace does not have the words of the scripts; where they are given, in their
order, they are shown. Status 0, or 2 where the text is no trace. Needs Python 3.8 alone.

The body is the innermost one that was open when the error began to end bodies. A trace has no line for an `except` that does
not match, but for the names that it reads: reading the name of a kind of errors is taken for such a test. So an error that a
handler raises anew is shown where the first one happened, if the handler made no other event before. Which function was
running is told by the last name that code read or set as its own.
"""
import re
import sys

LAST = 10
WIDEST = 150
ESCAPES = {"n": "\n", "r": "\r", "t": "\t"}
KIND = re.compile(r"(\w*Error|\w*Exception)")
TEXT = r'"(?:[^"\\]|\\.)*"'


class Refused(Exception):
    """A line that is none of a trace."""


def fields(text):
    """The pieces of an entry between blanks that stand in no quotes."""
    found = re.findall(rf'(?:{TEXT}|[^" ])+', text)
    if " ".join(found) != text:
        raise Refused("blanks or quotes that no entry has")
    return found


def text_of(field):
    """The text that a field spells, or the field itself where it is bare."""
    if not field.startswith('"'):
        return field
    plain = lambda at: chr(int(at[1][1:], 16)) if at[1][0] == "x" else ESCAPES.get(at[1], at[1])
    return re.sub(r"\\(x[0-9a-f]{2}|.)", plain, field[1:-1])


def file_of(spec):
    """The file that a spec names, or None."""
    found = re.match(rf"(?:file|package)\(({TEXT})", spec)
    return text_of(found[1]) if found else None


class Body:
    """A body that is open: of a script, or of a module's load."""

    def __init__(self, name, file, how, module, load=None):
        self.name, self.file, self.how, self.module, self.load = name, file, how, module, load

    def shown(self):
        return f"{self.name} ({self.file})" if self.file else self.name


class Script:
    """What is kept of a script while its trace is read."""

    def __init__(self, number, word):
        self.open = [Body(f"script {number}", word, "", str(number))]
        self.code = str(number)  # the module whose code read or set a name of its own last
        self.lines = []  # (number, text) of its entries so far
        self.failing = None  # since an error goes through bodies: the bodies, how many entries came before, the code
        self.unsure = False  # whether what seems to fail is a reload that may have ended well
        self.waits = None
        self.end = None

    def is_test(self, words, reply):
        """Whether an event may be that of an `except` that is tried on an error that goes on."""
        return words[0] == "get" and (KIND.fullmatch(words[2]) or reply[1:2] and reply[1].startswith("kind("))

    def give_up(self, load):
        """Closes the body of a load, and those inside it, which failed."""
        if self.failing is None:
            self.failing = (list(self.open), len(self.lines) - 1, self.code)
        self.close(load)

    def close(self, load):
        while len(self.open) > 1:
            if self.open.pop().load == load:
                break
        self.code = self.open[-1].module


class Trace:
    """The scripts of a trace, which is read line by line."""

    def __init__(self, words):
        self.words, self.scripts, self.files, self.names = words, {}, {}, {}

    def entry(self, at, line):
        event, arrow, reply = line.partition(" -> ")
        number = event.split(" ")[0]
        if not arrow or not number.isdigit():
            raise Refused("no entry")
        while '"' in event and event.replace('\\\\', "").replace('\\"', "").count('"') % 2:
            more, arrow, reply = reply.partition(" -> ")
            event += " -> " + more
            if not arrow:
                raise Refused("no reply")
        words, reply, number = fields(event)[1:], fields(reply), int(number)
        word = self.words[number] if number < len(self.words) else None
        script = self.scripts.setdefault(number, Script(number, word))
        script.lines.append((at, line))
        script.waits = reply[1] if reply[0] == "wait" else None
        for module, name in re.findall(rf"module\((\d+),({TEXT}|[^\",]+),", line):
            self.names[module] = text_of(name)
        act = getattr(self, "on_" + words[0], None)
        if act:
            act(script, words[1:], reply)
        elif words[0] in ("get", "set", "del") and words[-1] == "raw":
            script.code = words[1]
        if not act and (script.unsure or not script.is_test(words, reply)):
            script.failing = None
        script.unsure = words[0] == "reloadend"

    def begin(self, script, name, file, how, load, module):
        script.failing = None
        self.names[module], self.files[module] = name, file
        script.open.append(Body(name, file, how, module, load))
        script.code = module

    def on_add(self, script, words, reply):
        if reply[0] == "load":
            self.begin(script, words[0], file_of(words[1]), "imports", reply[1], reply[2])

    def on_addlazy(self, script, words, reply):
        script.failing = None
        if reply[0] == "module":
            found = re.match(r"module\((\d+),", reply[1])
            self.files[found[1]] = file_of(words[1])

    def on_rouse(self, script, words, reply):
        script.failing = None
        if reply[0] == "yours":
            module = words[0]
            self.begin(script, self.names.get(module, f"module {module}"), self.files.get(module), "first uses", reply[1], module)

    def on_reloadtake(self, script, words, reply):
        script.failing = None
        if reply[0] == "load":
            self.begin(script, words[1], file_of(words[2]), "reloads", reply[1], reply[2])

    def on_finish(self, script, words, reply):
        if words[1] == "bad":
            script.give_up(words[0])
        else:
            script.failing = None
            script.close(words[0])

    def on_reloadend(self, script, words, reply):
        if any(body.load == words[1] for body in script.open[1:]):
            # (whether the body raised is not in the trace: the next entry tells)
            script.give_up(words[1])

    def on_release(self, script, words, reply):
        if script.failing is None:
            script.failing = (list(script.open), len(script.lines) - 1, script.code)

    def on_end(self, script, words, reply):
        script.end = words
        if script.failing is None:
            script.failing = (list(script.open), len(script.lines) - 1, script.code)


def ended(words):
    """How a script ended, in words."""
    if words[0] == "raised":
        found = re.fullmatch(rf"error\((\w+),({TEXT}),.*\)", words[2])
        kind, text = (found[1], text_of(found[2])) if found else (words[2], "")
        return f"ended by {kind}: {text}" if text else f"ended by {kind}"
    return {"fuel": "spent its budget", "read": "could not read a file"}.get(words[0], f"ended: {words[0]}")


def story(number, script, trace):
    """What is said of a script that did not end normally."""
    if script.end is None:
        state = f"waits for {script.waits}" if script.waits else "has no End in this trace"
        yield f"script {number} {state}"
        chain, before, code = list(script.open), len(script.lines), script.code
    else:
        yield f"script {number} {ended(script.end)}"
        chain, before, code = script.failing
    body = chain[-1]
    yield f"  in the body of {body.shown()}"
    if code != body.module:
        yield f"  in a function that it called, of {Body(trace.names.get(code, f'module {code}'), trace.files.get(code), '', code).shown()}"
    if len(chain) > 1:
        yield f"  reached by: {chain[0].shown()}"
        for inner in chain[1:]:
            yield f"    {inner.how} {inner.shown()}"
    last = script.lines[max(0, before - LAST) : before]
    yield f"  its last {len(last)} events before that:" if last else "  it made no event before that"
    for at, line in last:
        yield f"    line {at}: {line if len(line) <= WIDEST else line[: WIDEST - 3] + '...'}"


def explain(text, words):
    """The lines that explain a trace."""
    lines = text.split("\n")
    if lines[0] not in ("pyimport-trace 2", "pyimport-trace 1"):
        raise Refused("line 1 is not the first line of a trace")
    trace = Trace(words)
    for at, line in enumerate(lines[1:], 2):
        if not line and at == len(lines):
            break
        try:
            trace.entry(at, line)
        except (Refused, IndexError) as fault:
            raise Refused(f"line {at} is no line of a trace: {fault}")
    told = 0
    for number, script in sorted(trace.scripts.items()):
        if script.end is None or script.end[0] != "normal":
            if told:
                yield ""
            yield from story(number, script, trace)
            told += 1
    if not told:
        yield "every script ended normally"


def main():
    if len(sys.argv) < 2 or sys.argv[1].startswith("--"):
        sys.exit(__doc__)
    try:
        data = sys.stdin.buffer.read() if sys.argv[1] == "-" else open(sys.argv[1], "rb").read()
        for line in explain(data.decode(errors="replace"), sys.argv[2:]):
            print(line)
        sys.stdout.flush()
    except BrokenPipeError:
        sys.stderr.close()
    except (Refused, OSError) as fault:
        print(f"explain_trace: {fault}", file=sys.stderr)
        sys.exit(2)


if __name__ == "__main__":
    main()
