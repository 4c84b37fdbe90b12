#!/usr/bin/env python3
"""Draws a trace as a picture: tools/draw_trace.py [--rounds FILE] [--at LINE] TRACE > PICTURE.svg

A trace is what `pyimport run --trace` writes (docs/trace.md). Time goes down, a row for each event that is drawn, and each
script has a column. The body of a script or a module is a bar, from its first event to its last. An import is an arrow
from the body that imports: to the bar of the body that it begins, back to the bar of a body that is not done yet, or to
the name of a module that the cache has. A wait is a hatched bar, with an arrow to the body that has to end first. What is
printed stands beside the body that prints it. With the rounds file of the run a line across the picture stands before each
round, with what was edited there. With the number of a line, as `pyimport check` tells it, a coloured row stands before the
entry of that line and shows it; for the line behind the last one, beside each script that has not ended. Needs Python 3 alone.
"""
import html
import re
import sys

STEP, BAR, ROW = 62, 14, 24
LEFT, TOP, BOTTOM = 24, 64, 24
LETTER = 7.3
LONGEST = 60
ESCAPES = {"n": "\n", "r": "\r", "t": "\t"}

STYLE = """
text { font: 13px sans-serif; fill: #222; paint-order: stroke; stroke: #fff; stroke-width: 3px }
.head { font-weight: bold } .said { font-family: monospace; font-size: 12px }
.good { fill: #4a7ab5 } .script { fill: #7a8794 } .bad { fill: #c0392b } .wait { fill: url(#hatch); stroke: #8a6d1d }
line { stroke: #333; stroke-width: 1.4 } .back { stroke-dasharray: 5 3 } .alarm { stroke: #c0392b } text.alarm { fill: #c0392b; stroke: #fff }
.lane { stroke: #ddd } .ring { fill: none; stroke: #c0392b; stroke-width: 2 }
"""

AT_STYLE = """rect.at { fill: #ffe3a3 } text.at { stroke: #ffe3a3; font-family: monospace; font-size: 12px }
"""
CUT_STYLE = """.cut { stroke: #7a8794; stroke-dasharray: 2 4 } text.cut { stroke: #fff; stroke-dasharray: none }
"""


class Bar:
    """The body of a script or a module, or a wait, in the column of a thread, from one row to another."""

    def __init__(self, thread, depth, row, name, kind, load=None):
        self.thread, self.depth, self.row, self.name, self.kind, self.load = thread, depth, row, name, kind, load
        self.last = None


class Thread:
    """What the picture keeps of a script: its open bodies, the innermost last, its wait, and the module that it just loaded."""

    def __init__(self, number):
        self.number, self.open, self.wait, self.loaded = number, [], None, None


class Refused(Exception):
    """A line that is none of a trace, or none of a rounds file."""


def fields(text):
    """The fields of an entry: the pieces between blanks that stand in no quotes."""
    found = re.findall(r'(?:"(?:[^"\\]|\\.)*"|[^" ])+', text)
    if " ".join(found) != text:
        raise Refused("blanks or quotes that no entry has")
    return found


def text_of(field):
    """The text that a field spells, or the field itself where it is bare."""
    if not field.startswith('"'):
        return field
    plain = lambda at: chr(int(at[1][1:], 16)) if at[1][0] == "x" else ESCAPES.get(at[1], at[1])
    return re.sub(r"\\(x[0-9a-f]{2}|.)", plain, field[1:-1])


def module_of(field):
    """The number and the name in module(MID,NAME,PLACE)."""
    found = re.fullmatch(r'module\((\d+),("(?:[^"\\]|\\.)*"|[^",]+),.*\)', field)
    if not found:
        raise Refused(f"no module: {field}")
    return int(found[1]), text_of(found[2])


def rounds_in(text):
    """The rounds of a rounds file: how many scripts each has, and what is edited before it."""
    rounds = []
    for line in text.split("\n")[1:-1]:
        word, _, rest = line.partition(" ")
        if word == "round":
            rounds.append((0, []))
        elif word == "script":
            count, edits = rounds.pop()
            rounds.append((count + 1, edits))
        else:
            # (the text of a file is too long for a picture)
            rounds[-1][1].append(f"{word} {rest.split(' ')[0] if word == 'file' else rest}")
    return rounds


class Picture:
    """What is drawn: bars, marks in the rows, and the cuts between rounds. It is told one entry after another."""

    def __init__(self, rounds=()):
        self.row, self.bars, self.marks, self.threads = 0, [], [], {}
        self.round_of = [at for at, (count, _) in enumerate(rounds) for _ in range(count)]
        self.rounds, self.begun, self.cuts = rounds, 0, []
        self.names, self.owners, self.of_load = {}, {}, {}

    def mark(self, thread, kind, text, target=None):
        """Puts a mark into a row of its own, beside the innermost open body of the thread."""
        self.marks.append((self.row, thread.open[-1], kind, text, target))
        self.row += 1

    def begin(self, thread, name, kind, load=None):
        """Opens a bar for a body, to which an arrow leads from the body around it."""
        bar = Bar(thread.number, len(thread.open), self.row, name, kind, load)
        if thread.open:
            self.marks.append((self.row, thread.open[-1], "import", "", bar))
        thread.open.append(bar)
        self.bars.append(bar)
        self.row += 1

    def finish(self, thread, load, is_good):
        """Closes the bar of a load. What is open inside it ends there too."""
        while len(thread.open) > 1:
            bar = thread.open.pop()
            bar.last, bar.kind = self.row, bar.kind if is_good else "bad"
            if bar.load == load:
                break
        self.row += 1

    def is_open(self, name):
        """The innermost open body of a module of this name, in any thread."""
        bodies = [bar for thread in self.threads.values() for bar in thread.open if bar.name == name and bar.load is not None]
        return bodies[-1] if bodies else None

    def own(self, thread, name, more):
        """Keeps how often a thread has taken the lock of a name."""
        count = self.owners.get(name, (thread.number, 0))[1] + more
        self.owners[name] = (thread.number, count)
        if count <= 0:
            del self.owners[name]

    def begin_wait(self, thread, name):
        """Opens the hatched bar of a wait, with an arrow to the body that has to end, or to who has the lock."""
        bar = Bar(thread.number, len(thread.open), self.row, f"waits for {name}", "wait")
        owner = self.threads.get(self.owners.get(name, (None,))[0])
        target = self.is_open(name) or (owner.open[-1] if owner and owner.open else None)
        self.bars.append(bar)
        thread.wait = bar
        if target:
            self.marks.append((self.row, bar, "waits", "", target))
        self.row += 1

    def cut(self, number):
        """Puts a line before the first entry of a round, with what was edited."""
        while number < len(self.round_of) and self.begun <= self.round_of[number]:
            edits = ", ".join(self.rounds[self.begun][1]) or "nothing is edited"
            self.cuts.append((self.row, f"round {self.begun + 1}: {edits}"))
            self.begun += 1
            self.row += 2

    def entry(self, number, words, reply, pointed=""):
        """One entry: the words of its event, and those of its reply. `pointed` is what is said of it where it is marked."""
        self.cut(number)
        thread = self.threads.setdefault(number, Thread(number))
        if not thread.open:
            self.begin(thread, f"script {number}", "script")
        if pointed:
            self.mark(thread, "at", pointed)
        for word in reply:
            for found in re.findall(r'module\(\d+,(?:"(?:[^"\\]|\\.)*"|[^",]+),', word):
                module, name = module_of(found + "_)")
                self.names[module] = name
        event = getattr(self, "on_" + words[0], None)
        if event:
            event(thread, words[1:], reply)

    def point_behind(self, line):
        """Marks the line behind the last one, beside each script that has not ended."""
        for thread in self.threads.values():
            if thread.open[0].last is None:
                self.mark(thread, "at", f"line {line}: an entry is missing")

    def on_ask(self, thread, words, reply):
        name, kind = words[0], reply[0]
        if kind == "wait":
            self.begin_wait(thread, reply[1])
        elif kind == "module":
            self.answered(thread, module_of(reply[1])[1])
        elif kind == "cycle":
            found = module_of(reply[1])[1]
            self.mark(thread, "alarm", f"{found}: waiting would close a circle", self.is_open(found))
        elif kind in ("deadlock", "halted"):
            self.mark(thread, "alarm", f"{name}: {kind}")

    def answered(self, thread, name):
        """An import is answered a module: nothing new where this thread just loaded it."""
        body, loaded = self.is_open(name), thread.loaded
        thread.loaded = None
        if body:
            self.mark(thread, "back", f"{name}, as far as it is", body)
        elif loaded != name:
            self.mark(thread, "kept", f"{name}, from the cache")

    def on_take(self, thread, words, reply):
        if reply[0] == "mine":
            self.own(thread, words[0], 1)
        else:
            self.on_ask(thread, words, reply)

    def on_wake(self, thread, words, reply):
        if thread.wait:
            thread.wait.last, thread.wait = self.row, None
            self.row += 1

    def on_add(self, thread, words, reply):
        load, number = int(reply[1]), int(reply[2])
        self.names[number] = self.of_load[load] = words[0]
        self.begin(thread, words[0], "good", load)

    def on_finish(self, thread, words, reply):
        load = int(words[0])
        name, is_good = self.of_load.get(load, ""), words[1] == "good"
        self.finish(thread, load, is_good)
        self.own(thread, name, -1)
        thread.loaded = name if is_good else None
        if reply[0] in ("lost", "lostparent"):
            self.mark(thread, "alarm", f"{name} is no longer in the cache" if reply[0] == "lost" else f"the package of {name} is no longer in the cache")

    def on_release(self, thread, words, reply):
        self.own(thread, words[0], -1)
        self.mark(thread, "note", f"{words[0]} is given up")

    def on_addlazy(self, thread, words, reply):
        self.own(thread, words[0], -1)
        self.mark(thread, "note", f"{words[0]}, lazy")

    def on_rouse(self, thread, words, reply):
        name = self.names.get(int(words[0]), f"module {words[0]}")
        if reply[0] == "yours":
            load = int(reply[1])
            self.of_load[load] = name
            self.own(thread, name, 1)
            self.begin(thread, name, "good", load)
        elif reply[0] != "ready":
            self.on_ask(thread, [name], reply)

    def on_reloadtake(self, thread, words, reply):
        if reply[0] != "load":
            return self.on_ask(thread, words[1:], reply)
        load = int(reply[1])
        self.of_load[load] = words[1]
        self.own(thread, words[1], 1)
        self.begin(thread, words[1], "good", load)

    def on_reloadend(self, thread, words, reply):
        if words[1] != "-":
            load = int(words[1])
            self.finish(thread, load, True)
            self.own(thread, self.of_load.get(load, ""), -1)

    def on_print(self, thread, words, reply):
        self.mark(thread, "said", text_of(words[0]).rstrip("\n"))

    def on_main(self, thread, words, reply):
        thread.open[0].name = f"{words[0]} as a program"

    def on_end(self, thread, words, reply):
        how = {"normal": "ends", "fuel": "its budget is spent", "read": "a file could not be read"}.get(words[0])
        script = thread.open[0]
        del thread.open[1:]
        for bar in self.bars:
            if bar.thread == thread.number and bar.last is None and bar is not script:
                bar.last = self.row
        if how is None:
            found = re.fullmatch(r'error\((\w+),("(?:[^"\\]|\\.)*"),.*\)', words[2])
            how = f"ends with {found[1]}: {text_of(found[2])}" if found else "ends with an error"
        self.mark(thread, "note" if words[0] == "normal" else "alarm", how)
        script.last, script.kind = self.row, script.kind if words[0] == "normal" else "bad"


def read(text, rounds=(), pointed=None):
    """The picture of a trace, with the rounds of its run, and with a mark at one of its lines."""
    lines = text.split("\n")
    if lines[0] not in ("pyimport-trace 1", "pyimport-trace 2"):
        raise Refused("line 1: this is no trace")
    if pointed is not None and not 2 <= pointed <= len(lines):
        raise Refused(f"line {pointed}: the trace has no such entry")
    picture = Picture(rounds)
    for at, line in enumerate(lines[1:-1], 2):
        try:
            words = fields(line)
            arrow = words.index("->")
            told = f"line {at}: {line}" if at == pointed else ""
            picture.entry(int(words[0]), words[1:arrow], words[arrow + 1 :], told)
        except (Refused, ValueError, IndexError) as why:
            raise Refused(f"line {at}: {why}") from why
    if pointed == len(lines):
        picture.point_behind(pointed)
    return picture


def shown(text, longest=LONGEST):
    """A text as it is drawn: in one line, and not too long."""
    line = "".join(letter if letter.isprintable() else "·" for letter in text)
    return line if len(line) <= longest else line[: longest - 1] + "…"


class Drawing:
    """The SVG of a picture: where each column begins, and the pieces."""

    def __init__(self, picture):
        self.picture, self.pieces, self.at, self.rows = picture, [], {}, picture.row
        x = LEFT
        for number in sorted(picture.threads):
            self.at[number] = x
            x += self.width_of(number)
        widest = [LEFT + LETTER * len(shown(text)) for _, text in picture.cuts]
        self.width, self.height = int(max([x, *widest]) + LEFT), TOP + self.rows * ROW + BOTTOM

    def width_of(self, number):
        """How wide the column of a thread is: as its widest row."""
        widths = [150.0]
        for bar in self.picture.bars:
            if bar.thread == number:
                widths.append(bar.depth * STEP + BAR + 8 + LETTER * len(shown(bar.name)))
        for _, bar, kind, text, _ in self.picture.marks:
            if bar.thread == number:
                widths.append((bar.depth + (kind == "kept")) * STEP + BAR + 30 + LETTER * (len(shown(text)) + 2))
        return int(max(widths)) + 2 * LEFT

    def left(self, bar):
        return self.at[bar.thread] + bar.depth * STEP

    def y(self, row):
        return TOP + row * ROW

    def put(self, piece):
        self.pieces.append(piece)

    def write(self, x, row, text, kind):
        self.put(f'<text class="{kind}" x="{x}" y="{self.y(row) + 5}">{html.escape(shown(text))}</text>')

    def arrow(self, row, bar, target, kind):
        """A line at the height of a row, from the side of a bar to the near side of another, with a head."""
        to_right = self.left(target) > self.left(bar)
        begin = self.left(bar) + (BAR if to_right else 0)
        end = self.left(target) + (-2 if to_right else BAR + 2)
        y = self.y(row)
        self.put(f'<line class="{kind}" x1="{begin}" y1="{y}" x2="{end}" y2="{y}" marker-end="url(#head)"/>')

    def draw_bar(self, bar):
        last = self.rows if bar.last is None else bar.last
        top, height = self.y(bar.row) - 8, max((last - bar.row) * ROW, ROW // 2)
        self.put(f'<rect class="{bar.kind}" x="{self.left(bar)}" y="{top}" width="{BAR}" height="{height}" rx="3"/>')
        if bar.kind == "bad" and bar.load is not None:
            self.write(self.left(bar) + BAR + 6, last - 0.35, "fails", "alarm")

    def draw_mark(self, row, bar, kind, text, target):
        beside = self.left(bar) + BAR + 8
        if target:
            self.arrow(row, bar, target, {"back": "back", "waits": "back", "alarm": "back alarm"}.get(kind, "import"))
        if kind == "kept":
            self.put(f'<line x1="{self.left(bar) + BAR}" y1="{self.y(row)}" x2="{self.left(bar) + STEP - 2}" y2="{self.y(row)}" marker-end="url(#head)"/>')
            beside = self.left(bar) + STEP + 4
        if kind == "alarm":
            self.put(f'<circle class="ring" cx="{beside + 6}" cy="{self.y(row)}" r="5"/>')
            beside += 18
        if kind == "said":
            text = f'"{shown(text, LONGEST - 2)}"'
        if text:
            self.write(beside, row, text, kind)

    def draw_band(self, row):
        self.put(f'<rect class="at" x="0" y="{self.y(row) - ROW // 2}" width="{self.width}" height="{ROW}"/>')

    def draw_cut(self, row, text):
        y = self.y(row + 1) - ROW // 2
        self.put(f'<line class="cut" x1="4" y1="{y}" x2="{self.width - 4}" y2="{y}"/>')
        self.put(f'<text class="cut" x="{LEFT}" y="{y - 6}">{html.escape(shown(text))}</text>')

    def svg(self):
        for row, _, kind, _, _ in self.picture.marks:
            if kind == "at":
                self.draw_band(row)
        for number, x in self.at.items():
            self.put(f'<line class="lane" x1="{x - 12}" y1="16" x2="{x - 12}" y2="{self.height - 12}"/>')
        for cut in self.picture.cuts:
            self.draw_cut(*cut)
        for bar in self.picture.bars:
            self.draw_bar(bar)
        for mark in self.picture.marks:
            self.draw_mark(*mark)
        for bar in self.picture.bars:
            # (the name of a script heads its column, or its own bar where there are rounds)
            x, row = (self.left(bar), bar.row - 0.9 if self.picture.cuts else -1.3) if bar.depth == 0 else (self.left(bar) + BAR + 6, bar.row)
            self.write(x, row + 0.6 * (bar.kind == "wait"), bar.name, "note" if bar.kind == "wait" else "head")
        return "\n".join([*self.opening(), *self.pieces, "</svg>", ""])

    def opening(self):
        hatch = '<pattern id="hatch" width="6" height="6" patternUnits="userSpaceOnUse" patternTransform="rotate(45)"><rect width="6" height="6" fill="#fff6dc"/><rect width="2.5" height="6" fill="#c9a227"/></pattern>'
        head = '<marker id="head" markerWidth="8" markerHeight="8" refX="7" refY="4" orient="auto"><path d="M0 0 L8 4 L0 8 z" fill="#333"/></marker>'
        yield f'<svg xmlns="http://www.w3.org/2000/svg" width="{self.width}" height="{self.height}" viewBox="0 0 {self.width} {self.height}" role="img">'
        yield "<title>The imports of a run</title>"
        is_pointed = any(mark[2] == "at" for mark in self.picture.marks)
        styles = STYLE + (CUT_STYLE if self.picture.cuts else "") + (AT_STYLE if is_pointed else "")
        yield f"<style>{styles}</style><defs>{hatch}{head}</defs>"
        yield f'<rect width="{self.width}" height="{self.height}" fill="#fff"/>'


def given(words):
    """The rounds file or None, the line or None, and the trace that the words name."""
    options = {}
    while len(words) > 2 and words[0] in ("--rounds", "--at") and words[0] not in options:
        option, value, *words = words
        options[option] = value
    line = options.get("--at")
    if len(words) != 1 or line is not None and not line.isdigit():
        sys.exit("usage: tools/draw_trace.py [--rounds FILE] [--at LINE] TRACE > PICTURE.svg")
    return options.get("--rounds"), None if line is None else int(line), words[0]


def contents(name):
    with open(name, encoding="utf-8", newline="\n") as file:
        return file.read()


def main(words):
    rounds, line, trace = given(words)
    try:
        picture = read(contents(trace), rounds_in(contents(rounds)) if rounds else (), line)
    except (OSError, UnicodeDecodeError, IndexError, Refused) as why:
        sys.exit(f"draw_trace: {trace}: {why}")
    sys.stdout.write(Drawing(picture).svg())


if __name__ == "__main__":
    main(sys.argv[1:])
