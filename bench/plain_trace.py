"""The format of traces, in plain Python: lines read and spelled. After docs/trace.md.

An event and a reply are tuples: the word, then the fields. The fields of each word stand in the tables `EVENTS` and `REPLIES`.
"""
import dataclasses
import re

import plain_values as values

FIRST = "pyimport-trace 2\n"
NEW_IN_2 = ("dirget", "dirset", "main", "listing", "nolisting")
U32, U64 = 2**32 - 1, 2**64 - 1
MODE, HOW, YES, UNSET = ("raw", "soft"), ("good", "bad"), ("yes", "no"), ("init", "plain")

EVENTS = {
    "ask": ("name",),
    "take": ("name",),
    "wake": (),
    "add": ("name", "spec", "source"),
    "addlazy": ("name", "spec", "source"),
    "finish": ("u32", HOW),
    "release": ("name",),
    "get": ("u32", "variable", MODE),
    "set": ("u32", "variable", "value", MODE),
    "del": ("u32", "variable", MODE),
    "names": ("u32",),
    "source": ("u32",),
    "print": ("text",),
    "pathget": (),
    "pathadd": ("place", "value"),
    "dirget": ("path", "part"),
    "dirset": ("path", "u64", "texts"),
    "invalidate": (),
    "nsget": ("u32",),
    "nsset": ("u32", "state"),
    "tabget": ("name",),
    "tabset": ("name", "slot"),
    "tabdel": ("name",),
    "reloadbegin": ("u32", MODE),
    "reloadtake": ("u32", "name", "spec", "source"),
    "reloadend": ("u32", "load"),
    "rouse": ("u32",),
    "main": ("name", "spec", "source"),
    "end normal": ("u64",),
    "end fuel": ("u64",),
    "end read": ("u64",),
    "end raised": ("u64", "error"),
}
REPLIES = {
    "module": ("module",),
    "cycle": ("module",),
    "halted": (),
    "missing": (),
    "deadlock": (),
    "wait": ("name",),
    "mine": ("u64",),
    "woken": (),
    "load": ("u32", "u32"),
    "kept": ("slot",),
    "lost": (),
    "lostparent": (),
    "value": ("value",),
    "unset": (UNSET,),
    "sleeping": (),
    "fixed": (),
    "names": ("texts",),
    "loaded": ("module", "source"),
    "path": ("items",),
    "full": (),
    "state": ("state", "u64"),
    "slot": ("slot",),
    "was": ("slot",),
    "notthere": (),
    "busy": ("module",),
    "begun": ("u64",),
    "yours": ("u32", "source"),
    "listing": ("u64", YES, YES),
    "nolisting": (),
    "ready": (),
    "done": (),
}
# The words of the replies that each event can get; `reloadend` gets one by whether it has a load.
FITTING = {
    "ask": "module cycle halted missing deadlock wait",
    "take": "module cycle halted mine deadlock wait",
    "wake": "woken",
    "add": "load",
    "addlazy": "module",
    "finish": "kept lost lostparent",
    "get": "value unset sleeping",
    "set": "done fixed sleeping",
    "del": "done unset fixed sleeping",
    "names": "names",
    "source": "loaded",
    "pathget": "path",
    "pathadd": "done full",
    "dirget": "nolisting listing",
    "nsget": "state",
    "tabget": "slot",
    "tabset": "done fixed",
    "tabdel": "was fixed",
    "reloadbegin": "begun busy notthere fixed sleeping",
    "reloadtake": "load wait deadlock notthere",
    "rouse": "ready wait cycle deadlock yours",
}


def fits(event, reply):
    """Whether a reply is of a word that its event can get."""
    word, answer = event[0], reply[0]
    if word == "reloadend":
        return answer == "done" if event[2] is None else answer in ("kept", "lost")
    if (word == "finish" and event[2] == "bad" and answer != "kept") or (answer == "sleeping" and event[-1] == "raw"):
        return False
    return answer in FITTING.get(word, "done").split()


@dataclasses.dataclass(frozen=True)
class Spec:
    """What a module is loaded from. `kind` is file, package, namespace or builtin."""

    name: str
    kind: str
    file: str = None
    path: tuple = ()

    def place(self):
        return ("file", self.file) if self.kind in ("file", "package") else (self.kind,)

    def package(self):
        return self.name if self.kind in ("package", "namespace") else self.name.rpartition(".")[0]


@dataclasses.dataclass(frozen=True)
class State:
    """What is kept of the search for a namespace package."""

    parent: tuple
    epoch: int
    portions: tuple


@dataclasses.dataclass
class Entry:
    """An entry of a history, and the texts of its event and its reply."""

    thread: int
    event: tuple
    reply: tuple
    event_text: str
    reply_text: str


# Spelling.

spelled_text = values.spelled_text


def spelled_name(name):
    return name if values.is_dotted(name) else spelled_text(name)


def spelled_place(place):
    return spelled_text(place[1]) if place[0] == "file" else place[0]


def spelled_error(it):
    return f"error({it.kind},{spelled_text(it.text)},{'-' if it.name is None else spelled_text(it.name)})"


def spelled_value(it):
    if isinstance(it, str):
        return spelled_text(it)
    if isinstance(it, values.List):
        return spelled_items(it.items)
    if isinstance(it, tuple):
        return f"({','.join(map(spelled_value, it))})"
    if isinstance(it, values.Error):
        return spelled_error(it)
    if isinstance(it, values.Module):
        return f"module({it.mid},{spelled_name(it.name)},{spelled_place(it.place)})"
    if isinstance(it, values.Func):
        return f"func({it.load},{it.index},{spelled_name(it.name)})"
    if isinstance(it, (values.Native, values.Kind)):
        return f"{type(it).__name__.lower()}({it.name})"
    return it.word if isinstance(it, values.Special) else str(it)


def spelled_items(items):
    return f"[{','.join(map(spelled_value, items))}]"


def spelled_source(source):
    try:
        return spelled_text(source.decode())
    except UnicodeDecodeError:
        return f"hex({source.hex()})"


def spelled_spec(spec):
    if spec.kind == "package":
        return f"{spec.name} package({spelled_text(spec.file)},{spelled_items(spec.path)})"
    return f"{spec.name} {spec.kind}({spelled_text(spec.file) if spec.kind == 'file' else spelled_items(spec.path)})"


SPELLED = {
    "name": str,
    "u32": str,
    "u64": str,
    "variable": lambda it: it if values.is_identifier(it) else spelled_text(it),
    "part": spelled_name,
    "text": spelled_text,
    "path": lambda parts: spelled_text("/".join(parts)),
    "source": spelled_source,
    "value": spelled_value,
    "module": spelled_value,
    "error": spelled_error,
    "slot": lambda it: it if isinstance(it, str) else spelled_value(it),
    "items": spelled_items,
    "texts": spelled_items,
    "state": lambda it: f"ns({spelled_items(it.parent)},{it.epoch},{spelled_items(it.portions)})",
    "spec": spelled_spec,
    "place": lambda it: "-" if it is None else str(it),
    "load": lambda it: "-" if it is None else str(it),
}


def kinds_of(table, word):
    """The kinds of the fields behind a word. A spec is a field together with the name before it."""
    kinds = table[word]
    return tuple(kind for kind, after in zip(kinds, [*kinds[1:], None]) if (kind, after) != ("name", "spec"))


def spelled(table, one):
    """An event or a reply as a trace spells it."""
    kinds = kinds_of(table, one[0])
    return " ".join([one[0], *(it if isinstance(kind, tuple) else SPELLED[kind](it) for kind, it in zip(kinds, one[1:]))])


# Reading.


class NoTrace(Exception):
    """A text that is no trace, with the first line that is none."""

    def __init__(self, line=None):
        super().__init__(line)
        self.line = line


class Line:
    """Reads a line from the left, and raises NoTrace at the first sign that no line of the format has there."""

    def __init__(self, text, is_first_format=False):
        self.text, self.at, self.is_first_format = text, 0, is_first_format

    def has(self, text):
        is_here = self.text.startswith(text, self.at)
        self.at += len(text) * is_here
        return is_here

    def take(self, text):
        if not self.has(text):
            raise NoTrace

    def match(self, pattern):
        found = re.compile(pattern).match(self.text, self.at)
        if not found:
            raise NoTrace
        self.at = found.end()
        return found[0]

    def one_of(self, words):
        word = self.match(r"[a-z]*")
        if word not in words:
            raise NoTrace
        return word

    def number(self, least, greatest):
        digits = self.match(r"0|-?[1-9][0-9]*")
        if len(digits) > 40 or not least <= int(digits) <= greatest:
            raise NoTrace
        return int(digits)

    def read(self, kind):
        return self.one_of(kind) if isinstance(kind, tuple) else getattr(self, "read_" + kind)()

    def read_u32(self):
        return self.number(0, U32)

    def read_u64(self):
        return self.number(0, U64)

    def read_name(self):
        name = self.match(r'[^ ",()\[\]]+')
        if not values.is_dotted(name):
            raise NoTrace
        return name

    def read_text(self):
        spelling = self.match(r'"(?:[^"\\\x00-\x1f\x7f]|\\(?:["\\nrt]|x[0-9a-f]{2}))*"')
        letters = {"n": "\n", "r": "\r", "t": "\t"}
        plain = lambda found: chr(int(found[1][1:], 16)) if found[1][0] == "x" else letters.get(found[1], found[1])
        text = re.sub(r"\\(x..|.)", plain, spelling[1:-1])
        if spelled_text(text) != spelling:
            raise NoTrace
        return text

    def bare_or_text(self, is_bare):
        """A text that is bare exactly where this holds of it."""
        is_text = self.text.startswith('"', self.at)
        text = self.read_text() if is_text else self.match(r'[^ ",()\[\]]+')
        if is_bare(text) == is_text:
            raise NoTrace
        return text

    def read_variable(self):
        return self.bare_or_text(values.is_identifier)

    def read_part(self):
        return self.bare_or_text(values.is_dotted)

    def read_path(self):
        text = self.read_text()
        parts = values.tree_path(text)
        if parts is None or text == ".":
            raise NoTrace
        return parts

    def read_source(self):
        if not self.has("hex("):
            return self.read_text().encode()
        source = bytes.fromhex(self.match(r"(?:[0-9a-f]{2})*"))
        self.take(")")
        if spelled_source(source).startswith('"'):
            raise NoTrace
        return source

    def list(self, begin, read, end):
        """What is read between brackets and commas."""
        self.take(begin)
        items = []
        if not self.has(end):
            items.append(read())
            while not self.has(end):
                self.take(",")
                items.append(read())
        return tuple(items)

    def read_items(self):
        return self.list("[", self.read_value, "]")

    def read_texts(self):
        return self.list("[", self.read_text, "]")

    def read_value(self):
        value = self.any_value()
        if values.depth(value) > values.MOST_DEPTH:
            raise NoTrace
        return value

    def any_value(self):
        letter = self.text[self.at : self.at + 1]
        if letter == '"':
            return self.read_text()
        if letter == "[":
            return values.List(self.list("[", self.any_value, "]"))
        if letter == "(":
            return self.list("(", self.any_value, ")")
        if re.match(r"[0-9-]", letter):
            return self.number(values.LEAST_INT, values.GREATEST_INT)
        return self.value_of_word(self.match(r"[A-Za-z]+"))

    def value_of_word(self, word):
        plain = {"None": None, "True": True, "False": False}
        plain |= {it.word: it for it in (values.SYS_MODULES, values.SYS_PATH, values.NS_PATH)}
        if word in plain:
            return plain[word]
        read = getattr(self, "read_parts_of_" + word, None)
        if read is None:
            raise NoTrace
        self.take("(")
        value = read()
        self.take(")")
        return value

    def read_parts_of_func(self):
        load = self.read_u32()
        self.take(",")
        index = self.read_u32()
        self.take(",")
        return values.Func(load, index, self.read_part())

    def read_parts_of_native(self):
        return values.Native(self.known(values.NATIVES))

    def read_parts_of_kind(self):
        return values.Kind(self.known(values.ABOVE))

    def known(self, names):
        name = self.match(r"\w+")
        if name not in names:
            raise NoTrace
        return name

    def read_parts_of_module(self):
        mid = self.read_u32()
        self.take(",")
        name = self.read_part()
        self.take(",")
        is_file = self.text.startswith('"', self.at)
        return values.Module(mid, name, ("file", self.read_text()) if is_file else (self.one_of(("builtin", "namespace")),))

    def read_parts_of_error(self):
        kind = self.known(values.ABOVE)
        self.take(",")
        text = self.read_text()
        self.take(",")
        return values.Error(kind, text, None if self.has("-") else self.read_text())

    def value_like(self, sort):
        value = self.read_value()
        if not isinstance(value, sort):
            raise NoTrace
        return value

    def read_module(self):
        return self.value_like(values.Module)

    def read_error(self):
        return self.value_like(values.Error)

    def read_slot(self):
        word = next((it for it in ("absent", "halted") if self.has(it)), None)
        return word or self.read_module()

    def read_state(self):
        self.take("ns(")
        parent = self.read_items()
        self.take(",")
        epoch = self.read_u64()
        self.take(",")
        portions = self.read_texts()
        self.take(")")
        return State(parent, epoch, portions)

    def read_spec(self):
        name = self.read_name()
        self.take(" ")
        kind = self.one_of(("file", "package", "namespace"))
        self.take("(")
        file = self.read_text() if kind != "namespace" else None
        if kind == "package":
            self.take(",")
        path = self.read_texts() if kind != "file" else ()
        self.take(")")
        return Spec(name, kind, file, path)

    def read_place(self):
        is_none = re.compile(r"-(?![0-9])").match(self.text, self.at)
        self.at += bool(is_none)
        return None if is_none else self.number(values.LEAST_INT, values.GREATEST_INT)

    def read_load(self):
        return None if self.has("-") else self.read_u32()

    def one(self, table):
        """An event, or a reply."""
        word = self.match(r"end [a-z]+|[a-z]+")
        if word not in table or self.is_first_format and word in NEW_IN_2:
            raise NoTrace
        fields = []
        for kind in kinds_of(table, word):
            self.take(" ")
            fields.append(self.read(kind))
        return (word, *fields)

    def entry(self):
        thread = self.read_u32()
        self.take(" ")
        begin = self.at
        event = self.one(EVENTS)
        event_text = self.text[begin : self.at]
        self.take(" -> ")
        begin = self.at
        reply = self.one(REPLIES)
        if self.at != len(self.text):
            raise NoTrace
        return Entry(thread, event, reply, event_text, self.text[begin:])


def read_trace(data):
    """The number of the format of a trace and its entries, or NoTrace."""
    lines = data.split(b"\n")
    formats = {b"pyimport-trace 1": 1, b"pyimport-trace 2": 2}
    if len(lines) == 1 or lines[0] not in formats:
        raise NoTrace(1)
    entries = []
    for number, line in enumerate(lines[1:], 2):
        if number == len(lines):
            if line:
                raise NoTrace(number)
            break
        try:
            entries.append(Line(line.decode(), formats[lines[0]] == 1).entry())
        except (NoTrace, UnicodeDecodeError):
            raise NoTrace(number) from None
    return formats[lines[0]], entries
