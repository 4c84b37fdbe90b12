"""What a script does beside computing, in plain Python: payments, events on recorded replies, and the search for a module.

After docs/imports.md and the pages on budgets: a `Thread` has the pairs of events and replies that a trace has of a script,
and says at which of them the script parts from the trace.
"""
import contextlib
import os
import pathlib

import plain_trace as trace
import plain_values as values

MOST_OPEN = 200
FREE = ("wake", "dirset")


class Parts(Exception):
    """The event at this place is not the one that the script makes, which is `event`, or None where it makes none."""

    def __init__(self, place, event=None):
        super().__init__(place)
        self.place, self.event = place, event


class Spent(Exception):
    """A payment cannot be made. `is_tree` says whether it is one before a call of the tree."""

    def __init__(self, is_tree):
        super().__init__(is_tree)
        self.is_tree = is_tree


class Files:
    """A tree: bytes of files and times of folders, by their parts."""

    def __init__(self, found):
        self.found = found

    @classmethod
    def below(cls, top):
        """The tree of a real folder. Times are whole seconds, and names that are no UTF-8 are left out."""
        found = {}
        for folder, _, names in os.walk(os.fsencode(top), followlinks=True):
            parts = pathlib.PurePath(os.path.relpath(os.fsdecode(folder), top)).parts
            found[parts] = int(os.stat(folder).st_mtime)
            for name in names:
                path = os.path.join(folder, name)
                if os.path.isfile(path):
                    found[(*parts, os.fsdecode(name))] = pathlib.Path(os.fsdecode(path)).read_bytes()
        is_text = lambda path: all(not "\udc80" <= letter <= "\udcff" for part in path for letter in part)
        return cls({path: it for path, it in found.items() if is_text(path)})

    def is_folder(self, path):
        return isinstance(self.found.get(path), int)

    def is_file(self, path):
        return isinstance(self.found.get(path), bytes)

    def names(self, folder):
        return tuple(sorted(path[-1] for path in self.found if path and path[:-1] == folder))


def cost(event, reply):
    """What is paid for a reply."""
    word, fields = reply[0], reply[1:]
    if event[0] == "dirset":
        return values.list_size(event[3])
    if word == "value":
        return values.size(fields[0])
    if word in ("path", "names"):
        return values.list_size(fields[0])
    if word == "state":
        return values.list_size(fields[0].parent) + values.list_size(fields[0].portions)
    return len(fields[1]) // 64 if word in ("loaded", "yours") else 0


class Thread:
    """A script over the replies that a trace has for it. `own` has its entries."""

    def __init__(self, files, number, budget, own):
        self.files, self.number, self.budget, self.own = files, number, budget, own
        self.place, self.open, self.held = 0, 0, []

    def pay(self, units, is_tree=False):
        if self.budget < units:
            raise Spent(is_tree)
        self.budget -= units

    def pay_tree(self):
        self.pay(1, is_tree=True)

    @contextlib.contextmanager
    def one_more_open(self):
        """One more body, call or import is open."""
        if self.open == MOST_OPEN:
            values.raises("RecursionError", "maximum recursion depth exceeded")
        self.open += 1
        try:
            yield
        finally:
            self.open -= 1

    # Events.

    def event(self, *event):
        """Makes an event and pays for it. Where the reply is a wait, the thread wakes."""
        if event[0] not in FREE:
            self.pay(1)
        reply = self.made(event)
        self.pay(cost(event, reply))
        if reply[0] == "wait":
            self.made(("wake",))
        return reply

    def made(self, event):
        """The recorded reply to an event, which must be the one that is recorded next."""
        if self.place == len(self.own) or self.own[self.place].event_text != trace.spelled(trace.EVENTS, event):
            raise Parts(self.place, event)
        reply = self.own[self.place].reply
        self.place += 1
        if not trace.fits(event, reply):
            raise Parts(self.place)
        self.keep(event, reply)
        return reply

    def keep(self, event, reply):
        """Keeps what the script holds of the machine, the innermost last."""
        word, answer = event[0], reply[0]
        if answer == "mine":
            self.held.append(("release", event[1]))
        elif answer == "yours":
            self.held.append(("finish", reply[1], "bad"))
        elif answer == "begun":
            self.held.append(("reloadend", event[1], None))
        elif word == "add":
            self.held[-1] = ("finish", reply[1], "bad")
        elif word == "reloadtake" and answer == "load":
            self.held[-1] = ("reloadend", event[1], reply[1])
        elif word in ("release", "finish", "reloadend", "addlazy"):
            self.held.pop()

    def give_up(self):
        """Gives up all that is held, the innermost first."""
        while self.held:
            self.made(self.held[-1])

    # The search.

    def search(self, name, path):
        """A spec, portions as a tuple of texts, or None: what is found of a name in the entries of a path."""
        tail, portions = name.rpartition(".")[2], []
        for entry in path:
            folder = values.tree_path(entry) if isinstance(entry, str) else None
            if folder is None:
                self.pay(1)
                continue
            self.pay_tree()
            if self.files.is_folder(folder):
                listed = self.listed(folder, tail)
                self.pay_tree()
                found = self.probed(name, entry, folder, tail, *listed)
                if isinstance(found, trace.Spec):
                    return found
                portions += [found] if found else []
        return tuple(portions) or None

    def listed(self, folder, tail):
        """Whether a name, and the name with .py, are listed of a folder."""
        reply, time = self.event("dirget", folder, tail), self.files.found[folder]
        if reply[0] == "listing" and reply[1] == time:
            return reply[2] == "yes", reply[3] == "yes"
        self.pay_tree()
        names = self.files.names(folder)
        self.event("dirset", folder, time, names)
        return tail in names, tail + ".py" in names

    def probed(self, name, entry, folder, tail, is_listed, is_file_listed):
        """What one folder has of a name: a spec, a portion, or None."""
        front = "" if folder == () else entry + "/"
        below = (*folder, tail)
        if is_listed and self.files.is_folder(below) and self.files.is_file((*below, "__init__.py")):
            return trace.Spec(name, "package", f"{front}{tail}/__init__.py", (front + tail,))
        if is_file_listed and self.files.is_file((*folder, tail + ".py")):
            return trace.Spec(name, "file", f"{front}{tail}.py")
        return front + tail if is_listed and self.files.is_folder(below) else None

    def text_of(self, spec):
        """The text of a file that a search found."""
        self.pay_tree()
        text = self.files.found[values.tree_path(spec.file)]
        if len(text) > 1_048_576:
            values.raises("SyntaxError", "source is longer than 1048576 bytes")
        return text
