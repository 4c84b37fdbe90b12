"""How imports go, in plain Python. After docs/imports.md, step by step: import, lazy modules, reload, and the statements."""
import plain_thread
import plain_trace as trace
import plain_values as values


class Absent(Exception):
    """A name is not set, or a module has no path. `is_init` says whether the module was initialising at that read."""

    def __init__(self, is_init=False):
        super().__init__(is_init)
        self.is_init = is_init


def key_error(name):
    values.raises("KeyError", values.quoted(name))


def front_of(name):
    return name.rpartition(".")[0]


def no_attribute(module, name, is_init):
    whole = f"partially initialized module '{module.name}'" if is_init else f"module '{module.name}'"
    values.raises("AttributeError", f"{whole} has no attribute '{name}'" + (CIRCULAR if is_init else ""))


CIRCULAR = " (most likely due to a circular import)"


def cannot_import(module, name, is_init):
    whole = "partially initialized module " if is_init else ""
    place = module.place[1] if module.place[0] == "file" else "unknown location"
    text = f"cannot import name '{name}' from {whole}'{module.name}'{CIRCULAR if is_init else ''} ({place})"
    values.raises("ImportError", text, module.name)


def dotted(name):
    """A module's name where a dotted one is needed."""
    return name if values.is_dotted(name) else values.outside()


class Imports(plain_thread.Thread):
    """A script that imports. What runs bodies, `body`, is that of the language."""

    # Import of one name.

    def imports(self, name, is_lazy=False, is_parent=False):
        """The module of a name. None where a parent is halted at its first look."""
        with self.one_more_open():
            reply = self.event("ask", name)
            if is_parent and reply[0] == "halted":
                return None
            while True:
                module = self.met(name, reply) or reply[0] == "missing" and self.taken(name, is_lazy)
                if module:
                    return module
                reply = self.event("ask", name)

    def met(self, name, reply):
        """The module that a reply to Ask or Take answers, or None; an error where it is one."""
        if reply[0] in ("module", "cycle"):
            return reply[1]
        if reply[0] == "halted":
            values.raises("ModuleNotFoundError", f"import of {name} halted; None in sys.modules", name)
        self.unless_deadlock(name, reply)

    def unless_deadlock(self, name, reply):
        if reply[0] == "deadlock":
            values.raises("_DeadlockError", f"deadlock detected by _ModuleLock('{name}')")

    def taken(self, name, is_lazy):
        """Imports the parent, takes the lock and loads. None where the cache is to be asked again."""
        if front_of(name):
            self.imports(front_of(name), is_parent=True)
        reply = self.event("take", name)
        return self.loaded(name, reply[1], is_lazy) if reply[0] == "mine" else self.met(name, reply)

    def loaded(self, name, epoch, is_lazy):
        try:
            path = self.entries_for(name)
            spec, text = self.found(name, path)
        except values.Raised:
            self.event("release", name)
            raise
        if is_lazy and spec.kind != "namespace":
            return self.event("addlazy", spec, text)[1]
        _, load, mid = self.event("add", spec, text)
        if spec.kind == "namespace":
            self.event("nsset", mid, trace.State(path, epoch, spec.path))
        else:
            self.runs_body(load, values.Module(mid, name, spec.place()), text)
        self.finished(name, self.event("finish", load, "good"))

    def found(self, name, path):
        """The spec and the text of what is found for an import."""
        found = self.search(name, path)
        if found is None:
            values.raises("ModuleNotFoundError", f"No module named '{name}'", name)
        return self.read(name, found)

    def read(self, name, found):
        if isinstance(found, tuple):
            return trace.Spec(name, "namespace", None, found), b""
        return found, self.text_of(found)

    def runs_body(self, load, module, text):
        try:
            self.body(load, module, text)
        except values.Raised:
            self.event("finish", load, "bad")
            raise

    def finished(self, name, reply):
        if reply[0] == "lost":
            key_error(name)
        if reply[0] == "lostparent":
            key_error(front_of(name))

    def entries_for(self, name):
        """The path in which a module is searched."""
        parent = front_of(name)
        if not parent:
            return self.event("pathget")[1]
        entry = self.event("tabget", parent)[1]
        if entry == "absent":
            key_error(parent)
        path = None if entry == "halted" else self.path_or_none(entry)
        if path is None:
            values.raises("ModuleNotFoundError", f"No module named '{name}'; '{parent}' is not a package", name)
        return path

    # The path of a module.

    def soft(self, word, module, *fields):
        """An access to a module, which is roused first where it sleeps."""
        reply = self.event(word, module.mid, *fields, "soft")
        if reply[0] != "sleeping":
            return reply
        self.rouse(module)
        return self.event(word, module.mid, *fields, "raw")

    def path_or_none(self, module):
        try:
            return self.path_of(module)
        except Absent:
            return None

    def path_of(self, module):
        """The items of a module's path, or Absent."""
        reply = self.soft("get", module, "__path__")
        if reply[0] == "unset":
            raise Absent(reply[1] == "init")
        value = reply[1]
        if value == values.NS_PATH:
            return self.namespace_path(module)
        return values.items_of(value) if values.items_of(value) is not None else values.outside()

    def namespace_path(self, module):
        name = dotted(module.name)
        _, state, epoch = self.event("nsget", module.mid)
        parent = self.path_above(name)
        is_fresh = parent is not None and trace.spelled_items(parent) == trace.spelled_items(state.parent)
        if parent is None or is_fresh and epoch == state.epoch:
            return state.portions
        found = self.search(name, parent)
        state = trace.State(parent, epoch, found if isinstance(found, tuple) else state.portions)
        self.event("nsset", module.mid, state)
        return state.portions

    def path_above(self, name):
        """The path that a namespace package is searched in, or None."""
        parent = front_of(name)
        if not parent:
            return self.event("pathget")[1]
        entry = self.event("tabget", parent)[1]
        return self.path_or_none(entry) if isinstance(entry, values.Module) else None

    # Lazy modules.

    def rouse(self, module):
        reply = self.event("rouse", module.mid)
        while reply[0] == "wait":
            reply = self.event("rouse", module.mid)
        self.unless_deadlock(module.name, reply)
        if reply[0] == "yours":
            self.runs_body(reply[1], module, reply[2])
            self.event("finish", reply[1], "good")

    def lazy(self, name):
        if not isinstance(name, str) or not values.is_dotted(name):
            values.outside()
        return self.imports(name, is_lazy=True)

    # Reload.

    def reload(self, module):
        """The entry that a reload gives: a module, or None."""
        if not isinstance(module, values.Module):
            values.raises("TypeError", "reload() argument must be a module")
        name = dotted(module.name)
        reply = self.soft("reloadbegin", module)
        if reply[0] == "fixed":
            values.outside()
        if reply[0] == "notthere":
            values.raises("ImportError", f"module {name} not in sys.modules", name)
        if reply[0] == "busy":
            return reply[1]
        try:
            load, text = self.retaken(name, module, reply[1])
        except values.Raised:
            self.event("reloadend", module.mid, None)
            raise
        return self.reloaded(name, module, load, text)

    def retaken(self, name, module, epoch):
        """The load of a reload, and its text; no text where no body runs."""
        path = self.reload_entries(name)
        found = self.search(name, path)
        if found is None:
            values.raises("ModuleNotFoundError", f"spec not found for the module '{name}'", name)
        spec, text = self.read(name, found)
        reply = self.event("reloadtake", module.mid, spec, text)
        while reply[0] == "wait":
            reply = self.event("reloadtake", module.mid, spec, text)
        self.unless_deadlock(name, reply)
        if reply[0] == "notthere":
            values.raises("ImportError", f"module '{name}' not in sys.modules", name)
        return reply[1], (trace.State(path, epoch, found) if isinstance(found, tuple) else text)

    def reload_entries(self, name):
        parent = front_of(name)
        if not parent:
            return self.event("pathget")[1]
        entry = self.event("tabget", parent)[1]
        if entry == "absent":
            values.raises("ImportError", f"parent '{parent}' not in sys.modules", parent)
        if entry == "halted":
            values.raises("AttributeError", "'NoneType' object has no attribute '__path__'")
        try:
            return self.path_of(entry)
        except Absent as why:
            return no_attribute(entry, "__path__", why.is_init)

    def reloaded(self, name, module, load, text):
        raised = None
        try:
            if isinstance(text, trace.State):
                self.event("nsset", module.mid, text)
            else:
                self.body(load, module, text)
        except values.Raised as why:
            raised = why
        reply = self.event("reloadend", module.mid, load)
        if reply[0] == "lost":
            key_error(name)
        if raised:
            raise raised
        return None if reply[1] == "halted" else reply[1]

    # Statements.

    def value_of(self, module, value):
        """A variable's value as it is read: the path of a namespace is a list."""
        return values.List(self.namespace_path(module)) if value == values.NS_PATH else value

    def import_statement(self, name, other):
        """The variable that an import binds, and its value."""
        module = self.imports(name)
        if "." not in name:
            return other or name, module
        front, *parts = name.split(".")
        module = self.imports(front)
        if other is None:
            return front, module
        for at, part in enumerate(parts):
            if not isinstance(module, values.Module):
                values.outside()
            module = self.part_of(module, part, at + 1 == len(parts))
        return other, module

    def part_of(self, module, part, is_bound):
        reply = self.soft("get", module, part)
        if reply[0] == "unset":
            return self.entry_for(module, part, reply[1] == "init")
        return self.value_of(module, reply[1]) if is_bound else reply[1]

    def entry_for(self, module, name, is_init):
        """What the cache has for a name below a module, where the module has no such variable."""
        entry = self.event("tabget", dotted(f"{module.name}.{name}"))[1]
        if entry == "absent":
            cannot_import(module, name, is_init)
        return None if entry == "halted" else entry

    def has_path(self, module):
        return self.soft("get", module, "__path__")[0] != "unset"

    def submodules(self, module, names):
        """Imports those names of a package that are not set in it."""
        for name in names:
            if self.soft("get", module, name)[0] == "unset":
                self.submodule(dotted(f"{module.name}.{name}"))

    def submodule(self, name):
        try:
            self.imports(name)
        except values.Raised as why:
            is_own = (why.error.kind, why.error.name) == ("ModuleNotFoundError", name)
            if not is_own or self.event("tabget", name)[1] == "halted":
                raise

    def from_statement(self, name, names):
        """The variables that a `from` binds, one after another, with their values."""
        module = self.imports(name)
        if self.has_path(module):
            self.submodules(module, [name for name, _ in names])
        for name, other in names:
            yield other or name, self.part_of(module, name, True)

    def star_statement(self, name):
        module = self.imports(name)
        reply = self.soft("get", module, "__all__")
        if reply[0] == "unset":
            names = [it for it in self.event("names", module.mid)[1] if not it.startswith("_")]
        else:
            names = values.items_of(reply[1])
            if names is None or not all(isinstance(it, str) for it in names):
                values.outside()
            if self.has_path(module):
                self.submodules(module, [it for it in names if values.is_dotted(it) and "." not in it])
        for name in names:
            reply = self.soft("get", module, name)
            if reply[0] == "unset":
                no_attribute(module, name, reply[1] == "init")
            yield name, self.value_of(module, reply[1])
