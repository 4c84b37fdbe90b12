"""The import machine, in plain Python: which events it allows, and what it replies. After docs/machine.md.

The state is dictionaries and lists. `Machine.allowed` tells whether a thread may make an event, and `Machine.step` makes it.
"""
import dataclasses

import plain_trace as trace
import plain_values as values

BUILTINS = {
    "sys": {"modules": values.SYS_MODULES, "path": values.SYS_PATH},
    "importlib": {"invalidate_caches": values.Native("invalidate_caches"), "reload": values.Native("reload")},
    "pyimport": {"lazy": values.Native("lazy")},
}
READY, INITIALISING, LAZY = "ready", "initialising", "lazy"
RESTING, OPEN, ENDED = "resting", "open", "ended"
DONE = ("done",)


@dataclasses.dataclass
class Object:
    spec: trace.Spec
    variables: dict
    phase: str


@dataclasses.dataclass
class Load:
    kind: str
    thread: int
    mid: int
    text: bytes
    stage: str


@dataclasses.dataclass
class Reloading:
    thread: int
    mid: int
    load: int = None


def start_variables(spec):
    variables = {"__name__": spec.name, "__package__": spec.package()}
    if spec.kind in ("package", "namespace"):
        variables["__path__"] = values.List(spec.path) if spec.kind == "package" else values.NS_PATH
    return variables | {"__file__": spec.file}


class Machine:
    def __init__(self, scripts, texts, path, begins):
        """`begins` has for each script the first one of its round."""
        self.scripts, self.begins = len(scripts), begins
        self.cache, self.objects, self.loads = {}, [], []
        self.locks, self.waits, self.states = {}, {}, {}
        self.path, self.epoch, self.reloads, self.ended, self.listings = list(path), 0, {}, set(), {}
        for thread, (script, text) in enumerate(zip(scripts, texts)):
            spec = trace.Spec("__main__", "file", script)
            self.objects.append(Object(spec, {"__name__": "__main__", "__package__": None, "__file__": script}, READY))
            self.loads.append(Load("main", thread, thread, text, OPEN))
        for name, variables in BUILTINS.items():
            self.cache[name] = len(self.objects)
            self.objects.append(Object(trace.Spec(name, "builtin"), {"__name__": name} | variables, READY))

    # What the state says.

    def name(self, mid):
        return self.objects[mid].spec.name

    def module(self, mid):
        return values.Module(mid, self.name(mid), self.objects[mid].spec.place())

    def slot(self, name):
        """The entry of a name: absent, halted, or a module."""
        entry = self.cache.get(name, "absent")
        return entry if isinstance(entry, str) else self.module(entry)

    def is_builtin(self, mid):
        return self.objects[mid].spec.kind == "builtin"

    def owner(self, name):
        return self.locks[name][0] if name in self.locks else None

    def is_free(self, name, thread):
        return self.owner(name) in (None, thread)

    def closes(self, thread, name):
        """Whether a wait of this thread for this lock would close a cycle of threads that wait."""
        waits = self.waits | {thread: name}
        pairs = {(one, self.owner(awaited)) for one, awaited in waits.items() if self.owner(awaited) is not None}
        while True:
            more = {(one, last) for one, middle in pairs for first, last in pairs if middle == first} - pairs
            if not more:
                return (thread, thread) in pairs
            pairs |= more

    def has_spare_take(self, thread, name):
        owner, count = self.locks.get(name, (None, 0))
        loads = [it for it in self.loads if it.kind != "main" and it.stage == OPEN and it.thread == thread]
        return owner == thread and count > len([it for it in loads if self.name(it.mid) == name])

    def is_asleep(self, thread, mid):
        """Whether a module is lazy, or a lazy one that another thread loads."""
        phase = self.objects[mid].phase
        if phase == INITIALISING:
            return any((it.kind, it.mid, it.stage) == ("lazy", mid, OPEN) and it.thread != thread for it in self.loads)
        return phase == LAZY

    def parents_are_there(self, name):
        return "." not in name or name.rpartition(".")[0] in self.cache

    # Changes.

    def lock(self, thread, name):
        self.locks[name] = (thread, self.locks.get(name, (thread, 0))[1] + 1)

    def unlock(self, name):
        thread, count = self.locks.pop(name)
        if count > 1:
            self.locks[name] = (thread, count - 1)

    def waits_for(self, thread, name):
        self.waits[thread] = name
        return ("wait", name)

    def new_load(self, kind, thread, mid, text, stage):
        self.loads.append(Load(kind, thread, mid, text, stage))
        return len(self.loads) - 1

    def new_object(self, spec, phase):
        self.objects.append(Object(spec, start_variables(spec), phase))
        self.cache[spec.name] = len(self.objects) - 1
        return len(self.objects) - 1

    # Allowed.

    def allowed(self, thread, event):
        if thread >= self.scripts or not self.is_due(thread) or not self.exist(event):
            return False
        word = event[0]
        if word == "wake":
            return thread in self.waits and self.is_free(self.waits[thread], thread)
        if thread in self.ended or thread in self.waits:
            return False
        test = getattr(self, "allows_" + word.split(" ")[0], None)
        return test is None or test(thread, *event[1:])

    def is_due(self, thread):
        """Whether all scripts of earlier rounds have ended."""
        return all(it in self.ended for it in range(self.begins[thread]))

    def exist(self, event):
        """Whether the modules and loads in an event exist, and its modules have the names and places of theirs."""
        numbered = self.loads if event[0] in ("finish", "source") else self.objects
        for kind, field in zip(trace.kinds_of(trace.EVENTS, event[0]), event[1:]):
            if kind == "u32" and field >= len(numbered):
                return False
            if kind == "load" and field is not None and field >= len(self.loads):
                return False
            if not all(map(self.is_right, values_in(field))):
                return False
        return True

    def is_right(self, value):
        """Whether all that a value names exists."""
        if isinstance(value, values.Module):
            return value.mid < len(self.objects) and value == self.module(value.mid)
        if isinstance(value, values.Func):
            return value.load < len(self.loads)
        return all(map(self.is_right, values.items_of(value) or ()))

    def allows_add(self, thread, spec, text):
        return self.has_spare_take(thread, spec.name) and not (spec.kind == "namespace" and text)

    def allows_addlazy(self, thread, spec, text):
        return self.has_spare_take(thread, spec.name) and spec.kind in ("file", "package")

    def allows_release(self, thread, name):
        return self.has_spare_take(thread, name)

    def allows_finish(self, thread, load, how):
        it = self.loads[load]
        return it.stage == OPEN and it.thread == thread and it.kind in ("plain", "lazy")

    def allows_set(self, thread, mid, name, value, mode):
        return value != values.NS_PATH

    def allows_print(self, thread, text):
        return values.bytes_of(text) <= values.MOST_BYTES

    def allows_pathadd(self, thread, at, value):
        return not isinstance(value, values.Special)

    def allows_nsget(self, thread, mid):
        return mid in self.states

    def allows_nsset(self, thread, mid, state):
        return mid in self.states

    def allows_tabset(self, thread, name, slot):
        return slot != "absent"

    def reload_of(self, thread, mid):
        """The reload of a module by a thread, or None."""
        return next((it for it in self.reloads.values() if (it.thread, it.mid) == (thread, mid)), None)

    def allows_reloadtake(self, thread, mid, spec, text):
        it = self.reload_of(thread, mid)
        is_fit = spec.name == self.name(mid) and not (spec.kind == "namespace" and text)
        return it is not None and it.load is None and is_fit

    def allows_reloadend(self, thread, mid, load):
        it = self.reload_of(thread, mid)
        return it is not None and it.load == load

    def allows_main(self, thread, spec, text):
        return spec.kind == "file"

    def allows_end(self, thread, *outcome):
        owns = any(owner == thread for owner, _ in self.locks.values())
        reloads = any(it.thread == thread for it in self.reloads.values())
        opens = any(it.thread == thread and it.stage == OPEN and it.kind != "main" for it in self.loads)
        return not (owns or reloads or opens)

    # Step.

    def step(self, thread, event):
        """The reply to an allowed event, which is made."""
        return getattr(self, "on_" + event[0].split(" ")[0])(thread, *event[1:])

    def on_ask(self, thread, name):
        entry = self.cache.get(name)
        if entry is None:
            return ("missing",) if self.is_free(name, thread) else self.waits_or(thread, name, ("deadlock",))
        if entry == "halted":
            return ("halted",)
        own = self.name(entry)
        if self.objects[entry].phase != INITIALISING or self.owner(own) == thread:
            return ("module", self.module(entry))
        return self.waits_or(thread, own, ("cycle", self.module(entry)))

    def waits_or(self, thread, name, reply):
        """Waits for a lock, or gives this reply where that would close a cycle."""
        return reply if self.closes(thread, name) else self.waits_for(thread, name)

    def on_take(self, thread, name):
        reply = self.on_ask(thread, name)
        if reply != ("missing",):
            return reply
        self.lock(thread, name)
        return ("mine", self.epoch)

    def on_wake(self, thread):
        del self.waits[thread]
        return ("woken",)

    def on_add(self, thread, spec, text):
        mid = self.new_object(spec, INITIALISING)
        if spec.kind == "namespace":
            self.states[mid] = trace.State((), 0, spec.path)
        return ("load", self.new_load("plain", thread, mid, text, OPEN), mid)

    def on_addlazy(self, thread, spec, text):
        mid = self.new_object(spec, LAZY)
        self.new_load("lazy", thread, mid, text, RESTING)
        self.unlock(spec.name)
        return ("module", self.module(mid))

    def on_finish(self, thread, load, how):
        it = self.loads[load]
        name = self.name(it.mid)
        it.stage, self.objects[it.mid].phase = ENDED, READY
        self.unlock(name)
        if how == "bad":
            self.cache.pop(name, None)
            return ("kept", "absent")
        if it.kind == "plain":
            if name not in self.cache:
                return ("lost",)
            if not self.parents_are_there(name):
                return ("lostparent",)
            self.set_on_parent(name)
        return ("kept", self.slot(name))

    def set_on_parent(self, name):
        front, _, tail = name.rpartition(".")
        parent = self.cache.get(front)
        if front and isinstance(parent, int) and not self.is_builtin(parent):
            entry = self.slot(name)
            self.objects[parent].variables[tail] = None if entry == "halted" else entry

    def on_release(self, thread, name):
        self.unlock(name)
        return DONE

    def unset(self, mid):
        return ("unset", "init" if self.objects[mid].phase == INITIALISING else "plain")

    def sleeps(self, thread, mid, mode):
        return mode == "soft" and self.is_asleep(thread, mid)

    def on_get(self, thread, mid, name, mode):
        if self.sleeps(thread, mid, mode):
            return ("sleeping",)
        variables = self.objects[mid].variables
        return ("value", variables[name]) if name in variables else self.unset(mid)

    def on_set(self, thread, mid, name, value, mode):
        if self.is_builtin(mid):
            return ("fixed",)
        if self.sleeps(thread, mid, mode):
            return ("sleeping",)
        self.objects[mid].variables[name] = value
        return DONE

    def on_del(self, thread, mid, name, mode):
        if self.is_builtin(mid):
            return ("fixed",)
        if self.sleeps(thread, mid, mode):
            return ("sleeping",)
        if name not in self.objects[mid].variables:
            return self.unset(mid)
        del self.objects[mid].variables[name]
        return DONE

    def on_names(self, thread, mid):
        return ("names", tuple(self.objects[mid].variables))

    def on_source(self, thread, load):
        it = self.loads[load]
        return ("loaded", self.module(it.mid), it.text)

    def on_print(self, thread, text):
        return DONE

    def on_pathget(self, thread):
        return ("path", tuple(self.path))

    def on_pathadd(self, thread, at, value):
        if len(self.path) == values.MOST_ITEMS:
            return ("full",)
        # (Python's insert cuts an index to the ends, as the machine does)
        self.path.insert(len(self.path) if at is None else at, value)
        return DONE

    def on_dirget(self, thread, folder, part):
        if folder not in self.listings:
            return ("nolisting",)
        time, names = self.listings[folder]
        return ("listing", time, *("yes" if name in names else "no" for name in (part, part + ".py")))

    def on_dirset(self, thread, folder, time, names):
        self.listings[folder] = (time, names)
        return DONE

    def on_invalidate(self, thread):
        self.epoch += 1
        self.listings = {}
        return DONE

    def on_nsget(self, thread, mid):
        return ("state", self.states[mid], self.epoch)

    def on_nsset(self, thread, mid, state):
        self.states[mid] = state
        return DONE

    def on_tabget(self, thread, name):
        return ("slot", self.slot(name))

    def on_tabset(self, thread, name, slot):
        if name in BUILTINS:
            return ("fixed",)
        self.cache[name] = slot if slot == "halted" else slot.mid
        return DONE

    def on_tabdel(self, thread, name):
        if name in BUILTINS:
            return ("fixed",)
        old = self.slot(name)
        self.cache.pop(name, None)
        return ("was", old)

    def on_reloadbegin(self, thread, mid, mode):
        name = self.name(mid)
        if self.is_builtin(mid):
            return ("fixed",)
        if self.sleeps(thread, mid, mode):
            return ("sleeping",)
        if self.cache.get(name) != mid:
            return ("notthere",)
        if name in self.reloads:
            return ("busy", self.module(self.reloads[name].mid))
        self.reloads[name] = Reloading(thread, mid)
        return ("begun", self.epoch)

    def on_reloadtake(self, thread, mid, spec, text):
        name = spec.name
        if not self.is_free(name, thread):
            return self.waits_or(thread, name, ("deadlock",))
        if self.cache.get(name) != mid:
            return ("notthere",)
        self.lock(thread, name)
        self.objects[mid].variables.update(start_variables(spec))
        if spec.kind == "namespace":
            self.states[mid] = trace.State((), 0, spec.path)
        load = self.new_load("reload", thread, mid, text, OPEN)
        self.reload_of(thread, mid).load = load
        return ("load", load, mid)

    def on_reloadend(self, thread, mid, load):
        name = self.name(mid)
        del self.reloads[name]
        if load is None:
            return DONE
        self.loads[load].stage = ENDED
        self.unlock(name)
        return ("kept", self.slot(name)) if name in self.cache else ("lost",)

    def on_rouse(self, thread, mid):
        name, phase = self.name(mid), self.objects[mid].phase
        if phase == READY or phase == INITIALISING and self.owner(name) == thread:
            return ("ready",)
        if phase == INITIALISING:
            return self.waits_or(thread, name, ("cycle", self.module(mid)))
        if not self.is_free(name, thread):
            return self.waits_or(thread, name, ("deadlock",))
        self.lock(thread, name)
        self.objects[mid].phase = INITIALISING
        load = next(n for n, it in enumerate(self.loads) if it.mid == mid and it.stage == RESTING)
        self.loads[load].stage, self.loads[load].thread = OPEN, thread
        return ("yours", load, self.loads[load].text)

    def on_main(self, thread, spec, text):
        self.loads[thread].text = text
        self.objects[thread].variables.update({"__package__": spec.package(), "__file__": spec.file})
        return DONE

    def on_end(self, thread, *outcome):
        self.ended.add(thread)
        return DONE


def values_in(field):
    """The values in a field of an event."""
    if isinstance(field, trace.State):
        return field.parent
    return [field] if isinstance(field, (values.Module, values.Func, values.List, tuple)) else []
