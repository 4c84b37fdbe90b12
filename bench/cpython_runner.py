"""Runs rounds of scripts in this one process of CPython, and edits the files of the working folder between them.

    cpython_runner.py [alone] < PLAN

PLAN is written by `marshal`: the entries of the search path, the time of each folder that is there, and the rounds, each
with its edits and its scripts. An edit is its kind, its path, and bytes or a time. All scripts of a round run at once,
each in a `__main__` of its own, and the next round begins when they have ended. Exit status 1 where a script ends by an
error. Its kind and text are written to the error output, in the order of the scripts.

Three ways of CPython that `docs/differences.md` names are taken out here:

- the path of a namespace is a list, in a sum and as a text;
- an entry that was no folder when it was first searched is looked at again in the next round;
- with `alone`, no second look is taken at the first package behind a missing parent, or a submodule that a `from` names.
"""
# (Each module that CPython has not begun with costs time. `unicodedata` gives names their normal form, and would be looked
# for on the search path.)
import _thread
import importlib
import marshal
import os
import sys
import unicodedata

# The time of each folder, in seconds. An edit changes it where it says so, and not where the system would.
times = {}


def clear(path):
    if os.path.isdir(path):
        for name in os.listdir(path):
            clear(f"{path}/{name}")
        os.rmdir(path)
        times.pop(path, None)
    elif os.path.exists(path):
        os.remove(path)


def make_folder(path):
    if path and not os.path.isdir(path):
        make_folder(os.path.dirname(path))
        clear(path)
        os.mkdir(path)
        times[path] = 0


def edit(kind, path, given):
    if kind == "remove":
        clear(path)
        return
    make_folder(os.path.dirname(path))
    if kind == "dir":
        make_folder(path)
        times[path] = given
    else:
        clear(path)
        with open(path, "wb") as file:
            file.write(given)


def set_times():
    for path, time in times.items():
        os.utime(path or ".", (time, time))


def read_as_lists():
    path = importlib._bootstrap_external._NamespacePath
    path.__add__ = lambda self, other: list(self) + other
    path.__repr__ = lambda self: repr(list(self))


def forget_absent():
    for name, finder in list(sys.path_importer_cache.items()):
        if finder is None:
            del sys.path_importer_cache[name]


def import_alone():
    # (in place of `__import__`, which ends by an import of the first package)
    system = importlib._bootstrap
    load, from_list = system._find_and_load, system._handle_fromlist
    system._find_and_load = lambda name, _: load(name, system._gcd_import)
    system._handle_fromlist = lambda module, names, _, **more: from_list(module, names, system._gcd_import, **more)


def run(script):
    """Runs a script. The answer is the line of the error that ends it, or `None`."""
    names = {"__name__": "__main__", "__file__": script, "__package__": None, "__spec__": None, "__builtins__": __builtins__}
    try:
        with open(script, "rb") as source:
            code = compile(source.read(), script, "exec")
        exec(code, names)
    except BaseException as error:
        text = str(error)
        return f"{script}: {type(error).__name__}" + (f": {text}" if text else "")
    return None


def run_all(scripts):
    """Runs scripts at once. The answer is whether none ended by an error."""
    errors = [None] * len(scripts)
    ends = [_thread.allocate_lock() for _ in scripts]

    def start(n):
        errors[n] = run(scripts[n])
        ends[n].release()

    for end in ends:
        end.acquire()
    for n in range(len(scripts)):
        _thread.start_new_thread(start, (n,))
    for end in ends:
        end.acquire()
    lines = [line for line in errors if line is not None]
    for line in lines:
        print(line, file=sys.stderr)
    return not lines


def main(is_alone):
    entries, first_times, rounds = marshal.load(sys.stdin.buffer)
    read_as_lists()
    if is_alone:
        import_alone()
    times.update(first_times)
    sys.argv[1:] = []
    sys.path[:] = entries
    sys.path_importer_cache.clear()
    is_good = True
    for edits, scripts in rounds:
        for it in edits:
            edit(*it)
        set_times()
        forget_absent()
        is_good = run_all(scripts) and is_good
    sys.exit(not is_good)


if __name__ == "__main__":
    main("alone" in sys.argv)
