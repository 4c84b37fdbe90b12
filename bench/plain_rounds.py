"""Rounds in plain Python, after docs/rounds.md: what a rounds file says, and the files of each round."""
import plain_thread
import plain_trace as trace

MADE = 0


def parts_of(path):
    return tuple(path.split("/"))


def cleared(found, path):
    """Without the path and all below it."""
    return {it: what for it, what in found.items() if it[: len(path)] != path}


def placed(found, path, what):
    """What stands at a path, with folders on the way to it."""
    found = dict(found)
    for count in range(len(path)):
        if not isinstance(found.get(path[:count]), int):
            found[path[:count]] = MADE
    return found | {path: what}


def edited(found, line):
    """The tree after the edit that a line spells."""
    word, _, rest = line.partition(" ")
    path, _, value = rest.partition(" ")
    if word == "file":
        return placed(cleared(found, parts_of(path)), parts_of(path), trace.Line(value).read_source())
    return placed(found, parts_of(path), int(value)) if word == "dir" else cleared(found, parts_of(path))


def rounds_of(files, text):
    """The rounds that a text spells, which is to be a rounds file: the files of each, and its scripts."""
    found, rounds = files.found, []
    for line in text.split("\n")[1:-1]:
        if line == "round":
            rounds.append([plain_thread.Files(found), []])
        elif line.startswith("script "):
            rounds[-1][1].append(line.removeprefix("script "))
        else:
            found = edited(found, line)
            rounds[-1][0] = plain_thread.Files(found)
    return rounds
