"""Whether the stored traces and pictures of examples/ are what the program and tools/draw_trace.py make.

    python3 bench/examples.py          draws each stored trace again, and compares the picture; what tools/explain_trace.py
                                       says of it is what a page quotes
    python3 bench/examples.py --run    runs each example again first, and compares its trace

An example is run with the words of its file words.txt behind `run --trace`, without such a file with `main.py`. Where it has
neither, its trace stands as it is: several scripts, whose order is the system's, or a folder that changed meanwhile. Where a
rounds.txt is there, the picture has its rounds. Where a checks.txt is there, each of its lines has a trace and what `check` says
of it, in a copy whose folders have the time 0; here the plain judge is asked, and with --run the program too. The picture of a
trace that is refused has its line marked.

Prints each file that differs, and ends with status 1 where there is one. A stored trace has no times of folders, which are
those of a clone, and lists of a folder what the example itself is. Needs Python 3 alone.
"""
import os
import pathlib
import re
import shutil
import subprocess
import sys
import tempfile

ROOT = pathlib.Path(__file__).resolve().parent.parent
BESIDE = ('"trace.svg"', '"trace.txt"', '"words.txt"', '"__pycache__"')


def made(words, folder):
    """What a command writes to standard output. Its status is that of the script that it runs."""
    return subprocess.run(words, cwd=folder, stdout=subprocess.PIPE, stderr=subprocess.DEVNULL).stdout


def words_of(folder):
    """The words with which an example is run, or None."""
    if (folder / "words.txt").exists():
        return (folder / "words.txt").read_text().split()
    return ["main.py"] if (folder / "main.py").exists() else None


def quotes(folder):
    """The page that quotes what is said of an example, where what it quotes is another text now."""
    told = rf"(?m)^    \$ tools/explain_trace\.py examples/{folder.name}/trace\.txt(.*)\n((?:    .*\n)+)"
    for page in (ROOT / "docs").glob("*.md"):
        for scripts, quote in re.findall(told, page.read_text()):
            words = [sys.executable, ROOT / "tools" / "explain_trace.py", folder / "trace.txt", *scripts.split()]
            if "".join(line[4:] + "\n" for line in quote.split("\n")[:-1]) != made(words, folder).decode():
                yield page


def listed(found):
    """The line that tells what is in a folder, without its time and without what stands beside an example."""
    names = [name for name in found[2].split(",") if name not in BESIDE]
    return f"{found[1]} 0 [{','.join(names)}] -> done"


def stored(trace):
    """A trace as it is stored."""
    trace = re.sub(r"^(\d+ dirget .* -> listing) \d+ ", r"\1 0 ", trace, flags=re.M)
    return re.sub(r"^(\d+ dirset \S+) \d+ \[(.*)\] -> done$", listed, trace, flags=re.M)


def judges(is_run):
    """The judges that are asked about a trace."""
    return [[sys.executable, ROOT / "bench" / "plain_judge.py"], *([[ROOT / "pyimport", "check"]] if is_run else [])]


def checked(folder, is_run):
    """Where a judge says of a trace of an example another thing than its checks.txt, and pictures that are others."""
    if not (folder / "checks.txt").exists():
        return
    with tempfile.TemporaryDirectory() as place:
        copy = shutil.copytree(folder, pathlib.Path(place) / "copy")
        for path, _, _ in os.walk(copy):
            os.utime(path, (0, 0))
        for line in (folder / "checks.txt").read_text().splitlines():
            trace, answer = line.split(" -> ")
            said = {made([*judge, trace, *words_of(folder)], copy).decode().strip() for judge in judges(is_run)}
            if said != {answer}:
                yield folder / "checks.txt"
            if found := re.match(r"no: line (\d+):", answer):
                picture = made([sys.executable, ROOT / "tools" / "draw_trace.py", "--at", found[1], trace], folder)
                if picture != (folder / trace).with_suffix(".svg").read_bytes():
                    yield (folder / trace).with_suffix(".svg")


def differing(folder, is_run):
    """The stored files of an example that are not what is made now."""
    trace, picture, words = folder / "trace.txt", folder / "trace.svg", words_of(folder)
    if is_run and words and stored(made([ROOT / "pyimport", "run", "--trace", *words], folder).decode()) != trace.read_text():
        yield trace
    rounds = ["--rounds", "rounds.txt"] if (folder / "rounds.txt").exists() else []
    if made([sys.executable, ROOT / "tools" / "draw_trace.py", *rounds, trace], folder) != picture.read_bytes():
        yield picture
    yield from quotes(folder)
    yield from checked(folder, is_run)


def main():
    is_run = sys.argv[1:] == ["--run"]
    if sys.argv[1:] and not is_run:
        sys.exit(__doc__)
    folders = sorted(it.parent for it in (ROOT / "examples").glob("*/trace.txt"))
    found = [path for folder in folders for path in differing(folder, is_run)]
    for path in found:
        print(f"{path.relative_to(ROOT)} differs")
    sys.exit(1 if found else 0)


if __name__ == "__main__":
    main()
