"""A scratch repository: some crates of this one with a program beside them, which `rt run` proves, builds and runs."""
import pathlib
import shutil
import subprocess
import sys

ROOT = pathlib.Path(__file__).resolve().parent.parent


def crate_lines():
    """The lines of crates.txt, by the names of the crates."""
    lines = (ROOT / "crates.txt").read_text().splitlines()
    return {line.split(":")[0].split(" ")[0]: line for line in lines if ":" in line}


def with_those_below(lines, names):
    """These crates and the crates of this repository that they stand on."""
    found, todo = set(), list(names)
    while todo:
        name = todo.pop()
        if name in lines and name not in found:
            found.add(name)
            todo += lines[name].split(":")[1].split()
    return sorted(found)


def build(folder, name):
    """The program of this repository of that name, built in a scratch repository. Ends the whole script where it is refused."""
    lines = crate_lines()
    names = with_those_below(lines, [name])
    for below in names:
        shutil.copytree(ROOT / "crates" / below, folder / "crates" / below, ignore=shutil.ignore_patterns("out"))
    (folder / "crates.txt").write_text("\n".join(line for below, line in lines.items() if below in names) + "\n")
    crate = folder / "crates" / name
    done = subprocess.run(["rt", "run"], cwd=crate, capture_output=True, text=True)
    program = crate / "out" / name
    if not program.exists():
        sys.exit(done.stdout + done.stderr)
    return program


def run(folder, name, program, uses, proofs=None):
    """The program's crate and what the program wrote. `uses` are the crates that it calls, and `proofs` maps the paths of
    its proof files in its crate to their texts. Ends the whole script where the program is refused.
    """
    lines = crate_lines()
    names = with_those_below(lines, uses)
    for below in names:
        shutil.copytree(ROOT / "crates" / below, folder / "crates" / below, ignore=shutil.ignore_patterns("out"))
    (folder / "crates.txt").write_text("\n".join([lines[below] for below in names] + [f"{name}: {' '.join(names)}"]) + "\n")
    crate = folder / "crates" / name
    for path, text in {"src/main.rt": program, **(proofs or {})}.items():
        (crate / path).parent.mkdir(parents=True, exist_ok=True)
        (crate / path).write_text(text)
    done = subprocess.run(["rt", "run"], cwd=crate, capture_output=True, text=True)
    if done.returncode != 0:
        sys.exit(done.stdout + done.stderr)
    return crate, done.stdout


def numbers(written, width):
    """The lines of what a program wrote that are so many whole numbers."""
    lines = [line.split() for line in written.splitlines()]
    return [[int(word) for word in words] for words in lines if len(words) == width and all(word.isdigit() for word in words)]


def end_unless_linear(rates, sizes):
    """Ends the whole script where there are no rates for each of the sizes, or those of one kind differ by more than a
    factor of 1.5. `rates` has a row of rates, one of each kind, for a size.
    """
    if len(rates) != sizes or any(max(kind) > 1.5 * min(kind) for kind in zip(*rates)):
        sys.exit("the rates differ by more than a factor of 1.5")
