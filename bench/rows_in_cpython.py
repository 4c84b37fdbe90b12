#!/usr/bin/env python3.12
"""Compares the rows of the tables that CPython can answer with the answers of the CPython that runs this script, 3.12.

Values and names are evaluated; sources are tokenized and parsed, and what is printed of them must have the same tree;
searches are made by importlib's PathFinder in folders that are made for them; whole calls are run as scripts on the search
path of their rows, several at once in threads, and rounds in one process that edits the files between them
(`cpython_runner.py`); the scripts of made workloads run in threads. Where a row allows several answers CPython's must be one
of these. Prints how many rows of each table were compared, and each row that is answered otherwise. Exit status 1 where
there is one.
"""
import ast
import importlib
import importlib._bootstrap
import importlib.machinery
import io
import keyword
import marshal
import os
import pathlib
import re
import subprocess
import sys
import tempfile
import tokenize
import unicodedata

CRATES = pathlib.Path(__file__).resolve().parent.parent / "crates"
OWN_RULES = "# Where this language differs"


def sections(table):
    """The rows of a table with their answers, each beside the notes that stand above it."""
    notes, between = [], True
    rows, answered = ((CRATES / table / name).read_text().split("\n") for name in ("stdin", "stdout"))
    for row, line in zip(rows, answered, strict=True):
        if row.startswith("#"):
            notes = [row] if between else [*notes, row]
            between = False
        elif row:
            between = True
            yield " ".join(notes), row, line[len(row) + len(" -> ") :] if line != row else None


# Values.

VALUES = {
    "letters": lambda n: "a" * n,
    "zeros": lambda n: [0] * n,
    "type": lambda value: Plain(type(value).__name__),
    "str": str,
    "repr": repr,
}


class Plain(str):
    """A text that is shown as it is."""


def shown(row, value):
    """What a row shows of a value: texts of `str`, `repr` and `type` as they are, all others by `repr`."""
    if isinstance(value, Plain) or row.startswith(("str(", "repr(")):
        return str(value)
    return repr(value)


def evaluated(row):
    names = dict(VALUES)
    if re.match(r"(str|repr|type)\((str|repr|len|print)\)$", row):
        names = {"type": VALUES["type"]}
    try:
        return shown(row, eval(row, names))
    except Exception as error:
        return f"{type(error).__name__}: {error}"


def argument(word):
    return ast.literal_eval(word) if word.startswith('"') else word


def is_dotted(text):
    return all(
        part.isidentifier() and unicodedata.normalize("NFKC", part) == part and not keyword.iskeyword(part)
        for part in text.split(".")
    )


def yes(answer):
    return "yes" if answer else "no"


def resolved(row):
    found = re.fullmatch(r'resolve (\S+) level (\d+) ?(\S*)', row)
    package, level, name = argument(found[1]), int(found[2]), found[3]
    if package == "none" or not is_dotted(package):
        return "no parent"
    try:
        return importlib._bootstrap._resolve_name(name, package, level)
    except ImportError:
        return "beyond top"


def package(row):
    _, kind, name = row.split(" ")
    module = {"__name__": name}
    if kind in ("package", "namespace"):
        module["__path__"] = []
    return importlib._bootstrap._calc___package__(module)


def named(row):
    call, _, rest = row.partition(" ")
    answers = {
        "dotted": lambda: yes(is_dotted(argument(rest))),
        "identifier": lambda: yes(rest.isidentifier()),
        "normal": lambda: unicodedata.normalize("NFKC", rest),
        "keyword": lambda: yes(keyword.iskeyword(rest)),
        "resolve": lambda: resolved(row),
        "package": lambda: package(row),
    }
    return answers[call]() if call in answers else None


def value_rows():
    for notes, row, answer in sections("rows_values"):
        if answer is None or OWN_RULES in notes:
            continue
        if notes.startswith("# Operators"):
            yield row, answer, evaluated(row)
        elif row.split(" ")[0].isalpha():
            yield row, answer, named(row)


# Sources.


def quoted(text):
    marks = {"\\": "\\\\", '"': '\\"', "\n": "\\n", "\r": "\\r", "\t": "\\t"}
    plain = lambda c: f"\\x{ord(c):02x}" if ord(c) < 32 or ord(c) == 127 else c
    return '"' + "".join(marks.get(c, plain(c)) for c in text) + '"'


def source_of(row):
    """The source of a row, or None where Python does not spell it so."""
    spelled = row.split(" ", 1)[1]
    if spelled.startswith(("blocks(", "hex(")):
        return None
    return eval(spelled)


def token(kind, text):
    if kind == tokenize.NAME:
        return f"word {text}" if keyword.iskeyword(text) else f"name {text}"
    if kind == tokenize.NUMBER:
        return str(ast.literal_eval(text))
    if kind == tokenize.STRING:
        return quoted(ast.literal_eval(text))
    names = {tokenize.NEWLINE: "newline", tokenize.INDENT: "indent", tokenize.DEDENT: "dedent", tokenize.ENDMARKER: "end"}
    return names.get(kind, text)


def tokenized(source):
    lines = {}
    for it in tokenize.generate_tokens(io.StringIO(source).readline):
        if it.type not in (tokenize.COMMENT, tokenize.NL):
            lines.setdefault(it.start[0], []).append(token(it.type, it.string))
    return "; ".join(f"line {line}: {' '.join(tokens)}" for line, tokens in lines.items())


class JoinedGlobals(ast.NodeTransformer):
    """Puts the names of all `global` lines of a function into its first, as the printer does."""

    def visit_FunctionDef(self, function):
        names = [name for line in function.body if isinstance(line, ast.Global) for name in line.names]
        others = [line for line in function.body if not isinstance(line, ast.Global)]
        function.body = [ast.Global(names=names), *others] if names else others
        return self.generic_visit(function)


def tree(source):
    return ast.dump(JoinedGlobals().visit(ast.parse(source)))


def source_rows():
    for notes, row, answer in sections("rows_sources"):
        source = source_of(row) if row.startswith(("tokens ", "tree ")) else None
        if source is None:
            continue
        if row.startswith("tokens ") and notes.startswith("# Tokens, by lines") and source.endswith("\n"):
            yield row, answer, tokenized(source)
        if row.startswith("tree ") and answer.startswith('"'):
            printed = ast.literal_eval(answer)
            yield row, tree(printed), tree(source)


# Searches.


def make(folder, files):
    for name in files:
        path = folder / name
        if name.endswith("/"):
            path.mkdir(parents=True, exist_ok=True)
        else:
            path.parent.mkdir(parents=True, exist_ok=True)
            path.write_text("pass\n")


def found(name, entries):
    importlib.invalidate_caches()
    sys.path_importer_cache.clear()
    spec = importlib.machinery.PathFinder.find_spec(name, entries)
    below = lambda path: os.path.relpath(path)
    if spec is None:
        return "none"
    if spec.origin is None:
        return " ".join(["portions", *map(below, spec.submodule_search_locations)])
    if spec.submodule_search_locations is None:
        return f"module {below(spec.origin)}"
    return " ".join(["package", below(spec.origin), *map(below, spec.submodule_search_locations)])


def search_rows():
    home = os.getcwd()
    for _, row, answer in sections("rows_search"):
        parts = re.fullmatch(r'find (\S+) on (\S+) in ?(.*)', row)
        if parts is None:
            continue
        with tempfile.TemporaryDirectory() as folder:
            make(pathlib.Path(folder), parts[3].split())
            os.chdir(folder)
            entries = [7 if entry == "#" else entry for entry in argument(parts[2]).split(":")]
            yield row, answer, found(parts[1], entries)
            os.chdir(home)


# Whole calls.

OWN_TEXTS = "# Texts of this project's own"
RUNNER = pathlib.Path(__file__).resolve().parent / "cpython_runner.py"
SECONDS = 60
OF_ITS_KIND = {"IndentationError": "SyntaxError", "TabError": "SyntaxError"}
CALL = re.compile(
    r"(?:#.*\n)*row (?P<name>.*)\n(?P<files>(?:(?:file|dir|pieces) .*\n|[|/].*\n)*)"
    r"words run (?:--path (?P<path>\S+) )?(?:--rounds (?P<rounds>\S+)|(?P<scripts>[^-\s]\S*(?: [^-\s]\S*)*))\n"
    r"(?P<allowed>(?:allow .*\n)*)run(?: again and again -> as allowed.*)?\n"
    r"(?:out\n(?P<out>(?:[|/] .*\n)*)(?:err\n(?P<err>(?:[|/] .*\n)*))?status (?P<status>\d)\n)?(?:run with each .*\n)*\n*"
)
# Rows of which the kind of the error alone is compared, beside those below a note that says so: why.
BY_KIND = dict.fromkeys(
    (
        "a first script that fails",
        "one of two scripts fails, and the next round goes on",
        "both scripts of a round fail in one module",
        "the least script has the first line of the errors",
    ),
    "the text of a division by zero (`docs/differences.md`)",
)


def calls(table):
    """The calls of a table that begin with files alone, each with the notes of its section."""
    notes = ""
    for block in (CRATES / table / "stdout").read_text().split("\n\n"):
        if re.fullmatch(r"(?:#.*\n?)*", block):
            notes = block
        elif parts := CALL.fullmatch(block + "\n"):
            yield notes, parts


def lines_of(text):
    """The text that stands in lines with their signs: `|` before a line with its end, `/` before one without."""
    return "".join(line[2:] + ("\n" if line[0] == "|" else "") for line in text.splitlines())


def bytes_of(pieces):
    spelled = re.sub(
        r'hex\((\w*)\)|("(?:[^"\\]|\\.)*")',
        lambda found: f"bytes.fromhex('{found[1]}')" if found[1] is not None else f"{found[2]}.encode()",
        pieces,
    )
    return eval(spelled)


def contents(lines):
    return b"".join(
        bytes_of(line.removeprefix("pieces ")) if line.startswith("pieces ") else lines_of(line).encode()
        for line in lines.splitlines()
    )


def edit_of(line):
    """An edit of a rounds file."""
    kind, path, *given = line.split(" ", 2)
    if kind == "file":
        return kind, path, bytes_of(given[0])
    return kind, path, int(given[0]) if given else None


def edits_of(files):
    """The edits that make the folders and files of a row."""
    edits = []
    for kind, one in re.findall(r"^(file|dir) ((?:.*\n)(?:[|/].*\n|pieces .*\n)*)", files, flags=re.M):
        path, lines = one.split("\n", 1)
        if kind == "dir":
            path, _, time = path.partition(" ")
            edits.append((kind, path, int(time or 0)))
        else:
            edits.append((kind, path, contents(lines)))
    return edits


def rounds_of(text):
    """The rounds of a rounds file, each with its edits and its scripts."""
    rounds = []
    for line in text.split("\n")[1:-1]:
        if line == "round":
            rounds.append(([], []))
        elif line.startswith("script "):
            rounds[-1][1].append(line.removeprefix("script "))
        else:
            rounds[-1][0].append(edit_of(line))
    return rounds


def run_in_cpython(folder, entries, rounds, times=None, is_alone=False):
    """What CPython prints for rounds, the lines of errors, and its status.

    Paths are told from the folder on, and locks without their addresses.
    """
    words = [sys.executable, *"-I -S -B -X utf8 -W ignore".split(), RUNNER, *(["alone"] if is_alone else [])]
    plan = marshal.dumps((entries, times or {"": 0}, rounds))
    try:
        done = subprocess.run(words, cwd=folder, input=plan, capture_output=True, timeout=SECONDS)
    except subprocess.TimeoutExpired:
        return "", f"no answer in {SECONDS} seconds", "-1"
    out, err = (text.decode().replace(f"{folder}/", "") for text in (done.stdout, done.stderr))
    return out, re.sub(r"(_ModuleLock\('[\w.]+'\)) at \d+", r"\1", err), str(done.returncode)


def run(folder, parts):
    """What CPython makes of a call."""
    edits = edits_of(parts["files"])
    rounds = [([], (parts["scripts"] or "").split(" "))]
    if parts["rounds"]:
        texts = {path: given for kind, path, given in edits if kind == "file"}
        rounds = rounds_of(texts[parts["rounds"]].decode())
    rounds[0][0][:0] = edits
    entries = os.path.dirname(rounds[0][1][0]) if parts["scripts"] and parts["path"] is None else parts["path"] or ""
    return run_in_cpython(folder, entries.split(":"), rounds)


def wanted_of(parts):
    """What a call may come to, as rows tell it: output, errors, status."""
    if parts["status"]:
        return [(lines_of(parts["out"]), lines_of(parts["err"] or ""), parts["status"])]
    allowed = re.findall(r'^allow ("(?:[^"\\]|\\.)*") ("(?:[^"\\]|\\.)*") (\d)$', parts["allowed"], flags=re.M)
    return [(ast.literal_eval(out), ast.literal_eval(err), status) for out, err, status in allowed]


def kind_alone(answer):
    """An answer whose errors are given by their kinds alone."""
    out, err, status = answer
    kinds = re.findall(r"^(\S+): (\w+)", err, flags=re.M)
    return out, [(script, OF_ITS_KIND.get(kind, kind)) for script, kind in kinds], status


def is_own(answer):
    """Whether only this project comes to such an answer."""
    _, err, status = answer
    return status not in "01" or any(word in err for word in ("ProfileError", "source is longer"))


def call_rows(table):
    for notes, parts in calls(table):
        wanted = wanted_of(parts)
        # (CPython has no module `pyimport`)
        if any(map(is_own, wanted)) or notes.startswith(OWN_RULES) or "import pyimport" in parts["files"]:
            continue
        with tempfile.TemporaryDirectory() as folder:
            answered = run(pathlib.Path(folder).resolve(), parts)
        if notes.startswith(OWN_TEXTS) or parts["name"] in BY_KIND:
            wanted, answered = [*map(kind_alone, wanted)], kind_alone(answered)
        yield parts["name"], answered if answered in wanted else wanted, answered


def run_rows():
    return call_rows("rows_runs")


# Made workloads: the generator once more, and scripts that run in threads of one CPython.

MADE_RUNNER = """import sys, threading
sys.path[:] = [""]
sources = [open(f"s{n}.py").read() for n in range(int(sys.argv[1]))]
threads = [threading.Thread(target=exec, args=(source, {})) for source in sources]
for thread in threads:
    thread.start()
for thread in threads:
    thread.join()
print(sum(name[0] == "m" and name[1:].isdigit() for name in sys.modules), file=sys.stderr)
"""


def made_files(seed, modules, scripts):
    """The files of a made workload, with their texts."""
    state = seed

    def imports(count, bound):
        nonlocal state
        lines = ""
        for _ in range(count):
            state = (state * 6364136223846793005 + 1442695040888963407) % 2**64
            lines += f"import m{state // 2**33 % bound}\n"
        return lines

    for n in range(modules):
        yield f"m{n}.py", (imports(2, (n + 1) // 2) if n else "") + f'print("m{n}")\nx = {n}\n'
    for n in range(scripts):
        yield f"s{n}.py", imports(4, modules)


def made_rows():
    """The rows of made workloads that have a line, each beside the line about their run in CPython."""
    asked = r"^row (.*)\nwords gen (\d+) (\d+) (\d+)\nrun\nout\n\| (.*)$"
    for name, *numbers, line in re.findall(asked, (CRATES / "rows_runs" / "stdout").read_text(), flags=re.M):
        seed, modules, scripts = map(int, numbers)
        with tempfile.TemporaryDirectory() as folder:
            for file, text in made_files(seed, modules, scripts):
                (pathlib.Path(folder) / file).write_text(text)
            words = [sys.executable, *"-I -S -B -X utf8 -c".split(), MADE_RUNNER, str(scripts)]
            done = subprocess.run(words, cwd=folder, capture_output=True, encoding="utf-8")
        counts = f"loads {done.stderr.strip()} prints {len(done.stdout.splitlines())} status {done.returncode}"
        yield name, line, f"modules {modules} scripts {scripts} {counts}"


def main():
    if sys.version_info[:2] != (3, 12):
        sys.exit("this needs CPython 3.12")
    others = 0
    for rows in (value_rows, source_rows, search_rows, run_rows, made_rows):
        count = 0
        for row, answer, answered in rows():
            if answered is None:
                continue
            count += 1
            if answer != answered:
                others += 1
                print(f"{rows.__name__}: {row}\n    here    {answer}\n    CPython {answered}")
        print(f"{rows.__name__}: {count} compared")
    sys.exit(1 if others else 0)


if __name__ == "__main__":
    main()
