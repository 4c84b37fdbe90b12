"""Names that nothing uses: definitions of `specs/`, lemmas of `proofs/`, and public functions of the code.

A definition or a lemma is used where its name stands in a file that takes it from its module, behind the name of its
module, or in its own file outside its own lines. A line that only takes a name is no use of it. What answers a goal
(`NAME : goal.NAME`) is used. A public function is used where its name stands in the code or in a proof outside its own
lines; a law, which is a function with an empty body, also where a page names it.

Prints each name with its place, and with ! those that stand in no other file at all. Words in front of the call limit it
to these crates. What is printed is to be looked at before it goes: a lemma may be there for the next crate. Run by hand;
needs Python 3 alone.
"""
import collections
import pathlib
import re
import sys

ROOT = pathlib.Path(__file__).resolve().parent.parent
NAME = r"[^\s(){}.,;:◌]+"
HEAD = re.compile(rf"(?m)^ *(?:(?:abbrev|unfoldable) +)?(?:pub +)?(?:(data|record) +)?({NAME}) *(?=[:({{])")
TAKES = re.compile(r"(?ms)^ *(?:pub )?(?:ghost )?use ([\w⟦⟧<>.+]+?)(?:\.\{(.*?)\}| as (\w+))?;?$")
WORD = re.compile(r"(?:-\[\]|[^\s(){}\[\].,;:&*!?<>|])+")
FUNCTION = re.compile(r"(?m)^ *pub fn (\w+)")


def without_notes(text, mark):
    return re.sub(rf"(?m)^\s*{mark}.*$", "", text)


class Source:
    """A file: what it takes from which module, and its words outside the lines that take."""

    def __init__(self, path, crate):
        self.path, self.crate = path, crate
        self.is_antt = path.suffix == ".antt"
        text = without_notes(path.read_text(), "--" if self.is_antt else "//")
        self.takes, self.aliases = collections.defaultdict(dict), collections.defaultdict(set)
        for module, names, alias in TAKES.findall(text):
            if alias:
                self.aliases[module].add(alias)
            for name in filter(None, (it.strip() for it in names.split(","))):
                own, _, other = name.partition(" as ")
                self.takes[module][own] = other or own
        self.text = TAKES.sub("", text)
        self.words = collections.Counter(WORD.findall(self.text))

    def uses(self, module, name):
        """Whether a name of another file's module is used here."""
        taken = self.takes.get(module, {}).get(name)
        if taken and self.words[taken]:
            return True
        if not self.words[name]:
            return False
        last = module.rsplit(".", 1)[-1]
        behind = [rf"\b{re.escape(it)}(?:\.|::)" for it in self.aliases.get(module, set()) | {last}]
        return any(re.search(it + re.escape(name) + r"(?![\w-])", self.text) for it in behind)


def module_of(source):
    """The name of a file of definitions or lemmas among modules."""
    inside = source.path.relative_to(ROOT / "crates" / source.crate).with_suffix("")
    return ".".join(["Rattle", source.crate, *inside.parts])


def declared(source):
    """The names that a file declares, with the lines of each."""
    for head in HEAD.finditer(source.text):
        if is_head(source.text, head):
            yield head.group(2), own_lines(source.text[head.start():], head.group(2))


def own_lines(text, name):
    """The lines of the declaration with which a text begins: those that are further in, and its own clauses."""
    lines = text.split("\n")
    depth = len(lines[0]) - len(lines[0].lstrip())
    end = 1
    while end < len(lines):
        line = lines[end].lstrip()
        is_within = not line or len(lines[end]) - len(line) > depth or line[0] in ")]}"
        if not is_within and WORD.findall(line)[:1] != [name]:
            break
        end += 1
    return "\n".join(lines[:end])


def is_head(text, head):
    """Whether a match begins a declaration: not a clause of a function, a field or an argument."""
    line = text[head.start():text.find("\n", head.start())]
    if head.group(1):
        return True
    in_column = line.startswith(("abbrev", "unfoldable", "pub")) or not line.startswith(" ")
    return in_column and re.match(rf" *(?:(?:abbrev|unfoldable) +)?(?:pub +)?{NAME} *:", line) is not None


def readers(sources):
    """For each word, and each name that is taken, the files in which it stands."""
    found = collections.defaultdict(list)
    for source in sources:
        for word in {*source.words, *(name for names in source.takes.values() for name in names)}:
            found[word].append(source)
    return found


def unused_names(sources, crates):
    """The definitions and lemmas that nothing uses, and whether they stand in another file."""
    stands_in = readers(sources)
    for source in sources:
        # (what stands in formers/ is called by the checker)
        if not source.is_antt or source.crate not in crates or "formers" in source.path.parts:
            continue
        module = module_of(source)
        for name, own in declared(source):
            answers_goal = re.match(r"[^:]*:\s*goal\w*\.", own)
            if answers_goal or name in ("use", "mod", "module"):
                continue
            inside = sum(it == name for it in WORD.findall(own))
            others = [it for it in stands_in[name] if it is not source]
            if source.words[name] <= inside and not any(it.uses(module, name) for it in others):
                yield source, name, bool(others)


def unused_functions(sources, pages, crates):
    """The public functions that nothing uses."""
    everywhere = sum((it.words for it in sources), collections.Counter())
    for source in sources:
        if source.is_antt or source.crate not in crates:
            continue
        for name in FUNCTION.findall(source.text):
            if name == "main" or everywhere[name] > 1:
                continue
            is_law = re.search(rf"pub fn {name}\b(?:(?!\n    \}}|\n\}}).)*?\n *\{{\s*\}}", source.text, re.S)
            if not (is_law and re.search(rf"\b{name}\b", pages)):
                yield source, name


def main():
    every = sorted(it.name for it in (ROOT / "crates").iterdir() if (it / "src").is_dir())
    crates = set(sys.argv[1:] or every)
    sources = [Source(path, crate) for crate in every for part, end in
               [("specs", "*.antt"), ("proofs", "*.antt"), ("src", "*.rt")]
               for path in sorted((ROOT / "crates" / crate / part).rglob(end))]
    pages = "\n".join(it.read_text() for it in [ROOT / "README.md", *(ROOT / "docs").glob("*.md")])
    for source, name, stands in unused_names(sources, crates):
        print(f"{' ' if stands else '!'} {source.path.relative_to(ROOT)}: {name}")
    for source, name in unused_functions(sources, pages, crates):
        print(f"! {source.path.relative_to(ROOT)}: pub fn {name}")


main()
