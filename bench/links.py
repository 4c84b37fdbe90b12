"""Whether every link of README.md, CHANGELOG.md and of the pages leads somewhere.

A link leads to a file or a folder of the repository, or to a heading of a page. A path in backticks that begins with a
folder of the repository names a file or a folder too. In docs/differences.md the last cell of each row of a table names
rows of the tables of crates/, or crates. Prints each that leads nowhere, with its place, and ends with status 1 where there
is one. Needs Python 3 alone.
"""
import pathlib
import re
import sys

ROOT = pathlib.Path(__file__).resolve().parent.parent
TOPS = "crates docs bench edits examples tools".split()


def plain(page):
    """The text of a page, without what stands in fences and in indented blocks."""
    text = re.sub(r"(?ms)^```.*?^```", "", page.read_text())
    return "\n".join("" if line.startswith("    ") else line for line in text.split("\n"))


def headings(page):
    """The names under which the headings of a page are reached."""
    found = re.findall(r"(?m)^#+ (.*)$", plain(page))
    return {re.sub(r"[^\w -]", "", heading.lower()).replace(" ", "-") for heading in found}


def leads_nowhere(page, link):
    """Why a link leads nowhere, or None."""
    if re.match(r"\w+://", link):
        return None
    path, _, heading = link.partition("#")
    to = (page.parent / path).resolve() if path else page
    if not to.exists() or not to.is_relative_to(ROOT):
        return "there is no such file"
    if heading and heading not in headings(to):
        return "there is no such heading"
    return None


def lost(page):
    """The line, the link and the reason of all that leads nowhere."""
    for number, line in enumerate(plain(page).split("\n"), 1):
        for link in re.findall(r"\]\(([^)\s]+)\)", line):
            why = leads_nowhere(page, link)
            if why:
                yield number, link, why
        for path in re.findall(rf"`((?:{'|'.join(TOPS)})/[^`\s]*)`", line):
            # (a word in capitals stands for any name)
            is_pattern = re.search(r"[*<]", path) or re.search(r"(^|/)[A-Z]{2,}(/|$)", path)
            if not is_pattern and not (ROOT / path).exists():
                yield number, path, "there is no such file"


def known_rows():
    """The rows of all tables, by their names where they have one, and the names of the crates."""
    known = {path.name for path in (ROOT / "crates").iterdir()}
    for table in (ROOT / "crates").glob("*/stdin"):
        for line in table.read_text(errors="replace").split("\n"):
            known.add(line[4:] if line.startswith("row ") else line)
    return known


def lost_rows(page):
    """The same of the rows that the last cells of the tables of a page name."""
    known = known_rows()
    for number, line in enumerate(page.read_text().split("\n"), 1):
        if line.startswith("| ") and line.count(" | ") == 4:
            for _, name in re.findall(r"(`+) ?(.*?) ?\1(?!`)", line.rsplit(" | ", 1)[1]):
                if name not in known:
                    yield number, name, "there is no such row"


def main():
    found = 0
    for page in [ROOT / "README.md", ROOT / "CHANGELOG.md", *sorted((ROOT / "docs").glob("*.md"))]:
        rows = lost_rows(page) if page.name == "differences.md" else ()
        for number, link, why in [*lost(page), *rows]:
            print(f"{page.relative_to(ROOT)}:{number}: {link}: {why}")
            found += 1
    sys.exit(1 if found else 0)


if __name__ == "__main__":
    main()
