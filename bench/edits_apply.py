#!/usr/bin/env python3
"""Whether each wrong body still applies: the edits below crates/*/must-fail and those below edits/.

    python3 bench/edits_apply.py

An edit names a file of its crate and has pairs of lines, `old:` and `new:`. It applies where the text of each `old:` stands
exactly once in that file, as the pairs before it have made it, and where `new:` is another text. Prints each edit that does
not apply, with the reason, and each folder of edits/ that is no crate; ends with status 1 where there is one. It proves
nothing and takes no second: that the prover refuses the edits is tried by `rt ci` and bench/wrong_bodies.py. Needs Python 3
alone.
"""
import pathlib
import sys

ROOT = pathlib.Path(__file__).resolve().parent.parent


def pairs(path):
    """The words before the colon of each line of an edit, with the text behind it."""
    for line in path.read_text().split("\n"):
        if line.strip():
            word, _, text = line.partition(": ")
            yield word, text


def why_not(path, crate):
    """Why an edit does not apply to the files of a crate, or None."""
    texts, file, old = {}, None, None
    for word, text in pairs(path):
        if word == "file":
            file = crate / text
            if not file.is_file():
                return f"there is no file {text}"
            texts.setdefault(file, file.read_text())
        elif word == "old" and file:
            count = texts[file].count(text)
            if count != 1:
                return f"stands {count} times in {file.relative_to(crate)}: {text}"
            old = text
        elif word == "new" and old is not None:
            if text == old:
                return f"changes nothing: {text}"
            texts[file] = texts[file].replace(old, text)
            old = None
        else:
            return f"a line that is out of place: {word}"
    if file is None or old is not None:
        return "a line is missing"
    if all(text == path.read_text() for path, text in texts.items()):
        return "all in all it changes nothing"
    return None


def main():
    found = 0
    for folder in sorted([*(ROOT / "crates").glob("*/must-fail"), *(path for path in (ROOT / "edits").iterdir() if path.is_dir())]):
        crate = folder.parent if folder.name == "must-fail" else ROOT / "crates" / folder.name
        if not crate.is_dir():
            print(f"{folder.relative_to(ROOT)}: there is no such crate")
            found += 1
            continue
        for path in sorted(folder.glob("*.edit")):
            why = why_not(path, crate)
            if why:
                print(f"{path.relative_to(ROOT)}: {why}")
                found += 1
    sys.exit(1 if found else 0)


if __name__ == "__main__":
    main()
