"""Libraries in C that stand before the C library of a program, to bring about what the system seldom does."""
import os
import pathlib
import subprocess


def build(folder, name, source):
    """The library of that name, built in a folder by the system's C compiler, `$CC` or `cc`."""
    written = pathlib.Path(folder) / f"{name}.c"
    library = written.with_suffix(".so")
    written.write_text(source)
    subprocess.run([os.environ.get("CC", "cc"), "-O2", "-shared", "-fPIC", "-o", library, written, "-ldl"], check=True)
    return str(library)


def make_files(folder, files):
    """Makes files of these texts or bytes in a folder, with the folders that their paths name."""
    for path, text in files.items():
        at = pathlib.Path(folder) / path
        at.parent.mkdir(parents=True, exist_ok=True)
        at.write_bytes(text.encode() if isinstance(text, str) else text)
