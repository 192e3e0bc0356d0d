"""The stored tables of a program.

Ahead of each table stands a line `table NAME`, in the program's `stdin` and in its `stdout` alike.
"""
import pathlib

CRATES = pathlib.Path(__file__).resolve().parent.parent / "crates"


def parts(text):
    """The tables of a text by their names, each with the lines behind the one that begins it."""
    found, name = {}, None
    for line in text.splitlines(keepends=True):
        word, _, rest = line.rstrip("\n").partition(" ")
        if word == "table":
            name = rest
            found[name] = ""
        else:
            found[name] += line
    return found


def table(crate, name):
    """What stands of a table in the program's `stdin`."""
    return parts((CRATES / crate / "stdin").read_text())[name]


def store(crate, name, cases, answers):
    """Puts a table and its answers in the place of those that stand."""
    for file, text in (("stdin", cases), ("stdout", answers)):
        path = CRATES / crate / file
        found = parts(path.read_text())
        found[name] = text
        path.write_text("".join(f"table {it}\n{found[it]}" for it in found))
