"""What the scripts that make tables share: files and parts of files that are made, and how rows are laid out."""
import os
import sys

TOP = os.path.dirname(os.path.dirname(os.path.abspath(__file__)))


def text_of(path):
    with open(os.path.join(TOP, path), encoding="utf-8") as file:
        return file.read()


def rows_of(path):
    """The lines of a table's text, without those that are empty or begin with `#` and a blank."""
    return [line for line in text_of(path).splitlines() if line and not line.startswith("# ")]


def filled(values, indent=4, width=99, end=","):
    """Values as lines, as many in a line as have room, each with an end."""
    lines, line = [], ""
    for value in values:
        more = f"{value}{end}"
        if line and indent + len(line) + 1 + len(more) > width:
            lines.append(" " * indent + line)
            line = ""
        line = f"{line} {more}" if line else more
    return lines + [" " * indent + line] if line else lines


def between(path, first, last, lines):
    """The text of a file in which other lines stand between its line `first` and the next line `last`."""
    old = text_of(path).splitlines()
    start = old.index(first) + 1
    return "\n".join([*old[:start], *lines, *old[old.index(last, start):]]) + "\n"


def settle(made):
    """Writes the files that are made, by their paths; or, behind the word --check, ends with 1 where one stands otherwise."""
    changed = [path for path, text in made.items() if text_of(path) != text]
    if sys.argv[1:] == ["--check"]:
        if changed:
            sys.exit(f"made otherwise by {sys.argv[0]}: {', '.join(changed)}")
        return
    for path in changed:
        with open(os.path.join(TOP, path), "w", encoding="utf-8", newline="\n") as file:
            file.write(made[path])
