"""What the lists of tests/lint share: the top of the repository, its texts, its crates, and the report of faults."""

import pathlib
import re
import sys

TOP = pathlib.Path(__file__).resolve().parents[2]


def text_of(path):
    return (TOP / path).read_text(encoding="utf-8")


def paths(pattern):
    """The files that a pattern matches, as paths from the top."""
    return sorted(str(path.relative_to(TOP)) for path in TOP.glob(pattern) if path.is_file())


def declarations(path):
    """A header of C without its comments, and without lines of the preprocessor."""
    text = re.sub(r"/\*.*?\*/", "", text_of(path), flags=re.DOTALL)
    return re.sub(r"^#.*\n", "", text, flags=re.MULTILINE)


def lines_of_crates(text):
    """The lines of crates.txt by the crates' names: all words before the colon, and the crates after it."""
    lines = {}
    for line in text.splitlines():
        head, colon, below = line.partition("#")[0].partition(":")
        if colon:
            lines[head.split()[0]] = (head.split(), below.split())
    return lines


def listed_crates():
    """Each crate of crates.txt with the crates that its line names."""
    return {name: below for name, (_, below) in lines_of_crates(text_of("crates.txt")).items()}


def report(name, faults, compared):
    """Prints each fault, and what was compared. Ends the script, with status 1 if there are faults."""
    for fault in faults:
        print(f"{name}: {fault}", file=sys.stderr)
    print(f"{name}: {compared}, {len(faults)} faults")
    sys.exit(1 if faults else 0)
