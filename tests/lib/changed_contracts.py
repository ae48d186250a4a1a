#!/usr/bin/env python3
"""Prints the crates with edits in `edits/` whose contracts differ from a revision, for `wrong_bodies --changed REV`.

usage: python3 tests/lib/changed_contracts.py REV

A crate's contracts are the signatures and clauses of its functions, its definitions (specs/), and the definitions of
the crates of which its code names definitions. Comments don't count.
"""

import os
import re
import subprocess
import sys

TOP = os.path.realpath(f"{os.path.dirname(os.path.realpath(__file__))}/../..")

FUNCTION = re.compile(r"\s*(?:pub(?:\(crate\))? )?(?:unsafe )?(?:extern \"C\" )?fn \w")
GHOST = re.compile(r"\s*ghost ")
NAMED = re.compile(r"\bRattle\.(\w+)\.specs\b")


def git(*words):
    done = subprocess.run(["git", "-C", TOP, *words], capture_output=True, text=True, check=False)
    if done.returncode:
        sys.exit(done.stderr.strip())
    return done.stdout


def now(folder, ending):
    """Each file below a folder, with its text."""
    for at, _, names in os.walk(f"{TOP}/{folder}"):
        for name in names:
            if name.endswith(ending):
                with open(f"{at}/{name}", encoding="utf-8") as file:
                    yield os.path.relpath(f"{at}/{name}", TOP), file.read()


def before(revision, folder, ending):
    for path in git("ls-tree", "-r", "--name-only", revision, "--", folder).splitlines():
        if path.endswith(ending):
            yield path, git("show", f"{revision}:{path}")


def clauses(text):
    """The lines of signatures and clauses, up to each body."""
    within = False
    for line in text.splitlines():
        within = within or FUNCTION.match(line) is not None
        if (within or GHOST.match(line)) and not line.strip().startswith("//"):
            yield line.strip()
        within = within and not line.endswith("{")


def contracts(files):
    return {path: [*clauses(text)] for path, text in files if not path.endswith("/tests.rt")}


def definitions(files):
    """The lines of definitions, without comments."""
    return {path: [line for line in text.splitlines() if not line.startswith("--")] for path, text in files}


def main():
    if len(sys.argv) != 2:
        sys.exit(__doc__.split("\n\n")[1])
    revision = git("rev-parse", "--verify", f"{sys.argv[1]}^{{commit}}").strip()
    changed = git("diff", "--name-only", revision, "--", "crates").splitlines()
    touched = {path.split("/")[1] for path in changed}

    def differs(name, part, ending, lines):
        folder = f"crates/{name}/{part}"
        return name in touched and lines(now(folder, ending)) != lines(before(revision, folder, ending))

    defined = {name for name in sorted(touched) if differs(name, "specs", ".antt", definitions)}
    for name in sorted(os.listdir(f"{TOP}/edits")):
        named = set(NAMED.findall("".join(text for _, text in now(f"crates/{name}/src", ".rt"))))
        if differs(name, "src", ".rt", contracts) or defined & {name, *named}:
            print(name)


main()
