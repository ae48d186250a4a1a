"""What the tests of the program share: `want`, the libraries that are preloaded, a process over pipes, and dumps."""

import os
import re
import subprocess
import sys

LIB = os.path.dirname(os.path.realpath(__file__))
TOP = os.path.realpath(f"{LIB}/../..")

# The most characters that are shown of a value.
SHOWN = 600


def shown(value):
    text = repr(value)
    return text if len(text) <= SHOWN else f"{text[: SHOWN // 2]} .. {text[-SHOWN // 2 :]}"


def want(holds, what, *seen):
    """Ends the test if this doesn't hold, and shows what was seen."""
    if not holds:
        sys.exit(f"{os.path.basename(sys.argv[0])}: {what}: {' / '.join(map(shown, seen))}")


def built_program(given=None):
    """The path of the program to test. `crates/famsync/build` and `rt ci` make it where it is looked for by default."""
    return os.path.realpath(given or f"{TOP}/crates/famsync/out/famsync")


# Libraries that are preloaded


def build_preloaded(source):
    """Builds a library from a file of C, in the folder of the test."""
    target = os.path.basename(source).replace(".c", ".so")
    words = ["cc", "-shared", "-fPIC", "-O1", "-Wall", "-Wextra", "-Werror", "-o", target, source, "-ldl"]
    want(subprocess.run(words).returncode == 0, "the library is built", source)


def build_faults():
    build_preloaded(f"{LIB}/faults.c")


def build_refused():
    build_preloaded(f"{LIB}/refused.c")


def preloaded(name, **settings):
    """The environment of a process that has this library before all others, with its settings."""
    return {**os.environ, "LD_PRELOAD": os.path.abspath(f"{name}.so"), **settings}


def faulty(fault, only=None):
    """The environment in which a call fails, or the process is killed or stopped at it (faults.c)."""
    return preloaded("faults", FAULT=fault, COUNT=os.path.abspath("count"), **({"ONLY": only} if only else {}))


def refusing(number):
    """The environment in which this request for memory is refused (refused.c)."""
    return preloaded("refused", REFUSED=str(number), COUNT=os.path.abspath("count"))


def counted():
    """The number that a preloaded library left at the end of a process."""
    with open("count", encoding="ascii") as file:
        return int(file.read())


# Processes and dumps


class Pipe:
    """A process that is written lines, and prints lines."""

    def __init__(self, words, **how):
        streams = {"stdin": subprocess.PIPE, "stdout": subprocess.PIPE, "stderr": subprocess.PIPE}
        self.process = subprocess.Popen(words, **{**streams, **how})

    def send(self, line):
        """Writes a line. Whether the process still reads."""
        try:
            self.process.stdin.write(line + b"\n")
            self.process.stdin.flush()
        except BrokenPipeError:
            return False
        return True

    def line(self):
        """The next line that the process prints, or None at the end of its output."""
        found = self.process.stdout.readline()
        return found[:-1].decode() if found.endswith(b"\n") else None

    def close(self):
        """Ends the input."""
        try:
            self.process.stdin.close()
        except BrokenPipeError:
            pass

    def end(self):
        """Ends the input. The status of the process, the rest of its output, and its standard error."""
        self.close()
        rest = self.process.stdout.read()
        said = self.process.stderr.read().decode() if self.process.stderr else ""
        status = self.process.wait(120)
        for stream in filter(None, (self.process.stdout, self.process.stderr)):
            stream.close()
        return status, rest, said


def begun_session(program, volume):
    """A session of `serve`, which has the volume locked until its end."""
    session = Pipe([program, "serve", volume])
    session.send(b'{"cpus":1,"tlb":8,"frames":2,"copies":0}')
    want((session.line() or "").startswith("ready "), "a session begins", volume)
    return session


def files_of_dump(text):
    """The files that `famsync dump` prints, by their names."""
    files, here = {}, None
    for line in text.splitlines():
        if re.fullmatch("[0-9a-f]{12}( [0-9a-f]{2}){1,16}", line):
            at, row = int(line[:12], 16), bytes.fromhex(line[13:])
            here[at : at + len(row)] = row
        else:
            name, length = line.split()
            files[name] = here = bytearray(int(length))
    return {name: bytes(content) for name, content in files.items()}
