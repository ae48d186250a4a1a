"""What the tests share: the package and the library that they try, volumes, and processes.

The library is the one that FAMSYNC_LIBRARY names, else what `make -C clients/c` left.
"""

import os
import subprocess
import sys
import tempfile
import unittest
import warnings

HERE = os.path.dirname(os.path.realpath(__file__))
PACKAGE = os.path.dirname(HERE)
TOP = os.path.dirname(os.path.dirname(PACKAGE))
sys.path.insert(0, PACKAGE)
BUILT = f"{TOP}/clients/c/out/libfamsync.so"
if "FAMSYNC_LIBRARY" not in os.environ and os.path.exists(BUILT):
    os.environ["FAMSYNC_LIBRARY"] = BUILT

import famsync  # noqa: E402

PAGE = 4096


def put(block, at, count, number):
    block[at : at + count] = number.to_bytes(count, "big")


KEY = 0x0123456789ABCDEF
LAYOUTS = (5, 6)


def log_blocks(records):
    """How many blocks a log has in which a commit has at most so many records."""
    return max(4, -(-(32 + 4 * records) // PAGE) + records + 1)


def make_volume(path, records, *files, layout=5):
    """Makes a volume as docs/FORMATS.md says, with files `NAME=LENGTH` or `NAME=LENGTH/CAPACITY`."""
    head, lengths = bytearray(PAGE), bytearray(PAGE)
    lengths_at = 4 + log_blocks(records)
    home = lengths_at + 1
    behind = log_blocks(records) + 1
    for number, file in enumerate(files):
        name, _, length = file.partition("=")
        length, _, capacity = length.partition("/")
        capacity, row = int(capacity or length), 32 + 48 * number
        pages = -(-capacity // PAGE)
        head[row : row + len(name)] = name.encode()
        put(head, row + 32, 8, capacity)
        put(head, row + 40, 4, home - behind)
        put(head, row + 44, 4, pages)
        put(lengths, 8 * number, 8, int(length))
        home += pages
    head[:8] = b"FAMSYNC%d" % layout
    for at, value in ((8, len(files)), (12, log_blocks(records)), (16, home), (20, 4)):
        put(head, at, 4, value)
    put(head, 24, 8, KEY if layout == 6 else 0)
    with open(path, "wb") as volume:
        volume.truncate(home * PAGE)
        volume.write(head)
        volume.seek(lengths_at * PAGE)
        volume.write(lengths)
        volume.seek(2 * PAGE)
        volume.write((1).to_bytes(8, "big") * 2)


def run_python(code, *words, **options):
    """Runs lines of Python that may use the package."""
    environment = {**os.environ, "PYTHONPATH": PACKAGE, **options.pop("environment", {})}
    how = {"capture_output": True, "text": True, "timeout": 120, "env": environment, **options}
    return subprocess.run([sys.executable, "-c", code, *words], **how)


def forked(work):
    """The status with which a child ends that does some work, or raises in it."""
    with warnings.catch_warnings():
        # The library has a thread of its own, and Python 3.12 and later warns of forks then.
        warnings.simplefilter("ignore", DeprecationWarning)
        child = os.fork()
    if child == 0:
        status = 1
        try:
            work()
            status = 0
        except BaseException as error:
            print(f"in a child: {error!r}", file=sys.stderr, flush=True)
        finally:
            os._exit(status)
    return os.waitpid(child, 0)[1]


class InAFolder(unittest.TestCase):
    """A test in a folder of its own, which has the volume v.img. A commit of it has at most so many pages."""

    pages, files, layout = 16, ("a=20000", "b=5000"), 5

    def setUp(self):
        folder = tempfile.TemporaryDirectory(prefix="famsync-")
        self.addCleanup(folder.cleanup)
        self.addCleanup(os.chdir, os.getcwd())
        os.chdir(folder.name)
        self.make(self.pages, *self.files, layout=self.layout)

    def make(self, pages, *files, layout=5):
        make_volume("v.img", pages + 1, *files, layout=layout)

    def opened(self, **options):
        """A session, which ends with the test where that hasn't ended it."""
        volume = famsync.open("v.img", **options)
        self.addCleanup(self.end, volume)
        return volume

    def end(self, volume):
        try:
            volume.close()
        except famsync.Error:
            pass
