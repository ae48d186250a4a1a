"""Command lines: help, and words that are wrong."""

from files.program import write
from cases.images import image_of_one, makes_volume
from cases.trial import complains, holds, leaves, prints, shows

# Command lines, and the first words of each fault.
BAD_WORDS = [
    ("", "'famsync' requires a subcommand"),
    ("frmat", "unrecognized subcommand 'frmat'"),
    ("commit|bad.img|s.json", "unrecognized subcommand 'commit'"),
    ("threads|bad.img", "the following required arguments were not provided: <SCRIPT>"),
    ("a\nb", "unrecognized subcommand 'a b'"),
    ("format", "the following required arguments were not provided: <DISK>"),
    ("format|bad.img", "the following required arguments were not provided: <FILE>..."),
    ("format|--layout|1|bad.img", "the following required arguments were not provided: <SLOTS> <FILE>..."),
    ("format|bad.img|4", "the following required arguments were not provided: <FILE>..."),
    ("format|--all|bad.img|4|a=1", "unexpected argument '--all' found"),
    ("format|bad.img|-4|a=1", "unexpected argument '-4' found"),
    ("format|--layout|two|bad.img|4|a=1", 'LAYOUT is "two"'),
    ("format|--layout=+2|bad.img|4|a=1", 'LAYOUT is "+2"'),
    ("format|--layout=|bad.img|4|a=1", 'LAYOUT is ""'),
    ("format|bad.img|4x|a=1", 'SLOTS is "4x"'),
    ("format|bad.img||a=1", 'SLOTS is ""'),
    ("format|bad.img|+4|a=1", 'SLOTS is "+4"'),
    ("format|bad.img|18446744073709551616|a=1", 'SLOTS is "18446744073709551616"'),
    ("format|bad.img|4|a", 'FILE is "a"'),
    ("format|bad.img|4|a=", 'FILE is "a="'),
    ("format|bad.img|4|a=1|b=+1", 'FILE is "b=+1"'),
    ("format|bad.img|4|a=5000/9000", 'FILE is "a=5000/9000"'),
    ("format|--layout|2|bad.img|4|a=5/5", 'FILE is "a=5/5"'),
    ("format|--layout|3|bad.img|4|a=5/6/7", 'FILE is "a=5/6/7"'),
    ("format|--layout|3|bad.img|4|a=5/", 'FILE is "a=5/"'),
    ("format|--layout|3|bad.img|4|a=/5", 'FILE is "a=/5"'),
    ("format|--layout|4|bad.img|4|a=5/6/7", 'FILE is "a=5/6/7"'),
    ("format|--layout|7|bad.img|4|a=5/6", 'FILE is "a=5/6"'),
    ("migrate|--layout|four|worse.img|bad.img|4", 'LAYOUT is "four"'),
    ("migrate|--layout=+4|worse.img|bad.img|4", 'LAYOUT is "+4"'),
    ("migrate|--layout=|worse.img|bad.img|4", 'LAYOUT is ""'),
    ("migrate|--layout|4|worse.img|bad.img|4x", 'SLOTS is "4x"'),
    ("run|bad.img", "the following required arguments were not provided: <SCRIPT>"),
    ("dump|bad.img|worse.img", "unexpected argument 'worse.img' found"),
]

HELP = [
    ("--help", "Usage: famsync <COMMAND>"),
    ("help|run", "Usage: famsync run [OPTIONS] <DISK> <SCRIPT>"),
    ("help|serve", "Usage: famsync serve [OPTIONS] <DISK>"),
    ("format|--help", "Usage: famsync format [OPTIONS] <DISK> <FILE>..."),
    ("migrate|--help", "Usage: famsync migrate [OPTIONS] <OLD> <NEW>"),
    ("dump|-h", "Usage: famsync dump [OPTIONS] <DISK>"),
    ("--version", "famsync 0.3.0\n"),
]

# Command lines, and the fault of each.
FAULTS = [
    ("format|none.img|0|a=1", 'disk "none.img": badshape: SLOTS is 0, but must be 1 to 1020\n'),
    ("format|none.img|1021|a=1", 'disk "none.img": badshape: SLOTS is 1021, but must be 1 to 1020\n'),
    ("format|--layout|3|none.img|1|a=1", 'disk "none.img": badshape: SLOTS is 1, but must be 2 to 1020\n'),
    ("format|--layout|3|none.img|1021|a=1", 'disk "none.img": badshape: SLOTS is 1021, but must be 2 to 1020\n'),
    ("format|--layout|4|none.img|1|a=1", 'disk "none.img": badshape: SLOTS is 1, but must be 2 to 65535\n'),
    ("format|--layout|4|none.img|65536|a=1", 'disk "none.img": badshape: SLOTS is 65536, but must be 2 to 65535\n'),
    (
        "format|--layout|4|none.img|4|a=0",
        'disk "none.img": badshape: the capacity of "a" is 0, but must be at least 1\n',
    ),
    (
        "format|--layout|4|none.img|4|a=6/5",
        'disk "none.img": badshape: the length of "a" is 6, which exceeds its capacity 5\n',
    ),
    (
        "format|--layout|3|none.img|4|a=0",
        'disk "none.img": badshape: the capacity of "a" is 0, but must be at least 1\n',
    ),
    (
        "format|--layout|3|none.img|4|a=6/5",
        'disk "none.img": badshape: the length of "a" is 6, which exceeds its capacity 5\n',
    ),
    ("format|none.img|4|a=0", 'disk "none.img": badshape: the length of "a" is 0, but must be at least 1\n'),
    ("format|none.img|4|=1", "disk \"none.img\": badshape: the name \"\" isn't 1 to 32 characters from ! to ~\n"),
    ("format|none.img|4|a=1|a=2", 'disk "none.img": badshape: two files have the name "a"\n'),
    ("format|none.img|4|a b=1", "disk \"none.img\": badshape: the name \"a b\" isn't 1 to 32 characters from ! to ~\n"),
    (
        "format|none.img|4|abcdefghijklmnopqrstuvwxyz1234567=1",
        'disk "none.img": badshape: the name "abcdefghijklmnopqrstuvwxyz1234567" '
        "isn't 1 to 32 characters from ! to ~\n",
    ),
    (
        "format|none.img|4|a=18446744073709551615",
        'disk "none.img": badshape: the volume would have more than 4294967295 blocks\n',
    ),
    ("format|--layout|7|none.img|4|a=1", 'disk "none.img": badshape: LAYOUT is 7, but must be 1 to 6\n'),
    ("format|--layout=0|none.img|4|a=1", 'disk "none.img": badshape: LAYOUT is 0, but must be 1 to 6\n'),
    ("format|none/x.img|4|a=1", 'file "none/x.img.new": '),
    ("format|none/x\n.img|4|a=1", 'file "none/x\\n.img.new": '),
    ("run|none.img|none.json", 'file "none.json": '),
    ("run|none.img|fault.json", 'file "none.img": '),
    (
        "run|fault.json|fault.json",
        'disk "fault.json": notavolume: the file has 51 bytes, but a volume has at least 4096\n',
    ),
    ("dump|none.img", 'file "none.img": '),
]

NO_STEPS = '{"cpus":1,"tlb":8,"frames":4,"copies":0,"steps":[]}'

LARGEST_MACHINE = (
    '{"cpus":16,"tlb":64,"frames":1020,"copies":64,"steps":[[15,"create"],'
    '[0,"map",1,4096,4096,63,0,"rw","rw"],[16,"create"]]}'
)


def format_of_files(disk, count):
    """The words that make a volume of COUNT files of one byte."""
    return f"format|{disk}" + "".join(f"|file_{i}=1" for i in range(count))


def bad_words_are_refused():
    """Bad command lines, and the first words of each fault. None makes a file."""
    for line, cause in BAD_WORDS:
        yield from complains(line, 2, cause)
    yield from leaves()


def help_is_printed():
    """Help and the version are printed with status 0."""
    for line, text in HELP:
        yield from shows(line, text)
    yield from leaves()


def faults_are_reported():
    """What ends with status 3, and each fault. No file is made, and the disk isn't changed."""
    yield from makes_volume("fault.img")
    write("fault.json", NO_STEPS)
    for line, cause in FAULTS:
        yield from complains(line, 3, cause)
    cause = 'disk "none.img": badshape: a volume must have 1 to 64 files, not 65\n'
    yield from complains(format_of_files("none.img|4", 65), 3, cause)
    yield from holds("fault.img", image_of_one())
    yield from leaves("fault.img", "fault.json")


def limits_are_served():
    """A volume of as many files and record slots as there can be, and the largest machine on it."""
    yield from prints(format_of_files("limits.img|1020", 64), 0, "formatted 1087 blocks\n")
    write("limits.json", LARGEST_MACHINE)
    yield from prints("run|limits.img|limits.json", 0, "space 1\nmapped\neinval\n")
    yield from leaves("limits.img", "limits.json")


GROUPS = [bad_words_are_refused, help_is_printed, faults_are_reported, limits_are_served]
