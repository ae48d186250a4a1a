"""Scripts that are read or refused, and shapes that no machine has."""

from files.program import write
from cases.images import image_of_one, makes_volume
from cases.trial import complains, holds, leaves, prints, write_bytes

# Scripts that are read in spite of how they look.
ODD_SCRIPTS = [
    ' { "steps" : [ ] , "copies" : 0 , "frames" : 4 , "tlb" : 8 , "cpus" : 1 } ',
    '{"cpus":7,"steps":1,"cpus":1,"tlb":8,"frames":4,"copies":0,"steps":[]}',
    '{"cp\\u0075s":1,"tlb":8,"frames":4,"copies":0,"steps":[]}',
]

FORM = "it isn't a list of a processor, the name of an act, and arguments"

NAME = "no act has this name"

BYTES = "the bytes aren't a list of at most 8 whole numbers up to 255"

PROCESSOR = "the processor isn't a whole number up to 255"

ADDRESS = "the address isn't a whole number up to 18446744073709551615"

SPACE = "the space isn't a whole number up to 65535"

FILE = "the file isn't a whole number up to 65535"

PROT = "prot isn't one of \"r\", \"w\" and \"rw\""

# Steps that aren't in the grammar of scripts, and the fault of each after the step itself.
BAD_STEPS = [
    ("7", FORM),
    ("[]", FORM),
    ("[0]", FORM),
    ("[0,5]", FORM),
    ("{}", FORM),
    ('[256,"idle"]', PROCESSOR),
    ('["0","flush"]', PROCESSOR),
    ('[0.0,"flush"]', PROCESSOR),
    ('[0,"Flush"]', NAME),
    ('[0,""]', NAME),
    ('[0,"truncate",0,1]', NAME),
    ('[0,"idle",1]', "idle has the arguments none"),
    ('[0,"wake",1]', "wake has the arguments none"),
    ('[0,"ack",1]', "ack has the arguments none"),
    ('[0,"resume",1]', "resume has the arguments none"),
    ('[0,"flush",1]', "flush has the arguments none"),
    ('[0,"create",null]', "create has the arguments none"),
    ('[0,"change",[]]', "change has the arguments none"),
    ('[0,"load",4096]', "load has the arguments an address and a count"),
    ('[0,"load",4096,1,1]', "load has the arguments an address and a count"),
    ('[0,"load",4096,256]', "the count isn't a whole number up to 255"),
    ('[0,"load",4096.0,1]', ADDRESS),
    ('[0,"load",-1,1]', ADDRESS),
    ('[0,"store",4096,65]', BYTES),
    ('[0,"store",4096,[256]]', BYTES),
    ('[0,"store",4096,["A"]]', BYTES),
    ('[0,"store",4096,[1,2,3,4,5,6,7,8,9]]', BYTES),
    ('[0,"fill"]', "fill has the arguments a page"),
    ('[0,"fill",-1]', "the page isn't a whole number up to 18446744073709551615"),
    ('[0,"evict",256]', "the slot isn't a whole number up to 255"),
    ('[0,"destroy",65536]', SPACE),
    ('[0,"switch",65536,"keep"]', SPACE),
    ('[0,"switch",1,"Keep"]', "the second argument isn't one of \"keep\" and \"drop\""),
    ('[0,"switch",1,true]', "the second argument isn't one of \"keep\" and \"drop\""),
    ('[0,"fix",4096,"rw"]', "the second argument isn't one of \"read\" and \"write\""),
    ('[0,"map",65536,4096,4096,0,0,"r","r"]', SPACE),
    ('[0,"map",1,4096,4096,65536,0,"r","r"]', FILE),
    ('[0,"map",1,4096,4096,0,0,"x","r"]', PROT),
    ('[0,"map",1,4096,4096,0,0,"r","w"]', "open isn't one of \"r\" and \"rw\""),
    ('[0,"unmap",1,4096]', "unmap has the arguments a space, an address and a length"),
    ('[0,"protect",1,4096,4096,"rwx"]', PROT),
    ('[0,"setlength",0]', "setlength has the arguments a file and a length"),
    ('[0,"setlength",65536,0]', FILE),
    ('[0,"reclaim",65536,0]', FILE),
    ('[0,"reclaim",0,4294967296]', "the page isn't a whole number up to 4294967295"),
    ('[0,"msync",4096,4096,256]', "flags isn't a whole number up to 255"),
]

# Steps that are printed in another form: numbers as their values, and the first 60 characters alone.
REPRINTED_STEPS = [
    ('[0,"load",1e3,1]', '[0,"load",1000.0,1]', ADDRESS),
    ('[0,"load",-0,1]', '[0,"load",-0.0,1]', ADDRESS),
    ('[0,"load",18446744073709551616,1]', '[0,"load",1.8446744073709552e+19,1]', ADDRESS),
    ('[0, "a\\nb"]', '[0,"a\\nb"]', NAME),
    (
        '[0,"store",4096,[1,2,3,4,5,6,7,8,9,10,11,12,13,14,15,16,17,18,19,20]]',
        '[0,"store",4096,[1,2,3,4,5,6,7,8,9,10,11,12,13,14,15,16,17,1...',
        BYTES,
    ),
]

# Scripts, and the fault of each.
BAD_SCRIPTS = [
    ("", "it isn't JSON: "),
    ("{", "it isn't JSON: "),
    ('{"cpus":1,"tlb":8,"frames":4,"copies":0,"steps":[]} x', "it isn't JSON: "),
    ("[]", "it isn't an object\n"),
    ("{}", "the member \"cpus\" is missing: cpus, tlb, frames, copies and steps are required\n"),
    (
        '{"cpus":1,"tlb":8,"frames":4,"copies":0}',
        "the member \"steps\" is missing: cpus, tlb, frames, copies and steps are required\n",
    ),
    (
        '{"cpus":1,"tlb":8,"frames":4,"steps":[]}',
        "the member \"copies\" is missing: cpus, tlb, frames, copies and steps are required\n",
    ),
    (
        '{"cpus":1,"tlb":8,"frames":4,"copies":0,"steps":[],"trace":3}',
        'it has a member "trace", but only cpus, tlb, frames, copies and steps are allowed\n',
    ),
    ('{"cpus":1,"tlb":8,"frames":4,"copies":0,"steps":{}}', "the member \"steps\" isn't a list\n"),
    (
        '{"cpus":1.0,"tlb":8,"frames":4,"copies":0,"steps":[]}',
        "the member \"cpus\" is 1.0, which isn't a whole number up to 2^64 - 1\n",
    ),
    (
        '{"cpus":1,"tlb":8e0,"frames":4,"copies":0,"steps":[]}',
        "the member \"tlb\" is 8.0, which isn't a whole number up to 2^64 - 1\n",
    ),
    (
        '{"cpus":1,"tlb":8,"frames":-4,"copies":0,"steps":[]}',
        "the member \"frames\" is -4, which isn't a whole number up to 2^64 - 1\n",
    ),
    (
        '{"cpus":1,"tlb":8,"frames":4,"copies":18446744073709551616,"steps":[]}',
        'the member "copies" is 1.8446744073709552e',
    ),
    (
        '{"cpus":1,"cpus":"1","tlb":8,"frames":4,"copies":0,"steps":[]}',
        "the member \"cpus\" is \"1\", which isn't a whole number up to 2^64 - 1\n",
    ),
]

# Members of scripts but for the steps, and the fault of each.
BAD_SHAPES = [
    ('"cpus":0,"tlb":8,"frames":4,"copies":0', "cpus is 0, but must be 1 to 16"),
    ('"cpus":17,"tlb":8,"frames":4,"copies":0', "cpus is 17, but must be 1 to 16"),
    ('"cpus":1,"tlb":0,"frames":4,"copies":0', "tlb is 0, but must be 1 to 64"),
    ('"cpus":1,"tlb":65,"frames":4,"copies":0', "tlb is 65, but must be 1 to 64"),
    ('"cpus":1,"tlb":8,"frames":4,"copies":65', "copies is 65, but must be 0 to 64"),
    ('"cpus":1,"tlb":8,"frames":0,"copies":0', "frames is 0, but must be 1 to 4: the volume has 4 record slots"),
    ('"cpus":1,"tlb":8,"frames":5,"copies":0', "frames is 5, but must be 1 to 4: the volume has 4 record slots"),
]


def script_of(*steps):
    return '{"cpus":1,"tlb":8,"frames":4,"copies":0,"steps":[' + ",".join(steps) + "]}"


def odd_scripts_are_read():
    yield from makes_volume("odd.img")
    for text in ODD_SCRIPTS:
        write("odd.json", text)
        yield from prints("run|odd.img|odd.json", 0)
    yield from leaves("odd.img", "odd.json")


def steps_are_refused():
    write("refused_steps.img", "not touched")
    for step, cause in BAD_STEPS:
        yield from refuses_step(step, step, cause)
    for step, found, cause in REPRINTED_STEPS:
        yield from refuses_step(step, found, cause)
    yield from holds("refused_steps.img", b"not touched")
    yield from leaves("refused_steps.img", "refused_steps.json")


def refuses_step(step, found, cause):
    """A script is refused whose second step of two is this, and this is the fault."""
    write("refused_steps.json", script_of('[0,"create"]', step))
    said = f'famsync: script "refused_steps.json": step 2, {found}: {cause}\n'
    yield from prints("run|refused_steps.img|refused_steps.json", 1, "", said)


def scripts_are_refused():
    """Whole scripts that are refused, and the fault of each. The script is judged before the disk, which isn't
    there."""
    for text, cause in BAD_SCRIPTS:
        yield from refuses_script(text.encode(), cause)
    yield from refuses_script(b'{"cpus":"\xff"}', "it isn't UTF-8\n")
    yield from leaves("refused.json")


def refuses_script(text, cause):
    write_bytes("refused.json", text)
    yield from complains("run|none.img|refused.json", 1, f'script "refused.json": {cause}')


def shapes_are_refused():
    """Shapes that no machine has, and the fault of each."""
    yield from makes_volume("shape.img")
    for shape, cause in BAD_SHAPES:
        write("shape.json", "{" + shape + ',"steps":[[0,"create"]]}')
        yield from prints("run|shape.img|shape.json", 3, "", f'famsync: disk "shape.img": badshape: {cause}\n')
    yield from holds("shape.img", image_of_one())
    yield from leaves("shape.img", "shape.json")


GROUPS = [odd_scripts_are_read, steps_are_refused, scripts_are_refused, shapes_are_refused]
