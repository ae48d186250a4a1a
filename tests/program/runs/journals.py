"""Stored runs of volumes with journals (docs/RUNS.md)."""

import re

from .disks import PAGE, Tape, halves
from .grammar import (
    Differs,
    Ended,
    Fault,
    File,
    Wanted,
    agree,
    agree_bytes,
    bytes_of,
    choice_of,
    items,
    list_of,
    member,
    number_of,
    only,
    patch,
    put_of,
    puts_of,
    span_of,
    text,
)
from .program import SMALLEST

# No machine has this processor, so a step of it is refused at once, and the refusal is printed at once.
MARK, MARKED = [255, "flush"], "einval"
FLUSH = [0, "flush"]


class Run:
    """A run of a machine, as a file describes it."""

    def __init__(self, line, number_of_line, image, program):
        only(line, "run", "fails")
        only(line["run"], "cpus", "tlb", "frames", "copies")
        self.shape = {name: number_of(line["run"], name) for name in SMALLEST}
        self.fails, self.image, self.program = number_of(line, "fails", 0), image, program
        self.first_line, self.steps, self.replies, self.course = number_of_line + 1, [], [], None

    def take(self, step):
        items(step, "a line of a run", 1, 2)
        if len(step) == 2 and len(self.replies) != len(self.steps):
            raise Fault("the run is over before this step")
        self.steps.append(step[0])
        self.replies.extend(text(reply, "the reply") for reply in step[1:])

    def compare(self, number_of_step, wanted, came):
        agree(f"the step in line {self.first_line + number_of_step}", wanted, came)

    def compare_replies(self, came, count):
        """Compares the first replies. Those of the last steps may not be named."""
        for i, (wanted, reply) in enumerate(zip(self.replies[:count], came)):
            self.compare(i, wanted, reply)
        agree("replies", count, len(came))

    def made(self, steps, fails):
        try:
            made = self.program.run(self.image, self.shape, steps, fails)
        except Differs as why:
            # A step that the program doesn't read.
            found = re.search('script "script": step ([0-9]+), ', str(why))
            place = f"the step in line {self.first_line + int(found[1]) - 1}: " if found else ""
            raise Differs(f"{place}{why}") from None
        made.replies = made.out.splitlines()
        if made.refusal is None:
            failed = made.replies.index("device") + 1 if "device" in made.replies else None
            agree("the step of which a failure is reported", failed, made.failed)
        return made

    def make(self, ended):
        """Makes the whole run. The bytes that it leaves."""
        made = self.made(self.steps[: len(self.replies)], self.fails)
        ended.compare_refused(made.refusal, "a machine")
        self.compare_replies(made.replies, len(self.replies))
        ended.compare_calls(made.calls)
        self.whole = Tape(self.image, made.calls)
        self.refusal = made.refusal
        return made.left

    def end(self):
        """The calls, their number, and the number of steps."""
        agree("the run", "a machine", self.refusal or "a machine")
        return self.whole, len(self.whole.calls), len(self.replies)

    def after(self, count):
        if count > len(self.steps):
            raise Fault("there are fewer steps")
        if self.course is None:
            self.course = self.marked()
        tape, counts = self.course
        return tape, counts[count], count

    def marked(self):
        """The calls of all steps, and their number before each step and at the end. Between two steps a refusal is
        printed."""
        steps = [MARK]
        for step in self.steps:
            steps += [step, MARK]
        made = self.made(steps, self.fails)
        agree("the run", "a machine", made.refusal or "a machine")
        agree("the replies of no processor", {MARKED}, set(made.replies[::2]))
        self.compare_replies(made.replies[1::2], len(self.steps))
        agree("calls of the run", self.whole.calls, made.calls[: len(self.whole.calls)])
        return Tape(self.image, made.calls), self.counts(made)

    @staticmethod
    def counts(made):
        counts, end, shown, writes = [], 0, 0, iter(made.printed)
        for i, reply in enumerate(made.replies):
            end += len(reply) + 1
            while shown < end:
                calls, more = next(writes)
                shown += more
            if i % 2 == 0:
                agree("the output after a refusal", end, shown)
                counts.append(calls)
        return counts

    def failing(self, call):
        """The run up to the step whose call fails, and two flushes."""
        made = self.made(self.steps, call)
        agree("the run", "a machine", made.refusal or "a machine")
        agree("calls that failed", 1, sum(call.failed for call in made.calls))
        if "device" not in made.replies:
            raise Differs("the step whose call fails: wanted device, came none")
        done = made.replies.index("device")
        self.compare_replies(made.replies[:done], done)
        broken = self.made([*self.steps[: done + 1], FLUSH, FLUSH], call)
        agree("replies of a machine that breaks", done + 3, len(broken.replies))
        self.compare_replies(broken.replies[:done], done)
        for wanted, reply in zip(("device", "broken", "broken"), broken.replies[done:]):
            self.compare(done, wanted, reply)
        agree("device calls", call, len(broken.calls))
        agree("calls that failed", [False] * (call - 1) + [True], [call.failed for call in broken.calls])
        return Tape(self.image, broken.calls), call, done


class Ending:
    """Endings of a run: where it is stopped, which call of an opening fails, what a crash leaves, and what is found."""

    def __init__(self, line):
        ways = ("after", "fails", "shortened")
        only(line, *ways, "step", "cut", "leaves", "opens", "refuses", "calls", "lengths", "bytes", "writes")
        stops = [(name, span_of(line, name)) for name in ways if name in line]
        if len(stops) > 1:
            raise Fault("a run is stopped in one way")
        self.way, self.stops = stops[0] if stops else ("at the end", range(1))
        self.step = number_of(line, "step") if "step" in line else None
        self.cut, self.wanted = span_of(line, "cut"), Wanted(line)
        self.leaves = [choice_of(choice) for choice in list_of(line, "leaves")]

    def make(self, trial):
        """Makes them all. Their number."""
        count = 0
        for stop in self.stops:
            try:
                count += self.make_at(trial, stop)
            except Differs as why:
                raise Differs(f"{self.way} {stop}{why}") from None
        return count

    def make_at(self, trial, stop):
        tape, calls, done = trial.stopped(self.way, stop)
        if self.step is not None:
            agree(": the step whose call fails", self.step, done + 1)
        if self.cut is None:
            disk = tape.after(calls)
            return self.make_left(trial, disk, trial.image, done, "")
        return sum(self.make_cut(trial, tape.after(calls), call, done) for call in self.cut)

    def make_cut(self, trial, disk, call, done):
        """Opens the disk, and lets this call of the opening fail."""
        before = bytes(disk.content)
        place = f", an opening cut at call {call}"
        made = trial.program.opening(before, call)
        if made.refusal == "device":
            agree(f"{place}: its calls", call, len(made.calls))
            agree(f"{place}: its failed calls", 1, sum(call.failed for call in made.calls))
        else:
            agree(f"{place}: the opening", self.wanted.refusal or "device", made.refusal or "a volume")
        disk = disk.copy()
        for one in made.calls:
            disk.make(one)
        return self.make_left(trial, disk, before, done, place)

    def make_left(self, trial, disk, old, done, place):
        for choice in self.leaves or [None]:
            image = bytes(disk.content) if choice is None else disk.crashed(trial.chosen(choice, disk, old, done))
            here = place + (f", a crash that leaves {choice}" if choice is not None else "")
            try:
                if self.wanted.refusal is not None and self.cut is not None:
                    agree_bytes("what a cut opening leaves", old, image)
                self.compare(trial, image, not here)
            except Differs as why:
                raise Differs(f"{here}: {why}") from None
        return len(self.leaves or [None])

    def compare(self, trial, image, is_plain):
        """Compares an opening of these bytes. If no run is stopped, a dump before it has to find the same."""
        found = trial.program.opening(image)
        self.wanted.compare(trial.files, image, found, trial.gates)
        if is_plain and self.way == "at the end":
            if self.wanted.refusal is None:
                self.wanted.state.compare(trial.files, trial.program.files(image))
            else:
                agree("what refuses a dump", found.refusal, trial.program.refusal_of_dump(image))


class Trial:
    """A file of runs that is read up to some line."""

    def __init__(self, program):
        self.program, self.image, self.files, self.gates = program, b"", [], []
        self.run = self.coming = self.left = None
        self.steps = self.openings = 0

    def stopped(self, way, stop):
        """The calls of a run that is stopped, the number of those that are made, and the number of steps before."""
        if way == "shortened":
            if self.run or stop > len(self.image):
                raise Fault("a longer disk is cut, before any run")
            return Tape(self.image[:stop], []), 0, 0
        if way == "at the end":
            return self.run.end() if self.run else (Tape(self.image, []), 0, 0)
        if not self.run:
            raise Fault("there is no run")
        return self.run.after(stop) if way == "after" else self.run.failing(stop)

    def chosen(self, choice, disk, old, done):
        """The bytes that a crash of this disk leaves where nothing was synced."""
        if choice in ("old", "new"):
            return old if choice == "old" else disk.content
        if choice == "halves":
            return halves(disk.content, old)
        if choice.startswith("back "):
            if not self.run:
                raise Fault("there is no run")
            tape, calls, _ = self.run.after(max(0, done - int(choice[5:])))
            return tape.after(calls).content
        return bytes.fromhex(choice) * len(disk.content)

    def take(self, line, number_of_line):
        if isinstance(line, list):
            if not self.coming:
                raise Fault("no run has begun")
            self.coming.take(line)
        elif not isinstance(line, dict):
            raise Fault("a line is an object or a step")
        elif "about" in line:
            only(line, "about")
        elif "ends" in line:
            if not self.coming:
                raise Fault("no run has begun")
            self.end(Ended(line))
        else:
            self.close()
            self.take_object(line, number_of_line)

    def close(self):
        if self.coming:
            self.end(Ended(None))

    def end(self, ended):
        self.run, self.coming = self.coming, None
        self.steps += len(self.run.replies)
        self.left = self.run.make(ended)

    def begin_next(self):
        """What follows begins with what the last run left."""
        if self.left is not None:
            self.image, self.run, self.left = self.left, None, None

    def take_object(self, line, number_of_line):
        if "opens" in line or "refuses" in line:
            self.openings += Ending(line).make(self)
        elif "has" in line:
            self.take_has(line)
        elif "crash" in line:
            self.take_crash(line)
        else:
            self.begin_next()
            if "run" in line:
                self.coming = Run(line, number_of_line, self.image, self.program)
            elif "volume" in line:
                self.take_volume(line)
            else:
                self.take_disk(line)

    def take_has(self, line):
        only(line, "has", "at")
        wanted, at = bytes_of(line["has"], "has"), number_of(line, "at")
        image = self.image if self.left is None else self.left
        if at + len(wanted) > len(image):
            raise Fault("the bytes go past the end")
        agree_bytes("what is there", wanted, image[at : at + len(wanted)])

    def take_crash(self, line):
        only(line, "crash", "but")
        tape, calls, done = self.stopped("at the end", 0)
        disk = tape.after(calls)
        left = bytearray(self.chosen(choice_of(line["crash"]), disk, self.image, done))
        self.left = disk.crashed(patch(left, puts_of(list_of(line, "but"))))
        self.begin_next()

    def take_disk(self, line):
        if "put" in line:
            only(line, "put", "at", "times")
            puts = [put_of(member(line, "at"), line["put"], line.get("times", 1))]
            self.image = bytes(patch(bytearray(self.image), puts))
        elif "cut_to" in line:
            only(line, "cut_to")
            if number_of(line, "cut_to") > len(self.image):
                raise Fault("the disk is shorter")
            self.image = self.image[: line["cut_to"]]
        elif "holds" in line:
            only(line, "holds")
            wanted = patch(bytearray(len(self.image)), puts_of(list_of(line, "holds")))
            agree_bytes("the disk", bytes(wanted), self.image)
        else:
            raise Fault("no line is of this kind")

    def take_volume(self, line):
        only(line, "volume", "slots", "files", "length")
        layout, slots = number_of(line, "volume"), number_of(line, "slots")
        self.format(line, "--layout", str(layout), "--", "v.img", str(slots))
        self.gates = gates_of(layout, slots)

    def format(self, line, *words):
        self.files = [File(value) for value in list_of(line, "files")]
        files = (
            f"{file.name}={file.length}" + (f"/{file.capacity}" if len(value) == 3 else "")
            for file, value in zip(self.files, line["files"])
        )
        self.image = self.program.format(*words, *files)
        if "length" in line:
            length = number_of(line, "length")
            self.image = self.image[:length].ljust(length, b"\0")


def gates_of(layout, slots):
    """The places of the gates. Each journal has a gate, its descriptor's blocks and its record slots."""
    blocks = (4 * slots + 4111) // PAGE + slots + 1
    return [(blocks * journal + 1) * PAGE for journal in range({2: 2, 3: 2, 4: 4}.get(layout, 1))]
