"""Stored runs of volumes with a log (docs/RUNS.md)."""

import subprocess

from .disks import PAGE, Call, Tape, alternate, halves
from .grammar import (
    Differs,
    Fault,
    State,
    Wanted,
    agree,
    agree_bytes,
    choice_of,
    items,
    list_of,
    member,
    number,
    number_of,
    only,
    patch,
    put_of,
    puts_of,
    span_of,
    text,
)
from .journals import Trial

# The numbers of arguments that steps have.
STEPS = {"put": (3, 4), "read": (2,), "length": (2,), "commit": (0,), "step": (0,)}
MORE_CHOICES = ("none", "even", "odd")


def wanted_calls(value):
    """The number of calls, or each call."""
    if isinstance(value, list):
        return [text(call, "a device call") for call in value]
    return number(value, "the device calls")


def agree_calls(wanted, calls):
    if isinstance(wanted, list):
        for one, call in zip(wanted, calls):
            agree("a device call", one, repr(call))
    if wanted is not None:
        agree("device calls", len(wanted) if isinstance(wanted, list) else wanted, len(calls))


class Step:
    """A step, its answer, and its device calls."""

    def __init__(self, line):
        words, answer, *calls = items(line, "a step", 2, 3)
        name, *arguments = items(words, "the words of a step")
        if name not in STEPS or len(arguments) not in STEPS[name]:
            raise Fault(f"no step is {words!r:.100}")
        self.name, self.calls = name, wanted_calls(calls[0]) if calls else None
        if isinstance(answer, list):
            self.answer = bytes(patch(bytearray(PAGE), puts_of(answer)))
        else:
            self.answer = text(answer, "the answer")
        numbers = [number(it, "a number") for it in arguments[:2]]
        self.words = " ".join(map(str, [name, *numbers]))
        if name == "put":
            self.words += " " + patch(bytearray(PAGE), [put_of(0, *arguments[2:])]).hex()

    def compare(self, answer, calls):
        if isinstance(self.answer, bytes) and isinstance(answer, bytes):
            agree_bytes("the page", self.answer, answer)
        else:
            shown = ["a page" if isinstance(it, bytes) else it for it in (self.answer, answer)]
            agree("the answer", *shown)
        agree_calls(self.calls, calls)


class LogRun:
    """A run: an opening and steps. The core answers the steps, and the program makes the opening, with its reads."""

    def __init__(self, line, number_of_line, image, program):
        only(line, "run", "calls", "fails")
        only(line["run"], "most")
        self.most, self.fails = number_of(line["run"], "most"), number_of(line, "fails", 0)
        if not 0 < self.most < 1 << 32:
            raise Fault("most is 1 to 2^32 - 1")
        self.opens = wanted_calls(line["calls"]) if "calls" in line else None
        self.first_line, self.steps, self.image, self.program = number_of_line + 1, [], image, program

    def take(self, step):
        self.steps.append(Step(step))

    def make(self, ended):
        """Makes the whole run. The bytes that it leaves."""
        opening = self.program.opening(self.image)
        if self.fails:
            if self.fails > len(opening.calls):
                raise Fault("a call of a run's opening fails")
            opening = self.program.opening(self.image, self.fails)
        ended.compare_refused(opening.refusal, "a volume")
        self.answers, self.counts, calls = [], [], [*opening.calls]
        if opening.refusal is None:
            agree_calls(self.opens, calls)
            self.make_steps(calls)
        ended.compare_calls(calls)
        self.opened, self.tape = len(opening.calls), Tape(self.image, calls)
        return bytes(self.tape.after(len(calls)).content)

    def make_steps(self, calls):
        """Makes the steps, and adds their calls."""
        parts = self.session()
        answer, opening = next(parts)
        agree("the opening by the core", "open", answer)
        agree("its writes and syncs", [call for call in calls if call.kind != "read"], opening)
        self.counts.append(len(calls))
        for i, (step, (answer, made)) in enumerate(zip(self.steps, parts, strict=True)):
            try:
                step.compare(answer, made)
            except Differs as why:
                raise Differs(f"the step in line {self.first_line + i}: {why}") from None
            calls += made
            self.answers.append(answer)
            self.counts.append(len(calls))

    def session(self):
        """The answers of the core to the opening and to each step, each with its calls."""
        self.program.put_volume(self.image)
        words = [f"{self.program.tools}/log_session", "v.img", str(self.most)]
        lines = "".join(step.words + "\n" for step in self.steps)
        done = subprocess.run(words, input=lines, capture_output=True, text=True, check=False)
        agree("the core's session", (0, ""), (done.returncode, done.stderr))
        calls = []
        for line in done.stdout.splitlines():
            kind, _, rest = line.partition(" ")
            if kind == "answer":
                yield bytes.fromhex(rest[5:]) if rest.startswith("page ") else rest, calls
                calls = []
            elif kind == "write":
                at, content = rest.split(" ")
                calls.append(Call("write", int(at), bytes.fromhex(content)))
            elif kind == "read":
                at, count = rest.split(" ")
                calls.append(Call("read", int(at), b"", int(count)))
            else:
                calls.append(Call("sync"))

    def failing(self, call):
        """The calls up to one that fails. No call follows it."""
        if call > self.opened:
            if call > len(self.tape.calls):
                raise Differs("no step makes this call")
            return Tape(self.image, [*self.tape.calls[: call - 1], self.tape.calls[call - 1].now_failed()])
        made = self.program.opening(self.image, call)
        agree("the refusal", "device", made.refusal or "a volume")
        agree("device calls", [False] * (call - 1) + [True], [call.failed for call in made.calls])
        return Tape(self.image, made.calls)

    def commits(self):
        """The numbers of calls at which each commit begins and ends."""
        made = zip(self.steps, self.answers, self.counts, self.counts[1:])
        return [(first, last) for step, answer, first, last in made if step.name == "commit" and answer != "busy"]


def crashed(tape, count, choice, puts=()):
    """The bytes after a crash that follows these calls."""
    disk = tape.after(count)
    if choice.startswith("back "):
        left = tape.after(max(0, count - int(choice[5:]))).content
    else:
        left = {
            "none": lambda: disk.synced,
            "even": lambda: alternate(disk.content, disk.synced),
            "odd": lambda: alternate(disk.synced, disk.content),
            "old": lambda: tape.first,
            "new": lambda: disk.content,
            "halves": lambda: halves(disk.content, tape.first),
        }.get(choice, lambda: bytes.fromhex(choice) * len(tape.first))()
    return disk.crashed(patch(bytearray(left), puts))


class LogEnding:
    """Endings of a run: where it is stopped, after which call of an opening, what a crash leaves, and what is found."""

    def __init__(self, line):
        ways = ("stopped", "fails", "shortened", "flipped")
        only(line, *ways, "cut", "leaves", "opens", "refuses", "calls", "lengths", "bytes", "writes")
        stops = [(name, span_of(line, name)) for name in ways if name in line]
        if len(stops) > 1:
            raise Fault("a run is stopped in one way")
        self.way, self.stops = stops[0] if stops else ("at the end", range(1))
        self.cut, self.wanted = span_of(line, "cut"), Wanted(line)
        self.leaves = [choice_of(choice, MORE_CHOICES) for choice in list_of(line, "leaves")]

    def make(self, trial):
        """Makes them all. Their number."""
        count = 0
        for stop in self.stops:
            tape, calls = trial.stopped_at(self.way, stop)
            for both, all_calls in self.cuts(trial, tape, calls):
                count += self.make_left(trial, stop, both, all_calls)
        return count

    def cuts(self, trial, tape, calls):
        """The calls of the stopped run, and of an opening after it that is stopped, too."""
        if self.cut is None:
            yield tape, calls
            return
        opening = trial.program.opening(bytes(tape.after(calls).content))
        for cut in self.cut:
            if cut > len(opening.calls):
                raise Fault("the opening makes fewer calls")
            both = [*tape.calls[:calls], *opening.calls[:cut]]
            yield Tape(tape.first, both), len(both)

    def make_left(self, trial, stop, tape, calls):
        for choice in self.leaves or [None]:
            image = bytes(tape.after(calls).content) if choice is None else crashed(tape, calls, choice)
            try:
                self.wanted.compare(trial.files, image, trial.program.opening(image))
            except Differs as why:
                left = "" if choice is None else f", left {choice}"
                raise Differs(f"{self.way} {stop}, after {calls} calls{left}: {why}") from None
        return len(self.leaves or [None])


class Sweep:
    """A crash after each call of a run. The files have the acknowledged commits, and maybe the one in progress."""

    def __init__(self, line):
        only(line, "each", "then", "states")
        self.each = [choice_of(choice, MORE_CHOICES) for choice in list_of(line, "each")]
        self.then = [choice_of(choice, MORE_CHOICES) for choice in list_of(line, "then")]
        self.states = [State(state) for state in list_of(line, "states")]

    def make(self, trial):
        """Makes them all. The number of openings."""
        if not trial.run:
            raise Fault("there is no run")
        commits, tape, openings = trial.run.commits(), trial.run.tape, 0
        if len(commits) + 1 != len(self.states):
            raise Fault("there is a state for each number of commits")
        for count in range(len(tape.calls) + 1):
            acknowledged = sum(last <= count for _, last in commits)
            begun = sum(last <= count or first < count for first, last in commits)
            for choice in self.each:
                try:
                    openings += self.make_one(trial, crashed(tape, count, choice), acknowledged, begun)
                except Differs as why:
                    raise Differs(f"after {count} calls, left {choice}: {why}") from None
        return openings

    def make_one(self, trial, image, acknowledged, begun):
        """Makes the opening after a crash, and each crash of this opening."""
        found = trial.program.opening(image)
        agree("the opening", "a volume", found.refusal or "a volume")
        try:
            self.states[acknowledged].compare(trial.files, found.files)
        except Differs:
            self.states[begun].compare(trial.files, found.files)
        tape = Tape(image, found.calls)
        for count in range(len(found.calls) + 1) if self.then else []:
            for choice in self.then:
                again = trial.program.opening(crashed(tape, count, choice))
                agree(f"after {count} calls, left {choice}: the opening", "a volume", again.refusal or "a volume")
                for (name, content), (_, content_again) in zip(found.files, again.files, strict=True):
                    agree_bytes(f"after {count} calls, left {choice}: {name}", content, content_again)
        return 1 + len(self.then) * (len(found.calls) + 1)


class LogTrial(Trial):
    """A file of runs that is read up to some line."""

    def tape(self):
        return self.run.tape if self.run else Tape(self.image, [])

    def stopped_at(self, way, stop):
        """The calls of a run that is stopped, and the number of those that are made."""
        if way in ("shortened", "flipped"):
            if self.run or stop > len(self.image) - (way == "flipped"):
                raise Fault("a longer disk is changed, before any run")
            rest = self.image[stop + 1 :]
            image = self.image[:stop] + (bytes([self.image[stop] ^ 0xFF]) + rest if way == "flipped" else b"")
            return Tape(image, []), 0
        if way == "at the end":
            return self.tape(), len(self.tape().calls)
        if not self.run:
            raise Fault("there is no run")
        if way == "stopped":
            return self.run.tape, stop
        tape = self.run.failing(stop)
        return tape, len(tape.calls)

    def end(self, ended):
        self.run, self.coming = self.coming, None
        self.steps += len(self.run.steps)
        self.left = self.run.make(ended)

    def take_object(self, line, number_of_line):
        if "run" in line:
            self.begin_next()
            self.coming = LogRun(line, number_of_line, self.image, self.program)
        elif "each" in line:
            self.openings += Sweep(line).make(self)
        elif "opens" in line or "refuses" in line:
            self.openings += LogEnding(line).make(self)
        elif "has" in line:
            self.take_has(line)
        elif "crash" in line:
            self.take_crash(line)
        else:
            self.begin_next()
            if "volume" in line:
                self.take_volume(line)
            else:
                self.take_disk(line)

    def take_crash(self, line):
        only(line, "crash", "but", "stopped")
        tape = self.tape()
        count = number_of(line, "stopped", len(tape.calls))
        self.left = crashed(tape, count, choice_of(line["crash"], MORE_CHOICES), puts_of(list_of(line, "but")))
        self.begin_next()

    def take_volume(self, line):
        only(line, "volume", "log", "key", "files", "length")
        key = ["--key", f"{number_of(line, 'key'):016x}"] if line["volume"] == 6 else []
        log = str(number(member(line, "log"), "log"))
        self.format(line, "--layout", str(line["volume"]), "--log", log, *key, "--", "v.img")
