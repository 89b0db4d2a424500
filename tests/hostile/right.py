"""Checks runs in which growths were refused against runs of the same program without refusals.

The run may end with the fault of memory, after a prefix of the right result. Otherwise, commands may answer Memory. Such a
command must leave nothing behind: all other answers are as if it were a note.
"""
import json
import os
import re
from dataclasses import replace

from runs import FOREVER
from scripts import answers_of

MEMORY = b"err 16 Memory"
FAULT = b"fencectl: 16 Memory\n"
# The last line of a report on a search that was refused memory.
UNCOVERED = re.compile(rb'not covered: memory was refused \(states: [0-9]+\); |\{"covered":false,"stopped":"memory",')
with open(os.path.join(os.path.dirname(os.path.realpath(__file__)), "..", "..", "docs", "SCRIPT.md"), "rb") as document:
    COMMANDS = re.findall(rb"^\| `(\w+)[^|]*\|[^|]*\|[^|]*\|([^|]*)\|$", document.read(), re.M)
# These commands are never refused memory.
NEVER = {word for word, refusals in COMMANDS if b"Memory" not in refusals}
# Memory is refused to these only if they fire a watch.
RISING = {word for word, refusals in COMMANDS if b"Memory if a watch fires" in refusals}
assert NEVER and RISING
# These commands build a file before they look up its name, so they ask for memory even if they are refused.
DRAWING = {b"fence", b"merge", b"export"}


def text_of(lines):
    return b"".join(line + b"\n" for line in lines)


def number_of(line):
    """Returns the number of the line that an explanation or a difference is about."""
    return int(re.match(rb"(?:line |.*?:)(\d+): ", line)[1])


def with_lines(text, more):
    """Adds explanations or differences to a text, in order of their lines."""
    return text_of(sorted(text.split(b"\n")[:-1] + more, key=number_of))


class Words:
    """A command line without a script: a run prints what is right, or ends with the fault."""

    def __init__(self, program, words, reading=False):
        self.program = program
        self.words = words
        self.reading = reading
        self.whole = program.plain(*words)

    def run(self, growths):
        return self.program.refused(growths, self.reading, *self.words)

    def wrong(self, run, lasts):
        """Returns what is wrong with a run, or an empty text. With `lasts`, memory stays refused until the run ends."""
        if run.status < 0:
            return f"it ends by signal {-run.status}"
        if run.threads != run.threads_ended:
            return f"it leaves {run.threads - run.threads_ended} threads behind"
        refused = self.refused(run)
        wrong = self.wrong_answers(run, refused)
        if not wrong and run.refused == 0 and refused:
            return "it is answered Memory, which was not refused"
        return wrong or self.wrong_refusals(run, lasts, refused)

    def wrong_answers(self, run, refused):
        right = self.right(frozenset(refused))
        if run.refused > 0 and run.errors.endswith(FAULT):
            if run.status != 2:
                return f"its status is {run.status} after a fault"
            if not right.output.startswith(run.output):
                return f"it prints {run.output} before the fault, which does not begin {right.output}"
            if not right.errors.startswith(run.errors.removesuffix(FAULT)):
                return f"it reports {run.errors}, but {right.errors} was right before the fault"
            return ""
        for name in ("status", "output", "errors"):
            came, wanted = getattr(run, name), getattr(right, name)
            if came != wanted:
                return f"its {name} is {came}, not {wanted}"
        return ""

    def refused(self, run):
        return []

    def right(self, refused):
        return self.whole

    def wrong_refusals(self, run, lasts, refused):
        return ""


class Plans(Words):
    """An exploration. If memory is refused to the search, it reports what it found until then."""

    WORD = "explore"

    def wrong_answers(self, run, refused):
        *found, last = run.output.splitlines() or [b""]
        if run.refused == 0 or not UNCOVERED.match(last):
            return super().wrong_answers(run, refused)
        if run.status != 2 or run.errors:
            return f"its status is {run.status}, and it reports {run.errors}, though its search was refused memory"
        right = self.whole.output.splitlines()
        strange = [line for line in found if not any(is_part(line, other) for other in right)]
        return f"it finds {strange[0]}, which is not among {right}" if strange else ""


def is_part(line, other):
    """Returns whether a line of a report is a line of the whole one; as JSON it may lack answers."""
    if not line.startswith(b"{") or not other.startswith(b"{"):
        return line == other
    part, whole = json.loads(line), json.loads(other)
    came, wanted = ([(it["answer"], it["finding"]) for it in row.pop("answers", [])] for row in (part, whole))
    return part == whole and all(answer in wanted for answer in came)


class Answers(Words):
    """A run of a script."""

    WORD = "run"

    def __init__(self, program, script, reading):
        super().__init__(program, [self.WORD, program.file("script", script.without([]))], reading)
        self.script = script
        self.known = {}
        self.answers = dict(zip(script.commands, answers_of(program.plain("run", self.words[1]).output)))

    def refused(self, run):
        """Returns the commands that answer Memory."""
        return [number for number, answer in zip(self.script.commands, answers_of(run.output)) if answer == [MEMORY]]

    def right(self, refused):
        """Returns the right result if these commands answer Memory."""
        if refused not in self.known:
            noted = self.program.file("noted", self.script.without(refused))
            run = self.program.plain(self.WORD, noted)
            named = run.errors.replace(noted.encode(), self.words[-1].encode())
            self.known[refused] = self.adding(replace(run, errors=named), refused)
        return self.known[refused]

    def adding(self, run, refused):
        """Returns a run with these commands, which answer Memory."""
        others = [number for number in self.script.commands if number not in refused]
        answers = dict(zip(others, answers_of(run.output))) | {number: [MEMORY] for number in refused}
        output = b"".join(text_of(answers[number]) for number in sorted(answers))
        return replace(run, output=output, status=1 if refused else run.status)

    def wrong_refusals(self, run, lasts, refused):
        """Returns what is wrong with the commands that answer Memory: each must be accepted otherwise. If memory is refused to
        the end, the run must report that, unless only commands that are refused in any case have asked for memory."""
        silent = not refused and not run.errors.endswith(FAULT)
        if lasts and self.reading and silent and run.refused > 0 and run.refused > self.needless_growths():
            return "no answer and no fault says that memory was refused"
        if not lasts and len(refused) > 1:
            return f"one refusal is answered on the lines {refused}"
        for number in refused:
            word = self.script.line(number).split()[0]
            if word in NEVER:
                return f"line {number} is answered Memory"
        return self.wrong_first(refused[0]) if refused else ""

    def needless_growths(self):
        """Returns how many growths are made by commands that are refused in any case."""
        needless = [
            number
            for number, answer in self.answers.items()
            if answer[0].startswith(b"err ") and self.script.line(number).split()[0] in DRAWING
        ]
        return self.growths_without([]) - self.growths_without(needless)

    def growths_without(self, numbers):
        path = self.program.file("counted", self.script.without(numbers))
        return self.program.refused((FOREVER, FOREVER), self.reading, Answers.WORD, path).growths

    def wrong_first(self, number):
        answer = self.answers[number]
        if not answer[0].startswith(b"ok"):
            return f"line {number} is answered Memory, but has the answer {answer[0]}"
        if self.script.line(number).split()[0] in RISING and len(answer) == 1:
            return f"line {number} is answered Memory, but fires nothing"
        return ""


class Explanations(Answers):
    """An explanation of a script."""

    WORD = "explain"

    def adding(self, run, refused):
        more = [b"line %d: out of memory" % number for number in refused]
        return replace(super().adding(run, refused), errors=with_lines(run.errors, more))


class Differences(Answers):
    """A check of a script that expects its own answers."""

    WORD = "check"

    def refused(self, run):
        return [number_of(line) for line in run.errors.split(b"\n") if line.endswith(b'came "%s"' % MEMORY)]

    def adding(self, run, refused):
        if not refused:
            return run
        more = [self.difference(number) for number in refused]
        differences, counts = re.fullmatch(rb"((?:.*?:\d+: .*\n)*)(?:.*\n)?(files: .*)\n", run.errors).groups()
        answers, expectations, differing = (int(count) + len(refused) for count in re.findall(rb"\d+", counts)[1:])
        ends = [
            b"%s: differs in %d of %d answers" % (self.path, differing, expectations),
            b"files: 1, answers: %d, expectations: %d, differences: %d" % (answers, expectations, differing),
        ]
        return replace(run, errors=with_lines(differences, more) + text_of(ends), status=1)

    @property
    def path(self):
        return self.words[-1].encode()

    def difference(self, number):
        command, expected = self.script.line(number), self.script.expected(number)
        return b'%s:%d: %s: expected "%s", came "%s"' % (self.path, number, command, expected, MEMORY)
