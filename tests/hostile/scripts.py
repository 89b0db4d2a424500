"""Scripts as lines and commands, and copies of a script in which some commands are notes."""
import os
import re

with open(os.path.join(os.path.dirname(os.path.realpath(__file__)), "..", "lib", "limits"), encoding="utf-8") as limits:
    LIMITS = {name: int(number) for name, number in re.findall(r"^([A-Z_]+)=(\d+)$", limits.read(), re.MULTILINE)}
LINE_BYTES = LIMITS["LINE_BYTES"]
NOTE = b"#"


def is_command(line):
    """Returns whether a line has an answer."""
    words = [word for word in line.split(b" ") if word]
    return len(line) > LINE_BYTES or bool(words) and not words[0].startswith(b"#")


def head_of(line):
    """Returns whether a line of output begins an answer. No row of an answer begins like that."""
    return line == b"ok" or line.startswith((b"ok ", b"err "))


def answers_of(output):
    """Returns the answers of an output, each as a list of lines. A last line that was cut is left out."""
    answers = []
    for line in output.split(b"\n")[:-1]:
        if head_of(line):
            answers.append([])
        answers[-1].append(line)
    return answers


class Script:
    """The lines of a script. A command is known by the number of its line, from 1."""

    def __init__(self, text):
        self.lines = text.split(b"\n")
        self.commands = [number for number, line in enumerate(self.lines, 1) if is_command(line)]

    def line(self, number):
        return self.lines[number - 1]

    def without(self, numbers):
        """Returns the text in which these commands are notes, and so are the notes that expect their answers."""
        lines = list(self.lines)
        for number in numbers:
            lines[number - 1] = NOTE
            while number < len(lines) and lines[number].startswith(b"#="):
                lines[number] = NOTE
                number += 1
        return b"\n".join(lines)

    def expected(self, number):
        """Returns the first line that is expected of a command."""
        return self.line(number + 1).removeprefix(b"#= ")


def expecting(script, answer):
    """Returns a script of the same commands, with notes that expect their answers; `answer` returns the text of one."""
    lines = []
    for number, lines_of_answer in zip(script.commands, answers_of(answer(script.without([])))):
        lines += [script.line(number)] + [NOTE] * len(lines_of_answer)
    # The line numbers in answers are those of the script as it is now.
    silent = Script(b"\n".join(lines + [b""]))
    lines = []
    for number, lines_of_answer in zip(silent.commands, answers_of(answer(silent.without([])))):
        lines += [silent.line(number)] + [b"#= " + line for line in lines_of_answer]
    return Script(b"\n".join(lines + [b""]))
