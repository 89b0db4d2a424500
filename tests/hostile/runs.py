"""Runs a program with refused growths (a block of memory, or a thread) or with broken streams."""
import mmap
import os
import resource
import shutil
import struct
import subprocess
import sys
from dataclasses import dataclass

FOREVER = 2**32 - 1
# A run that takes longer hangs, and is ended by a signal.
SECONDS = 60
# Represents a closed stream.
CLOSED = -1


@dataclass(frozen=True)
class Run:
    """The result of a run: its status, or a signal's negated number, its output, its errors, and the library's counts."""

    status: int
    output: bytes
    errors: bytes
    counts: tuple[int, int, int, int]

    # The struct counts of refuse.c.

    @property
    def growths(self):
        return self.counts[0]

    @property
    def refused(self):
        return self.counts[1]

    @property
    def threads(self):
        return self.counts[2]

    @property
    def threads_ended(self):
        return self.counts[3]

    # The struct counts of pieces.c.

    @property
    def reads(self):
        return self.counts[0]

    @property
    def read(self):
        return self.counts[1]


def built(name, folder):
    """Compiles a library to preload, whose source is in this folder. Returns its path."""
    compiler = next(filter(shutil.which, ["cc", "clang", "gcc"]), None)
    if not compiler:
        sys.exit("tests/hostile: there is no C compiler, and it takes cc, clang or gcc")
    source = os.path.join(os.path.dirname(os.path.realpath(__file__)), name)
    library = f"{folder}/{name}.so"
    subprocess.run([compiler, "-std=c11", "-O1", "-shared", "-fPIC", "-o", library, source, "-ldl"], check=True)
    return library


class Program:
    """A program that is run repeatedly, with a folder for its files, and a library to preload."""

    def __init__(self, program, library, folder):
        self.program = os.path.abspath(program)
        self.folder = folder
        self.runs = 0
        self.files = [os.open(f"{folder}/{name}", os.O_RDWR | os.O_CREAT) for name in ("output", "errors")]
        self.nothing = os.open(os.devnull, os.O_RDONLY)
        with open(f"{folder}/counts", "w+b") as counts:
            counts.truncate(16)
            self.counts = mmap.mmap(counts.fileno(), 16)
        self.preloading = {"LD_PRELOAD": library, "COUNTS": f"{folder}/counts", "SECONDS": str(SECONDS)}

    def file(self, name, text):
        """Returns the path of a file with this text."""
        path = f"{self.folder}/{name}"
        with open(path, "wb") as file:
            file.write(text)
        return path

    def plain(self, *words, **streams):
        """Runs the program unchanged."""
        return self.start(words, {}, **streams)

    def refused(self, growths, reading, *words, **streams):
        """Runs the program and refuses growths. `growths` has the first and the last, numbered from the first read on or from the
        start."""
        first, last = growths
        return self.preloaded(words, {"REFUSE_FIRST": first, "REFUSE_LAST": last, "REFUSE_READING": int(reading)}, **streams)

    def preloaded(self, words, settings, **streams):
        """Runs the program with the library, whose variables are `settings`."""
        environment = {name: str(value) for name, value in settings.items()}
        return self.start(words, {**self.preloading, **environment}, **streams)

    def start(self, words, environment, stdin=None, stdout=None, stderr=None):
        self.runs += 1
        self.counts[:] = bytes(16)
        for file in self.files:
            os.ftruncate(file, 0)
            os.lseek(file, 0, os.SEEK_SET)
        own = [self.nothing, *self.files]
        streams = [file if other is None else other for file, other in zip(own, (stdin, stdout, stderr))]
        child = os.posix_spawn(self.program, [self.program, *words], environment, file_actions=actions_of(streams))
        status = os.waitstatus_to_exitcode(os.waitpid(child, 0)[1])
        output, errors = (os.pread(file, os.fstat(file).st_size, 0) for file in self.files)
        return Run(status, output, errors, struct.unpack("4I", self.counts[:]))


def actions_of(streams):
    """Returns the file actions that give a child these streams, some of which may be closed."""
    return [
        (os.POSIX_SPAWN_CLOSE, number) if stream == CLOSED else (os.POSIX_SPAWN_DUP2, stream, number)
        for number, stream in enumerate(streams)
    ]


def whole_lines(text):
    """Returns a text up to its last line feed."""
    return text[: text.rfind(b"\n") + 1]


def differs(run, status, output, errors):
    """Returns what differs from the expected result of a run, or an empty text."""
    for name, wanted in (("status", status), ("output", output), ("errors", errors)):
        if getattr(run, name) != wanted:
            return f"its {name} is {getattr(run, name)}, not {wanted}"
    return ""


def tell_tests(program, tests):
    """Runs tests of a program, each of which yields cases with what is wrong, and prints a line for each test."""
    for name, test in tests:
        before = program.runs
        wrong = [f"{case}: {mistake}" for case, mistake in test(program) if mistake]
        shown = "; ".join(wrong[:3]) + (f"; and {len(wrong) - 3} more" if len(wrong) > 3 else "")
        print(f"{name}, {program.runs - before} runs\t{shown}", flush=True)


class Room:
    """Limits the size of all files: a write beyond the limit fails without a signal."""

    def __init__(self, room):
        self.room = room

    def __enter__(self):
        self.before = resource.getrlimit(resource.RLIMIT_FSIZE)
        resource.setrlimit(resource.RLIMIT_FSIZE, (self.room, self.before[1]))

    def __exit__(self, *_):
        resource.setrlimit(resource.RLIMIT_FSIZE, self.before)
