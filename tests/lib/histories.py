#!/usr/bin/env python3
"""Random histories of a device of libbimphlai, each answer compared with a plain model's.

The model keeps all points that were ever put into each file and each buffer, and drops, merges and trims none of them.
Its answers follow from these points and from the values and times of increments (docs/MODEL.md, docs/LIBRARY.md). When an
answer differs, the shortest differing history that was found is printed.

The loader finds the shared library, or BIMPHLAI names its file.
"""
import argparse
import bisect
import collections
import ctypes
import os
import random
import sys

LIBRARY = "libbimphlai.so.0"
NAME_ROOM, DRIVER_ROOM = 32, 8
ENOENT, EINVAL, ENOTTY = 2, 22, 25
ACTIVE, SIGNALLED, CANCELLED = 0, 1, -2
KERNEL, WRITE, READ, BOOKKEEP = range(4)
# The usage at which an access with these flags waits, and the usage of the fences that it adds.
WAITS_FOR = {1: WRITE, 2: READ, 3: READ}
IS_FOR = {1: READ, 2: WRITE, 3: WRITE}

ROOM = 64  # limit on the rows and woken numbers that a call is asked for
KEPT = 77  # each byte of out-parameters before a call
DEVICE_REQUESTS = 5000  # requests to a device
LOOK_EVERY = 1000  # requests between two checks of all objects
LARGEST = 300  # points put into a file or a buffer before it is released


class Refused(Exception):
    """A call was refused with an errno."""


class Differs(Exception):
    """The device's answer differs from the model's, or a refused call has stored something."""


# ---- The model ----

Fence = collections.namedtuple("Fence", "timeline value point made")  # made: its time, if the point was reached then


class Timeline:
    def __init__(self, name):
        self.name, self.value, self.closed = name, 0, None
        self.values, self.times = [], []  # the values it was raised to, and the times


class File:
    def __init__(self, name, puts, fences, stub_at=0):
        self.name, self.puts, self.fences, self.stub_at = name, puts, fences, stub_at


class Buffer:
    def __init__(self, made):
        self.made, self.puts = made, set()  # fences, each with its usage


def text(name):
    """Returns a name as the kernel cuts it."""
    return name.split(b"\0")[0][: NAME_ROOM - 1]


class Model:
    """The model's answers, derived from all requests so far."""

    def __init__(self):
        self.last, self.timelines = 0, {}
        self.alive = {Timeline: {}, File: {}, Buffer: {}}
        self.waiting, self.woken = {}, []

    def make(self, it):
        self.last += 1
        self.alive[type(it)][self.last] = it
        return self.last

    def find(self, number, kind, elsewhere=ENOTTY):
        """Returns the object with this number and kind. The kind is checked after the number."""
        if number in self.alive[kind]:
            return self.alive[kind][number]
        raise Refused(elsewhere if any(number in objects for objects in self.alive.values()) else ENOENT)

    def signal(self, fence):
        """Returns when a fence signalled, and its status; None while it is pending."""
        timeline = self.timelines[fence.timeline]
        if fence.made is not None:
            return fence.made, SIGNALLED
        first = bisect.bisect_left(timeline.values, fence.value)
        if first < len(timeline.values):
            return timeline.times[first], SIGNALLED
        return None if timeline.closed is None else (timeline.closed, CANCELLED)

    def is_pending(self, fence):
        timeline = self.timelines[fence.timeline]
        return timeline.value < fence.value and timeline.closed is None

    def some_pending(self, puts):
        return next(filter(self.is_pending, puts), None)

    def listing(self, puts):
        """Returns the latest pending fence of each timeline, by rising number."""
        latest = {}
        for fence in filter(self.is_pending, puts):
            if fence.timeline not in latest or latest[fence.timeline].value < fence.value:
                latest[fence.timeline] = fence
        return [latest[timeline] for timeline in sorted(latest)]

    def make_file(self, *parts):
        number = self.make(File(*parts))
        pending = self.some_pending(self.alive[File][number].puts)
        if pending:
            self.waiting[number] = pending
        return number

    def wake(self):
        """Wakes the files that no longer wait, by rising number."""
        for number in sorted(number for number, fence in self.waiting.items() if not self.is_pending(fence)):
            pending = self.some_pending(self.alive[File][number].puts)
            if pending:
                self.waiting[number] = pending
            else:
                del self.waiting[number]
                self.woken.append(number)

    def latest_signal(self, file):
        """Returns the latest time at which one of the fences that a file shows has signalled."""
        signals = [self.signal(fence) for fence in file.fences]
        return max((signal[0] for signal in signals if signal), default=file.stub_at)

    def status_of(self, file):
        """Returns the status of the first fence that is pending or has an error."""
        for signal in map(self.signal, file.fences):
            if signal is None:
                return ACTIVE
            if signal[1] == CANCELLED:
                return CANCELLED
        return SIGNALLED

    def name_of(self, number, file):
        if file.name:
            return file.name
        if not file.fences:
            return b"stub-stub0-0"
        if len(file.fences) > 1:
            return b"dma_fence_array-unbound%d-1" % number
        (fence,) = file.fences
        return text(b"sw_sync-%s%d-%d" % (self.timelines[fence.timeline].name, fence.timeline, fence.point))

    def rows_of(self, file):
        if not file.fences:
            return [(b"stub", b"stub", SIGNALLED, file.stub_at)]
        rows = []
        for fence in file.fences:
            at, status = self.signal(fence) or (0, ACTIVE)
            rows.append((self.timelines[fence.timeline].name, b"sw_sync", status, at))
        return rows

    # The requests.

    def timeline(self, task):
        number = self.make(Timeline(text(task)))
        self.timelines[number] = self.alive[Timeline][number]
        return number

    def fence(self, timeline, point, now):
        value = self.find(timeline, Timeline).value
        difference = (point - value + 2**31) % 2**32 - 2**31  # as a 32-bit int
        at = max(value + difference, 0)
        fence = Fence(timeline, at, point, now if difference <= 0 else None)
        return self.make_file(b"", frozenset([fence]), [fence])

    def inc(self, timeline, n, now):
        it = self.find(timeline, Timeline)
        it.value += n
        it.values.append(it.value)
        it.times.append(now)
        before = len(self.woken)
        self.wake()
        return self.first_due(timeline, 2**64 - 1), len(self.woken) - before

    def merge(self, a, b, name):
        files = self.find(a, File), self.find(b, File, ENOENT)
        puts = files[0].puts | files[1].puts
        return self.make_file(text(name), puts, self.listing(puts), max(map(self.latest_signal, files)))

    def status(self, file):
        return self.status_of(self.find(file, File))

    def is_signalled(self, file):
        return int(not self.some_pending(self.find(file, File).puts))

    def info(self, number, room):
        file = self.find(number, File)
        rows = self.rows_of(file)
        return self.name_of(number, file), self.status_of(file), len(rows), rows[:room]

    def release(self, number, now):
        if number in self.alive[Timeline]:
            self.alive[Timeline].pop(number).closed = now
            return self.wake()
        if all(self.alive[kind].pop(number, None) is None for kind in (File, Buffer)):
            raise Refused(ENOENT)
        self.waiting.pop(number, None)
        self.woken = [other for other in self.woken if other != number]

    def buffer(self, now):
        return self.make(Buffer(now))

    def export_file(self, number, flags):
        buffer = self.find(number, Buffer)
        if flags not in WAITS_FOR:
            raise Refused(EINVAL)
        puts = frozenset(fence for fence, usage in buffer.puts if usage <= WAITS_FOR[flags])
        return self.make_file(b"", puts, self.listing(puts), buffer.made)

    def import_file(self, number, file, flags):
        buffer = self.find(number, Buffer)
        if flags not in IS_FOR or file not in self.alive[File]:
            raise Refused(EINVAL)
        buffer.puts.update((fence, IS_FOR[flags]) for fence in self.alive[File][file].puts)

    def test(self, number, usage):
        if not KERNEL <= usage <= BOOKKEEP:
            raise Refused(EINVAL)
        puts = self.find(number, Buffer).puts
        return int(not any(put_for <= usage and self.is_pending(fence) for fence, put_for in puts))

    def value(self, timeline):
        return self.find(timeline, Timeline).value

    def first_due(self, timeline, n):
        most = self.find(timeline, Timeline).value + n
        fences = (fence for file in self.alive[File].values() for fence in file.fences if fence.timeline == timeline)
        return min((fence.value for fence in fences if fence.value <= most and self.is_pending(fence)), default=0)

    def fence_of(self, file, index):
        fences = self.find(file, File).fences
        if index >= len(fences):
            raise Refused(EINVAL)
        return fences[index].timeline, fences[index].value, int(self.is_pending(fences[index]))

    def take_woken(self, room):
        taken, self.woken = self.woken[:room], self.woken[room:]
        return taken


# ---- The device ----


class Handle(ctypes.Structure):
    _fields_ = [("at", ctypes.c_void_p)]


class FenceInfo(ctypes.Structure):
    _fields_ = [
        ("timeline", ctypes.c_char * NAME_ROOM),
        ("at", ctypes.c_uint64),
        ("driver", ctypes.c_char * DRIVER_ROOM),
        ("status", ctypes.c_int32),
    ]


class FileInfo(ctypes.Structure):
    _fields_ = [("name", ctypes.c_char * NAME_ROOM), ("fences", ctypes.c_uint64), ("status", ctypes.c_int32)]


class Point(ctypes.Structure):
    _fields_ = [("timeline", ctypes.c_uint64), ("value", ctypes.c_uint64), ("is_pending", ctypes.c_int32)]


class Raised(ctypes.Structure):
    _fields_ = [("pending", ctypes.c_uint64), ("woken", ctypes.c_uint64)]


POINTER, NUMBER, BITS, INT, TEXT, SIZE = (
    ctypes.c_void_p,
    ctypes.c_uint64,
    ctypes.c_uint32,
    ctypes.c_int,
    ctypes.c_char_p,
    ctypes.c_size_t,
)
CALLS = {
    "open": [],
    "close": [],
    "timeline_n": [TEXT, SIZE, POINTER],
    "fence": [NUMBER, BITS, NUMBER, POINTER],
    "inc": [NUMBER, BITS, NUMBER, POINTER],
    "merge_n": [NUMBER, NUMBER, TEXT, SIZE, POINTER],
    "status": [NUMBER, POINTER],
    "is_signalled": [NUMBER, POINTER],
    "info": [NUMBER, POINTER, POINTER, SIZE],
    "release": [NUMBER, NUMBER],
    "buffer": [NUMBER, POINTER],
    "export": [NUMBER, BITS, POINTER],
    "import": [NUMBER, NUMBER, BITS],
    "test": [NUMBER, INT, POINTER],
    "value": [NUMBER, POINTER],
    "first_due": [NUMBER, NUMBER, POINTER],
    "fence_of": [NUMBER, SIZE, POINTER],
    "take_woken": [POINTER, SIZE],
}


class Device:
    """A device of the library, with the requests of the model."""

    def __init__(self, library):
        self.functions = {}
        for name, types in CALLS.items():
            self.functions[name] = getattr(library, f"bim_device_{name}")
            self.functions[name].argtypes = [POINTER, *types]
        self.functions["close"].restype = None
        self.functions["take_woken"].restype = SIZE
        self.handle = Handle()
        self.number, self.word, self.point, self.raised = ctypes.c_uint64(), ctypes.c_int32(), Point(), Raised()
        self.file, self.rows, self.taken = FileInfo(), (FenceInfo * (ROOM + 1))(), (ctypes.c_uint64 * ROOM)()
        self.call("open")

    def close(self):
        self.functions["close"](ctypes.byref(self.handle))

    def call(self, name, *arguments):
        refusal = self.functions[name](ctypes.byref(self.handle), *arguments)
        if refusal:
            raise Refused(refusal)

    def stored(self, out, name, *arguments):
        """Returns what a call stores. A refused call must not store anything."""
        ctypes.memset(ctypes.byref(out), KEPT, ctypes.sizeof(out))
        try:
            self.call(name, *arguments, ctypes.byref(out))
        except Refused:
            self.expect_kept(out)
            raise
        return getattr(out, "value", None)

    def expect_kept(self, out):
        if bytes(out) != bytes([KEPT]) * ctypes.sizeof(out):
            raise Differs("a call has stored to what it should have left")

    def timeline(self, task):
        return self.stored(self.number, "timeline_n", task, len(task))

    def fence(self, timeline, point, now):
        return self.stored(self.number, "fence", timeline, point, now)

    def inc(self, timeline, n, now):
        self.stored(self.raised, "inc", timeline, n, now)
        return self.raised.pending, self.raised.woken

    def merge(self, a, b, name):
        return self.stored(self.number, "merge_n", a, b, name, len(name))

    def status(self, file):
        return self.stored(self.word, "status", file)

    def is_signalled(self, file):
        return self.stored(self.word, "is_signalled", file)

    def info(self, file, room):
        ctypes.memset(self.rows, KEPT, ctypes.sizeof(self.rows))
        ctypes.memset(ctypes.byref(self.file), KEPT, ctypes.sizeof(self.file))
        try:
            self.call("info", file, ctypes.byref(self.file), self.rows if room else None, room)
        except Refused:
            self.expect_kept(self.file)
            self.expect_kept(self.rows)
            raise
        shown = min(room, self.file.fences)
        self.expect_kept(self.rows[shown])
        rows = [(row.timeline, row.driver, row.status, row.at) for row in self.rows[:shown]]
        return self.file.name, self.file.status, self.file.fences, rows

    def release(self, number, now):
        self.call("release", number, now)

    def buffer(self, now):
        return self.stored(self.number, "buffer", now)

    def export_file(self, buffer, flags):
        return self.stored(self.number, "export", buffer, flags)

    def import_file(self, buffer, file, flags):
        self.call("import", buffer, file, flags)

    def test(self, buffer, usage):
        return self.stored(self.word, "test", buffer, usage)

    def value(self, timeline):
        return self.stored(self.number, "value", timeline)

    def first_due(self, timeline, n):
        return self.stored(self.number, "first_due", timeline, n)

    def fence_of(self, file, index):
        self.stored(self.point, "fence_of", file, index)
        return self.point.timeline, self.point.value, self.point.is_pending

    def take_woken(self, room):
        count = self.functions["take_woken"](ctypes.byref(self.handle), self.taken, room)
        return self.taken[:count]


# ---- Histories ----

MAKERS = {"timeline": Timeline, "fence": File, "merge": File, "buffer": Buffer, "export_file": File}
# How many of a request's first arguments are numbers of objects.
OBJECTS = {"fence": 1, "inc": 1, "merge": 2, "status": 1, "is_signalled": 1, "info": 1, "release": 1}
OBJECTS |= {"export_file": 1, "import_file": 2, "test": 1, "value": 1, "first_due": 1, "fence_of": 1}


def answer(service, request, arguments):
    try:
        return getattr(service, request)(*arguments)
    except Refused as refused:
        return f"errno {refused}"


class History:
    """Requests, each of which is made to a device and to the model."""

    def __init__(self, library):
        self.model, self.device = Model(), Device(library)
        self.asked, self.refused, self.woken = [], 0, 0

    def ask(self, request, *arguments):
        expected = answer(self.model, request, arguments)
        is_refused = isinstance(expected, str)
        self.asked.append((request, arguments, None if is_refused or request not in MAKERS else expected))
        came = answer(self.device, request, arguments)
        if came != expected:
            raise Differs(f"expected {expected}, came {came}")
        self.refused += is_refused
        self.woken += len(came) if request == "take_woken" else 0
        return came

    def look_at_all(self):
        for file in self.model.alive[File]:
            self.ask("info", file, ROOM)
            self.ask("status", file)
            self.ask("is_signalled", file)
        for timeline in self.model.alive[Timeline]:
            self.ask("first_due", timeline, 2**64 - 1)
        for buffer in self.model.alive[Buffer]:
            for usage in range(KERNEL, BOOKKEEP + 1):
                self.ask("test", buffer, usage)


# How often each request is drawn.
WEIGHTS = {
    "timeline": 3,
    "fence": 20,
    "merge": 20,
    "release": 10,
    "buffer": 2,
    "import_file": 8,
    "export_file": 6,
    "status": 4,
    "is_signalled": 4,
    "info": 8,
    "test": 6,
    "value": 2,
    "first_due": 8,
    "fence_of": 8,
    "take_woken": 6,
}
FLAGS = [1, 2, 3] * 4 + [0, 4, 5, 2**31, 2**32 - 1]
USAGES = [KERNEL, WRITE, READ, BOOKKEEP] * 4 + [-1, 4, 2**31 - 1, -(2**31)]
NAMES = [b"", b"", b"gpu", b"display", b"x" * (NAME_ROOM - 1), b"y" * 50]


class Generator:
    """Draws requests for a history, most of which are accepted."""

    def __init__(self, seed, history):
        self.random, self.history, self.model = random.Random(seed), history, history.model
        draw = self.random.choice
        # How many objects are alive at a time, how far ahead points are, whether times rise, and how often timelines do.
        self.most = {Timeline: draw([2, 8, 30, 100]), File: draw([6, 40, 150, 400]), Buffer: draw([1, 3, 10])}
        self.span, self.clock = draw([2, 8, 50]), draw([0, 0, None])
        weights = WEIGHTS | {"inc": draw([4, 12, 30])}
        self.requests, self.weights = list(weights), list(weights.values())

    def now(self):
        if self.clock is None:
            return self.random.getrandbits(64)
        self.clock += self.random.randrange(1000)
        return self.clock

    def alive(self, kind):
        return self.random.choice(list(self.model.alive[kind]))

    def some(self, kind):
        """Returns the number of an object of this kind; now and then, of another kind, of none, or of a released object."""
        if self.model.alive[kind] and self.random.random() < 0.94:
            return self.alive(kind)
        numbers = [0, self.model.last + 1, 2**64 - 1, self.random.randint(0, self.model.last)]
        numbers += [self.alive(other) for other, objects in self.model.alive.items() if objects]
        return self.random.choice(numbers)

    def small(self, kind):
        """Returns the number of an object to put into another, most often of a waiting file. Releases an object that has grown
        large."""
        waiting = kind is File and self.random.random() < 0.7 and list(self.model.waiting)
        number = self.random.choice(waiting) if waiting else self.some(kind)
        it = self.model.alive[kind].get(number)
        if it and len(it.puts) > LARGEST:
            self.history.ask("release", number, self.now())
        return number

    def name(self):
        drawn = self.random.randrange(10)
        return NAMES[drawn] if drawn < len(NAMES) else self.random.randbytes(self.random.randrange(40))

    def point(self, timeline):
        value = self.model.timelines[timeline].value if timeline in self.model.timelines else 0
        drawn = self.random.randrange(20)
        if drawn < 14:
            ahead = self.random.randint(1, self.span)
        elif drawn < 16:
            ahead = self.random.randint(-self.span, 0)
        else:
            ahead = self.random.choice([2**31 - 1, 2**31, 2**31 + 1, 2**20, self.random.getrandbits(32), -value])
        return (value + ahead) % 2**32

    def step(self):
        if self.random.random() < 0.95:
            return self.random.randint(0, 1 + self.span // 4)
        return self.random.choice([self.span, 2**31 - 1, 2**31, 2**32 - 1, self.random.getrandbits(32)])

    def arguments(self, request):
        match request:
            case "timeline":
                return (self.name(),)
            case "fence":
                timeline = self.some(Timeline)
                return timeline, self.point(timeline), self.now()
            case "inc":
                return self.some(Timeline), self.step(), self.now()
            case "merge":
                return self.small(File), self.small(File), self.name()
            case "release":
                return self.some(self.random.choice([File] * 16 + [Timeline] * 2 + [Buffer])), self.now()
            case "buffer":
                return (self.now(),)
            case "import_file":
                return self.small(Buffer), self.small(File), self.random.choice(FLAGS)
            case "export_file":
                return self.small(Buffer), self.random.choice(FLAGS)
            case "status" | "is_signalled":
                return (self.some(File),)
            case "info":
                return self.some(File), self.random.choice([0, 1, 3, ROOM, ROOM])
            case "test":
                return self.some(Buffer), self.random.choice(USAGES)
            case "value":
                return (self.some(Timeline),)
            case "first_due":
                return self.some(Timeline), self.random.choice([0, self.step(), self.step(), 2**64 - 1])
            case "fence_of":
                return self.some(File), self.random.choice([0, 0, 1, 2, 2**63])
            case "take_woken":
                return (self.random.choice([0, 1, 2, ROOM, ROOM]),)

    def ask_one(self):
        """Makes one more request. If the maximum of objects is alive, releases one before another is made."""
        (request,) = self.random.choices(self.requests, self.weights)
        kind = MAKERS.get(request)
        if kind and len(self.model.alive[kind]) >= self.most[kind]:
            self.history.ask("release", self.alive(kind), self.now())
        self.history.ask(request, *self.arguments(request))

    def release_all(self):
        """Releases everything, in random order."""
        numbers = [number for objects in self.model.alive.values() for number in objects]
        self.random.shuffle(numbers)
        for number in numbers:
            self.history.ask("release", number, self.now())
            self.history.ask("take_woken", self.random.choice([1, ROOM]))
            self.history.ask("info", self.some(File), ROOM)

    def ask(self, requests):
        for at in range(requests):
            self.ask_one()
            if at % LOOK_EVERY == 0:
                self.history.look_at_all()
        self.history.look_at_all()
        self.release_all()


# ---- What differs ----

NOWHERE = 2**63  # no object has a number from here on


def first_difference(library, asked):
    """Repeats requests, some of which may be left out, with the numbers that objects have now. Returns them up to the first that
    differs, and the difference, or None."""
    history, numbers = History(library), {}
    try:
        for request, arguments, made in asked:
            count = OBJECTS.get(request, 0)
            objects = [numbers.get(number, NOWHERE + number % NOWHERE) for number in arguments[:count]]
            came = history.ask(request, *objects, *arguments[count:])
            if made is not None and isinstance(came, int):
                numbers[made] = came
    except Differs as differs:
        return history.asked, differs
    finally:
        history.device.close()
    return None


def shortest(library, found):
    """Returns the shortest history found that differs: leaves out requests as long as the rest still differs."""
    size = len(found[0]) // 2
    while size:
        before, at = len(found[0]), 0
        while at < len(found[0]):
            fewer = first_difference(library, found[0][:at] + found[0][at + size :])
            found = fewer or found
            at += 0 if fewer else size
        if len(found[0]) == before:
            size //= 2
    return found


def report(asked, differs):
    print("The shortest history that was found:")
    for request, arguments, made in asked:
        print(f"  {request}({', '.join(map(str, arguments))})" + ("" if made is None else f" -> {made}"))
    print(f"  {differs}")


def run(library, seed, requests, is_brief):
    """Draws `requests` requests, to one device after another. Returns whether no answer differs."""
    answers, refused, woken = 0, 0, 0
    for drawn in range(0, requests, DEVICE_REQUESTS):
        history = History(library)
        try:
            Generator(f"{seed} from {drawn}", history).ask(min(DEVICE_REQUESTS, requests - drawn))
        except Differs as differs:
            print(f"seed {seed}: a device differs from the model after {drawn} requests and {len(history.asked)} answers: {differs}")
            if not is_brief:
                report(*shortest(library, first_difference(library, history.asked) or (history.asked, differs)))
            return False
        finally:
            history.device.close()
        answers, refused, woken = answers + len(history.asked), refused + history.refused, woken + history.woken
    print(f"seed {seed}: {requests} requests and {answers - requests} looks, {refused} refused, {woken} files woken: as the model")
    return True


def main():
    parser = argparse.ArgumentParser(description=__doc__.split("\n")[0])
    parser.add_argument("seeds", nargs="*", default=["1"], help="what histories are drawn by")
    parser.add_argument("--requests", type=int, default=100_000, help="how many are drawn for each seed")
    parser.add_argument("--brief", action="store_true", help="print no history that differs")
    words = parser.parse_args()
    library = ctypes.CDLL(os.environ.get("BIMPHLAI", LIBRARY))
    return 0 if all([run(library, seed, words.requests, words.brief) for seed in words.seeds]) else 1


if __name__ == "__main__":
    sys.exit(main())
