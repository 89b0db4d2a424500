# SPDX-License-Identifier: MIT OR Apache-2.0
"""GPU fences without a GPU, for Python: desks and devices of libbimphlai. The header bimphlai.h documents each call.

    import bimphlai

    with bimphlai.Desk() as desk:
        desk.timeline("gpu")
        desk.fence("frame", "gpu", 1)
        desk.wait("frame")              # False: it is still active
        desk.inc("gpu", 1)
        desk.wait("frame")              # True

A call of a desk that is refused raises Refused, and of a device OSError with the errno. An argument of another type raises
TypeError, and a number that is too large or negative OverflowError. Objects may be used by several threads: one call is made at
a time.

The library is found by BIMPHLAI, the path of its file, or in the lib/ of the installation that has this module, or by the
loader.
"""
import ctypes
import enum
import os
import threading
import typing

# Limits of the header, and how many numbers are taken at a time.
_NAME_ROOM, _DRIVER_ROOM, _ANSWER_ROOM, _CONTEXTS, _BUFFERS, _FILES, _TAKEN_ROOM = 32, 8, 96, 256, 64, 1024, 64
_U32, _U64, _SIZE = ctypes.c_uint32, ctypes.c_uint64, ctypes.c_size_t


class Refusal(enum.IntEnum):
    """Why a call of a desk was refused."""

    SYNTAX = 1
    NO_ENTRY = 2
    EXISTS = 3
    OVERFLOW = 4
    FLAGS = 5
    LIMIT = 6
    SIGNALLED = 7
    TIMED_OUT = 8
    FOREIGN = 9
    TORN = 10
    NOT_ALL = 11
    LONG_LINE = 12
    CANCELLED = 15
    MEMORY = 16


class Usage(enum.IntEnum):
    """The usage of a fence in a buffer, as enum dma_resv_usage."""

    KERNEL = 0
    WRITE = 1
    READ = 2
    BOOKKEEP = 3


class Sync(enum.IntFlag):
    """An access to a buffer, as DMA_BUF_SYNC_READ and DMA_BUF_SYNC_WRITE."""

    READ = 1
    WRITE = 2
    RW = 3


class Status(enum.IntEnum):
    """The status of a fence or a file, as in struct sync_fence_info."""

    ACTIVE = 0
    SIGNALLED = 1
    CANCELLED = -2


class Refused(Exception):
    """A refused call of a desk. `refusal` is a Refusal, and `text` the answer that `line` got, if it was `line`."""

    def __init__(self, number, text=""):
        self.refusal, self.text = Refusal(number), text
        super().__init__(f"refused with {number} {_LIBRARY.bim_refusal_name(number).decode()}")


class Fence(typing.NamedTuple):
    timeline: str
    point: int
    status: Status


class File(typing.NamedTuple):
    status: Status
    fences: list


class Row(typing.NamedTuple):
    """A pending fence of a buffer."""

    usage: Usage
    timeline: str
    point: int


class TimelineRow(typing.NamedTuple):
    timeline: str
    value: int
    is_closed: bool


class FileRow(typing.NamedTuple):
    file: str
    fences: int
    status: Status


class BufferRow(typing.NamedTuple):
    buffer: str
    rows: int


class Report(typing.NamedTuple):
    timelines: list
    files: list
    buffers: list


class Raised(typing.NamedTuple):
    """What an increment did: the timeline's first point that is still pending, or 0, and how many files it signalled."""

    pending: int
    woken: int


class DeviceFence(typing.NamedTuple):
    timeline: str
    at: int
    driver: str
    status: Status


class DeviceFile(typing.NamedTuple):
    name: str
    status: Status
    fences: list


class Point(typing.NamedTuple):
    timeline: int
    value: int
    is_pending: bool


class _Handle(ctypes.Structure):
    _fields_ = [("at", ctypes.c_void_p)]


class _FenceInfo(ctypes.Structure):
    _fields_ = [("timeline", ctypes.c_char * _NAME_ROOM), ("point", _U64), ("driver", ctypes.c_char * _DRIVER_ROOM), ("status", ctypes.c_int32)]


class _Row(ctypes.Structure):
    _fields_ = [("usage", ctypes.c_int32), ("timeline", ctypes.c_char * _NAME_ROOM), ("point", _U64)]


class _TimelineRow(ctypes.Structure):
    _fields_ = [("timeline", ctypes.c_char * _NAME_ROOM), ("value", _U64), ("is_closed", ctypes.c_int32)]


class _FileRow(ctypes.Structure):
    _fields_ = [("file", ctypes.c_char * _NAME_ROOM), ("fences", _U64), ("status", ctypes.c_int32)]


class _BufferRow(ctypes.Structure):
    _fields_ = [("buffer", ctypes.c_char * _NAME_ROOM), ("rows", _U64)]


class _Counts(ctypes.Structure):
    _fields_ = [("timelines", _SIZE), ("files", _SIZE), ("buffers", _SIZE)]


class _Raised(ctypes.Structure):
    _fields_ = [("pending", _U64), ("woken", _U64)]


class _DeviceFenceInfo(ctypes.Structure):
    _fields_ = [("timeline", ctypes.c_char * _NAME_ROOM), ("at", _U64), ("driver", ctypes.c_char * _DRIVER_ROOM), ("status", ctypes.c_int32)]


class _DeviceFileInfo(ctypes.Structure):
    _fields_ = [("name", ctypes.c_char * _NAME_ROOM), ("fences", _U64), ("status", ctypes.c_int32)]


class _DevicePoint(ctypes.Structure):
    _fields_ = [("timeline", _U64), ("value", _U64), ("is_pending", ctypes.c_int32)]


# The types of arguments by letters: a small one is a value, a capital one is where to store it.
_VALUES = {"n": (ctypes.c_char_p, _SIZE), "t": (ctypes.c_char_p,), "i": (ctypes.c_int,), "u": (_U32,), "l": (_U64,), "z": (_SIZE,)}
_STORED = {
    "I": ctypes.c_int, "S": ctypes.c_int32, "L": _U64, "Z": _SIZE, "F": _FenceInfo, "R": _Row, "T": _TimelineRow, "O": _FileRow,
    "B": _BufferRow, "C": _Counts, "A": _Raised, "D": _DeviceFenceInfo, "E": _DeviceFileInfo, "P": _DevicePoint,
}
# Each call, and the types of its arguments behind the handle.
_CALLS = {
    "bim_desk_open": "", "bim_desk_close": "", "bim_timeline_n": "nL", "bim_inc_n": "nlL", "bim_shut_n": "nL", "bim_value_n": "nL",
    "bim_fence_n": "nnl", "bim_merge_n": "nnn", "bim_close_n": "n", "bim_wait_n": "n", "bim_info_n": "nSFzZ", "bim_buffer_n": "n",
    "bim_add_n": "nnli", "bim_import_n": "nnu", "bim_export_n": "nnu", "bim_test_n": "niI", "bim_trim_n": "n", "bim_show_n": "nRzZ",
    "bim_watch_n": "nl", "bim_unwatch": "lI", "bim_take_fired": "Lz", "bim_report_n": "TzOzBzC", "bim_line": "ntzZ",
    "bim_device_open": "", "bim_device_close": "", "bim_device_timeline_n": "nL", "bim_device_fence": "lulL", "bim_device_inc": "lulA",
    "bim_device_merge_n": "llnL", "bim_device_status": "lS", "bim_device_is_signalled": "lS", "bim_device_info_n": "lEDz",
    "bim_device_release": "ll", "bim_device_buffer": "lL", "bim_device_export": "luL", "bim_device_import": "llu",
    "bim_device_test": "liS", "bim_device_value": "lL", "bim_device_first_due": "llL", "bim_device_fence_of": "lzP",
    "bim_device_take_woken": "Lz",
}


def _types(letters):
    own = (_VALUES[it] if it in _VALUES else (ctypes.POINTER(_STORED[it]),) for it in letters)
    return (ctypes.POINTER(_Handle), *(it for types in own for it in types))


def _load():
    beside = os.path.join(os.path.dirname(os.path.realpath(__file__)), "../../../lib/libbimphlai.so.0")
    library = ctypes.CDLL(os.environ.get("BIMPHLAI") or (beside if os.path.exists(beside) else "libbimphlai.so.0"))
    for name, letters in _CALLS.items():
        getattr(library, name).argtypes = _types(letters)
    library.bim_desk_close.restype = library.bim_device_close.restype = None
    library.bim_take_fired.restype = library.bim_device_take_woken.restype = _SIZE
    library.bim_version.argtypes, library.bim_version.restype = (), ctypes.c_char_p
    library.bim_refusal_name.argtypes, library.bim_refusal_name.restype = (ctypes.c_int,), ctypes.c_char_p
    return library


_LIBRARY = _load()
# Held during each call: ctypes releases the interpreter's own lock.
_ONE_CALL = threading.RLock()


def version():
    """Returns the version of the library."""
    return _LIBRARY.bim_version().decode()


def _name(text):
    """Returns a name as two arguments, its bytes and their number."""
    if not isinstance(text, str):
        raise TypeError(f"a name is a str, not {type(text).__name__}")
    name = str.encode(text, "utf-8", "surrogateescape")
    return name, len(name)


def _text(name):
    return name.decode("utf-8", "surrogateescape")


def _number(value, kind=_U64):
    """Returns a number as an argument. ctypes itself would cut it."""
    if not isinstance(value, int):
        raise TypeError(f"a number is an int, not {type(value).__name__}")
    if kind(value).value != value:
        raise OverflowError(f"{value} is no {8 * ctypes.sizeof(kind)}-bit number")
    return kind(value)


def _small(value):
    return _number(value, ctypes.c_int)


def _point(value):
    return _number(value, _U32)


def _call(owner, name, *arguments):
    """Makes a call with the owner's handle. A pointer to a ctypes object is made of the object itself."""
    with _ONE_CALL:
        return getattr(_LIBRARY, name)(owner._handle, *arguments)


def _take(owner, name):
    """Takes all numbers that a call gives, a few at a time."""
    taken = []
    while True:
        some = (_U64 * _TAKEN_ROOM)()
        count = _call(owner, name, some, _TAKEN_ROOM)
        taken += some[:count]
        if count < _TAKEN_ROOM:
            return taken


class _Owner:
    """An object of the library. A closed one refuses its calls."""

    _OPEN = _CLOSE = ""

    def __init__(self):
        self._handle = _Handle()
        self._asked(self._OPEN)

    def close(self):
        _call(self, self._CLOSE)

    def __enter__(self):
        return self

    def __exit__(self, *_):
        self.close()

    def __del__(self):
        # At the end of the interpreter the module may be gone, and so is the memory soon.
        if getattr(self, "_handle", None) and _LIBRARY is not None:
            self.close()

    def _asked(self, name, *arguments):
        raise NotImplementedError

    def _stored(self, kind, name, *arguments):
        """Makes a call that stores a number last, and returns it."""
        stored = kind()
        self._asked(name, *arguments, stored)
        return stored.value


class Desk(_Owner):
    """Timelines, files and buffers by name."""

    _OPEN, _CLOSE = "bim_desk_open", "bim_desk_close"

    def _asked(self, name, *arguments):
        number = _call(self, name, *arguments)
        if number:
            raise Refused(number)

    def timeline(self, timeline):
        """Creates a timeline at 0, and returns its context."""
        return self._stored(_U64, "bim_timeline_n", *_name(timeline))

    def inc(self, timeline, n=1):
        """Adds n to a timeline's value, and returns the new value."""
        return self._stored(_U64, "bim_inc_n", *_name(timeline), _number(n))

    def shut(self, timeline):
        """Closes a timeline, which cancels its pending points, and returns its value."""
        return self._stored(_U64, "bim_shut_n", *_name(timeline))

    def value(self, timeline):
        return self._stored(_U64, "bim_value_n", *_name(timeline))

    def fence(self, file, timeline, point):
        """Creates a file with a point on a timeline."""
        self._asked("bim_fence_n", *_name(file), *_name(timeline), _number(point))

    def merge(self, file, a, b):
        """Creates a file that waits for all that two files wait for."""
        self._asked("bim_merge_n", *_name(file), *_name(a), *_name(b))

    def close_file(self, file):
        self._asked("bim_close_n", *_name(file))

    def wait(self, file):
        """Looks once whether a file is signalled or cancelled."""
        try:
            self._asked("bim_wait_n", *_name(file))
        except Refused as refused:
            if refused.refusal != Refusal.TIMED_OUT:
                raise
            return False
        return True

    def info(self, file):
        """Returns a file's status and fences, as a File of Fences."""
        status, rows, count = ctypes.c_int32(), (_FenceInfo * _CONTEXTS)(), _SIZE()
        self._asked("bim_info_n", *_name(file), status, rows, _CONTEXTS, count)
        return File(Status(status.value), [Fence(_text(it.timeline), it.point, Status(it.status)) for it in rows[: count.value]])

    def buffer(self, buffer):
        self._asked("bim_buffer_n", *_name(buffer))

    def add(self, buffer, timeline, point, usage):
        """Adds a fence to a buffer. `usage` is a Usage."""
        self._asked("bim_add_n", *_name(buffer), *_name(timeline), _number(point), _small(usage))

    def import_file(self, buffer, file, flags):
        """Adds a file's fences to a buffer, for the accesses in `flags`, a Sync."""
        self._asked("bim_import_n", *_name(buffer), *_name(file), _point(flags))

    def export(self, file, buffer, flags):
        """Creates a file with the fences for which an access to a buffer has to wait. `flags` is a Sync."""
        self._asked("bim_export_n", *_name(file), *_name(buffer), _point(flags))

    def test(self, buffer, usage):
        """Returns whether each fence of a buffer at this Usage or a stronger one is signalled or cancelled."""
        return bool(self._stored(ctypes.c_int, "bim_test_n", *_name(buffer), _small(usage)))

    def trim(self, buffer):
        self._asked("bim_trim_n", *_name(buffer))

    def show(self, buffer):
        """Returns a buffer's pending fences, as Rows."""
        room = _CONTEXTS * len(Usage)
        rows, count = (_Row * room)(), _SIZE()
        self._asked("bim_show_n", *_name(buffer), rows, room, count)
        return [Row(Usage(it.usage), _text(it.timeline), it.point) for it in rows[: count.value]]

    def watch(self, file, cookie):
        """Lets a number fire once a file is signalled or cancelled."""
        self._asked("bim_watch_n", *_name(file), _number(cookie))

    def unwatch(self, cookie):
        """Removes the watch of a cookie, and returns whether there was one."""
        return bool(self._stored(ctypes.c_int, "bim_unwatch", _number(cookie)))

    def fired(self):
        """Returns the cookies that have fired since the last call."""
        return _take(self, "bim_take_fired")

    def report(self):
        """Returns all timelines, files and buffers."""
        timelines, files, buffers, counts = (_TimelineRow * _CONTEXTS)(), (_FileRow * _FILES)(), (_BufferRow * _BUFFERS)(), _Counts()
        self._asked("bim_report_n", timelines, _CONTEXTS, files, _FILES, buffers, _BUFFERS, counts)
        return Report(
            [TimelineRow(_text(it.timeline), it.value, bool(it.is_closed)) for it in timelines[: counts.timelines]],
            [FileRow(_text(it.file), it.fences, Status(it.status)) for it in files[: counts.files]],
            [BufferRow(_text(it.buffer), it.rows) for it in buffers[: counts.buffers]],
        )

    def line(self, line):
        """Runs a line of a script, and returns the text of its answer, as fencectl prints it."""
        room, length = _ANSWER_ROOM, _SIZE()
        while True:
            text = ctypes.create_string_buffer(room)
            number = _call(self, "bim_line", *_name(line), text, room, length)
            if length.value < room:
                break
            room = length.value + 1
        if number:
            raise Refused(number, text.value.decode())
        return text.value.decode()


class Device(_Owner):
    """Timelines, files and buffers by number, with the kernel's points and errors. Times are nanoseconds of your clock."""

    _OPEN, _CLOSE = "bim_device_open", "bim_device_close"

    def _asked(self, name, *arguments):
        number = _call(self, name, *arguments)
        if number:
            raise OSError(number, os.strerror(number))

    def timeline(self, task):
        """Creates a timeline of a task, and returns its number."""
        return self._stored(_U64, "bim_device_timeline_n", *_name(task))

    def fence(self, timeline, point, now=0):
        """Creates a file with a point on a timeline, and returns its number."""
        return self._stored(_U64, "bim_device_fence", _number(timeline), _point(point), _number(now))

    def inc(self, timeline, n=1, now=0):
        """Adds n to a timeline's value, and returns what that did, as Raised."""
        raised = _Raised()
        self._asked("bim_device_inc", _number(timeline), _point(n), _number(now), raised)
        return Raised(raised.pending, raised.woken)

    def merge(self, a, b, name=""):
        """Creates a file that waits for all that two files wait for, and returns its number."""
        return self._stored(_U64, "bim_device_merge_n", _number(a), _number(b), *_name(name))

    def status(self, file):
        return Status(self._stored(ctypes.c_int32, "bim_device_status", _number(file)))

    def is_signalled(self, file):
        return bool(self._stored(ctypes.c_int32, "bim_device_is_signalled", _number(file)))

    def info(self, file):
        """Returns a file's name, status and fences, as a DeviceFile of DeviceFences."""
        info, room = _DeviceFileInfo(), 0
        while True:
            rows = (_DeviceFenceInfo * (room + 1))()
            self._asked("bim_device_info_n", _number(file), info, rows, room + 1)
            if info.fences <= room + 1:
                break
            room = info.fences
        fences = [DeviceFence(_text(it.timeline), it.at, _text(it.driver), Status(it.status)) for it in rows[: info.fences]]
        return DeviceFile(_text(info.name), Status(info.status), fences)

    def release(self, number, now=0):
        """Releases a timeline, a file or a buffer."""
        self._asked("bim_device_release", _number(number), _number(now))

    def buffer(self, now=0):
        """Creates a buffer, and returns its number."""
        return self._stored(_U64, "bim_device_buffer", _number(now))

    def export(self, buffer, flags):
        """Creates a file with the fences for which an access to a buffer has to wait, and returns its number."""
        return self._stored(_U64, "bim_device_export", _number(buffer), _point(flags))

    def import_file(self, buffer, file, flags):
        """Adds a file's pending fences to a buffer, for the accesses in `flags`, a Sync."""
        self._asked("bim_device_import", _number(buffer), _number(file), _point(flags))

    def test(self, buffer, usage):
        """Returns whether each fence of a buffer at this Usage or a stronger one has signalled."""
        return bool(self._stored(ctypes.c_int32, "bim_device_test", _number(buffer), _small(usage)))

    def value(self, timeline):
        return self._stored(_U64, "bim_device_value", _number(timeline))

    def first_due(self, timeline, n):
        """Returns the least point at which an increment by n would signal a file, or 0."""
        return self._stored(_U64, "bim_device_first_due", _number(timeline), _number(n))

    def fence_of(self, file, index):
        """Returns the fence of a file at an index, as a Point."""
        point = _DevicePoint()
        self._asked("bim_device_fence_of", _number(file), _number(index, _SIZE), point)
        return Point(point.timeline, point.value, bool(point.is_pending))

    def woken(self):
        """Returns the files that have signalled since the last call."""
        return _take(self, "bim_device_take_woken")
