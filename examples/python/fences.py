#!/usr/bin/env python3
"""A frame on a desk of libbimphlai, from Python: merges the fences of two jobs, waits for the frame, and shows it.

The loader finds the shared library, or BIMPHLAI names its file.
"""
import ctypes
import os

LIBRARY = "libbimphlai.so.0"
NAME_ROOM, DRIVER_ROOM, CONTEXTS = 32, 8, 256
TIMED_OUT = 8


class Handle(ctypes.Structure):
    _fields_ = [("at", ctypes.c_void_p)]


class FenceInfo(ctypes.Structure):
    _fields_ = [
        ("timeline", ctypes.c_char * NAME_ROOM),
        ("point", ctypes.c_uint64),
        ("driver", ctypes.c_char * DRIVER_ROOM),
        ("status", ctypes.c_int32),
    ]


class Refused(Exception):
    def __init__(self, number, name):
        super().__init__(f"refused with {number} {name}")
        self.number = number


class Desk:
    """A desk, whose calls raise Refused. Used by one thread at a time."""

    def __init__(self, library):
        self.library, self.handle = library, Handle()
        library.bim_refusal_name.restype = ctypes.c_char_p
        library.bim_take_fired.restype = ctypes.c_size_t
        library.bim_take_fired.argtypes = [ctypes.c_void_p, ctypes.c_void_p, ctypes.c_size_t]
        self.call("bim_desk_open")

    def __enter__(self):
        return self

    def __exit__(self, *_):
        self.library.bim_desk_close(ctypes.byref(self.handle))

    def call(self, name, *arguments):
        """Calls a function of the desk: str arguments are names, and ints are 64-bit numbers."""
        given = [ctypes.byref(self.handle)]
        for it in arguments:
            given.append(it.encode() if isinstance(it, str) else ctypes.c_uint64(it) if isinstance(it, int) else it)
        refusal = getattr(self.library, name)(*given)
        if refusal:
            raise Refused(refusal, self.library.bim_refusal_name(refusal).decode())

    def timeline(self, name):
        context = ctypes.c_uint64()
        self.call("bim_timeline", name, ctypes.byref(context))
        return context.value

    def inc(self, timeline, n):
        value = ctypes.c_uint64()
        self.call("bim_inc", timeline, n, ctypes.byref(value))
        return value.value

    def is_signalled(self, file):
        try:
            self.call("bim_wait", file)
        except Refused as refused:
            if refused.number != TIMED_OUT:
                raise
            return False
        return True

    def fences(self, file):
        """Returns the timeline, point and status of each fence of a file."""
        rows, status, count = (FenceInfo * CONTEXTS)(), ctypes.c_int32(), ctypes.c_size_t()
        self.call("bim_info", file, ctypes.byref(status), rows, ctypes.c_size_t(CONTEXTS), ctypes.byref(count))
        return [(it.timeline.decode(), it.point, it.status) for it in rows[: count.value]]

    def fired(self):
        """Returns the cookies that have fired since the last call."""
        cookies, taken = (ctypes.c_uint64 * 16)(), []
        while count := self.library.bim_take_fired(ctypes.byref(self.handle), cookies, len(cookies)):
            taken += cookies[:count]
        return taken


def main():
    with Desk(ctypes.CDLL(os.environ.get("BIMPHLAI", LIBRARY))) as desk:
        for timeline in ("gpu", "copy"):
            desk.timeline(timeline)
            desk.call("bim_fence", f"{timeline}-done", timeline, 1)
        desk.call("bim_merge", "frame", "gpu-done", "copy-done")
        desk.call("bim_watch", "frame", 7)
        desk.inc("gpu", 1)
        print("fences:", desk.fences("frame"))
        print("signalled:", desk.is_signalled("frame"), "fired:", desk.fired())
        desk.inc("copy", 1)
        print("signalled:", desk.is_signalled("frame"), "fired:", desk.fired())
        try:
            desk.inc("no-such-timeline", 1)
        except Refused as refused:
            print(refused)


if __name__ == "__main__":
    main()
