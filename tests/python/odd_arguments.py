"""Calls every method of the Python module with odd arguments, on open, closed and half-made objects, and from several threads.

No call may end the interpreter: each returns, or raises one of a few exceptions. Prints how many calls it made.
"""
import copy
import faulthandler
import itertools
import pickle
import threading

import bimphlai


class Liar(str):
    """A text that says otherwise what it is."""

    def encode(self, *_):
        return b"x" * 5

    def __len__(self):
        return 1 << 40


class Large(int):
    def __ne__(self, _):
        return False


ODD = [None, True, 0, -1, 1, 7, 1 << 31, 1 << 32, 1 << 64, 1 << 200, Large(1 << 70), 1.5, "", "gpu", "f", "b", "a\0b", "é" * 40, "\udc80",
       "x" * 100000, Liar("gpu"), b"gpu", [], object(), bimphlai.Usage.WRITE, bimphlai.Sync.RW]
FEW = [None, -1, 1, 1 << 64, "gpu", "f", "b", Liar("f"), b"f", bimphlai.Usage.WRITE]
EXPECTED = (TypeError, OverflowError, UnicodeEncodeError, AttributeError, OSError, bimphlai.Refused)


ROUNDS, CALLS = 20, 60


def methods(kind):
    """Returns the public methods of a class, with how many arguments each takes at most."""
    found = []
    for name in dir(kind):
        if not name.startswith("_") and callable(getattr(kind, name)):
            found.append((name, getattr(kind, name).__code__.co_argcount - 1))
    return found


def made(kind):
    """Returns an open object with a timeline, a file and a buffer."""
    it = kind()
    if kind is bimphlai.Desk:
        it.timeline("gpu"), it.fence("f", "gpu", 1), it.buffer("b")
    else:
        it.fence(it.timeline("task"), 1), it.buffer()
    return it


def tries(it, name, arguments):
    try:
        getattr(it, name)(*arguments)
    except EXPECTED:
        pass


def in_all_states(kind):
    """Calls each method in each state. Returns how many calls it made."""
    closed = made(kind)
    closed.close()
    count = 0
    for name, most in methods(kind):
        values = ODD if most < 3 else FEW
        for arguments in itertools.chain(*(itertools.product(values, repeat=number) for number in range(most + 1))):
            for it in made(kind) if name == "close" else None, closed, kind.__new__(kind), made(kind):
                if it is not None:
                    tries(it, name, arguments)
                    count += 1
    return count


def beside():
    """Lets threads share a desk, with calls that take long enough to meet, and lets one of them close it."""
    for _ in range(ROUNDS):
        desk = made(bimphlai.Desk)

        def work(own):
            for number in range(CALLS):
                tries(desk, "timeline", (f"{own}-{number}",))
                tries(desk, "merge", (f"{own}-{number}", "f", "f"))
                tries(desk, "report", ())
                tries(desk, "line", ("report",))
                if own == 0 and number == CALLS - 1:
                    desk.close()

        threads = [threading.Thread(target=work, args=(own,)) for own in range(4)]
        for each in threads:
            each.start()
        for each in threads:
            each.join()


def main():
    faulthandler.enable()
    count = 0
    for kind in bimphlai.Desk, bimphlai.Device:
        count += in_all_states(kind)
        it = made(kind)
        for refused in (lambda: copy.deepcopy(it)), (lambda: pickle.dumps(it)):
            try:
                refused()
                raise SystemExit("a handle was copied")
            except (TypeError, ValueError):
                pass
        it.__init__()
        shallow = copy.copy(it)
        it.close()
        shallow.close()
        tries(shallow, "value", ("gpu",))
    beside()
    print(f"calls: {count}")


if __name__ == "__main__":
    main()
