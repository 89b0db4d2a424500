"""Models for SPIN of plans of `fencectl explore`, as an expert would write them by hand.

A line is one d_step, whose first expression is the guard of a line that waits. A timeline is a byte, v_T, with a bit x_T if a line
shuts it. A file that only one `fence` makes is a bit, m_F; any other has a byte, p_F_T, for each timeline whose point may be pending
in it. A buffer has a byte, b_B_U_T, for each usage and such a timeline: the pending point at that usage or a stronger one. A point
is set to 0 in the step that reaches it, so that states merge as they do in `explore`. `ans` and `val` note the answers.
"""
import re

USAGES = {"kernel": 0, "write": 1, "read": 2, "bookkeep": 3}
USAGE_NAMES = list(USAGES)
EXISTS, NO_ENTRY, CANCELLED = "err 3 Exists", "err 2 NoEntry", "err 15 Cancelled"


class NoModel(Exception):
    """The plan has a line that no model here says."""


class Line:
    def __init__(self, number, words, waits):
        self.number, self.words, self.waits, self.branch = number, words, waits, None


class Plan:
    """The lines of a plan: before the clients, of each client, and at the end."""

    def __init__(self, text):
        self.first, self.clients, self.last = [], [], []
        section, waits, open_branches = self.first, False, []
        for number, words in enumerate(map(str.split, text.splitlines()), 1):
            match words:
                case ["#client", _]:
                    section = []
                    self.clients.append(section)
                case ["#finally"]:
                    section = self.last
                case ["#await"]:
                    waits = True
                case ["#if", *answer]:
                    open_branches.append((section[-1], " ".join(answer)))
                case ["#end"]:
                    line, answer = open_branches.pop()
                    line.branch = (answer, len(section))
                case [word, *_] if not word.startswith("#"):
                    is_clients = section is not self.first and section is not self.last
                    section.append(Line(number, words, waits or (word == "wait" and is_clients)))
                    waits = False

    def lines(self):
        return [*self.first, *(line for client in self.clients for line in client), *self.last]


def put_usage(line):
    """Returns the usage with which an `add` or `import` puts points into a buffer."""
    return USAGES[line.words[4]] if line.words[0] == "add" else 2 if line.words[3] == "read" else 1


class Flow:
    """Which timelines' points may be pending in each file, and in each buffer at each usage."""

    def __init__(self, plan):
        lines = plan.lines()
        self.makers = {}
        for line in lines:
            if line.words[0] in ("fence", "export", "merge"):
                self.makers.setdefault(line.words[1], []).append(line)
        self.points = {file: (made[0].words[2], int(made[0].words[3])) for file, made in self.makers.items()
                       if len(made) == 1 and made[0].words[0] == "fence"}
        self.usages = sorted({put_usage(line) for line in lines if line.words[0] in ("add", "import")})
        self.files = {file: set() for file in self.makers}
        self.buffers = {(line.words[1], usage): set() for line in plan.first if line.words[0] == "buffer" for usage in self.usages}
        while any([self.grows(line) for line in lines]):
            pass

    def nearest(self, usage):
        """Returns the greatest usage of the plan that is at most this one."""
        return max((it for it in self.usages if it <= usage), default=None)

    def grows(self, line):
        """Adds what a line puts into files and buffers. Returns whether that is new."""
        kind, *words = line.words
        if kind == "fence":
            return add(self.files[words[0]], {words[1]})
        if kind == "merge":
            return add(self.files[words[0]], self.files.get(words[1], set()) | self.files.get(words[2], set()))
        if kind == "export":
            usage = self.nearest(1 if words[2] == "read" else 2)
            return add(self.files[words[0]], self.buffers.get((words[1], usage), set()))
        if kind in ("add", "import"):
            more = {words[1]} if kind == "add" else self.files.get(words[1], set())
            return any([add(self.buffers[words[0], usage], more) for usage in self.usages if usage >= put_usage(line)])
        return False


def add(some, more):
    before = len(some)
    some |= more
    return len(some) > before


def name_of(word):
    return re.sub(r"[^A-Za-z0-9_]", "_", word)


class Model:
    """The model of a plan. An alternative of a line is a guard or None, its statements, and the answer."""

    def __init__(self, text):
        self.plan = Plan(text)
        self.flow = Flow(self.plan)
        lines = self.plan.lines()
        self.shut = {line.words[1] for line in lines if line.words[0] == "shut"}
        self.closed = {line.words[1] for line in lines if line.words[0] == "close"}
        self.answers = []
        self.slots = {}
        for file, timelines in self.flow.files.items():
            for timeline in sorted(timelines) if file not in self.flow.points else ():
                self.slots.setdefault(timeline, []).append(self.pending(file, timeline))
        for (buffer, usage), timelines in self.flow.buffers.items():
            for timeline in sorted(timelines):
                self.slots.setdefault(timeline, []).append(self.top(buffer, usage, timeline))

    @staticmethod
    def pending(file, timeline):
        return f"p_{name_of(file)}_{name_of(timeline)}"

    @staticmethod
    def top(buffer, usage, timeline):
        return f"b_{name_of(buffer)}_{USAGE_NAMES[usage]}_{name_of(timeline)}"

    def has_reached(self, timeline, point):
        closed = f" || x_{name_of(timeline)}" if timeline in self.shut else ""
        return f"(v_{name_of(timeline)} >= {point}{closed})"

    def is_empty(self, slot, timeline):
        return self.has_reached(timeline, slot)

    def is_signalled(self, file):
        if file in self.flow.points:
            return self.has_reached(*self.flow.points[file])
        return " && ".join(self.is_empty(self.pending(file, it), it) for it in sorted(self.flow.files[file])) or "true"

    def may_exist(self, file):
        return len(self.flow.makers[file]) > 1 or file in self.closed

    def note(self, line, answer):
        """Returns the statement that notes an answer of a line."""
        if (line.number, answer) not in self.answers:
            self.answers.append((line.number, answer))
        return f"A({self.answers.index((line.number, answer))})"

    def note_value(self, line, timeline):
        return self.note(line, "ok %d").replace("A(", "AV(").replace(")", f", v_{name_of(timeline)})")

    def forgotten(self, timeline, value):
        """Returns the statements that set each point of the timeline to 0 that it has reached."""
        return [f"if :: {slot} <= {value} -> {slot} = 0 :: else fi" for slot in self.slots.get(timeline, ())]

    def alternatives(self, line):
        kind, *words = line.words
        known = getattr(self, f"{kind}_line", None)
        if not known:
            raise NoModel(" ".join(line.words))
        return known(line, *words)

    def inc_line(self, line, timeline, count):
        value, closed = f"v_{name_of(timeline)}", f"x_{name_of(timeline)}"
        made = [f"{value} = {value} + {count}", *self.forgotten(timeline, value), self.note_value(line, timeline)]
        if timeline not in self.shut:
            return [(None, made, "ok")]
        return [(f"!{closed}", made, "ok"), (closed, [self.note(line, CANCELLED)], CANCELLED)]

    def shut_line(self, line, timeline):
        closed = f"x_{name_of(timeline)}"
        made = [f"{closed} = 1", *self.forgotten(timeline, 255), self.note_value(line, timeline)]
        return [(f"!{closed}", made, "ok"), (closed, [self.note(line, CANCELLED)], CANCELLED)]

    def value_line(self, line, timeline):
        return [(None, [self.note_value(line, timeline)], "ok")]

    def trim_line(self, line, _buffer):
        return [(None, [self.note(line, "ok")], "ok")]

    def fence_line(self, line, file, timeline, point):
        made, free, refused = [f"m_{name_of(file)} = 1"], [], []
        if self.may_exist(file):
            refused.append((f"m_{name_of(file)}", [self.note(line, EXISTS)], EXISTS))
            free.append(f"!m_{name_of(file)}")
        if timeline in self.shut:
            guard = " && ".join([*free, f"x_{name_of(timeline)}"])
            refused.append((guard, [self.note(line, CANCELLED)], CANCELLED))
            free.append(f"!x_{name_of(timeline)}")
        if file not in self.flow.points:
            made.append(f"if :: !{self.has_reached(timeline, point)} -> {self.pending(file, timeline)} = {point} :: else fi")
        return [(" && ".join(free) or None, [*made, self.note(line, "ok")], "ok"), *refused]

    def close_line(self, line, file):
        there = f"m_{name_of(file)}"
        slots = [] if file in self.flow.points else [f"{self.pending(file, it)} = 0" for it in sorted(self.flow.files[file])]
        return [(there, [f"{there} = 0", *slots, self.note(line, "ok")], "ok"), (f"!{there}", [self.note(line, NO_ENTRY)], NO_ENTRY)]

    def wait_line(self, line, file):
        if file not in self.flow.makers:
            return [("false", [], "ok")]
        if not line.waits:
            raise NoModel("a wait that doesn't wait")
        return [(f"m_{name_of(file)} && {self.is_signalled(file)}", [self.note(line, "ok")], "ok")]

    def info_line(self, line, file):
        if file not in self.flow.points:
            raise NoModel("info of a file with several makers")
        (timeline, point), there = self.flow.points[file], f"m_{name_of(file)}"
        value = f"v_{name_of(timeline)}"
        status = {1: f"{value} >= {point}", 0: f"!{self.has_reached(timeline, point)}"}
        if timeline in self.shut:
            status[-2] = f"{value} < {point} && x_{name_of(timeline)}"
        found = [(f"{there} && {guard}", [self.note(line, f"ok {file} {it} 1;fence {timeline} sw_sync {point} {it}")], "ok")
                 for it, guard in status.items()]
        return [*found, (f"!{there}", [self.note(line, NO_ENTRY)], NO_ENTRY)]

    def put(self, slot, guard, point):
        return f"if :: {guard + ' && ' if guard else ''}{point} > {slot} -> {slot} = {point} :: else fi"

    def import_line(self, line, buffer, file, _flags):
        if file not in self.flow.makers:
            return [(None, [self.note(line, NO_ENTRY)], NO_ENTRY)]
        made = []
        for usage in self.flow.usages:
            for timeline in sorted(self.flow.files[file]) if usage >= put_usage(line) else ():
                slot = self.top(buffer, usage, timeline)
                if file in self.flow.points:
                    point = self.flow.points[file][1]
                    made.append(self.put(slot, "!" + self.has_reached(timeline, point), point))
                else:
                    made.append(self.put(slot, "", self.pending(file, timeline)))
        there = f"m_{name_of(file)}"
        return [(there, [*made, self.note(line, "ok")], "ok"), (f"!{there}", [self.note(line, NO_ENTRY)], NO_ENTRY)]

    def add_line(self, line, buffer, timeline, point, _usage):
        made = [self.put(self.top(buffer, it, timeline), "!" + self.has_reached(timeline, point), point)
                for it in self.flow.usages if it >= put_usage(line)]
        return [(None, [*made, self.note(line, "ok")], "ok")]

    def export_line(self, line, file, buffer, flags):
        usage, there = self.flow.nearest(1 if flags == "read" else 2), f"m_{name_of(file)}"
        made = [f"{there} = 1"]
        if usage is not None:
            timelines = sorted(self.flow.buffers[buffer, usage])
            made += [f"{self.pending(file, it)} = {self.top(buffer, usage, it)}" for it in timelines]
        made.append(self.note(line, "ok"))
        if not self.may_exist(file):
            return [(None, made, "ok")]
        return [(f"!{there}", made, "ok"), (there, [self.note(line, EXISTS)], EXISTS)]

    def test_line(self, line, buffer, word):
        usage = self.flow.nearest(USAGES[word])
        timelines = sorted(self.flow.buffers[buffer, usage]) if usage is not None else []
        idle = " && ".join(self.is_empty(self.top(buffer, usage, it), it) for it in timelines)
        if not idle:
            return [(None, [self.note(line, "ok 1")], "ok 1")]
        return [(idle, [self.note(line, "ok 1")], "ok 1"), (f"!({idle})", [self.note(line, "ok 0")], "ok 0")]

    def merge_line(self, line, file, *merged):
        if not line.waits or self.may_exist(file):
            raise NoModel("a merge that may be refused")
        made = [f"m_{name_of(file)} = 1"]
        for timeline in sorted(self.flow.files[file]):
            one, other = (self.point_in(it, timeline) for it in merged)
            made.append(f"{self.pending(file, timeline)} = ({one} > {other} -> {one} : {other})")
        guard = " && ".join(f"m_{name_of(it)}" for it in merged)
        return [(guard, [*made, self.note(line, "ok")], "ok")]

    def point_in(self, file, timeline):
        if timeline not in self.flow.files[file]:
            return "0"
        if file not in self.flow.points:
            return self.pending(file, timeline)
        point = self.flow.points[file][1]
        return f"({self.has_reached(timeline, point)} -> 0 : {point})"

    def process(self, number, client):
        """Returns the lines of a client's process."""
        yield f"active proctype client{number}() {{"
        targets = {line.branch[1] for line in client if line.branch}
        for place, line in enumerate(client):
            if place in targets:
                yield f"L{place}:"
            found = self.alternatives(line)
            done = " done = done + 1;" if place == len(client) - 1 and self.plan.last else ""
            if line.branch:
                answer, otherwise = line.branch
                jumps = ["" if it[2] == answer else f" goto L{otherwise}" for it in found]
                ways = [f":: d_step {{ {guard or 'true'} -> {'; '.join(made)};{done} }}{jump}" for (guard, made, _), jump in zip(found, jumps)]
                yield f"  if {' '.join(ways)} fi;"
            elif len(found) == 1:
                guard, made, _ = found[0]
                yield f"  d_step {{ {guard + ' -> ' if guard else ''}{'; '.join(made)};{done} }};"
            else:
                ways = [f":: {guard or 'else'} -> {'; '.join(made)}" for guard, made, _ in found]
                yield f"  d_step {{ if {' '.join(ways)} fi;{done} }};"
        if len(client) in targets:
            yield f"L{len(client)}:"
        yield "end: false"
        yield "}"

    def end(self):
        """Returns the process of the commands at the end, which is one more state for each end."""
        if self.plan.last:
            steps = []
            for line in self.plan.last:
                ways = [f":: {guard or 'else'} -> {'; '.join(made)}" for guard, made, _ in self.alternatives(line)]
                steps.append(f"if {' '.join(ways)} fi")
            yield "active proctype finally() {"
            yield f"  end1: d_step {{ done == {len(self.plan.clients)} -> {'; '.join(steps)} }};"
            yield "end: false"
            yield "}"

    def declarations(self):
        values = {}
        for line in self.plan.first:
            kind, *words = line.words
            if kind == "timeline":
                values[f"v_{name_of(words[0])}"] = 0
            elif kind == "inc":
                values[f"v_{name_of(words[0])}"] += int(words[1])
            elif kind == "add":
                for usage in self.flow.usages:
                    slot = self.top(words[0], usage, words[1])
                    if usage >= put_usage(line):
                        values[slot] = max(values.get(slot, 0), int(words[2]))
            elif kind == "fence" and words[0] not in self.flow.points or kind not in ("fence", "buffer"):
                raise NoModel(f"above the first client: {' '.join(line.words)}")
        there = {line.words[1] for line in self.plan.first if line.words[0] == "fence"}
        for slots in self.slots.values():
            values.update({slot: 0 for slot in slots if slot not in values})
        yield from (f"byte {name} = {value};" for name, value in values.items())
        yield from (f"bit x_{name_of(timeline)} = 0;" for timeline in sorted(self.shut))
        yield from (f"bit m_{name_of(file)} = {int(file in there)};" for file in self.flow.makers)
        if self.plan.last:
            yield "byte done = 0;"

    def text(self):
        processes = [it for number, client in enumerate(self.plan.clients) for it in self.process(number, client)]
        processes += self.end()
        texts = ", ".join(f'"{number}: {answer}"' for number, answer in self.answers)
        count = len(self.answers)
        return "\n".join([
            "c_decl {", "\\#include <stdlib.h>", f"char ans[{count + 1}]; char val[{count + 1}][256];",
            f"static const char *ans_text[] = {{ {texts} }};",
            "__attribute__((destructor)) static void tell(void) { int i, j;"
            f" for (i = 0; i < {count}; i++) {{ if (ans[i]) printf(\"answer %s\\n\", ans_text[i]);"
            " for (j = 0; j < 256; j++) if (val[i][j]) { printf(\"answer \"); printf(ans_text[i], j); printf(\"\\n\"); } } }", "}",
            "#define A(i) c_code { ans[i] = 1; }", "#define AV(i, x) c_code { val[i][now.x] = 1; }",
            *self.declarations(), *processes]) + "\n"


def model_of(text):
    """Returns the model of a plan's text. Raises NoModel."""
    return Model(text).text()
