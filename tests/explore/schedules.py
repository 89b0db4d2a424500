#!/usr/bin/env python3
"""Random plans, each decided by `fencectl explore --json`, with `--all-orders` too, and by running all of its schedules, which must
agree.

usage: tests/explore/schedules.py PROGRAM [--plans N] [--from SEED]

Compared are the answers of each line, whether a schedule gets stuck, and after how many steps at least. Each schedule that is
reported is run too, and has to give its answer; with `--all-orders` no schedule gives it in fewer steps. What a schedule answers is
asked of `PROGRAM run`.
"""
import argparse
import concurrent.futures
import functools
import json
import random
import subprocess
import sys

TIMELINES, FILES, BUFFERS = ("t", "u"), ("f", "g", "h", "i"), ("b", "c")
USAGES, FLAGS = ("kernel", "write", "read", "bookkeep"), ("read", "write", "rw")
# Commands that are answered with a number, which may depend on the schedule.
COUNTING = ("inc", "value", "test", "shut", "show")


def command(rng):
    """Returns a random command that any section may have."""
    one = rng.choice
    return one((
        lambda: f"inc {one(TIMELINES)} {rng.randint(0, 2)}",
        lambda: f"inc {one(TIMELINES)} 1",
        lambda: f"fence {one(FILES)} {one(TIMELINES)} {rng.randint(0, 3)}",
        lambda: f"fence {one(FILES)} {one(TIMELINES)} {rng.randint(1, 3)}",
        lambda: f"merge {one(FILES)} {one(FILES)} {one(FILES)}",
        lambda: f"wait {one(FILES)}",
        lambda: f"wait {one(FILES)}",
        lambda: f"info {one(FILES)}",
        lambda: f"close {one(FILES)}",
        lambda: f"test {one(BUFFERS)} {one(USAGES)}",
        lambda: f"export {one(FILES)} {one(BUFFERS)} {one(FLAGS)}",
        lambda: f"import {one(BUFFERS)} {one(FILES)} {one(FLAGS)}",
        lambda: f"add {one(BUFFERS)} {one(TIMELINES)} {rng.randint(0, 3)} {one(USAGES)}",
        lambda: f"value {one(TIMELINES)}",
        lambda: f"shut {one(TIMELINES)}",
        lambda: f"show {one(BUFFERS)}",
        lambda: f"trim {one(BUFFERS)}",
        lambda: f"timeline {one(TIMELINES)}",
        lambda: f"buffer {one(BUFFERS)}",
    ))()


class Plan:
    """A random plan: its commands by number of line, and for each client what it does: a line; below a line, where it continues after
    another answer than a text; or where it continues in any case."""

    def __init__(self, seed):
        rng = random.Random(seed)
        self.text, self.commands = [], {}
        self.first = [self.add(line) for line in ["timeline t", "timeline u", "buffer b", "buffer c"][:rng.randint(2, 4)]]
        self.first += [self.add(f"fence {name} {rng.choice(TIMELINES)} {rng.randint(1, 3)}") for name in FILES[:rng.randint(0, 2)]]
        self.clients, self.waits, self.marked, self.orders = [], set(), [], {}
        self.joins, self.joined = False, set()
        for client, most in enumerate(rng.choice(((4, 4), (3, 4), (2, 2, 2), (3, 3)))):
            self.text.append(f"#client c{client}")
            self.clients.append([])
            self.add_lines(rng, self.clients[-1], rng.randint(1, most))
        self.name_orders(rng)
        self.text.append("#finally")
        self.last = [self.add(command(rng)) for _ in range(rng.randint(0, 3))]

    def add(self, line):
        self.text.append(line)
        self.commands[len(self.text)] = line
        return len(self.text)

    def add_lines(self, rng, steps, most):
        """Adds this many lines, some of them in branches."""
        while most > 0:
            if most > 1 and not self.joins and rng.random() < 0.2:
                most -= self.add_atomic(rng, steps, rng.randint(2, most))
                continue
            number = self.add_line(rng, len(steps))
            steps.append(number)
            most -= 1
            if most and rng.random() < 0.5:
                counts = self.commands[number].startswith(COUNTING)
                text = rng.choice(("ok 0", "ok 1", "ok 2") if counts else ("ok", "ok", "err 2 NoEntry", "err 3 Exists"))
                most -= self.add_branch(rng, steps, text, rng.randint(1, most), rng.random() < 0.4)

    def add_atomic(self, rng, steps, most):
        """Adds this many lines that are one step, and returns how many they are."""
        self.text.append("#atomic")
        steps.append(self.add_line(rng, len(steps)))
        first, self.joins = len(steps), True
        self.add_lines(rng, steps, most - 1)
        self.joins = False
        self.joined.update(number for number in steps[first:] if isinstance(number, int))
        self.text.append("#end")
        return most

    def add_branch(self, rng, steps, text, most, has_other):
        """Adds the lines of a branch, and of its other part if it has one, and returns how many they are."""
        other = rng.randint(0, most - 1) if has_other else 0
        self.text.append(f"#if {text}")
        branch = len(steps)
        steps.append(None)
        self.add_lines(rng, steps, most - other)
        if has_other:
            self.text.append("#else")
            steps.append(None)
            jump = len(steps) - 1
            steps[branch] = text, len(steps)
            self.add_lines(rng, steps, other)
            steps[jump] = None, len(steps)
        else:
            steps[branch] = text, len(steps)
        self.text.append("#end")
        return most

    def add_line(self, rng, place):
        how = rng.choice(("#await", "#once", "", "", "", "", "", ""))
        line = f"wait {rng.choice(FILES)}" if how == "#once" else command(rng)
        if self.joins:
            how = "#once" if line.startswith("wait ") else ""
        notes = [how] if how else []
        is_after = not self.joins and rng.random() < 0.15
        if is_after:
            notes.append("#after")
        if rng.random() < 0.3:
            notes.append(f"#mark m{len(self.marked)}")
            self.marked.append((len(self.clients) - 1, place))
        rng.shuffle(notes)
        self.text += notes
        number = self.add(line)
        if is_after:
            self.orders[number] = len(self.clients) - 1, len(self.text) - 1 - len(notes) + notes.index("#after")
        if how == "#await" or how != "#once" and line.startswith("wait "):
            self.waits.add(number)
        return number

    def name_orders(self, rng):
        """Has each `#after` name a mark of another client, or makes it a plain note."""
        for number, (client, index) in list(self.orders.items()):
            others = [mark for mark, (other, _) in enumerate(self.marked) if other != client]
            if others:
                mark = rng.choice(others)
                self.text[index] = f"#after m{mark}"
                self.orders[number] = self.marked[mark]
            else:
                self.text[index] = "# after nothing"
                del self.orders[number]

    def is_due(self, number, at):
        """Returns whether the clients at these places let a line be made."""
        client, place = self.orders.get(number, (None, None))
        return client is None or at[client] > place

    def script(self):
        return "\n".join(self.text) + "\n"


class Schedules:
    """Runs all schedules of a plan."""

    def __init__(self, program, plan):
        self.program, self.plan = program, plan
        self.given, self.stuck = {}, None
        self.answers = functools.lru_cache(maxsize=None)(self.answers)

    def answers(self, numbers):
        """Returns the answers of these lines, one after another."""
        objects = run([self.program, "run"], "".join(self.plan.commands[number] + "\n" for number in numbers)).stdout
        found = []
        for line in objects.splitlines():
            if line.startswith(("ok", "err")) or not found:
                found.append([])
            found[-1].append(line)
        return tuple(map(tuple, found))

    def made(self, schedule):
        """Returns the lines that a schedule makes, those of the first section included."""
        made, at = tuple(self.plan.first), [0 for _ in self.plan.clients]
        for client in schedule:
            made += (self.plan.clients[client][at[client]],)
            at[client] = self.place_after(made, client, at[client])
        return made

    def place_after(self, made, client, place):
        """Returns the place of the client's next line, once it has made the last of these lines, which is at this place."""
        steps, place = self.plan.clients[client], place + 1
        while place < len(steps) and isinstance(steps[place], tuple):
            text, otherwise = steps[place]
            place = place + 1 if self.answers(made)[-1][0] == text else otherwise
        return place

    def decide(self):
        first = tuple(self.plan.first)
        self.note_all(first, self.answers(first), 0)
        self.go(first, tuple(0 for _ in self.plan.clients))
        return self

    def go(self, made, at):
        """Makes each line that can be made now, and everything after it."""
        moved = False
        numbers = [lines[place] if place < len(lines) else None for lines, place in zip(self.plan.clients, at)]
        inside = [number for number in numbers if number in self.plan.joined]
        for client, number in enumerate(numbers):
            if number is None or inside and number not in inside or not self.plan.is_due(number, at):
                continue
            answer = self.answers(made + (number,))[-1]
            if number in self.plan.waits and answer[0].startswith("err"):
                continue
            moved = True
            self.note(number, answer, self.steps(made) + 1)
            place = self.place_after(made + (number,), client, at[client])
            self.go(made + (number,), at[:client] + (place,) + at[client + 1:])
        if not moved:
            self.end(made, at)

    def end(self, made, at):
        if any(place < len(lines) for place, lines in zip(at, self.plan.clients)):
            steps = self.steps(made)
            self.stuck = steps if self.stuck is None else min(steps, self.stuck)
            return
        ended = self.answers(made + tuple(self.plan.last))[len(made):]
        self.note_all(self.plan.last, ended, self.steps(made))

    def steps(self, made):
        """Returns how many of these lines are clients' lines."""
        return len(made) - len(self.plan.first)

    def note_all(self, numbers, answers, steps):
        for number, answer in zip(numbers, answers):
            self.note(number, answer, steps)

    def note(self, number, answer, steps):
        """Notes an answer of a line, with the fewest steps of a schedule that gives it."""
        self.given[number, answer] = min(steps, self.given.get((number, answer), steps))


def run(words, text):
    return subprocess.run(words, input=text, capture_output=True, text=True, check=False)


def difference(program, seed):
    """Returns how a report of a plan differs from its schedules, or None."""
    plan = Plan(seed)
    there = Schedules(program, plan).decide()
    for options in ((), ("--all-orders",)):
        told = run([program, "explore", "--json", *options], plan.script())
        wrong = difference_of_report(told, there, bool(options))
        if wrong:
            return wrong
    return None


def difference_of_report(told, there, is_shortest):
    """Returns how a report of the plan differs from all of its schedules, or None. Its schedules may have to be shortest ones."""
    if told.returncode not in (0, 1) or told.stderr:
        return f"its status is {told.returncode}: {told.stderr}"
    objects = [json.loads(line) for line in told.stdout.splitlines()]
    stuck = next((it["stuck"]["steps"] for it in objects if "stuck" in it and "covered" not in it), None)
    if stuck != there.stuck:
        return f"stuck after {stuck} steps, and not {there.stuck}"
    if objects[-1]["covered"] is not True or objects[-1]["stuck"] != (there.stuck is not None):
        return f"the totals are {objects[-1]}"
    lines = [it for it in objects if "line" in it]
    given = {(it["line"], tuple(one["answer"])) for it in lines for one in it["answers"]}
    if given != set(there.given):
        return f"only reported: {sorted(given - set(there.given))}; only there: {sorted(set(there.given) - given)}"
    for it in lines:
        for one in it["answers"]:
            wrong = wrong_schedule(there, it["line"], one)
            if wrong:
                return wrong
            steps = there.given[it["line"], tuple(one["answer"])]
            if is_shortest and len(one["schedule"]) != steps:
                return f"a schedule of line {it['line']} with {steps} steps answers so too: {one}"
    return None


def wrong_schedule(there, number, one):
    """Returns what is wrong with the schedule of an answer, or None."""
    made = there.made([int(name[1:]) for name in one["schedule"]])
    if number in there.plan.last:
        made += tuple(there.plan.last)
    if number not in made:
        return f"the schedule of line {number} does not make it: {one}"
    if there.answers(made)[made.index(number)] != tuple(one["answer"]):
        return f"the schedule of line {number} answers otherwise: {one}"
    return None


def main():
    parser = argparse.ArgumentParser(description=__doc__.splitlines()[0])
    parser.add_argument("program")
    parser.add_argument("--plans", type=int, default=60)
    parser.add_argument("--from", type=int, default=1, dest="first")
    asked = parser.parse_args()
    seeds = range(asked.first, asked.first + asked.plans)
    with concurrent.futures.ThreadPoolExecutor() as pool:
        for seed, wrong in zip(seeds, pool.map(lambda seed: difference(asked.program, seed), seeds)):
            if wrong:
                print(f"seed {seed}: {wrong}\n{Plan(seed).script()}", end="")
                return 1
    print(f"plans: {asked.plans}, no difference")
    return 0


if __name__ == "__main__":
    sys.exit(main())
