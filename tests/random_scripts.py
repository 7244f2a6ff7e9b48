#!/usr/bin/env python3
"""Random scripts of pool calls whose printed lines are determined whatever the schedule.

usage: tests/random_scripts.py KIND SEED

prints one script. KIND is
  exact  one worker, newest or oldest first: ledgers in order, the first fault, what migrated
  many   pools of 1 to 8 workers, threads: answers, sorted ledgers, gates, numbers of faults
  meet   the same of 2 to 8, with sides that wait for each other and jobs that serve at a gate
  cast   pools of 1 to 8 workers, threads, and broadcasts beside all the rest
  deep   one worker with few levels, and calls after the end: for ours and the model alone

A line `# workers: ..` says on which other numbers of workers a script says the same.
docs/SCRIPTS.md is the language.
"""
import random
import sys

from script_model import NO_LIMIT, SCOPES, call_of

KINDS = ("exact", "many", "meet", "cast", "deep")
ONE_WORKER = ("exact", "deep")
# How many runs a step may lead to, faults left out.
MOST_RUNS = {"exact": 400, "many": 600, "meet": 300, "cast": 600, "deep": 400}
MOST_WORKERS = 8
WORKERS = {"many": "1 2 3 4 8", "meet": "2 3 4 8"}
SPAWNS = ["spawn", "spawn", "spawn_fifo"]
CASTS = ["broadcast", "broadcast", "spawn_broadcast"]
NUMBERS = ["n", "n+1", "10n", "10n+k", "k", "2n+3", "n-1", "3k+1"]
NUMBERS_OF_CALLS = ["", "n", "n-1", "k", "n+k", "1", "2", "3", "4", "5"]
MEETING_JOBS = """\
job meeter
  join side(n) side(n+1)
job closer
  join side(n) with meet m 2
job side
  meet m 2
  note n
  add 3
job server
  serve s n
  note n+500
  add 1"""


class Deed:
    """A line of a job, with what it calls, and how often on most workers."""

    def __init__(self, low, high, times, text, calls):
        self.low, self.high, self.times, self.text, self.calls = low, high, times, text, calls
        self.each = MOST_WORKERS if "broadcast" in text else 1

    def calls_of(self, own, turn):
        """The jobs that it calls, with their numbers, or None where one would be below 0."""
        if not self.low <= own < self.high:
            return []
        calls = [call_of(word, own, turn) for word in self.calls]
        return [] if None in calls else calls


class Jobs:
    """The jobs of a script: each calls those below it, or itself with less. Some belong to a scope in each run."""

    def __init__(self, draw, kind, told, faults):
        self.draw, self.one_worker, self.told, self.faults = draw, kind in ONE_WORKER, told, faults
        self.casts = kind == "cast"
        self.names = [f"j{at}" for at in range(draw.randint(2, 7))]
        self.has_scopes = draw.random() < 0.7
        self.inside = {name for name in self.names[1:] if self.has_scopes and draw.random() < 0.5}
        self.outside = set(self.names) - self.inside
        self.deeds, self.counts = {}, {}
        for at in reversed(range(len(self.names))):
            self.deeds[self.names[at]] = [*self.marks(at), *(self.deed(at) for _ in range(draw.randint(1, 4)))]
        # A job that others detach, so that faults are kept that end no other run.
        self.names.append("fails")
        self.deeds["fails"] = [Deed(0, NO_LIMIT, 1, "fault n", [])]
        self.bodies = ["b0", "b1"]
        for name in self.bodies:
            self.deeds[name] = [*self.before(kind), *(self.into() for _ in range(draw.randint(0, 4)))]

    def before(self, kind):
        """What the body of a scope in place does on its thread before it spawns, since its jobs run meanwhile."""
        draw = self.draw
        for _ in range(draw.randint(0, 3)):
            low, high, times, prefix = self.prefixes()
            plain = [f"add {self.value()}", "add n+1", "open g0", "open g2 n"]
            # On one worker a job that others have detached may run at the same time.
            plain += [] if self.one_worker else ["note n", "note 88"]
            plain += ["fault n+4"] * self.faults
            act = draw.choice(plain)
            if kind == "deep" and draw.random() < 0.25:
                act = draw.choice(["install fails", "spawn j0", "join j1 fails(n)", "scope j1", "serve s 0"])
            if act == "fault n+4" and draw.random() < 0.6 or kind == "deep" and draw.random() < 0.7:
                prefix += "try: "
            yield Deed(low, high, times, prefix + act, [])

    def into(self):
        """A deed of the body of a scope in place that spawns into it."""
        low, high, times, prefix = self.prefixes()
        among = self.names if self.one_worker or not self.faults else [*self.inside]
        among = [name for name in self.names if name in among and (self.faults or name != "fails")]
        if not among:
            return Deed(low, high, times, f"{prefix}add 10", [])
        name, form = self.draw.choice(among), self.draw.choice(NUMBERS_OF_CALLS)
        call = f"{name}({form})" if form else name
        return Deed(low, high, times, f"{prefix}{self.entry()} {call}", [call])

    def entry(self):
        """How a job comes into a scope."""
        return "into_broadcast" if self.casts and self.draw.random() < 0.4 else "into"

    def marks(self, at):
        """Deeds by which the order of the runs is seen, and what they were told."""
        if self.draw.random() < 0.7:
            yield Deed(0, NO_LIMIT, 1, f"note n+{100 * (at + 1)}", [])
        if self.told and self.draw.random() < 0.4:
            yield Deed(0, NO_LIMIT, 1, "note migrated", [])
        if self.faults and self.draw.random() < 0.3:
            yield Deed(0, NO_LIMIT, 1, f"{self.draw.choice(SPAWNS)} fails(n+{10 * (at + 1)})", ["fails(n)"])

    def lines(self):
        for name in [*self.bodies, *self.names]:
            yield f"job {name}"
            yield from (f"  {deed.text}" for deed in self.deeds[name])

    def prefixes(self):
        """For which numbers a deed is done, how often, and how that is written."""
        draw = self.draw
        low, high, times, prefix = 0, NO_LIMIT, draw.choice([1, 1, 1, 1, 2, 3]), ""
        chance = draw.random()
        if chance < 0.12:
            low = draw.randint(1, 3)
            prefix = f"from {low}: "
        elif chance < 0.24:
            high = draw.randint(1, 3)
            prefix = f"below {high}: "
        if times > 1:
            prefix += f"{times} times: "
        return low, high, times, prefix

    def deed(self, at):
        draw = self.draw
        low, high, times, prefix = self.prefixes()
        # On many workers it is not known which fault of a scope comes first, so only its body has one.
        if self.faults and (draw.random() < 0.3 or self.names[at] in self.inside and not self.one_worker):
            prefix += "try: "
        act, calls = self.act(at)
        return Deed(low, high, times, prefix + act, calls)

    def act(self, at):
        """What a deed does, and which jobs it calls."""
        draw, chance = self.draw, self.draw.random()
        if chance < 0.48:
            return self.plain(chance), []
        chance_of_scope = 0.7 if self.names[at] in self.inside else 0.35 * self.has_scopes
        if draw.random() < chance_of_scope and (found := self.scope(at)):
            return found
        one, other = self.call(at, self.outside), self.call(at, self.outside)
        if one is None:
            return self.plain(draw.uniform(0, 0.48)), []
        if chance < 0.56:
            return f"install {one}", [one]
        if chance < 0.72:
            return f"join {one} {other}", [one, other]
        if chance < 0.77:
            plain = ["note n", "add n+2", "open g1", "note 77"]
            plain += ["note migrated"] * self.told + ["fault 5"] * self.faults
            return f"join {one} with {draw.choice(plain)}", [one]
        if chance < 0.82:
            return f"join {one} with install {other}", [one, other]
        if self.casts and draw.random() < 0.4:
            return f"broadcast {one}", [one]
        if self.faults and draw.random() < 0.4:
            one = f"fails({draw.choice(NUMBERS)})"
        verbs = ["spawn_broadcast"] if self.casts and draw.random() < 0.4 else SPAWNS
        return f"{draw.choice(verbs)} {one}", [one]

    def scope(self, at):
        """What opens a scope, or spawns into that of the run, and which job it names; None where there is none."""
        draw, names = self.draw, self.names
        if names[at] not in self.inside or draw.random() < 0.3:
            body = self.call(at, names)
            return body and (f"{draw.choice(SCOPES)} {body}", [body])
        if self.faults and self.one_worker and draw.random() < 0.2:
            job = f"fails({draw.choice(NUMBERS)})"
        else:
            job = self.call(at, names if self.one_worker or not self.faults else self.inside)
        return job and (f"{self.entry()} {job}", [job])

    def plain(self, chance):
        draw = self.draw
        if chance < 0.22:
            return f"note {self.value()}"
        if chance < 0.36:
            return f"add {self.value()}"
        if chance < 0.42 or not self.faults:
            return f"open g{draw.randint(0, 2)} {draw.choice(['n', '1', '2', 'k+1'])}"
        return f"fault {draw.choice(['n', 'n+7', 'k+3', '9'])}"

    def value(self):
        chance = self.draw.random()
        if self.told and chance < 0.3:
            return "migrated"
        if self.one_worker and chance < 0.4:
            return self.draw.choice(["index", "bit"])
        return self.draw.choice([*NUMBERS, str(self.draw.randint(0, 30))])

    def call(self, at, among):
        """A job of these that stands below, with a number, or the job itself with less; None where there is none."""
        draw, own = self.draw, self.names[at]
        below = [name for name in self.names[at + 1 :] if name in among]
        if own in among and (not below or draw.random() < 0.25):
            return f"{own}(n-{draw.choice([1, 1, 1, 2])})"
        if not below:
            return None
        name, form = draw.choice(below), draw.choice(NUMBERS_OF_CALLS)
        return f"{name}({form})" if form else name

    def count(self, name, own):
        """How many runs this job leads to at most, its own among them."""
        if (name, own) not in self.counts:
            found = 1
            for deed in self.deeds[name]:
                for turn in range(deed.times):
                    found += deed.each * sum(self.count(*call) for call in deed.calls_of(own, turn))
            self.counts[name, own] = found
        return self.counts[name, own]

    def pick(self, most, names=None):
        """A job that leads to at most so many runs, and mostly to several; None where none was found."""
        least = self.draw.choice([1, 4, 12])
        names = names or [name for name in self.names[:3] if name in self.outside]
        for turn in range(40):
            name, own = self.draw.choice(names), self.draw.choice([0, 1, 2, 3, 3, 4, 5, 6, 8])
            if (least if turn < 20 else 1) <= self.count(name, own) <= most:
                return f"{name}({own})"
        return None


class NoScript(Exception):
    """The jobs that were drawn run too long."""


class Drawing:
    """One script that is drawn."""

    def __init__(self, kind, draw):
        self.kind, self.draw = kind, draw
        self.one_worker = kind in ONE_WORKER
        self.breadth_first = draw.random() < (0.35 if self.one_worker else 0.15)
        faults = draw.random() < 0.5
        # Where a first side faults, or a worker takes its oldest first, the original says of a second side that its
        # own worker runs that it migrated.
        told = kind == "deep" or self.one_worker and not faults and not self.breadth_first
        self.jobs = Jobs(draw, kind, told, faults or kind == "deep")
        self.pools = [f"p{at}" for at in range(1 if self.one_worker else draw.choice([1, 1, 2, 3]))]
        self.threads = [f"t{at}" for at in range(draw.randint(1, 3))]
        if self.one_worker or draw.random() < 0.6:
            self.threads = []

    def script(self):
        lines = [f"# A random script: {self.kind}."]
        if self.kind in WORKERS:
            lines.append(f"# workers: {WORKERS[self.kind]}")
        if self.kind == "deep":
            lines.append("own: the original has no levels")
        lines += [self.pool(name) for name in self.pools]
        lines += ["gates g0 g1 g2 m s", *self.jobs.lines(), "job flush"]
        if self.kind == "meet":
            lines.append(MEETING_JOBS)
        for name in self.threads:
            lines.append(f"thread {name}")
            lines += [f"  {self.step()}" for _ in range(self.draw.randint(1, 4))]
        return "\n".join([*lines, "main", *(f"  {step}" for step in self.main())]) + "\n"

    def pool(self, name):
        workers, depth = 1, ""
        if not self.one_worker:
            workers = self.draw.randint(2 if self.kind == "meet" else 1, 8)
        if self.kind == "deep":
            depth = f" depth {self.draw.choice([0, 1, 2, 2, 3, 3, 4, 5, 6, 8])}"
        return f"pool {name} {workers}{depth}{' breadth_first' * self.breadth_first}"

    def step(self):
        """A call of a pool from outside."""
        draw, most = self.draw, MOST_RUNS[self.kind]
        pool, one, other = draw.choice(self.pools), self.jobs.pick(most), self.jobs.pick(most)
        if one is None or other is None:
            raise NoScript
        if draw.random() < 0.25:
            return self.scope(pool)
        if self.kind == "cast" and draw.random() < 0.5:
            return self.cast(pool, most // MOST_WORKERS)
        chance = draw.random()
        if chance < 0.35:
            return f"install {pool} {one}"
        if chance < 0.58:
            return f"{'join' if chance < 0.5 else 'join_context'} {pool} {one} {other}"
        if chance < 0.63:
            return f"{draw.randint(2, 4)} times: install {pool} {one}"
        return f"{draw.choice(SPAWNS)} {pool} {one}"

    def cast(self, pool, most):
        """A broadcast from outside, of a job that leads to at most so many runs."""
        if (job := self.jobs.pick(most)) is None:
            raise NoScript
        return f"{self.draw.choice(['', '', '3 times: '])}{self.draw.choice(CASTS)} {pool} {job}"

    def scope(self, pool):
        """A scope that is opened from outside, in place or with a body on a worker."""
        verb, prefix = self.draw.choice(SCOPES), self.draw.choice(["", "", "", "2 times: "])
        in_place = verb.startswith("in_place")
        body = self.jobs.pick(MOST_RUNS[self.kind], self.jobs.bodies if in_place else self.jobs.names[:3])
        if body is None:
            raise NoScript
        return f"{prefix}{verb} {pool} {body}"

    def main(self):
        draw = self.draw
        yield from (f"start {name}" for name in self.threads)
        for _ in range(draw.randint(1, 6)):
            yield self.step()
            if self.one_worker and draw.random() < 0.4:
                yield from self.look()
            if self.kind == "meet" and draw.random() < 0.4:
                yield self.meeting()
        if self.kind == "meet" and draw.random() < 0.6:
            yield from self.serving()
        yield from (f"finish {name}" for name in draw.sample(self.threads, len(self.threads)))
        for pool in self.pools:
            yield f"end_and_join {pool}"
            yield f"{'take_fault' if self.one_worker else 'count_faults'} {pool}"
        if self.kind == "deep" and draw.random() < 0.3:
            yield from (self.step() for _ in range(draw.randint(1, 3)))
        yield "print ledger" if self.one_worker else "print sorted"
        yield from (f"print g{at}" for at in range(3))

    def look(self):
        """What the detached jobs have done: once an install has come after them, all have run."""
        yield f"install {self.pools[0]} flush"
        yield "print ledger"
        if self.draw.random() < 0.5:
            yield f"take_fault {self.pools[0]}"

    def meeting(self):
        draw, pool, chance = self.draw, self.draw.choice(self.pools), self.draw.random()
        if chance < 0.4:
            return f"{draw.randint(1, 5)} times: install {pool} meeter({draw.randint(0, 9)})"
        if chance < 0.7:
            return f"install {pool} closer({draw.randint(0, 9)})"
        return f"join {pool} side(1) side(2)"

    def serving(self):
        """Jobs that run others until a gate was opened, and what opens it."""
        pool, count = self.draw.choice(self.pools), self.draw.randint(1, 3)
        yield from (f"spawn {pool} server({at + 1})" for at in range(count))
        for _ in range(count):
            yield "pause" if self.draw.random() < 0.1 else f"install {pool} flush"
            yield "open s"


def script_of(kind, seed):
    """The script of this kind and seed: drawn anew until no step of it leads to too many runs."""
    draw = random.Random(f"{kind} {seed}")
    while True:
        try:
            return Drawing(kind, draw).script()
        except NoScript:
            continue


if __name__ == "__main__":
    if len(sys.argv) != 3 or sys.argv[1] not in KINDS:
        sys.exit(f"usage: tests/random_scripts.py {'|'.join(KINDS)} SEED")
    print(script_of(*sys.argv[1:]), end="")
