#!/usr/bin/env python3
"""What a script says on pools of one worker each, by a model without threads.

usage: tests/script_model.py <SCRIPT

It says the refusals too, of calls for which no level is left and after a pool's end, to which the
original has no answer. It takes scripts in which main alone calls, nothing is broadcast, no job
waits at a gate, and an install comes before main prints what detached jobs do (docs/SCRIPTS.md is
the language).
"""
import sys

NO_LIMIT = 10**9
MODULUS = 2**64
SCOPES = ("scope", "scope_fifo", "in_place_scope", "in_place_scope_fifo")
PLAIN = ("note", "add", "fault", "open")
TOO_DEEP, ENDED, NO_WORKER = "TooDeep", "Ended", "NoWorker"
sys.setrecursionlimit(100_000)


class Fault(Exception):
    """The fault of a run, as it is printed."""


def number(word, own, turn):
    """The number that a word is in this run and turn, or None where it would be below 0."""
    terms, _, minus = word.partition("-")
    value = -int(minus or 0)
    for term in terms.split("+"):
        factor = {"n": own, "k": turn}.get(term[-1:])
        value += int(term) if factor is None else int(term[:-1] or 1) * factor
    return value if value >= 0 else None


def call_of(word, own, turn):
    """The job that a word names, with its number, or None where that would be below 0."""
    job, _, form = word.partition("(")
    value = number(form[:-1], own, turn) if form else 0
    return None if value is None else (job, value)


def shown(refusal, *calls):
    """A refusal with the jobs that came back."""
    named = [job if value == 0 else f"{job}({value})" for job, value in calls]
    return " ".join([refusal, *named])


class Deed:
    """A line of a job: for which numbers it is done, how often, and whether the run goes on after its fault."""

    def __init__(self, line):
        *prefixes, act = line.split(":")
        self.low, self.high, self.times, self.tries = 0, MODULUS, 1, False
        self.words = act.split()
        for prefix in prefixes:
            words = prefix.split()
            if words[0] == "from":
                self.low = int(words[1])
            elif words[0] == "below":
                self.high = int(words[1])
            elif words[0] == "try":
                self.tries = True
            else:
                self.times = int(words[0])


class Scope:
    """An open scope: its jobs that were spawned in order, how many have not run, and what the others ended with."""

    def __init__(self, in_order, outside=False):
        self.in_order, self.outside, self.listed = in_order, outside, []
        self.open, self.count, self.sum, self.first = 0, 0, 0, None


class Task:
    """A job in a queue: whether a call waits for it, whether that came from outside, its scope, and its end."""

    def __init__(self, call, waited, outside, scope=None):
        self.call, self.waited, self.outside, self.scope = call, waited, outside, scope
        self.done, self.answer, self.fault = False, None, None


class Run:
    """A run of a job on a worker with so many levels left, which spawns into this scope."""

    def __init__(self, pool, call, levels, migrated, scope=None):
        self.pool, self.model, self.call, self.scope = pool, pool.model, call, scope
        self.levels, self.migrated = levels, migrated

    def answer(self):
        job, own = self.call
        total = 0
        for deed in self.model.jobs[job]:
            if deed.low <= own < deed.high:
                total += sum(self.attempt(deed, turn) for turn in range(deed.times))
        return total % MODULUS

    def attempt(self, deed, turn):
        try:
            return self.act(deed.words, turn)
        except Fault:
            if deed.tries:
                return 0
            raise

    def act(self, words, turn):
        """What is added by this deed."""
        if words[0] == "join":
            return self.join(words, turn)
        if words[0] not in ("install", "spawn", "spawn_fifo", "into", *SCOPES):
            return self.plain(words, turn, self.migrated)
        call = call_of(words[1], self.call[1], turn)
        if call and words[0] == "install":
            return self.install(call, self.levels)
        if call and words[0] in SCOPES:
            return self.open_scope(call, Scope(words[0].endswith("fifo")))
        if call and words[0] == "into":
            self.into(call)
        elif call:
            self.pool.spawn(Task(call, False, False), self.pool.listed if words[0] == "spawn_fifo" else None)
        return 0

    def open_scope(self, body, scope):
        """What is added by a scope: the body runs, and then tasks until no job of the scope is left."""
        if self.levels == 0:
            raise Fault(shown(TOO_DEEP, body))
        value = 0
        try:
            value = Run(self.pool, body, self.levels - 1, False, scope).answer()
        except Fault as raised:
            scope.first = scope.first or raised
        while scope.open:
            self.pool.execute(self.pool.take(), self.levels - 1)
        if scope.first:
            raise scope.first
        return value + scope.sum

    def into(self, call):
        """Spawns a job into the scope of the run, if it has one."""
        if self.scope:
            self.scope.open += 1
            listed = self.scope.listed if self.scope.in_order else None
            self.pool.spawn(Task(call, True, self.scope.outside, self.scope), listed)

    def install(self, call, levels):
        if levels == 0:
            raise Fault(shown(TOO_DEEP, call))
        return Run(self.pool, call, levels - 1, False).answer()

    def join(self, words, turn):
        """What is added by a join of two jobs, of an install and a job, or of a closure and a job."""
        own, levels = self.call[1], self.levels
        if "with" not in words:
            calls = [call_of(word, own, turn) for word in words[1:]]
            first = lambda: Run(self.pool, calls[0], levels - 1, False).answer()
            refused = calls
        elif words[3] == "install":
            calls = [call_of(word, own, turn) for word in (words[4], words[1])]
            first = lambda: self.install(calls[0], levels - 1)
            refused = calls[1:]
        else:
            calls = [call_of(words[1], own, turn)]
            first = lambda: self.plain(words[3:], turn, False)
            refused = calls
        if None in calls:
            return 0
        if levels == 0:
            raise Fault(shown(TOO_DEEP, *refused))
        return sum(self.pool.join(first, calls[-1], levels, False))

    def plain(self, words, turn, migrated):
        """What is added by a deed that calls no pool."""
        verb, word = words[0], words[1]
        if verb == "open":
            times = number(words[2], self.call[1], turn) if len(words) > 2 else 1
            self.model.gates[word] += times or 0
            return 0
        known = {"migrated": int(migrated), "index": 0, "bit": 1}
        value = known[word] if word in known else number(word, self.call[1], turn)
        if verb == "add":
            return value or 0
        if value is not None and verb == "fault":
            raise Fault(str(value))
        if value is not None:
            self.model.ledger.append(value)
        return 0


class Body(Run):
    """The body of a scope in place on a thread that is no worker: its jobs are injected, and it makes no other call."""

    def __init__(self, pool, call, scope):
        super().__init__(pool, call, 0, False, scope)
        self.injected = []

    def act(self, words, turn):
        if words[0] in PLAIN:
            return self.plain(words, turn, False)
        if words[0] != "into":
            raise Fault(NO_WORKER)
        if call := call_of(words[1], self.call[1], turn):
            self.scope.open += 1
            self.injected.append(Task(call, True, True, self.scope))
        return 0


class Pool:
    """A pool of one worker: its levels, its order, its queue, the jobs spawned in order, and its faults."""

    def __init__(self, model, words):
        self.model = model
        if words[2] != "1":
            raise SystemExit("script_model: a pool has one worker here")
        depth = int(words[words.index("depth") + 1]) if "depth" in words else NO_LIMIT
        self.levels = max(1, depth) - 1
        self.next = 0 if "breadth_first" in words else -1
        self.tasks, self.listed = [], []
        self.first, self.faults, self.has_ended = None, 0, False

    def spawn(self, task, listed):
        """Queues a task, or puts it last into a list, which then stands in the queue for its first one."""
        if listed is not None:
            listed.append(task)
        self.tasks.append(task if listed is None else listed)

    def take(self):
        """The task that is next, or the job that it stands for."""
        task = self.tasks.pop(self.next)
        return task.pop(0) if isinstance(task, list) else task

    def execute(self, task, levels):
        """Runs a task to its end."""
        try:
            task.answer = Run(self, task.call, levels, task.outside, task.scope).answer()
        except Fault as fault:
            task.fault = fault
            if not task.waited:
                self.faults += 1
                self.first = self.first or fault
        task.done = True
        if task.scope:
            task.scope.open -= 1
            task.scope.count += 1
            task.scope.sum += task.answer or 0
            task.scope.first = task.scope.first or task.fault

    def join(self, first, second, levels, outside):
        """Both answers: the first side runs, and then tasks until the second side is done."""
        task, answer, fault = Task(second, True, outside), 0, None
        self.tasks.append(task)
        try:
            answer = first()
        except Fault as raised:
            fault = raised
        while not task.done:
            self.execute(self.take(), levels - 1)
        if fault or task.fault:
            raise fault or task.fault
        return answer, task.answer

    def scoped(self, verb, body):
        """What a scope from outside answers: its body runs on the worker, or in place, and then its jobs do."""
        scope, value, injected = Scope(verb.endswith("fifo"), True), 0, []
        run = Run(self, body, self.levels, True, scope)
        if verb.startswith("in_place"):
            run = Body(self, body, scope)
            injected = run.injected
        try:
            value = run.answer()
        except Fault as raised:
            scope.first = raised
        self.drain()
        for task in injected:
            self.execute(task, self.levels)
            self.drain()
        if scope.first:
            raise scope.first
        return f"{value}, and {scope.sum % MODULUS} of {scope.count}"

    def drain(self):
        while self.tasks:
            self.execute(self.take(), self.levels)

    def asked(self, verb, calls):
        """What a call from outside answers, or None where nothing is to be said."""
        if len(calls) == 2 and self.levels == 0:
            return shown(TOO_DEEP, *calls)
        if self.has_ended:
            return shown(ENDED, *calls)
        try:
            if verb in ("spawn", "spawn_fifo"):
                return self.execute(Task(calls[0], False, True), self.levels)
            if verb in SCOPES:
                return self.scoped(verb, calls[0])
            if verb == "install":
                return str(Run(self, calls[0], self.levels, True).answer())
            first = Run(self, calls[0], self.levels - 1, True)
            return "{} and {}".format(*self.join(first.answer, calls[1], self.levels, True))
        except Fault as fault:
            return f"fault {fault}"
        finally:
            self.drain()

    def take_fault(self):
        first = "none" if self.first is None else f"fault {self.first}"
        said = f"{first}, {self.faults} in all"
        self.first, self.faults = None, 0
        return said


class Model:
    """A script, and what came of it so far."""

    def __init__(self, text):
        self.pools, self.gates, self.jobs, self.main, self.ledger = {}, {}, {}, [], []
        below = []
        for line in text.splitlines():
            line = line.partition("#")[0].rstrip()
            if line.startswith(" "):
                below.append(line)
            elif line:
                below = self.declare(line.split())
        self.jobs = {name: [Deed(line) for line in lines] for name, lines in self.jobs.items()}

    def declare(self, words):
        """Takes up a heading, and answers where its lines go."""
        if words[0] == "pool":
            self.pools[words[1]] = Pool(self, words)
        elif words[0] == "gates":
            self.gates.update((name, 0) for name in words[1:])
        elif words[0] == "job":
            return self.jobs.setdefault(words[1], [])
        elif words[0] == "main":
            return self.main
        return []

    def play(self):
        """What the script says."""
        said = []
        for line in self.main:
            prefix, _, text = line.rpartition(":")
            for turn in range(int(prefix.split()[0]) if prefix else 1):
                answer = self.step(text.split(), turn)
                if answer is not None:
                    said.append(f"{text.strip()} -> {answer}")
        return counted(said)

    def step(self, words, turn):
        """What a step answers, or None where nothing is to be said."""
        verb, name = words[0], words[1]
        if verb == "print":
            return self.printed(name)
        if verb == "open":
            self.gates[name] += 1
            return None
        pool = self.pools[name]
        if verb == "take_fault":
            return pool.take_fault()
        if verb in ("end", "end_and_join"):
            pool.has_ended = True
            return None
        calls = [call_of(word, 0, turn) for word in words[2:]]
        return None if None in calls else pool.asked(verb, calls)

    def printed(self, name):
        if name in self.gates:
            return str(self.gates[name])
        noted, self.ledger = self.ledger, []
        noted = sorted(noted) if name == "sorted" else noted
        return " ".join(map(str, noted)) or "nothing"


def counted(lines):
    """The lines as they are printed: one that comes again at once is counted."""
    kept = []
    for line in lines:
        if kept and kept[-1][0] == line:
            kept[-1][1] += 1
        else:
            kept.append([line, 1])
    return "".join(f"{line}\n" if times == 1 else f"{line} x{times}\n" for line, times in kept)


if __name__ == "__main__":
    print(Model(sys.stdin.read()).play(), end="")
