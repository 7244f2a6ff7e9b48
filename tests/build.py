"""Proves and builds crates of crates.txt with all that they stand on, several side by side.

usage: python3 tests/build.py CRATE..

A library is made by `rt lib`, a program by `rt run` with the words of its file args. While rt works
on a crate it keeps every other rt from those below, so that in one tree no two crates are built at
once that share a library. Here each has a room of its own: the sources as they were at the start,
and the libraries below. What is made there goes to out/ of the crate in the tree.

As many are built at once as there are processors, and memory for 2.5 GB each; RT_JOBS=N sets
another number. The one with the most lines in a chain above it is first. What a crate's file
out/rlib/sources, or out/NAME.sources of a program, says to be made of these very sources by this
toolchain is left as it is. So are the libraries that tests/gate takes over from `rt ci`.
"""
import contextlib
import fcntl
import hashlib
import importlib.util
import os
import re
import resource
import shutil
import signal
import subprocess
import sys
import tempfile
import time

from crates import TOP, crates_of_list, lines_of_list

PARTS = ("src", "specs", "proofs")
MEMORY, MOST_JOBS = 2_500_000_000, 4


class NotBuilt(Exception):
    """Why the crates are not built."""


def text_of(path):
    with open(path, encoding="utf-8") as file:
        return file.read()


def linked(file, to):
    """One more name for a file that nothing writes to, or a copy of it where that cannot be."""
    try:
        os.link(file, to)
    except OSError:
        shutil.copy2(file, to)


def removed(path):
    """Removes a file or a folder, if it is there."""
    if os.path.isdir(path):
        shutil.rmtree(path)
    elif os.path.lexists(path):
        os.remove(path)


@contextlib.contextmanager
def held(folder, how):
    """Waits until no other process holds the folder, as rt holds a crate's, and holds it."""
    handle = os.open(folder, os.O_RDONLY)
    try:
        try:
            fcntl.flock(handle, how | fcntl.LOCK_NB)
        except BlockingIOError:
            print(f"waiting for another process in {folder}", file=sys.stderr, flush=True)
            fcntl.flock(handle, how)
        except OSError:
            pass  # (some file systems have no locks)
        yield
    finally:
        os.close(handle)


def texts_of(folder):
    """The files of a crate's src/, specs/ and proofs/, each with what it holds, in order."""
    found = {}
    for part in sorted(PARTS):
        for at, folders, names in os.walk(f"{folder}/{part}"):
            folders.sort()
            for it in sorted(names):
                with open(f"{at}/{it}", "rb") as file:
                    found[os.path.relpath(f"{at}/{it}", folder)] = file.read()
    return found


def sum_of(toolchain, line, below, texts):
    """The checksum of all that a crate is made of: its line, the sums of those below, its texts."""
    return hashlib.sha256(repr((toolchain, line, below, [*texts.items()])).encode()).hexdigest()


def version():
    """What the toolchain says of itself."""
    return subprocess.run(["rt", "version"], stdout=subprocess.PIPE).stdout


class Crate:
    """A crate of the tree, its sources as they were at the start, and its room."""

    def __init__(self, top, name, below, lines, work, toolchain):
        self.name, self.below, self.lines = name, below, lines
        self.kept, self.work = f"{top}/crates/{name}/out", work
        self.sources, self.room = f"{work}/sources/{name}", f"{work}/rooms/{name}/crates/{name}"
        for part in PARTS:
            if os.path.isdir(f"{top}/crates/{name}/{part}"):
                shutil.copytree(f"{top}/crates/{name}/{part}", f"{self.sources}/{part}")
        self.words = []
        if os.path.isfile(f"{top}/crates/{name}/args"):
            self.words = text_of(f"{top}/crates/{name}/args").splitlines()
        self.is_program = os.path.isfile(f"{self.sources}/src/main.rt")
        self.product = name if self.is_program else "rlib"
        self.record = f"{name}.sources" if self.is_program else "rlib/sources"
        self.is_built, self.process = False, None
        texts = texts_of(self.sources)
        self.size = sum(it.count(b"\n") for it in texts.values())
        self.sum = sum_of(toolchain, lines[name], [it.sum for it in below], texts)

    def take(self, started):
        """Takes over what the tree has, if it was made of these sources, for those above."""
        with held(os.path.dirname(self.kept), fcntl.LOCK_SH):
            has = all(os.path.exists(f"{self.kept}/{it}") for it in (self.product, self.record))
            if not has or text_of(f"{self.kept}/{self.record}") != self.sum:
                return
            if self.is_program:
                os.utime(f"{self.kept}/{self.name}", ns=(started, started))
            else:
                shutil.copytree(f"{self.kept}/rlib", f"{self.room}/out/rlib", copy_function=linked)
            self.is_built = True

    def begin(self, jobs):
        """Fills the room and begins to build there."""
        self.jobs, self.began = jobs, time.monotonic()
        top = os.path.dirname(os.path.dirname(self.room))
        for it in [*self.below, self]:
            there = f"{top}/crates/{it.name}"
            shutil.copytree(it.sources, there, copy_function=linked)
            if it is not self:
                shutil.copytree(f"{it.room}/out/rlib", f"{there}/out/rlib", copy_function=linked)
        with open(f"{top}/crates.txt", "w", encoding="utf-8") as file:
            file.writelines(f"{self.lines[it.name]}\n" for it in [*self.below, self])
        # (rt goes on from what an earlier build kept, and takes what it finds to be built)
        with held(os.path.dirname(self.kept), fcntl.LOCK_SH):
            if os.path.isdir(f"{self.kept}/incremental"):
                shutil.copytree(f"{self.kept}/incremental", f"{self.room}/out/incremental")
            if os.path.isfile(f"{self.kept}/rlib/stamp"):
                shutil.copytree(f"{self.kept}/rlib", f"{self.room}/out/rlib", copy_function=linked)
        verb = ["run"] if self.is_program else ["lib"]
        words = ["rt", *verb, "--jobs", str(jobs), *["--", *self.words] * self.is_program]
        print(f"{self.name}: proving it", file=sys.stderr, flush=True)
        with open(f"{self.work}/{self.name}.said", "wb") as said:
            how = {"stdin": subprocess.DEVNULL, "stdout": said, "stderr": subprocess.STDOUT}
            # (what is ended with this process leaves nothing elsewhere)
            how["env"] = {**os.environ, "TMPDIR": self.work}
            self.process = subprocess.Popen(words, cwd=self.room, **how)

    def end(self, started):
        """Puts what was built into the tree, or returns what rt said last."""
        seconds = time.monotonic() - self.began
        how = "NOT PROVED, ended" if self.process.returncode else "proved"
        print(f"{self.name}: {how} in {seconds:.0f} s", file=sys.stderr, flush=True)
        if self.process.returncode:
            self.give(["incremental"])
            with open(f"{self.work}/{self.name}.said", errors="replace") as file:
                return file.read()[-3000:]
        removed(f"{self.room}/out/{self.record}")
        with open(f"{self.room}/out/{self.record}", "w", encoding="utf-8") as file:
            file.write(self.sum)
        parts = ["incremental", self.product]
        if self.is_program:
            os.utime(f"{self.room}/out/{self.name}", ns=(started, started))
            parts += [f"{self.name}.stamp", self.record]
        self.give(parts)
        self.is_built = True
        return None

    def give(self, parts):
        """Puts these parts of the room's out/, those that are there, in place of the tree's."""
        with held(os.path.dirname(self.kept), fcntl.LOCK_EX):
            os.makedirs(self.kept, exist_ok=True)
            for it in parts:
                made, kept = f"{self.room}/out/{it}", f"{self.kept}/{it}"
                if os.path.exists(made):
                    removed(f"{kept}.new")
                    if it == "rlib":  # (which those above are built over)
                        shutil.copytree(made, f"{kept}.new", copy_function=linked)
                    else:
                        shutil.move(made, f"{kept}.new")
                    removed(kept)
                    os.rename(f"{kept}.new", kept)

    def stop(self):
        """Ends the building, if it began, and keeps what is proved so far."""
        if self.process:
            self.process.terminate()
            self.process.wait()
            self.give(["incremental"])


def end_at_signals():
    """Has the signals that end a process do so here once, with all that it began."""
    ends = (signal.SIGINT, signal.SIGTERM, signal.SIGHUP)

    def end(number, _):
        for it in ends:
            signal.signal(it, signal.SIG_IGN)
        sys.exit(128 + number)

    for it in ends:
        signal.signal(it, end)


def is_built(top, program):
    """Whether a proved program is there, and newer than all its sources."""
    path = f"{top}/crates/{program}/out/{program}"
    if not os.access(path, os.X_OK):
        return False
    built = os.stat(path).st_mtime_ns
    for name in [*crates_of_list(top)[program], program]:
        for part in PARTS:
            for at, _, files in os.walk(f"{top}/crates/{name}/{part}"):
                paths = [at, *(f"{at}/{it}" for it in files)]
                if any(os.lstat(it).st_mtime_ns > built for it in paths):
                    return False
    return True


def at_once():
    """How many processors and how much memory there is, in crates that are built at once."""
    fixed = os.environ.get("RT_JOBS", "")
    if fixed.isdigit() and int(fixed):
        return int(fixed)
    free = re.search(r"MemAvailable:\s+(\d+)", text_of("/proc/meminfo"))
    return max(1, min(len(os.sched_getaffinity(0)), 1024 * int(free[1]) // MEMORY))


def build_all(crates, started):
    """Builds the crates, each once all below it are, and raises what the first failure said."""
    weight = {}
    for it in reversed(crates):
        above = [other for other in crates if it in other.below]
        weight[it] = it.size + max((weight[other] for other in above), default=0)
    left = sorted((it for it in crates if not it.is_built), key=lambda it: -weight[it])
    running, failure, processors = [], None, at_once()
    try:
        while running or (left and not failure):
            ready = [it for it in left if all(dep.is_built for dep in it.below)]
            for at, crate in enumerate([] if failure else ready):
                idle = processors - sum(it.jobs for it in running)
                if idle > 0:
                    left.remove(crate)
                    running.append(crate)
                    # (those processors that no other crate waits for are shared)
                    crate.begin(max(1, min(MOST_JOBS, idle // (len(ready) - at))))
            time.sleep(0.1)
            for it in [it for it in running if it.process.poll() is not None]:
                running.remove(it)
                said = it.end(started)
                if said is not None:
                    failure = failure or f"{said}\nthe crate {it.name} is not proved"
    finally:
        for it in running:
            it.stop()
    if failure:
        raise NotBuilt(failure)


def build(top, names):
    """Proves and builds of these crates and those below what is missing, and returns how many."""
    below, lines = crates_of_list(top), lines_of_list(top)
    for it in names:
        if it not in below:
            raise NotBuilt(f"{it} is no crate of crates.txt")
    if not shutil.which("rt"):
        raise NotBuilt("the toolchain's command rt is not found")
    toolchain = version()
    with held(f"{top}/crates", fcntl.LOCK_EX):
        work = tempfile.mkdtemp(prefix="crates-")
        try:
            started, crates = os.stat(work).st_mtime_ns, {}
            for name in dict.fromkeys(dep for it in names for dep in [*below[it], it]):
                own = [crates[it] for it in below[name]]
                crates[name] = Crate(top, name, own, lines, work, toolchain)
                if all(it.is_built for it in own):
                    crates[name].take(started)
            missing = sum(not it.is_built for it in crates.values())
            build_all([*crates.values()], started)
        finally:
            # (what rt started may still be ending)
            for _ in range(100):
                shutil.rmtree(work, ignore_errors=True)
                if not os.path.isdir(work):
                    break
                time.sleep(0.1)
    return missing


def stamps_of(top):
    """The stamps by which rt knows the libraries of the tree that are built. It writes none of what
    `rt ci` builds. There are none where the kit's module for them is not as this one reads it."""
    try:
        path = f"{os.path.dirname(os.path.realpath(shutil.which('rt')))}/rtlib.py"
        found = importlib.util.spec_from_file_location("rtlib", path)
        kit = importlib.util.module_from_spec(found)
        found.loader.exec_module(kit)
        return {it.name: it.stamp() for it in kit.crates_below(top) if os.path.isdir(it.rlib)}
    except (Exception, SystemExit) as why:
        print(f"what the gate built is proved once more: {why!r}", file=sys.stderr)
        return {}


def take_libraries(top, room, names):
    """Takes over those libraries of these names that `rt ci` proved in a copy of the tree, each marked
    with the sources in that copy: where the tree's are others, neither rt nor build() takes it for built."""
    below, lines, toolchain, sums = crates_of_list(room), lines_of_list(room), version(), {}
    stamps = stamps_of(room)
    for name, stamp in [(it, stamps[it]) for it in stamps if it in names]:
        for it in [*below[name], name]:
            if it not in sums:
                own = [sums[dep] for dep in below[it]]
                sums[it] = sum_of(toolchain, lines[it], own, texts_of(f"{room}/crates/{it}"))
        kept = f"{top}/crates/{name}/out"
        with held(os.path.dirname(kept), fcntl.LOCK_EX):
            removed(f"{kept}/rlib.new")
            made = f"{room}/crates/{name}/out/rlib/{name}.rlib"
            shutil.copytree(made, f"{kept}/rlib.new/{name}.rlib")
            for mark, text in (("stamp", stamp), ("sources", sums[name])):
                with open(f"{kept}/rlib.new/{mark}", "w", encoding="utf-8") as file:
                    file.write(text)
            removed(f"{kept}/rlib")
            os.rename(f"{kept}/rlib.new", f"{kept}/rlib")


def build_libraries(top, names):
    """Proves and builds these libraries and those below, as far as they are missing."""
    build(top, names)


def main(words):
    began = time.monotonic()
    if not words:
        print("usage: python3 tests/build.py CRATE..", file=sys.stderr)
        return 2
    end_at_signals()
    try:
        missing = build(TOP, words)
    except NotBuilt as why:
        print(why, file=sys.stderr)
        return 1
    if not missing:
        print("nothing is missing", file=sys.stderr)
        return 0
    used = resource.getrusage(resource.RUSAGE_CHILDREN)
    wall, processor = time.monotonic() - began, used.ru_utime + used.ru_stime
    said = f"{missing} built in {wall:.0f} seconds, {processor:.0f} of a processor"
    print(said, file=sys.stderr)
    return 0


if __name__ == "__main__":
    sys.exit(main(sys.argv[1:]))
