#!/usr/bin/env python3
"""Makes the proved program: proves the crates that it stands on, several at once, and builds it. `bin/pylint` calls it.

Each crate is proved by `rt lib` (the program by `rt run`) in a folder of its own, PLACE/NAME, which holds copies of its sources
and of those below it, as they were at the start, and the libraries below it: in one folder `rt` works on one crate at a time. The
crate that most still waits for comes first. What is proved is kept, by the sum of all that it was proved from, so a later
call proves what has changed and what stands on it. One call at a time makes the program, others wait for it; what a
call that was cut off left is taken up. All is told on standard error. Status: 0 made, 71 not, 128 + N cut off by the signal N.

  make_program.py                 makes crates/pylint/out/pylint, where it is missing or older than its sources
  make_program.py --plan N        what it would take on N processors, one a crate, by tools/crate_seconds.txt; proves nothing
  make_program.py --place         where it makes the program; the folder may be removed while nothing is made
  make_program.py --root FOLDER --program NAME   another repository's program (for tests)

PLACE is a folder for this checkout below ~/.cache/pylint-proved, as `--place` tells: within the checkout `rt` would refuse the copies.
PYLINT_MAKE_JOBS gives the number of processors to use, in place of all, PYLINT_MAKE_PLACE another PLACE."""
import argparse
import fcntl
import hashlib
import json
import os
import shutil
import signal
import subprocess
import sys
import time
from pathlib import Path

# What a check of one crate takes at most with one job, and so what must be free to start a further one.
MEMORY_OF_A_CHECK = 2_400_000_000
# What a crate that tools/crate_seconds.txt does not list takes, in seconds.
SECONDS_A_CRATE, SECONDS_A_KILOBYTE = 50, 0.7
SOURCES = ("src", "specs", "proofs", "data", "args", "stdin", "stdout", "status")
CANT_BE_MADE = 71


class Stopped(Exception):
    """The making ends: a crate is not proved, or a signal came."""

    def __init__(self, status, text=None):
        super().__init__(text)
        self.status, self.text = status, text


class Crates:
    """The crates that a program stands on, lowest first, with the sum and the size of each one's sources."""

    def __init__(self, root, program):
        self.root, self.program, self.listed, self.lines = root, program, {}, {}
        for line in (root / "crates.txt").read_text().splitlines():
            head, colon, below = line.split("#")[0].partition(":")
            if colon and head.split():
                self.listed[head.split()[0]] = below.split()
                self.lines[head.split()[0]] = line
        self.order = []
        self.visit(program)
        self.above = {name: [n for n in self.order if name in self.listed[n]] for name in self.order}
        self.below = {}
        for name in self.order:
            direct = [n for n in self.listed[name] if n in self.listed]
            self.below[name] = [n for n in self.order if n in direct or any(n in self.below[d] for d in direct)]

    def visit(self, name):
        if name not in self.order:
            for below in self.listed[name]:
                if below in self.listed:
                    self.visit(below)
            self.order.append(name)

    def measure(self, kit):
        """Reads the sources: each crate's size, the sum of its own files, and its key, the sum of all that it is proved from."""
        self.size, self.sums, self.keys = {}, {}, {}
        for name in self.order:
            own, self.size[name] = hashlib.sha256(), 0
            for path in source_files(self.root / "crates" / name):
                content = path.read_bytes()
                label = str(path.relative_to(self.root / "crates" / name))
                own.update(f"{label}\0{len(content)}\0".encode() + content)
                self.size[name] += len(content) if label.split("/")[0] in ("src", "specs", "proofs") else 0
            self.sums[name] = own.hexdigest()
            parts = [kit, self.lines[name], self.sums[name], *(self.keys[n] for n in self.below[name])]
            self.keys[name] = hashlib.sha256("\n".join(parts).encode()).hexdigest()


def source_files(folder):
    files = []
    for top in SOURCES:
        path = folder / top
        files += [path] if path.is_file() else sorted(p for p in path.rglob("*") if p.is_file())
    return files


def schedule(crates, seconds, processors, done=(), begun=None):
    """The seconds until all is proved, a processor a crate, the longest chain of those that wait first; and that chain's seconds."""
    rest = {}
    for name in reversed(crates.order):
        rest[name] = seconds[name] + max((rest[n] for n in crates.above[name]), default=0)
    now, left, running = 0.0, [n for n in crates.order if n not in done], dict(begun or {})
    ended = set(done)
    left = [n for n in left if n not in running]
    while left or running:
        ready = sorted((n for n in left if ended.issuperset(crates.below[n])), key=lambda n: -rest[n])
        for name in ready[: max(0, processors - len(running))]:
            running[name] = now + seconds[name]
            left.remove(name)
        name = min(running, key=running.get)
        now = max(now, running.pop(name))
        ended.add(name)
    return now, rest


def listed_seconds(crates):
    table = Path(__file__).resolve().parent / "crate_seconds.txt"
    rows = [line.split("#")[0].split() for line in (table.read_text().splitlines() if table.is_file() else [])]
    listed = {row[0]: float(row[1]) for row in rows if row}
    return {n: listed.get(n, SECONDS_A_CRATE + SECONDS_A_KILOBYTE * crates.size[n] / 1000) for n in crates.order}


def words(seconds):
    minutes = round(seconds / 60)
    return f"{round(seconds)} s" if seconds < 90 else f"{minutes} min" if minutes < 120 else f"{minutes / 60:.1f} h"


class Progress:
    """One line that is rewritten on a terminal, a line for each crate elsewhere, and never a minute of silence."""

    def __init__(self, note):
        self.note, self.terminal, self.last, self.started = note, sys.stderr.isatty(), 0.0, time.time()

    def show(self, text, news=True):
        now = time.time()
        if self.note:
            self.note.write_text(text)
        if not news and now - self.last < (1 if self.terminal else 45):
            return
        self.last = now
        if self.terminal:
            columns = shutil.get_terminal_size().columns
            print("\r\033[K" + f"bin/pylint: {text}"[: columns - 1], end="", file=sys.stderr, flush=True)
        else:
            print(f"bin/pylint: {text}", file=sys.stderr, flush=True)

    def end(self, text=None):
        if self.terminal:
            print("\r\033[K", end="", file=sys.stderr, flush=True)
        if text:
            print(f"bin/pylint: {text}", file=sys.stderr, flush=True)


def place_of(root):
    """Where a checkout's program is made."""
    if os.environ.get("PYLINT_MAKE_PLACE"):
        return Path(os.environ["PYLINT_MAKE_PLACE"])
    cache = os.environ.get("XDG_CACHE_HOME") or Path.home() / ".cache"
    return Path(cache) / "pylint-proved" / f"{root.name}-{hashlib.sha256(str(root).encode()).hexdigest()[:12]}"


def memory_free():
    for line in open("/proc/meminfo"):
        if line.startswith("MemAvailable:"):
            return int(line.split()[1]) * 1024
    return MEMORY_OF_A_CHECK


def link_tree(source, target):
    """The same files under a further name: no bytes are copied, and a file that is replaced in one place stays in the other."""
    shutil.copytree(source, target, copy_function=os.link)


class Making:
    def __init__(self, root, crates, place, lock, progress):
        self.root, self.crates, self.place, self.lock, self.progress = root, crates, place, lock, progress
        self.processors = int(os.environ.get("PYLINT_MAKE_JOBS") or 0) or len(os.sched_getaffinity(0))
        self.running, self.ended = {}, []
        self.done = {n for n in crates.order if self.is_proved(n)}
        self.kept = len(self.done)

    def is_proved(self, name):
        mark = self.place / name / "proved"
        return mark.is_file() and mark.read_text() == self.crates.keys[name]

    def snapshot(self):
        """Copies of the sources as they are now: what is edited from here on is for the next call."""
        for name in self.crates.order:
            target = self.place / "sources" / name
            shutil.rmtree(target, ignore_errors=True)
            for path in source_files(self.root / "crates" / name):
                copy = target / path.relative_to(self.root / "crates" / name)
                copy.parent.mkdir(parents=True, exist_ok=True)
                shutil.copy2(path, copy)

    def lay_out(self, name):
        """The folder in which a crate is proved: what `rt` kept of this crate there stays."""
        top = self.place / name
        (top / "proved").unlink(missing_ok=True)
        kept = top / "kept"
        own = top / "crates" / name / "out"
        if own.is_dir():
            shutil.rmtree(kept, ignore_errors=True)
            own.rename(kept)
        shutil.rmtree(top / "crates", ignore_errors=True)
        for each in [*self.crates.below[name], name]:
            link_tree(self.place / "sources" / each, top / "crates" / each)
            if each != name:
                link_tree(self.place / each / "crates" / each / "out" / "rlib", top / "crates" / each / "out" / "rlib")
        if kept.is_dir():
            kept.rename(own)
        (top / "crates.txt").write_text("".join(self.crates.lines[n] + "\n" for n in [*self.crates.below[name], name]))
        if (self.root / "HANDLES").is_file():
            shutil.copy2(self.root / "HANDLES", top)
        return top / "crates" / name

    def log(self, name):
        return self.place / "logs" / f"{name}.log"

    def start(self, name, jobs):
        folder = self.lay_out(name)
        command = ["rt", "run" if name == self.crates.program else "lib", "--jobs", str(jobs)]
        with open(self.log(name), "wb") as log:
            # The lock goes to the child: while it lives, no other call begins, even where this one was killed.
            child = subprocess.Popen(command, cwd=folder, stdin=subprocess.DEVNULL, stdout=log, stderr=subprocess.STDOUT,
                                     start_new_session=True, pass_fds=[self.lock])
        self.running[name] = (child, time.time(), jobs)

    def seconds(self):
        """About what each crate takes: by the table, times what those that ended in this run took beside it."""
        listed = listed_seconds(self.crates)
        measured, expected = sum(s for _, s in self.ended), sum(listed[n] for n, _ in self.ended)
        # The first few say little: the table weighs as some more that took what it says.
        factor = (measured + 300) / (expected + 300)
        return {n: factor * listed[n] for n in listed}

    def start_what_can(self):
        seconds = self.seconds()
        rest = schedule(self.crates, seconds, self.processors)[1]
        ready = [n for n in self.crates.order
                 if n not in self.done and n not in self.running and self.done.issuperset(self.crates.below[n])]
        ready.sort(key=lambda n: -rest[n])
        while ready:
            free = self.processors - sum(jobs for _, _, jobs in self.running.values())
            if free < 1 or (self.running and memory_free() < MEMORY_OF_A_CHECK):
                return
            self.start(ready[0], max(1, min(4, free // len(ready))))
            ready.pop(0)

    def end_what_ended(self):
        ended = [n for n in self.running if self.running[n][0].poll() is not None]
        for name in ended:
            child, began, _ = self.running.pop(name)
            if not self.is_good(name, child.returncode):
                raise Stopped(CANT_BE_MADE, f"{name} is not proved, and so the program is not made: see {self.log(name)}")
            (self.place / name / "proved").write_text(self.crates.keys[name])
            self.done.add(name)
            self.ended.append((name, time.time() - began))
        return ended

    def is_good(self, name, status):
        if name != self.crates.program:
            return status == 0
        # The program's own status is that of `rt run`, so its log decides.
        return b"logic=proved" in self.log(name).read_bytes() and self.built().is_file()

    def built(self):
        return self.place / self.crates.program / "crates" / self.crates.program / "out" / self.crates.program

    def tell(self, ended):
        now, seconds = time.time(), self.seconds()
        begun = {n: max(5.0, seconds[n] - (now - began)) for n, (_, began, _) in self.running.items()}
        left = schedule(self.crates, seconds, self.processors, self.done, begun)[0]
        at_work = ", ".join(self.running) or "nothing"
        self.progress.show(f"making the program: {len(self.done)} of {len(self.crates.order)} crates proved, "
                           f"at work: {at_work}; {words(now - self.progress.started)} so far, about {words(left)} more",
                           news=bool(ended))

    def run(self):
        (self.place / "logs").mkdir(parents=True, exist_ok=True)
        self.snapshot()
        # A program whose mark stands and whose file is gone is linked again.
        if not self.built().is_file():
            self.done.discard(self.crates.program)
        ended = ["the start"]
        try:
            while len(self.done) < len(self.crates.order):
                self.start_what_can()
                self.tell(ended)
                time.sleep(0.2)
                ended = self.end_what_ended()
        finally:
            self.stop_children()

    def stop_children(self):
        for signum, wait in ((signal.SIGTERM, 5), (signal.SIGKILL, 5)):
            for child, _, _ in self.running.values():
                try:
                    os.killpg(child.pid, signum)
                except ProcessLookupError:
                    pass
            until = time.time() + wait
            while time.time() < until and any(child.poll() is None for child, _, _ in self.running.values()):
                time.sleep(0.05)

    def hand_over(self, kit, began):
        """The program to its place, whole or not at all, as old as the sources that were read; and the record of what it was proved from."""
        name = self.crates.program
        out = self.root / "crates" / name / "out"
        out.mkdir(parents=True, exist_ok=True)
        shutil.copy2(self.built(), out / f".{name}.new")
        os.utime(out / f".{name}.new", (began, began))
        os.replace(out / f".{name}.new", out / name)
        record = {"kit": kit, "program": hashlib.sha256((out / name).read_bytes()).hexdigest(),
                  "sources": {n: self.crates.sums[n] for n in self.crates.order}}
        (self.place / "record.json.new").write_text(json.dumps(record, indent=1) + "\n")
        os.replace(self.place / "record.json.new", self.place / "record.json")


def take_lock(place, progress):
    """Waits while another call makes the program, and tells how far that is."""
    lock = os.open(place / "lock", os.O_RDWR | os.O_CREAT, 0o644)
    while True:
        try:
            fcntl.flock(lock, fcntl.LOCK_EX | fcntl.LOCK_NB)
            return lock
        except BlockingIOError:
            note = place / "progress"
            far = note.read_text() if note.is_file() else "it has just begun"
            progress.show(f"waiting for another call: {far}", news=progress.last == 0.0)
            time.sleep(0.3)


def make(root, program):
    if shutil.which("rt") is None:
        raise Stopped(CANT_BE_MADE, "the program is missing or older than its sources, and making it wants the Rattle kit's command rt on the PATH; "
                                    "a package of the made program wants no kit: see README.md")
    place = place_of(root)
    place.mkdir(parents=True, exist_ok=True)
    waiting = Progress(None)
    lock = take_lock(place, waiting)
    if waiting.last:
        waiting.end()
    kit = subprocess.run(["rt", "version"], check=True, capture_output=True, text=True).stdout.strip()
    began = time.time()
    crates = Crates(root, program)
    crates.measure(kit)
    progress = Progress(place / "progress")
    making = Making(root, crates, place, lock, progress)
    was_made = making.built().is_file() and len(making.done) == len(crates.order)
    try:
        if not was_made:
            making.run()
            progress.end(f"the program is made: {len(crates.order)} crates proved"
                         + (f", {making.kept} of them before" if making.kept else "")
                         + f", in {words(time.time() - progress.started)}")
        making.hand_over(kit, began)
    except BaseException:
        progress.end()
        raise
    finally:
        (place / "progress").unlink(missing_ok=True)


def plan(root, program, processors):
    """What the table of seconds says of a making from nothing."""
    crates = Crates(root, program)
    crates.measure("")
    seconds = listed_seconds(crates)
    total, rest = schedule(crates, seconds, processors)
    chain, name = [], max(crates.order, key=lambda n: rest[n])
    while name:
        chain.append(name)
        name = max(crates.above[name], key=lambda n: rest[n], default=None)
    print(f"{len(crates.order)} crates, {sum(seconds.values()):.0f} s of one processor; on {processors} processors {total:.0f} s")
    print(f"the longest chain, {rest[chain[0]]:.0f} s: " + ", ".join(f"{n} {seconds[n]:.0f}" for n in chain))


def stop(signum, _frame):
    raise Stopped(128 + signum, "cut off; a later call goes on from here")


def main():
    parser = argparse.ArgumentParser(description=__doc__, formatter_class=argparse.RawDescriptionHelpFormatter)
    parser.add_argument("--root", type=Path, default=Path(__file__).resolve().parent.parent)
    parser.add_argument("--program", default="pylint")
    parser.add_argument("--plan", type=int, metavar="N")
    parser.add_argument("--place", action="store_true")
    arguments = parser.parse_args()
    arguments.root = arguments.root.resolve()
    if arguments.place:
        return print(place_of(arguments.root))
    if arguments.plan:
        return plan(arguments.root, arguments.program, arguments.plan)
    for signum in (signal.SIGINT, signal.SIGTERM, signal.SIGHUP):
        signal.signal(signum, stop)
    try:
        make(arguments.root, arguments.program)
    except Stopped as stopped:
        print(f"bin/pylint: {stopped.text}", file=sys.stderr)
        return stopped.status
    except (OSError, subprocess.CalledProcessError, KeyError) as error:
        print(f"bin/pylint: the program can't be made: {error}", file=sys.stderr)
        return CANT_BE_MADE
    return 0


if __name__ == "__main__":
    sys.exit(main())
