"""Proves every crate that a program stands on, and then the program, and builds it.

A crate is begun as soon as those below it are done. Of the crates that could be begun, the one comes first that has the longest chain of
crates above it, counted in lines. Each has one job where others can take the other processors, and else its share of them: the chain of
crates is what the whole waits for. What an earlier call proved stands in the crates' folders out/, where `rt` keeps it, so an
interrupted call is gone on with."""

import concurrent.futures
import contextlib
import os
import shutil
import subprocess
import tempfile
import time

from .kit import Kit, NoKit
from .progress import minutes, tell


MOST_JOBS = 4


class NotProved(Exception):
    """A crate isn't proved; the text is what `rt` said."""


class Schedule:
    """Which crates are yet to be begun, which run, and which are done."""

    def __init__(self, crates, names):
        self.deps = {name: [dep for dep in crates.deps[name] if dep in names] for name in names}
        self.chains, lines = {}, {name: crates.lines(name) for name in names}
        for name in reversed(names):
            above = [self.chains[other] for other in names if name in self.deps[other]]
            self.chains[name] = lines[name] + max(above, default=0)
        self.waiting, self.running, self.done = list(names), [], []

    def ready(self):
        """The crates that can be begun, those with the longest chain above them first."""
        able = [name for name in self.waiting if all(dep in self.done for dep in self.deps[name])]
        return sorted(able, key=lambda name: -self.chains[name])

    def begin(self, name):
        """Notes that a crate runs."""
        self.waiting.remove(name)
        self.running.append(name)

    def end(self, name):
        """Notes that a crate is proved."""
        self.running.remove(name)
        self.done.append(name)


class SideBySide:
    """Proves libraries by the kit's modules, some at once. The crates' folders are locked against other commands of `rt`."""

    def __init__(self, kit, top, name):
        rt = kit.module("rt")
        # As `rt lib` does, it takes what other checkouts on this machine proved.
        rt.share_work(True)
        program = rt.rtlib.Crate(f"{top}/crates/{name}", str(top), {})
        self.crates = {crate.name: crate for crate in program.below()}
        self.need, self.free = rt.need, 1024 * rt.rtlib.number_in("/proc/meminfo", r"MemAvailable:\s+(\d+)")
        self.lanes = len(os.sched_getaffinity(0))
        self.held = rt.rtlib.lock([*program.below(), program])
        # Its first call sets a signal's handler, which the main thread alone may.
        rt.rtlib.guarded()

    def fits(self, running, name):
        """Whether there is memory for one more beside those that run."""
        return not running or sum(self.need(self.crates[it]) for it in [*running, name]) <= self.free

    def prove(self, name, jobs):
        """Proves a library by so many jobs, and builds it for the crates above. Answers whether it is proved, and what was said."""
        crate = self.crates[name]
        with tempfile.TemporaryFile("w+", errors="replace") as crate.out:
            status = crate.build_rlib(["--jobs", str(jobs)], False)
            crate.out.seek(0)
            return status == 0, crate.out.read()

    def close(self):
        """Lets other commands of `rt` into the crates' folders."""
        for held in self.held:
            os.close(held)


class OneByOne:
    """Proves libraries by the command `rt lib`, one after the other."""

    def __init__(self, kit, top):
        self.kit, self.top, self.lanes = kit, top, 1

    def fits(self, _running, _name):
        """Whether there is memory for one more."""
        return True

    def prove(self, name, _jobs):
        """As `SideBySide.prove`."""
        words = {"cwd": f"{self.top}/crates/{name}", "stdin": subprocess.DEVNULL, "stdout": subprocess.PIPE, "stderr": subprocess.STDOUT}
        done = subprocess.run([self.kit.command, "lib"], errors="replace", **words)
        return done.returncode == 0, done.stdout

    def close(self):
        """Nothing is held between two commands."""


def prover_of(kit, top, name):
    """How libraries are proved by this kit."""
    try:
        return SideBySide(kit, top, name)
    except (AttributeError, NoKit, TypeError) as reason:
        tell(f"wolzhyke: this kit's modules aren't known here ({reason}), so crates are proved one after the other\n")
        return OneByOne(kit, top)


def share(processors, crates):
    """How many jobs each of so many crates has. More than four gain a crate nothing."""
    return max(min(processors // max(crates, 1), MOST_JOBS), 1)


def prove_libraries(prover, schedule, report):
    """Proves all crates of a schedule. `report` is called with each that is proved, and the seconds that it took. Where one isn't,
    those that run beside it are left to end with this program."""
    pool, runs = concurrent.futures.ThreadPoolExecutor(prover.lanes), {}
    while schedule.waiting or runs:
        ready = schedule.ready()
        jobs = share(prover.lanes, len(runs) + len(ready))
        for name in ready:
            if len(runs) < prover.lanes and prover.fits(schedule.running, name):
                schedule.begin(name)
                runs[pool.submit(prover.prove, name, jobs)] = name, time.monotonic()
        ended, _ = concurrent.futures.wait(runs, return_when=concurrent.futures.FIRST_COMPLETED)
        for run in ended:
            name, began = runs.pop(run)
            is_proved, said = run.result()
            if not is_proved:
                raise NotProved(f"{said}wolzhyke: {name} isn't proved")
            schedule.end(name)
            report(name, time.monotonic() - began)
    pool.shutdown()


def prove_program(kit, top, name):
    """Proves and builds the program itself, over proved libraries, and answers where it stands."""
    folder = f"{top}/crates/{name}"
    program = f"{folder}/out/{name}"
    with contextlib.suppress(FileNotFoundError):
        os.remove(program)
    # It also runs the program, here without words, which it refuses at once: so the status tells nothing.
    how = {"stdin": subprocess.DEVNULL, "stdout": subprocess.PIPE, "stderr": subprocess.STDOUT}
    said = subprocess.run([kit.command, "run"], cwd=folder, errors="replace", **how).stdout
    if not os.access(program, os.X_OK):
        raise NotProved(f"{said}wolzhyke: {name} isn't proved")
    return program


def prove(crates, name, made):
    """Proves and builds the program of the crate `name`, and puts a copy of it at `made`. Answers the line that names the kit."""
    kit, top, began = Kit(), crates.top, time.monotonic()
    names = crates.below(name)
    schedule = Schedule(crates, names[:-1])

    def report(proved, taken):
        count = len(schedule.done) + (proved == name)
        gone_by = minutes(time.monotonic() - began)
        tell(f"wolzhyke: {count} of {len(names)} crates proved after {gone_by}: {proved}, in {minutes(taken)}\n")

    prover = prover_of(kit, top, name)
    prove_libraries(prover, schedule, report)
    prover.close()
    last = time.monotonic()
    shutil.copy2(prove_program(kit, top, name), made)
    report(name, time.monotonic() - last)
    return kit.version()
