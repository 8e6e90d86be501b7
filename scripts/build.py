#!/usr/bin/env python3
"""Proves and builds the program, with crates that don't stand on each other side by side.

rt works on one crate of a checkout at a time. So each crate is proved in a copy of the sources of its own, where the
libraries below it lie built already, and its library is put into the repository, from where the crates above get it.
A run that was ended goes on where it was: the libraries that it put there are taken, and rt goes on in the copies of
the other crates. A second run waits for the first.

SUZHIMANU_LANES=N proves N crates at a time in place of one for each processor (and 2.5 GB of free memory).
"""

import fcntl
import hashlib
import os
import shutil
import signal
import subprocess
import sys
import tempfile
import time
from concurrent.futures import FIRST_COMPLETED, ThreadPoolExecutor, wait
from contextlib import suppress
from pathlib import Path

ROOT = Path(__file__).resolve().parent.parent
PROGRAM = ROOT / "crates/suzhimanu/out/suzhimanu"
# The sum of the sources that the program was built from.
SUM = PROGRAM.with_suffix(".sources")
PARTS = ("src", "specs", "proofs")


def say(text):
    print(f"suzhimanu: {text}", file=sys.stderr, flush=True)


def crates_below(top):
    """Returns the crates that `top` stands on and itself, lowest first, each with its line of crates.txt."""
    lines, order = {}, {}
    for line in (ROOT / "crates.txt").read_text().splitlines():
        name, colon, below = line.partition("#")[0].partition(":")
        if colon:
            lines[name.split()[0]] = line, below.split()

    def visit(name):
        line, below = lines[name]
        for it in below:
            if it in lines and it not in order:
                visit(it)
        order[name] = line

    visit(top)
    return order


def files_of(crates):
    """Returns the files that crates are made from, in one order."""
    folders = [ROOT / "crates" / name / part for name in crates for part in PARTS]
    found = (it for folder in folders for it in folder.rglob("*") if it.is_file())
    return [ROOT / "crates.txt", *sorted(found)]


def sum_of(files):
    sum = hashlib.sha256()
    for file in files:
        sum.update(f"{file.relative_to(ROOT)}\n{file.stat().st_size}\n".encode())
        sum.update(file.read_bytes())
    return sum.hexdigest()


def text_of(file):
    return file.read_text() if file.exists() else None


def is_built(files):
    """Returns whether the program is built from these files: none is newer, or all hold what they held."""
    if not os.access(PROGRAM, os.X_OK):
        return False
    made, sum = PROGRAM.stat().st_mtime, sum_of(files)
    # (the gate notes no sum)
    is_same = text_of(SUM) == sum or all(it.stat().st_mtime <= made for it in files)
    if is_same:
        os.utime(PROGRAM)
        SUM.write_text(sum)
    return is_same


def lanes_here():
    """Returns how many crates can be proved at a time: one a processor, and 2.5 GB of free memory for each."""
    lanes = os.environ.get("SUZHIMANU_LANES", "")
    if lanes.isdigit() and int(lanes):
        return int(lanes)
    free = next(int(it.split()[1]) for it in open("/proc/meminfo") if it.startswith("MemAvailable"))
    return max(1, min(len(os.sched_getaffinity(0)), free // 2_500_000))


def put(made, crate):
    """Puts what was made of a crate into its folder in another checkout, whole or not at all, while no rt works there."""
    to = crate / "out" / made.name
    part, old = to.with_suffix(".part"), to.with_suffix(".old")
    folder = os.open(crate, os.O_RDONLY)
    try:
        fcntl.flock(folder, fcntl.LOCK_EX)
        to.parent.mkdir(exist_ok=True)
        for it in (part, old):
            shutil.rmtree(it, ignore_errors=True)
        if made.is_dir():
            # (links where the two lie on one file system)
            is_near = made.stat().st_dev == crate.stat().st_dev
            shutil.copytree(made, part, copy_function=os.link if is_near else shutil.copy2)
        else:
            shutil.copy2(made, part)
        if to.is_dir():
            to.rename(old)
        part.rename(to)
        shutil.rmtree(old, ignore_errors=True)
    finally:
        os.close(folder)


class Copies:
    """A copy of the sources for each crate, in git's folder where there is one."""

    def __init__(self, lock):
        git = ROOT / ".git"
        name = f"suzhimanu-{os.getuid()}-{hashlib.sha256(str(ROOT).encode()).hexdigest()[:12]}"
        self.home = git / "lanes" if git.is_dir() else Path(tempfile.gettempdir()) / name
        self.home.mkdir(mode=0o700, exist_ok=True)
        # (rt looks for no crates of the repository where that file stands)
        (self.home / "MODULE.bazel").touch()
        self.lock, self.running = lock, set()
        self.kit = subprocess.run(["rt", "version"], capture_output=True, text=True).stdout.strip()

    def make(self, name):
        """Makes the copy for a crate, or brings one that an ended run left up to date."""
        copy = self.home / name
        crates = crates_below(name)
        for it in crates:
            ours, theirs = ROOT / "crates" / it, copy / "crates" / it
            for part in PARTS:
                shutil.rmtree(theirs / part, ignore_errors=True)
                if (ours / part).is_dir():
                    shutil.copytree(ours / part, theirs / part)
            # (rt tells by its stamp whether a library is built from what stands there)
            stamp = text_of(ours / "out/rlib/stamp")
            if stamp and stamp != text_of(theirs / "out/rlib/stamp"):
                put(ours / "out/rlib", theirs)
        (copy / "crates.txt").write_text("".join(f"{it}\n" for it in crates.values()))
        shutil.copy(ROOT / "HANDLES", copy / "HANDLES")
        return copy / "crates" / name

    def prove(self, name, jobs):
        """Proves a crate, and returns how many seconds it took, or None where it isn't proved."""
        began, kept = time.monotonic(), ROOT / "crates" / name / "out/rlib/sources"
        sum = f"{self.kit} {sum_of(files_of(crates_below(name)))}"
        if text_of(kept) == sum:
            return 0
        crate, is_program = self.make(name), name == PROGRAM.name
        command = ["rt", "run" if is_program else "lib", "--jobs", str(jobs), *["--", "--version"] * is_program]
        with open(self.home / f"{name}.log", "w") as log:
            # (what a killed run leaves at work holds the lock too, so that the next one waits for its end)
            how = {"pass_fds": [self.lock.fileno()], "start_new_session": True}
            run = subprocess.Popen(command, cwd=crate, stdin=subprocess.DEVNULL, stdout=log, stderr=log, **how)
        self.running.add(run)
        status = run.wait()
        self.running.discard(run)
        if status:
            return None
        made = crate / "out" / (PROGRAM.name if is_program else "rlib")
        if made.is_dir():
            (made / kept.name).write_text(sum)
        if made.exists():
            put(made, ROOT / "crates" / name)
        return time.monotonic() - began

    def end(self):
        """Ends the proofs that run, with all that they started."""
        for run in [*self.running]:
            with suppress(ProcessLookupError):
                os.killpg(run.pid, signal.SIGTERM)


def prove_all(crates, copies, lanes):
    """Proves each crate as soon as those below it are proved, the program last. Returns whether all are."""
    began = time.monotonic()
    below = {it: {*crates_below(it)} - {it} for it in crates}
    # How much text stands on the longest way from a crate to the top: what is begun first.
    size = {it: sum(file.stat().st_size for file in files_of([it])) for it in crates}
    behind = dict(size)
    for name in reversed(crates):
        for it in below[name]:
            behind[it] = max(behind[it], size[it] + behind[name])
    left = sorted(crates, key=lambda it: -behind[it])
    proved, running, idle = set(), {}, lanes
    with ThreadPoolExecutor(lanes) as pool:
        while left or running:
            ready = [it for it in left if below[it] <= proved]
            for at, name in enumerate(ready[:idle]):
                # (a crate gets the processors that no other waits for)
                jobs = min(4, max(1, idle // (len(ready) - at)))
                idle -= jobs
                left.remove(name)
                running[pool.submit(copies.prove, name, jobs)] = name, jobs
            for done in wait(running, return_when=FIRST_COMPLETED).done:
                name, jobs = running.pop(done)
                idle += jobs
                seconds = done.result()
                if seconds is None:
                    say(f"{name} isn't proved:")
                    sys.stderr.write((copies.home / f"{name}.log").read_text()[-4000:])
                    copies.end()
                    return False
                proved.add(name)
                minutes, now = (time.monotonic() - began) / 60, ", ".join(it for it, _ in running.values())
                said = f"{len(proved)} of {len(crates)}: {name} is proved, {seconds:.0f} s ({minutes:.1f} min in all)"
                say(f"{said}; {len(left)} to begin" + (f", now {now}" if now else ""))
    return True


def build(crates, files, lock):
    at, sum, lanes, copies = time.time(), sum_of(files), lanes_here(), Copies(lock)
    say(f"proving and building the program, once: {len(crates)} crates, on {lanes} processors, in some minutes")
    stop = lambda number, _: (copies.end(), os._exit(128 + number))
    for number in (signal.SIGINT, signal.SIGTERM, signal.SIGHUP):
        signal.signal(number, stop)
    if not prove_all(crates, copies, lanes):
        return False
    os.utime(PROGRAM, (at, at))
    SUM.write_text(sum)
    shutil.rmtree(copies.home, ignore_errors=True)
    return True


def main():
    if not shutil.which("rt"):
        say("the program isn't built, and the command rt of the Rattle kit isn't on the path")
        return 1
    with open(ROOT / "crates.txt") as lock:
        fcntl.flock(lock, fcntl.LOCK_EX)
        crates = [*crates_below(PROGRAM.name)]
        files = files_of(crates)
        return 0 if is_built(files) or build(crates, files, lock) else 1


if __name__ == "__main__":
    sys.exit(main())
