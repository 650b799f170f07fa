"""Proves crates: each by a run of the kit's gate, `rt ci`, over a copy of that crate and those below it, which the kit has kept by then.

What such a run proves it proves from nothing, and the kit keeps it by the sums of all that it read, so that every later run of the same
files takes it, the gate's too. A crate on a long way begins as soon as those below it are proved, and gets as many processes as the kit
allows. The others yield the processors to it: those that take long get several processes too, where there is plenty of memory, and the
rest get one each, and one for their tests. Where the kit can keep nothing, one run proves them all.
"""

import os
import re
import selectors
import shutil
import subprocess
import time

from . import schedule
from .processes import Commands
from .sources import keeps_proofs

# What a line of the kit's says of a crate.
PROVED, KEPT, TESTED = "proved", "kept", "tested"
# Memory for a process, and the least with which a crate on no long way gets several, in KiB; the seconds from which on it does, and by
# how much it yields.
EACH, PLENTY, TAKES_LONG, YIELDS = 4_000_000, 12_000_000, 200, 10
# What is shown as it comes, and what a failed check says of functions that are proved.
NOTES = re.compile(r"rt: .*(waiting for|once more|the disk )")
DULL = re.compile(r"fn \S+: proved$|statements \S+: modules|logic \S+: libraries|rt: \S+ is kept")


def lanes():
    """Returns how many crates are proved side by side: RT_JOBS, or one a processor where there are 4 GB of memory for each. By itself `rt ci`
    plans with up to 15 GB for a large crate, whose check takes 1 to 4, and leaves processors idle."""
    asked = os.environ.get("RT_JOBS", "")
    if asked.isdigit() and int(asked):
        return int(asked)
    return max(1, min(len(os.sched_getaffinity(0)), free() // EACH))


def free():
    """Returns how much memory is available, in KiB."""
    with open("/proc/meminfo", encoding="utf-8") as file:
        return next((int(it.split()[1]) for it in file if it.startswith("MemAvailable:")), 0)


class NothingKept(Exception):
    """A run proved again what an earlier one had proved: the kit keeps nothing here."""


class Run:
    """A run of the kit's gate over some crates, of which the last is to be proved, or all."""

    def __init__(self, crates, room, process, is_whole):
        self.crate, self.room, self.process, self.is_whole = crates[-1], room, process, is_whole
        self.begun = time.monotonic()
        self.block, self.rest, self.is_refused = [], b"", False

    def lines(self):
        """Returns the lines that came by now, and whether the output has ended."""
        text = self.process.stdout.read()
        *whole, self.rest = (self.rest + (b"\n" if text == b"" else text or b"")).split(b"\n")
        return [it.decode(errors="replace") for it in whole], text == b""

    def read(self, line):
        """Takes in a line, and returns what it says (a crate is proved, is kept from an earlier run, or its tests are proved), of which crate,
        and what is to be shown of it at once."""
        words = line.split()
        name = words[1].strip(":") if words[:1] == ["rt:"] and len(words) > 1 else None
        if line.startswith("== "):
            self.block = []
        elif name and words[2:] == ["proved"]:
            return PROVED, name, []
        elif name and words[2:4] == ["is", "kept:"]:
            return KEPT, name, []
        elif name and words[2:] == ["its", "tests", "are", "proved"]:
            return TESTED, name, []
        elif "NOT PROVED" in line or words[:2] == ["rt:", "FAILED:"] or line.endswith("its tests FAILED"):
            shown, self.block, self.is_refused = self.failure([*self.block, line]), [], True
            return None, None, shown
        elif NOTES.match(line) and name in (None, self.crate, "note"):
            return None, None, [line]
        else:
            self.block.append(line)
        return None, None, []

    def failure(self, lines):
        """Returns what to show of a failed check: its lines without those of what is proved, and the functions that aren't."""
        unproved = [found[1] for found in (re.match(r"fn (\S+): (?:not proved|no proof)", it) for it in lines) if found]
        name = re.match(r"rt: (\w+)", lines[-1])
        named = [f"build: {name[1] if name else self.crate}: {it} is not proved" for it in unproved]
        return [it for it in lines if not DULL.match(it)] + named


class Prover:
    """Proves crates, those on a long way first, and says how far it is."""

    def __init__(self, sources, crates, place):
        self.sources, self.crates, self.place = sources, crates, place
        self.times = schedule.seconds(sources, crates)
        self.behind, through = schedule.ways(sources, crates, self.times)
        self.long = schedule.on_a_long_way(through)
        self.left = sorted(crates, key=lambda it: -self.behind[it])
        # The seconds that each proved crate took, and the runs that are under way.
        self.proved, self.running, self.failed = {}, [], []
        self.lanes, self.selector, self.start = lanes(), selectors.DefaultSelector(), time.monotonic()

    def tell(self, words):
        took = int(time.monotonic() - self.start)
        print(f"[{len(self.proved):2}/{len(self.crates)} {took // 60:2}:{took % 60:02}] {words}", flush=True)

    def prove(self, built=(), edits=False):
        """Proves the crates, with their must-fail edits if these are wanted, and returns whether all are proved. The folders of what is built
        stay in the place, each under its crate's name."""
        self.edits = edits
        os.chmod(self.place, 0o711)  # the kit runs programs as nobody
        os.makedirs(f"{self.place}/tmp")
        try:
            if not keeps_proofs():
                raise NothingKept
            with Commands() as commands:
                self.run(commands, built)
        except NothingKept:
            self.prove_whole(built)
        return not self.failed

    def prove_whole(self, built):
        """Proves all crates by one run."""
        print("build: the kit keeps nothing here, so one run proves all", flush=True)
        self.running, self.selector = [], selectors.DefaultSelector()
        with Commands() as commands:
            self.begin(self.crates, f"{self.place}/whole", commands, {"RT_JOBS": str(self.lanes)}, is_whole=True)
            while self.running:
                self.take(built)
        for it in built:
            os.symlink(f"{self.place}/whole", f"{self.place}/{it}")

    def run(self, commands, built):
        """Proves each crate by a run of its own, once those below it are proved. Behind a failed proof nothing more is begun."""
        while self.left or self.running:
            ready = [it for it in self.left if all(below in self.proved for below in self.sources.below(it))]
            if ready and len(self.running) < self.lanes and not self.failed:
                crate = ready[0]
                self.left.remove(crate)
                self.tell(f"{crate}: being proved")
                self.begin(self.sources.needed([crate]), f"{self.place}/{crate}", commands, *self.share(crate))
            elif self.running:
                self.take(built)
            else:
                break

    def share(self, crate):
        """Returns what the run of a crate is told of processes, and by how much it yields. Told nothing, the kit takes up to four."""
        if "RT_JOBS" in os.environ:
            return {"RT_JOBS": "1"}, 0
        if crate in self.long or not (self.left or self.running):
            return {}, 0
        if self.times[crate] >= TAKES_LONG and free() >= PLENTY:
            return {}, YIELDS
        # (one for its proof and one for its tests)
        return {"RT_JOBS": "2"}, YIELDS

    def begin(self, crates, room, commands, environment, niceness=0, is_whole=False):
        """Starts a run over a copy of these crates."""
        self.sources.copy(crates, room, (crates if is_whole else crates[-1:]) if self.edits else ())
        how = {"cwd": room, "stdout": subprocess.PIPE, "stderr": subprocess.STDOUT}
        how["env"] = {**os.environ, "TMPDIR": f"{self.place}/tmp", **environment}
        run = Run(crates, room, commands.start(["rt", "ci"], niceness, **how), is_whole)
        os.set_blocking(run.process.stdout.fileno(), False)
        self.selector.register(run.process.stdout, selectors.EVENT_READ, run)
        self.running.append(run)

    def take(self, built):
        """Waits until runs say something, and takes it in."""
        for key, _ in self.selector.select():
            run = key.data
            lines, is_over = run.lines()
            for line in lines:
                says, crate, shown = run.read(line)
                if says == PROVED and crate in self.proved and crate != run.crate and not run.is_whole:
                    raise NothingKept(crate)
                if says and (crate == run.crate or run.is_whole):
                    self.note(says, crate, time.monotonic() - run.begun)
                for it in shown:
                    print(it.replace(run.room, self.sources.root), flush=True)
            if is_over:
                self.end(run, built)

    def note(self, says, crate, took):
        """Takes in that a crate is proved, or its tests, which take longer."""
        if says == TESTED:
            self.tell(f"{crate}: its tests are proved, {took - self.proved.get(crate, 0):.0f} s")
        elif crate not in self.proved:
            self.proved[crate] = 0 if says == KEPT else took
            how = "kept from an earlier run" if says == KEPT else f"proved, {took:.0f} s"
            self.tell(f"{crate}: {how}, {len(self.crates) - len(self.proved)} left")

    def end(self, run, built):
        """Takes in that a run has ended."""
        self.selector.unregister(run.process.stdout)
        self.running.remove(run)
        if run.process.wait() or run.crate not in self.proved:
            if not run.is_refused:
                print("\n".join(it for it in run.block if not DULL.match(it)), flush=True)
            self.failed.append(run.crate)
            self.proved.pop(run.crate, None)
            self.tell(f"{run.crate}: NOT PROVED" + (", so nothing more is begun; what is under way goes on, and is kept" if self.running else ""))
        if run.crate not in built and not run.is_whole:
            shutil.rmtree(run.room, ignore_errors=True)
