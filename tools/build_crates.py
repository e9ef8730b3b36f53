"""Proves and builds a crate and all that it stands on, for ./flcol and ./library, which call make_current.

A product is made on first use, and where a source is newer than it. As many crates are proved at a time as processors and
memory allow; what is printed says how far it is. At work, rt keeps others out of a crate and of all below it. So each crate
is proved in a room of its own below out/rooms: the kept work of earlier runs is moved there and back, sources and built
libraries are linked. A run that is stopped puts all work back, and after one that was killed the next run does. A second
run waits for the first.

rt compiles a program or a static library as one module, of all crates at once and behind the proof of the last, so that none
of it can be compiled while a crate is being proved.
"""
from __future__ import annotations

import contextlib
import fcntl
import os
import shutil
import signal
import subprocess
import sys
import time
from dataclasses import dataclass, field
from pathlib import Path
from typing import Callable, Dict, Iterable, Iterator, List, NoReturn, Set

ROOT = Path(__file__).resolve().parent.parent
CRATES, LIST = ROOT / "crates", ROOT / "crates.txt"
ROOMS, LOGS = ROOT / "out/rooms", ROOT / "out/logs"

#: The processor of every machine, that of most machines of today, and what the kernel calls that it has beyond the first.
PORTABLE, NEWER = "x86-64-v2", "x86-64-v3"
NEWER_HAS = {"avx2", "bmi1", "bmi2", "fma", "f16c", "movbe", "abm"}

#: The processors that there are, the memory that a job of a proof takes, and what the compilation of a whole library takes.
PROCESSORS = len(os.sched_getaffinity(0))
JOB_KB, COMPILER_KB = 2_500_000, 5_000_000

#: The signals that a run is stopped by.
STOPPING = (signal.SIGHUP, signal.SIGINT, signal.SIGTERM)

#: The lines of a log that are shown where a crate is not proved.
SHOWN = 20


@dataclass
class Product:
    """A file that is made of a crate: how rt proves the crate, and what makes the file of it."""

    crate: str
    path: Path
    words: List[str]
    make: Callable[[Build], None]
    #: What it is made of besides crates, and what can be made of these before a crate is proved.
    sources: List[Path] = field(default_factory=list)
    prepare: Callable[[], None] = lambda: None


@dataclass
class Work:
    """An rt at work: what it works on, what it is to do there, and how many jobs it may have."""

    name: str
    task: str
    jobs: int
    log: Path
    begun: float
    process: subprocess.Popen

    def __str__(self) -> str:
        return f"{self.task} {self.name} in {time.monotonic() - self.begun:.0f} s"


def say(words: str) -> None:
    print(f"{Path(sys.argv[0]).name}: {words}", file=sys.stderr, flush=True)


def processor() -> str:
    """The processor to build for: the newer one where this machine is one, else that of every machine."""
    lines = Path("/proc/cpuinfo").read_text(encoding="utf-8").splitlines()
    flags = next((it for it in lines if it.startswith("flags")), "")
    return NEWER if NEWER_HAS <= set(flags.split()) else PORTABLE


def free_kb() -> int:
    """The memory that this machine has for further processes."""
    lines = Path("/proc/meminfo").read_text(encoding="utf-8").splitlines()
    return next(int(it.split()[1]) for it in lines if it.startswith("MemAvailable:"))


# ---- The crates and their order ----


def listed() -> Dict[str, str]:
    """The line of crates.txt of each crate."""
    lines = [it for it in LIST.read_text(encoding="utf-8").splitlines() if it and not it.startswith("#")]
    return {it.replace(":", " ").split()[0]: it for it in lines}


def uses_of(lines: Dict[str, str]) -> Dict[str, List[str]]:
    """The crates of this repository that each one uses."""
    return {name: [it for it in line.partition(":")[2].split() if it in lines] for name, line in lines.items()}


def chain_of(crate: str, uses: Dict[str, List[str]]) -> List[str]:
    """The crates that one stands on, each behind those that it uses, and itself last."""
    found: List[str] = []

    def add(name: str) -> None:
        if name not in found:
            for it in uses[name]:
                add(it)
            found.append(name)

    add(crate)
    return found


def on_longest(chain: List[str], uses: Dict[str, List[str]]) -> Set[str]:
    """The crates that are on a longest chain to the last one: all else waits for these."""
    below: Dict[str, int] = {}
    for name in chain:
        below[name] = 1 + max((below[it] for it in uses[name]), default=0)
    above = dict.fromkeys(chain, 0)
    for name in reversed(chain):
        for it in uses[name]:
            above[it] = max(above[it], above[name] + 1)
    return {it for it in chain if below[it] + above[it] == below[chain[-1]]}


def files_of(paths: Iterable[Path]) -> Iterator[str]:
    """The files that paths name, and those below them, but for what is built."""
    for path in paths:
        if path.is_file():
            yield str(path)
        for folder, folders, names in os.walk(path):
            folders[:] = [it for it in folders if it != "out"]
            yield from (os.path.join(folder, it) for it in names)


def is_current(product: Product, chain: List[str]) -> bool:
    """Whether a product is there, and no older than all that it and its crates are made of."""
    if not product.path.exists():
        return False
    made = product.path.stat().st_mtime_ns
    return all(os.stat(it).st_mtime_ns <= made for it in files_of([LIST, *product.sources, *(CRATES / it for it in chain)]))


# ---- A run ----


class Build:
    """A run that makes a product: what it has proved, what is at work, and how many jobs are left for others."""

    def __init__(self, product: Product) -> None:
        self.product = product
        self.lines = listed()
        self.uses = uses_of(self.lines)
        self.chain = chain_of(product.crate, self.uses)
        self.hurried = on_longest(self.chain, self.uses)
        self.free = 0
        self.begun: Set[str] = set()
        self.proved: Set[str] = set()
        self.at_work: List[Work] = []
        self.stopped_by = 0

    def run(self) -> None:
        """Makes the product, of the sources as they are now. However the run ends, the work of all rooms is put back."""
        now = time.time()
        heeded = [it for it in STOPPING if signal.getsignal(it) != signal.SIG_IGN]
        for number in heeded:
            signal.signal(number, self.note_signal)
        try:
            self.put_back()
            ROOMS.mkdir(parents=True, exist_ok=True)
            LOGS.mkdir(exist_ok=True)
            self.product.prepare()
            self.prove()
            self.product.make(self)
            os.utime(self.product.path, (now, now))
        finally:
            self.end(heeded)

    def prove(self) -> None:
        """Proves all crates. All together get two jobs for each processor, as a crate keeps those that it began with."""
        self.free = max(1, min(free_kb() // JOB_KB, 2 * PROCESSORS))
        while len(self.proved) < len(self.chain):
            self.begin_ready()
            work = self.next_ended()
            self.leave(ROOMS / work.name)
            self.proved.add(work.name)
            self.free += work.jobs
            say(f"{work}, {len(self.proved)} of {len(self.chain)}")

    def begin_ready(self) -> None:
        """Begins what can be proved now, as far as jobs are left: first what is on a longest chain.

        A check keeps two thirds of its jobs busy, so a crate gets at most half as many again as there are processors, and
        one that is on no longest chain half as many as there are.
        """
        for is_hurried, most in ((True, PROCESSORS * 3 // 2), (False, (PROCESSORS + 1) // 2)):
            ready = [it for it in self.chain if (it in self.hurried) == is_hurried and self.is_ready(it)][: self.free]
            for at, crate in enumerate(ready):
                jobs = min(self.free // (len(ready) - at), most)
                self.free -= jobs
                self.begin(crate, jobs, niceness=0 if is_hurried else 10)

    def is_ready(self, crate: str) -> bool:
        """Whether a crate has not begun, and all that it stands on is proved."""
        return crate not in self.begun and self.proved.issuperset(self.uses[crate])

    def begin(self, crate: str, jobs: int, niceness: int) -> None:
        """Begins to prove a crate: the product's own in its place, any other one in a room."""
        self.begun.add(crate)
        if crate == self.product.crate:
            folder, words = CRATES / crate, self.product.words
        else:
            folder, words = self.furnish(ROOMS / crate), ["lib"]
        say(f"proving {crate}")
        self.start(crate, "proved", folder, [words[0], "--jobs", str(jobs), *words[1:]], jobs, niceness)

    def compile(self, cpus: List[str]) -> Dict[str, Path]:
        """The static library of the product's crate, which is proved, for each of these processors.

        They are compiled side by side where memory allows, each in a room over a copy of the kept work.
        """
        crate, archives, at_once = self.product.crate, {}, max(1, free_kb() // COMPILER_KB)
        for cpu in cpus:
            while len(self.at_work) >= at_once:
                say(f"{self.next_ended()}")
            folder = self.furnish(ROOMS / f"{crate}.{cpu}")
            archives[cpu] = folder / f"out/lib{crate}.a"
            say(f"compiling {crate}.{cpu}")
            self.start(f"{crate}.{cpu}", "compiled", folder, ["lib", "--cpu", cpu])
        while self.at_work:
            say(f"{self.next_ended()}")
        return archives

    # ---- Processes ----

    def start(self, name: str, task: str, folder: Path, words: List[str], jobs: int = 0, niceness: int = 0) -> None:
        """Has rt work in a folder."""
        log = LOGS / f"{name}.log"
        with open(log, "wb") as said:
            how = {"cwd": folder, "stdin": subprocess.DEVNULL, "stdout": said, "stderr": subprocess.STDOUT}
            process = subprocess.Popen(["nice", "-n", str(niceness), "rt", *words], **how)
        self.at_work.append(Work(name, task, jobs, log, time.monotonic(), process))

    def next_ended(self) -> Work:
        """Waits until one of those at work has done what it was to do."""
        while True:
            self.pause()
            for work in self.at_work:
                if work.process.poll() is not None:
                    self.at_work.remove(work)
                    return work if work.process.returncode == 0 else self.fail(work)

    def fail(self, work: Work) -> NoReturn:
        """Ends the run where one at work has not done what it was to do."""
        say(f"{work.name} is not {work.task}. {work.log} has all that rt said, and ends:")
        lines = work.log.read_text(encoding="utf-8", errors="replace").splitlines()
        print(*lines[-SHOWN:], sep="\n", file=sys.stderr, flush=True)
        sys.exit(3)

    def note_signal(self, number: int, _frame: object) -> None:
        """Keeps a signal until the next pause, so that it cuts no step in two."""
        self.stopped_by = number

    def pause(self) -> None:
        """Waits a moment, and ends the run where a signal has stopped it."""
        time.sleep(0.05)
        if self.stopped_by:
            sys.exit(128 + self.stopped_by)

    def end(self, heeded: List[int]) -> None:
        """Ends what is at work, and puts the work of all rooms back. No signal disturbs that; then each means again what it did."""
        for number in heeded:
            signal.signal(number, signal.SIG_IGN)
        self.stopped_by = 0
        for work in self.at_work:
            work.process.terminate()
        for work in self.at_work:
            work.process.wait()
        self.put_back()
        for number in heeded:
            signal.signal(number, signal.SIG_DFL)

    # ---- Rooms ----

    @contextlib.contextmanager
    def locked(self, folder: Path) -> Iterator[None]:
        """Keeps every rt out of a crate's folder meanwhile; waits for one that works there."""
        held, is_told = os.open(folder, os.O_RDONLY), False
        try:
            while not is_taken(held):
                if not is_told:
                    say(f"waiting for another rt to end in {folder}")
                is_told = True
                self.pause()
            yield
        finally:
            os.close(held)

    def furnish(self, room: Path) -> Path:
        """Makes a room for a crate, and gives the crate's folder there.

        The room has links to the crate's sources, and to the sources and libraries of those below. Kept work is moved there,
        or copied if the room's name has a processor behind the crate's.
        """
        name, _, cpu = room.name.partition(".")
        for crate in chain_of(name, self.uses):
            parts = ["src", "specs", "proofs"] + ["out/rlib"] * (crate != name)
            for part in parts:
                if (CRATES / crate / part).is_dir():
                    shutil.copytree(CRATES / crate / part, room / "crates" / crate / part, copy_function=os.link)
            with open(room / LIST.name, "a", encoding="utf-8") as lines:
                lines.write(f"{self.lines[crate]}\n")
        kept, folder = CRATES / name / "out", room / "crates" / name
        if kept.is_dir():
            with self.locked(CRATES / name):
                if cpu:
                    shutil.copytree(kept, folder / "out")
                else:
                    kept.rename(folder / "out")
        return folder

    def leave(self, room: Path) -> None:
        """Removes a room; the work that was moved there, and what was added to it, goes back to the crate's place."""
        crate, _, cpu = room.name.partition(".")
        folder, place = room / "crates" / crate, CRATES / crate
        if folder.is_dir():
            with self.locked(folder):
                if not cpu and (folder / "out").is_dir():
                    with self.locked(place):
                        shutil.rmtree(place / "out", ignore_errors=True)
                        (folder / "out").rename(place / "out")
        shutil.rmtree(room, ignore_errors=True)

    def put_back(self) -> None:
        """Leaves all rooms, those of a killed run too."""
        for room in sorted(ROOMS.glob("*")):
            self.leave(room)
        shutil.rmtree(ROOMS, ignore_errors=True)


def is_taken(held: int) -> bool:
    """Whether an open folder's lock could be taken at once."""
    try:
        fcntl.flock(held, fcntl.LOCK_EX | fcntl.LOCK_NB)
    except BlockingIOError:
        return False
    return True


def make_current(product: Product) -> None:
    """Sees that a product is there and newer than its sources. Where a crate is not proved, the script ends with status 3."""
    chain = chain_of(product.crate, uses_of(listed()))
    if is_current(product, chain):
        return
    if not shutil.which("rt"):
        say("there is no rt on the PATH, by which crates are proved: put the bin folder of the Rattle kit there")
        sys.exit(2)
    if signal.getsignal(signal.SIGINT) == signal.default_int_handler:
        signal.signal(signal.SIGINT, signal.SIG_DFL)
    held = os.open(CRATES, os.O_RDONLY)
    if not is_taken(held):
        say("waiting for another run to end")
        fcntl.flock(held, fcntl.LOCK_EX)
    if not is_current(product, chain):
        Build(product).run()
    os.close(held)
