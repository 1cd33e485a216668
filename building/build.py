"""Proves the libraries that the program stands on and the program, and builds it: `build.py TOP`.

`rattle build` is asked crate by crate, for as many at once as there are processors and memory. `rt lib` would
keep what is proved of each function for a next check, which takes a sixth more of time, and would hold all
crates below from others meanwhile. Standard error tells how far it is; the status is 0 where the program is built.
"""

import contextlib
import hashlib
import os
import re
import shutil
import subprocess
import sys
import time
from concurrent.futures import FIRST_COMPLETED, ThreadPoolExecutor, wait

PROGRAM = "scad_tool"
TARGET = "x86_64-unknown-linux-gnu"
# What one check has been seen to take, in kB.
MEMORY_OF_A_JOB = 3_000_000
# The table's own times count as so many seconds that were measured.
SECONDS_BELIEVED = 300


class Failure(Exception):
    """What rattle said of a crate that isn't proved."""


class Crate:
    """A crate by its line of crates.txt, with the libraries of this repository and of the kit that it uses."""

    def __init__(self, folder, libraries, known):
        self.name, self.folder = os.path.basename(folder), folder
        self.own = [known[it] for it in libraries if it in known]
        self.of_kit = ["std", *(it for it in libraries if it not in known)]
        self.below = list(dict.fromkeys(it for library in self.own for it in [*library.below, library]))

    def sum_of_files(self):
        found = hashlib.sha256()
        for part in ("src", "specs", "proofs"):
            for at, folders, names in os.walk(f"{self.folder}/{part}"):
                folders.sort()
                for name in sorted(names):
                    with open(f"{at}/{name}", "rb") as file:
                        found.update(repr((at[len(self.folder):], name, os.fstat(file.fileno()).st_size)).encode())
                        found.update(file.read())
        return found.hexdigest()


def crates_of_program(top):
    """The program's crate and those below it, from low to high as crates.txt has them."""
    known = {}
    with open(f"{top}/crates.txt", encoding="utf-8") as file:
        for name, libraries in re.findall(r"(?m)^([a-z]\w*)\b[^:#\n]*:([^#\n]*)", file.read()):
            known[name] = Crate(f"{top}/crates/{name}", libraries.split(), known)
    program = known[PROGRAM]
    return [it for it in known.values() if it in program.below] + [program]


def seconds_of(crates, top):
    """What the proof of each crate takes by the table of docs/architecture.md. One without a time there takes as long
    for a line as the others."""
    lines, timed, rows = {}, {}, []
    with contextlib.suppress(FileNotFoundError), open(f"{top}/docs/architecture.md", encoding="utf-8") as file:
        rows = [[cell.strip() for cell in row.split("|")] for row in file if row.startswith("| ")]
    for row in rows:
        if len(row) == 11 and row[2].isdigit():
            lines[row[1]] = sum(int(row[at]) for at in (2, 4, 5))
            if re.fullmatch(r"[\d.]+", row[7]):
                timed[row[1]] = float(row[7]) * 60
    rate = sum(timed.values()) / max(1, sum(lines[it] for it in timed))
    return {it: 1 + timed.get(it.name, lines.get(it.name, 0) * rate) for it in crates}


def by_longest_chain(crates, seconds):
    """The crates, first those with the longest proofs from them up to the program."""
    chain = {}
    for crate in reversed(crates):
        chain[crate] = seconds[crate] + max((chain[it] for it in crates if crate in it.own), default=0)
    return sorted(crates, key=lambda it: -chain[it])


def kit():
    """The folder of the kit: `rt doc` names a page in it."""
    told = subprocess.run(["rt", "doc"], stdout=subprocess.PIPE, text=True, check=True)
    return os.path.dirname(told.stdout.strip())


def jobs_of_machine():
    """One job a processor, as far as the memory goes."""
    with open("/proc/meminfo", encoding="utf-8") as file:
        free = int(re.search(r"MemAvailable: *(\d+)", file.read())[1])
    return max(1, min(len(os.sched_getaffinity(0)), free // MEMORY_OF_A_JOB))


def tell(*words):
    print("scadslice:", *words, file=sys.stderr, flush=True)


def in_words(seconds):
    minutes = round(seconds / 60)
    return ("less than a minute", "about a minute")[minutes] if minutes < 2 else f"about {minutes} minutes"


class Prover:
    """Proves crates, and has their libraries in a folder of the program's own."""

    def __init__(self, crates):
        self.crates, self.program, self.kit = crates, crates[-1], kit()
        self.out = f"{self.program.folder}/out"
        self.libraries = f"{self.out}/libraries"
        # A check ends with whoever waits for it.
        self.start = ["setpriv", "--pdeathsig", "KILL", "--"] if shutil.which("setpriv") else []
        with open(f"{self.kit}/KIT-ID", "rb") as file:
            kit_id = file.read()
        # Of each crate a sum of its files, and one of all that its library is made of.
        self.files, self.sums = {it: it.sum_of_files() for it in crates}, {}
        for it in crates:
            parts = kit_id, self.files[it], it.of_kit, [self.sums[library] for library in it.own]
            self.sums[it] = hashlib.sha256(repr(parts).encode()).hexdigest()

    def has(self, library):
        made = f"{self.libraries}/{library.name}"
        if not os.path.isdir(f"{made}.rlib") or not os.path.isfile(f"{made}.sum"):
            return False
        with open(f"{made}.sum", encoding="utf-8") as file:
            return file.read() == self.sums[library]

    def prove(self, crate):
        if crate is self.program:
            self.make_program()
        else:
            self.make_library(crate)

    def make_library(self, crate):
        made = f"{self.libraries}/{crate.name}"
        os.makedirs(self.libraries, exist_ok=True)
        with contextlib.suppress(FileNotFoundError):
            os.remove(f"{made}.sum")
        shutil.rmtree(f"{made}.rlib", ignore_errors=True)
        self.run(crate, *self.words_of(crate, "src/lib.rt"), "--statements", "-o", f"{made}.rlib")
        self.stop_on_change(crate)
        with open(f"{made}.sum", "w", encoding="utf-8") as file:
            file.write(self.sums[crate])

    def make_program(self):
        made, tools = f"{self.out}/{PROGRAM}", ["--toolchain", f"{self.kit}/toolchain"]
        self.run(self.program, *self.words_of(self.program, "src/main.rt"), *tools, "-o", f"{made}.o")
        link = [f"{self.kit}/bin/rattle-link", "--target", TARGET, *tools, "-o", f"{made}.new", f"{made}.o"]
        # What the kit's own libraries call of C.
        self.run(self.program, *link, *(f"{self.kit}/c/{it}" for it in ("libos_c.a", "liblibc_c.a")))
        # (a program is taken as that of all sources that are older than it)
        self.stop_on_change(*self.crates)
        os.replace(f"{made}.new", made)

    def stop_on_change(self, *crates):
        for crate in crates:
            if crate.sum_of_files() != self.files[crate]:
                raise Failure(f"{crate.name} was changed while the program was built: try again\n")

    def words_of(self, crate, root):
        yield from (f"{self.kit}/bin/rattle", "build", "--crate-name", crate.name, root)
        for name in crate.of_kit:
            yield from ("--extern", f"{name}={self.kit}/rlibs/{name}.rlib")
        for library in crate.own:
            yield from ("--extern", f"{library.name}={self.libraries}/{library.name}.rlib")
        for folder in (f"{self.kit}/rlibs", self.libraries):
            yield from ("-L", f"dependency={folder}")
        yield from ("--antt-project", f"{self.kit}/rattle/logic/antt-project.json")
        yield from ("--logic-built", f"{self.kit}/logic_built")

    def run(self, crate, *words):
        how = {"stdin": subprocess.DEVNULL, "stdout": subprocess.PIPE, "stderr": subprocess.STDOUT, "text": True}
        ran = subprocess.run([*self.start, *words], cwd=crate.folder, errors="replace", check=False, **how)
        if ran.returncode < 0:
            raise Failure(f"{crate.name} is not proved: signal {-ran.returncode} ended its check, which may want memory\n")
        if ran.returncode:
            raise Failure(f"{crate.name} is not proved:\n{ran.stdout}")


def is_proved(task):
    """Whether the crate of a task that has ended is proved; else it's told why not."""
    try:
        task.result()
    except Failure as failure:
        print(failure, end="", file=sys.stderr, flush=True)
        return False
    return True


def build(top):
    """Proves each crate as soon as its libraries are proved, and tells at each what is done and what time is left. What
    is begun is ended after a failure too, and kept. Returns whether there was none."""
    crates, jobs, started = crates_of_program(top), jobs_of_machine(), time.monotonic()
    seconds, prover, number = seconds_of(crates, top), Prover(crates), len(crates)
    proved = {it for it in crates[:-1] if prover.has(it)}
    waiting = [it for it in by_longest_chain(crates, seconds) if it not in proved]
    left, done, running = sum(map(seconds.get, waiting)), 0, {}
    with ThreadPoolExecutor(jobs) as pool:
        while waiting or running:
            ready = [it for it in waiting if proved.issuperset(it.own)]
            for crate in ready[:jobs - len(running)]:
                waiting.remove(crate)
                running[pool.submit(prover.prove, crate)] = crate
                share = 100 - 100 * left / sum(seconds.values())
                rate = (SECONDS_BELIEVED / jobs + time.monotonic() - started) / (SECONDS_BELIEVED + done)
                tell(f"{int(share)} % done, {in_words(left * rate)} left;",
                     f"proving crate {number - len(waiting)} of {number}, {crate.name} ({jobs} at once)")
            for task in wait(running, return_when=FIRST_COMPLETED).done:
                crate = running.pop(task)
                left, done = left - seconds[crate], done + seconds[crate]
                if is_proved(task):
                    proved.add(crate)
                else:
                    # (nothing more is begun)
                    waiting = []
    if crates[-1] in proved:
        tell(f"the program is built, after {int(time.monotonic() - started)} seconds")
    return crates[-1] in proved


def main(top):
    try:
        return 0 if build(top) else 1
    except (OSError, subprocess.CalledProcessError) as error:
        tell(error)
        return 1
    except KeyboardInterrupt:
        return 130


if __name__ == "__main__":
    sys.exit(main(sys.argv[1]))
