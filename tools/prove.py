#!/usr/bin/env python3
"""Proves every crate that the program stands on, as many at a time as there are processors, and builds the program.

A crate is begun as soon as those below it are proved, that with the longest chain of crates above it first. `rt` lets one command at a time into
a crate and all those below it, so each is proved in a room of its own: it and the crates below it by hard links, with the libraries that
these were built as. What was made of a crate goes back to its folder, also where the work is interrupted, and the next call goes on from there.
Rooms only spare time: at the end `rt run`, over the crates themselves, says whether the program is proved.
"""
import contextlib, fcntl, os, pathlib, shutil, signal, subprocess, sys, time

TOP = pathlib.Path(__file__).resolve().parent.parent
PROGRAM = "gateway_program"
ROOMS = TOP / "crates" / PROGRAM / "out" / "rooms"
PROCESSORS = len(os.sched_getaffinity(0))


def say(text):
    print(f"gateway: {text}", file=sys.stderr, flush=True)


def name_of(row):
    """The crate that a row of crates.txt names: a name, that may be followed by what its tests may do."""
    return row.partition(":")[0].partition(" ")[0]


def libraries_of():
    """What crates.txt says: by the name of a crate, those of the repository that it names."""
    rows = [row.partition("#")[0].partition(":") for row in (TOP / "crates.txt").read_text().splitlines()]
    named = {name_of(name): words.split() for name, _, words in rows if name.strip()}
    return {name: [it for it in words if it in named] for name, words in named.items()}


class Plan:
    """The crates below the program, each with its lines, those below it, and the lines of the longest chain that begins with it."""

    def __init__(self):
        named = libraries_of()
        self.below = {}
        self.visit(named, PROGRAM)
        self.lines = {it: lines_of(it) for it in self.below}
        self.chain = {}
        for crate in reversed(self.below):
            above = [self.chain[it] for it in self.chain if crate in self.below[it]]
            self.chain[crate] = self.lines[crate] + max(above, default=0)
        self.proved = []

    def visit(self, named, crate):
        """Puts a crate behind those below it."""
        for it in named[crate]:
            if it not in self.below:
                self.visit(named, it)
        self.below[crate] = {lower for it in named[crate] for lower in [it, *self.below[it]]}

    def ready(self, begun):
        """The libraries that are not begun and that wait for nothing, the longest chain first."""
        waiting = [it for it in self.below if it not in begun and it not in self.proved and it != PROGRAM]
        return sorted((it for it in waiting if self.below[it] <= {*self.proved}), key=lambda it: -self.chain[it])

    def share(self):
        """How much of the lines is proved, in percent."""
        return 100 * sum(self.lines[it] for it in self.proved) // sum(self.lines.values())


def lines_of(crate):
    texts = [it for part in ("src", "specs", "proofs") for it in (TOP / "crates" / crate / part).rglob("*") if it.is_file()]
    return sum(it.read_bytes().count(b"\n") for it in texts)


def link(folder, to, leave):
    """Gives the files of a folder a second name, but for those of the folders that are left out."""
    shutil.copytree(folder, to, copy_function=os.link, ignore=lambda at, names: [it for it in names if pathlib.Path(at, it).relative_to(folder).as_posix() in leave])


class Work:
    """A crate that is being proved in its room."""

    def __init__(self, crate, below, jobs):
        self.crate, self.folder, self.room = crate, TOP / "crates" / crate, ROOMS / crate
        # (as `rt` does, so that no other command works there meanwhile)
        self.lock = os.open(self.folder, os.O_RDONLY)
        fcntl.flock(self.lock, fcntl.LOCK_EX)
        for it in below:
            link(TOP / "crates" / it, self.room / "crates" / it, ["out/incremental", "must-fail", "data"])
        link(self.folder, self.room / "crates" / crate, ["out", "must-fail", "data"])
        for row in ("HANDLES", "crates.txt"):
            kept = (TOP / row).read_text().splitlines()
            (self.room / row).write_text("".join(f"{it}\n" for it in kept if row == "HANDLES" or name_of(it) in {crate, *below}))
        if (self.folder / "out").is_dir():
            os.rename(self.folder / "out", self.room / "crates" / crate / "out")
        self.log = ROOMS / f"{crate}.log"
        with open(self.log, "wb") as log:
            self.run = subprocess.Popen(["rt", "lib", "--jobs", str(jobs)], cwd=self.room / "crates" / crate, stdin=subprocess.DEVNULL, stdout=log, stderr=log, start_new_session=True)

    def functions(self):
        """How many functions are proved by now."""
        return self.log.read_bytes().count(b": proved\n")

    def end(self):
        """Ends what still runs, and puts what was made into the crate's folder."""
        with contextlib.suppress(ProcessLookupError):
            self.run.terminate()
        self.run.wait()
        put_back(self.room)
        os.close(self.lock)


def put_back(room):
    """Moves what was made of a crate from its room into its folder."""
    made, out = room / "crates" / room.name / "out", TOP / "crates" / room.name / "out"
    if made.is_dir():
        shutil.rmtree(out, ignore_errors=True)
        os.rename(made, out)
    shutil.rmtree(room, ignore_errors=True)


def fail(log, what):
    """Shows the end of a log, and ends."""
    sys.stderr.write("\n".join(log.read_text(errors="replace").splitlines()[-20:]) + "\n")
    say(what)
    sys.exit(1)


def begin(plan, works):
    """Begins what waits for nothing, while processors are free; of these a crate gets the more, the longer it is beside the others."""
    ready = plan.ready(works)
    free = PROCESSORS - sum(jobs for _, jobs in works.values())
    for at, crate in enumerate(ready):
        if free < 1:
            return
        jobs = min(8, max(1, round(free * plan.lines[crate] / sum(plan.lines[it] for it in ready[at:]))))
        works[crate] = Work(crate, plan.below[crate], jobs), jobs
        free -= jobs


def tell(plan, works, since):
    """Says how far the work is, and what is left."""
    minutes = int(time.monotonic() - since) // 60
    say(f"{minutes} min: {len(plan.proved)} of {len(plan.below)} crates are proved, {plan.share()}% of the lines")
    say("  now: " + " ".join(f"{crate} ({work.functions()} functions)" for crate, (work, _) in works.items()))
    say("  left: " + " ".join(it for it in plan.below if it not in works and it not in plan.proved))


def prove_libraries(plan, works):
    """Proves all that the program stands on, and says each minute, and with each crate, how far that is."""
    since = told = time.monotonic()
    while len(plan.proved) < len(plan.below) - 1:
        begin(plan, works)
        ended = [it for it, (work, _) in works.items() if work.run.poll() is not None]
        for crate in ended:
            work, _ = works.pop(crate)
            work.end()
            if work.run.returncode:
                fail(work.log, f"{crate} was not proved")
            plan.proved.append(crate)
        if ended or time.monotonic() - told > 60:
            begin(plan, works)
            tell(plan, works, since)
            told = time.monotonic()
        time.sleep(0.2)


def build_program():
    """Proves the program itself, and builds it."""
    say(f"proving {PROGRAM}, the last crate, and building the program")
    log, program, since = ROOMS.parent / "build.log", ROOMS.parent / PROGRAM, time.time()
    with open(log, "wb") as to:
        run = subprocess.Popen(["rt", "run", "--jobs", str(PROCESSORS), "--", "--version"], cwd=TOP / "crates" / PROGRAM, stdin=subprocess.DEVNULL, stdout=to, stderr=to)
        try:
            run.wait()
        finally:
            run.terminate()
            run.wait()
    if run.returncode:
        fail(log, "the program was not built")
    # (`rt` leaves a program as it is where only times have changed)
    os.utime(program, (since, since))


def stop(number, _):
    say("stopped; what was proved is kept")
    sys.exit(128 + number)


def main():
    for it in (signal.SIGINT, signal.SIGTERM, signal.SIGHUP):
        signal.signal(it, stop)
    if not shutil.which("rt"):
        say("there is no `rt` on the path, the command of the Rattle kit")
        sys.exit(1)
    ROOMS.mkdir(parents=True, exist_ok=True)
    one = os.open(ROOMS, os.O_RDONLY)
    try:
        fcntl.flock(one, fcntl.LOCK_EX | fcntl.LOCK_NB)
    except BlockingIOError:
        say("another `gateway prove` is at work here")
        sys.exit(1)
    works = {}
    try:
        for it in filter(pathlib.Path.is_dir, ROOMS.iterdir()):
            put_back(it)
        prove_libraries(Plan(), works)
    finally:
        for work, _ in works.values():
            work.end()
    shutil.rmtree(ROOMS)
    build_program()
    say(f"the program is proved, and stands in crates/{PROGRAM}/out")


if __name__ == "__main__":
    main()
