#!/usr/bin/env python3
"""Counts what each crate costs in a run of the gate, and writes a table of it in Markdown.

    tools/gate_costs.py [--to FILE] rt ci      runs the gate, and writes the table when it ends (and each minute, where FILE is named)
    tools/gate_costs.py [--to FILE]            counts a run of `rt ci` that goes on in this folder, from now to its end
    tools/gate_costs.py --paths                says only how many paths of crates.txt begin with each crate

It looks twice a second at what the run has started: the processor time of each prover, with that of the copies and compilers that it starts
itself, and the most memory of one process. Run it at the top of the repository.
"""
import os, pathlib, re, subprocess, sys, time
from functools import cache

from prove import libraries_of

TICKS = os.sysconf("SC_CLK_TCK")
KINDS = ("proof", "tests", "edits", "programs")
ROOM = re.compile(r"/rt-run-[^/]+/bin/(\w+?)(_tests)?$")


def words_of(pid):
    try:
        return pathlib.Path(f"/proc/{pid}/cmdline").read_bytes().decode(errors="replace").split("\0")
    except OSError:
        return []


def folder_of(pid):
    try:
        return os.readlink(f"/proc/{pid}/cwd")
    except OSError:
        return ""


class Process:
    """A process as it is now: what started it, when, and its processor seconds with those of its children that have ended."""

    def __init__(self, pid):
        rest = pathlib.Path(f"/proc/{pid}/stat").read_text().rpartition(")")[2].split()
        self.pid, self.parent, self.begun = pid, int(rest[1]), rest[19]
        self.seconds = sum(map(int, rest[11:15])) / TICKS
        found = re.search(r"VmHWM:\s+(\d+)", pathlib.Path(f"/proc/{pid}/status").read_text())
        self.peak = int(found[1]) // 1024 if found else 0


def processes():
    """All processes by their numbers."""
    found = {}
    for it in filter(str.isdigit, os.listdir("/proc")):
        try:
            found[int(it)] = Process(int(it))
        except (OSError, IndexError):
            pass
    return found


def task_of(pid):
    """The crate that a process works for, and how: a prover, or a program or tests that are run. Nothing for any other."""
    words = words_of(pid)
    if os.path.basename(words[0] if words else "") == "rattle" and "--crate-name" in words:
        is_edit = re.search(r"/rt-edit-[^/]*", folder_of(pid))
        kind = "edits" if is_edit else "tests" if "--test" in words else "programs" if "--crate-checked" in words else "proof"
        return words[words.index("--crate-name") + 1], kind
    rooms = [found for it in words if (found := ROOM.search(it))]
    return (rooms[0][1], "tests" if rooms[0][2] else "programs") if rooms else None


class Run:
    """A prover or a program with all that it starts: its task, and what it has cost so far."""

    def __init__(self, task):
        self.task, self.since, self.seconds, self.peak = task, time.time(), 0, 0
        self.until = self.since

    def look(self, inside):
        """Adds what these processes have cost by now. What has ended is counted by what waited for it."""
        self.seconds = max(self.seconds, sum(it.seconds for it in inside))
        self.peak = max(self.peak, *(it.peak for it in inside))
        self.until = time.time()


class Costs:
    """What was seen of a run of the gate."""

    def __init__(self, pid):
        self.pid, self.runs, self.since = pid, {}, time.time()

    def look(self):
        """Looks at all that the gate has started, and says whether it still runs."""
        alive = processes()
        below = {}
        for it in alive.values():
            below.setdefault(it.parent, []).append(it)
        left = list(below.get(self.pid, []))
        while left:
            it = left.pop()
            key = it.pid, it.begun
            task = self.runs[key].task if key in self.runs else task_of(it.pid)
            if task:
                self.runs.setdefault(key, Run(task)).look(tree(it, below))
            else:
                left += below.get(it.pid, [])
        return self.pid in alive

    def seconds(self, crate, kind):
        return sum(it.seconds for it in self.runs.values() if it.task == (crate, kind))

    def clock(self, crate, kind):
        """How long a crate's runs of a kind took by the clock, one after another."""
        return sum(it.until - it.since for it in self.runs.values() if it.task == (crate, kind))


def tree(process, below):
    """A process and all that it started."""
    return [process] + [more for it in below.get(process.pid, []) for more in tree(it, below)]


def chain_of(named, cost):
    """The longest chain of what waits for another: proofs for those below, tests too, and edits for both. Its cost, and its crates."""

    @cache
    def proof(crate):
        before = max((proof(it) for it in named[crate]), default=(0, []))
        return before[0] + cost(crate, "proof") + cost(crate, "programs"), before[1] + [crate]

    def whole(crate):
        before = max((proof(it) for it in named[crate]), default=(0, []))
        tests = before[0] + cost(crate, "tests"), before[1] + [f"tests of {crate}"]
        checked = max(proof(crate), tests)
        edits = cost(crate, "edits")
        return (checked[0] + edits, checked[1] + [f"edits of {crate}"]) if edits else checked

    return max(whole(it) for it in named)


def paths_of(named):
    """How many paths of crates.txt begin with each crate: so often does `rt` sum up sources for it."""

    @cache
    def paths(crate):
        return 1 + sum(paths(it) for it in named[crate])

    return {it: paths(it) for it in named}


def edges_of(named, top):
    """The rows' words that lie on most paths from a crate: how many, the crate, and the library that it names."""
    paths, ways = paths_of(named), dict.fromkeys(named, 0)
    ways[top] = 1
    for crate in sorted(named, key=lambda it: -paths[it]):
        for it in named[crate]:
            ways[it] += ways[crate]
    return sorted(((ways[crate] * paths[it], crate, it) for crate in named for it in named[crate]), reverse=True)


def paths_table(named):
    """What is to be said of paths, in Markdown."""
    paths = paths_of(named)
    most = sorted(paths, key=lambda it: -paths[it])
    lines = [f"Paths of crates.txt: {paths[most[0]]:,} from `{most[0]}`; " + ", ".join(f"{paths[it]:,} from `{it}`" for it in most[1:6]) + "."]
    lines += ["", "| Named by | Library | Paths from the first of these |", "|---|---|---|"]
    return "\n".join(lines + [f"| `{crate}` | `{it}` | {count:,} |" for count, crate, it in edges_of(named, most[0])[:12]])


def table(costs, named, ended=""):
    """The table, and what is to be said below it."""
    sums = {it: [costs.seconds(it, kind) / 60 for kind in KINDS] for it in named}
    longest = {it: max((run.until - run.since for run in costs.runs.values() if run.task[0] == it), default=0) / 60 for it in named}
    peaks = {it: max((run.peak for run in costs.runs.values() if run.task[0] == it), default=0) for it in named}
    lines = ["| Crate | Proof | Tests | Edits | Programs | Total | Longest run | Peak MB |", "|---|---|---|---|---|---|---|---|"]
    for it in sorted(named, key=lambda it: -sum(sums[it])):
        lines.append(f"| `{it}` | " + " | ".join(f"{m:.1f}" if m else "" for m in sums[it]) + f" | {sum(sums[it]):.1f} | {longest[it]:.1f} | {peaks[it]} |")
    every = [sum(it[at] for it in sums.values()) for at in range(len(KINDS))]
    lines.append("| All | " + " | ".join(f"{m:.1f}" for m in every) + f" | {sum(every):.1f} | {max(longest.values()):.1f} | {max(peaks.values())} |")
    lines += ["", f"Processor minutes; the longest run of one prover in minutes by the clock. {(time.time() - costs.since) / 60:.1f} minutes by the clock on {len(os.sched_getaffinity(0))} processors. {ended}".rstrip(), ""]
    for what, cost in (("in processor minutes", costs.seconds), ("by the clock", costs.clock)):
        length, crates = chain_of(named, cost)
        lines.append(f"The longest chain {what}: {length / 60:.1f}, by {', '.join(f'`{it}`' for it in crates)}.\n")
    return "\n".join(lines) + "\n" + paths_table(named) + "\n"


def gate_here():
    """The number of the `rt ci` that runs in this folder, and not of a copy that it has just made of itself."""
    alive, found = processes(), set()
    for it in alive:
        words = words_of(it)
        if "ci" in words[1:] and any(os.path.basename(word) == "rt" for word in words) and folder_of(it) == os.getcwd():
            found.add(it)
    first = [it for it in found if alive[it].parent not in found]
    return first[0] if first else sys.exit("no `rt ci` runs in this folder: tools/gate_costs.py rt ci starts one")


def main(words):
    named = libraries_of()
    if words == ["--paths"]:
        print(paths_table(named))
        return 0
    to = pathlib.Path(words[1]) if words[:1] == ["--to"] and len(words) > 1 else None
    words = words[2:] if to else words
    run = subprocess.Popen(words) if words else None
    costs, told = Costs(run.pid if run else gate_here()), time.time()
    while costs.look() and (run is None or run.poll() is None):
        if to and time.time() - told > 60:
            to.write_text(table(costs, named))
            told = time.time()
        time.sleep(0.5)
    ended = ""
    if run:
        run.wait()
        own = os.times()
        ended = f"The command ended with {run.returncode}, and took {(own.children_user + own.children_system) / 60:.1f} processor minutes in all."
    text = table(costs, named, ended)
    to.write_text(text) if to else print(text)
    return run.returncode if run else 0


if __name__ == "__main__":
    sys.exit(main(sys.argv[1:]))
