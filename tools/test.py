#!/usr/bin/env python3
"""Plays every test and every session without proof, as many side by side as there are processors.

    tools/test.py [CRATE ..]      `gateway test`: those of these crates, or else of all that crates.txt names

The tests of a crate are played by `rt try --test`, and a program that has a file stdout by `rt try`, over its files args, stdin and data/: it has
to print that file, and to end as its file status says. The last line is `N passed, M failed`, where a test counts as one, and a program too.
"""
import concurrent.futures, functools, os, pathlib, re, signal, subprocess, sys, threading, time

from prove import TOP, libraries_of, lines_of

PROCESSORS = len(os.sched_getaffinity(0))
# What a try has been seen to take at most, in bytes.
MEMORY = 1_200_000_000
TEST = re.compile(r"#\s*\[\s*test\s*\]")
SECONDS = 400


def say(text):
    print(f"gateway: {text}", file=sys.stderr, flush=True)


def processors():
    """How many tries there is room for at once."""
    found = re.search(r"MemAvailable:\s+(\d+)", pathlib.Path("/proc/meminfo").read_text())
    return max(1, min(PROCESSORS, 1024 * int(found[1]) // MEMORY)) if found else PROCESSORS


def has_tests(folder):
    return any(TEST.search(it.read_text()) for it in (folder / "src").rglob("*.rt"))


def is_played(folder):
    return (folder / "src" / "main.rt").is_file() and (folder / "stdout").is_file()


def plays(wanted):
    """What there is to play, what takes longest to compile first: crates, and whether it is their tests."""
    named = libraries_of()

    @functools.cache
    def stands_on(crate):
        return {crate}.union(*map(stands_on, named[crate]))

    crates = [it for it in named if it in wanted or not wanted]
    found = [(it, True) for it in crates if has_tests(TOP / "crates" / it)]
    found += [(it, False) for it in crates if is_played(TOP / "crates" / it)]
    lines = {it: lines_of(it) for it in named}
    return sorted(found, key=lambda it: -sum(lines[below] for below in stands_on(it[0])))


def words_of(folder, is_test):
    """The command that plays a crate, and what it is handed."""
    words = ["rt", "try", *["--test"] * is_test, "--steps", "1", "--seconds", str(SECONDS)]
    if is_test:
        return words, b""
    data = folder / "data"
    for it in sorted(data.rglob("*")) if data.is_dir() else []:
        if it.is_file():
            words += ["--data", f"{it.relative_to(data)}={it}"]
    args, stdin = (folder / it for it in ("args", "stdin"))
    words += ["--", *args.read_text().splitlines()] if args.is_file() else []
    return words, stdin.read_bytes() if stdin.is_file() else b""


def end_hints(run):
    """Ends the check that `rt try` runs beside a try, which takes half as long again and proves nothing: it looks for reserved names."""
    while run.poll() is None:
        try:
            children = pathlib.Path(f"/proc/{run.pid}/task/{run.pid}/children").read_text().split()
            for it in children:
                if b"\0check\0" in pathlib.Path(f"/proc/{it}/cmdline").read_bytes():
                    os.kill(int(it), signal.SIGKILL)
                    return
        except OSError:
            pass
        time.sleep(0.2)


def play(crate, is_test, running):
    """Plays a crate's tests, or its program. Returns how many passed and failed, and what is to be shown of it."""
    folder = TOP / "crates" / crate
    words, given = words_of(folder, is_test)
    run = subprocess.Popen(words, cwd=folder, stdin=subprocess.PIPE, stdout=subprocess.PIPE, stderr=subprocess.PIPE)
    running.add(run)
    threading.Thread(target=end_hints, args=(run,), daemon=True).start()
    printed, said = run.communicate(given)
    running.discard(run)
    shown = (printed + said).decode(errors="replace").splitlines()
    if is_test:
        found = re.search(rb"(?m)^test result: \w+\. (\d+) passed; (\d+) failed", printed)
        passed, failed = (int(found[1]), int(found[2])) if found else (0, 1)
        return passed, failed or int(run.returncode != 0), shown
    status = folder / "status"
    wanted = status.read_text().strip() if status.is_file() else "0"
    ended = re.search(rb"(?m)^run=ended status=(\d+) ", said)
    is_right = printed == (folder / "stdout").read_bytes() and bool(ended) and ended[1].decode() == wanted
    return int(is_right), int(not is_right), shown


def stop(running):
    """Ends what runs: `rt` ends what it started."""
    for it in [*running]:
        it.terminate()


def play_all(wanted):
    """Plays all, and returns how much passed and failed."""
    left, running, sums = plays(wanted), set(), [0, 0]
    count, since = len(left), time.monotonic()
    say(f"{count} crates are played without proof, {processors()} at a time")
    with concurrent.futures.ThreadPoolExecutor(processors()) as lanes:
        begun = {lanes.submit(play, crate, is_test, running): (crate, is_test) for crate, is_test in left}
        try:
            for at, it in enumerate(concurrent.futures.as_completed(begun), 1):
                crate, is_test = begun[it]
                passed, failed, shown = it.result()
                sums = [sums[0] + passed, sums[1] + failed]
                what = "tests" if is_test else "the program"
                say(f"{at} of {count}, {time.monotonic() - since:.0f} s: {crate}, {what}: {passed} passed, {failed} failed")
                for line in shown[-30:] if failed else []:
                    say(f"    {line}")
        except BaseException:
            lanes.shutdown(wait=False, cancel_futures=True)
            stop(running)
            raise
    return sums


def main():
    for it in (signal.SIGINT, signal.SIGTERM, signal.SIGHUP):
        signal.signal(it, lambda number, _: sys.exit(128 + number))
    unknown = [it for it in sys.argv[1:] if it not in libraries_of()]
    if unknown:
        sys.exit(f"gateway: crates.txt names no crate {', '.join(unknown)}")
    passed, failed = play_all(sys.argv[1:])
    print(f"{passed} passed, {failed} failed")
    return int(failed > 0 or passed == 0)


if __name__ == "__main__":
    sys.exit(main())
