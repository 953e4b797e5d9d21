#!/usr/bin/env python3
"""Tries wrong bodies: plants each on a copy of the repository, and has `rt must-fail` say whether the contracts refuse it.

    tools/try_edit.py CRATE NAME      one, of edits/CRATE or of crates/CRATE/must-fail
    tools/try_edit.py CRATE           those of a crate, each over what the checks before it proved
    tools/try_edit.py --all           all, crate by crate
    tools/try_edit.py [--stale]       tries none, and names each whose text no longer stands once in its file

Libraries that are proved in the repository are taken from there, and others are proved in the copy: so run `./gateway prove` first. Of an edit
with a line `session: NAME` no check is made: that session of gateway_sessions has to print another page; nor of one with `tests: CRATE ..`: a test
of each of these crates has to fail. Ends with 1 where one is not refused.
"""
import os, pathlib, shutil, signal, subprocess, sys, tempfile

from prove import TOP, link

PARTS = ("src", "specs", "proofs")
SESSIONS = "gateway_sessions"


def edits():
    """The file of each edit, by its crate and name."""
    found = [(it.parts[-2], it) for it in TOP.glob("edits/*/*.edit")]
    found += [(it.parts[-3], it) for it in TOP.glob("crates/*/must-fail/*.edit")]
    return {(crate, it.stem): it for crate, it in sorted(found)}


def text_of(crate, path):
    """The text of a file of a crate, or of one of the benches' crates, whose files have one more ending."""
    for it in (TOP / "crates" / crate / path, TOP / "bench" / "crates" / crate / f"{path}.txt"):
        if it.is_file():
            return it.read_text()
    return ""


def planted(crate, edit):
    """The texts of the files that an edit changes, or nothing where a text of it does not stand once, after the pairs before it."""
    texts, path, old = {}, None, ""
    for line in edit.read_text().split("\n"):
        word, _, rest = line.partition(":")
        rest = rest.removeprefix(" ")
        if word == "file":
            path = rest.strip()
            texts.setdefault(path, text_of(crate, path))
        elif word == "old":
            old = rest
        elif word == "new":
            if texts[path].count(old) != 1:
                return {}
            texts[path] = texts[path].replace(old, rest)
    return texts


def named_by(edit, word):
    """What an edit names behind a word, a session or crates of tests, or nothing."""
    return next((line.partition(": ")[2] for line in edit.read_text().split("\n") if line.startswith(f"{word}: ")), "")


def copy(room):
    """Gives the crates, those of the benches too, a second place, with the libraries that are proved."""
    for it in filter(pathlib.Path.is_dir, (TOP / "crates").iterdir()):
        to = room / "crates" / it.name
        for part in (*PARTS, *(["data"] if it.name == SESSIONS else []), "out/rlib"):
            if (it / part).is_dir():
                link(it / part, to / part, [])
    for it in (TOP / "bench" / "crates").glob("*/*/**/*.txt"):
        to = room / it.relative_to(TOP / "bench").with_suffix("")
        to.parent.mkdir(parents=True, exist_ok=True)
        os.link(it, to)
    shutil.copy(TOP / "HANDLES", room)
    rows = [(TOP / it).read_text() for it in ("crates.txt", "bench/crates/list.txt")]
    (room / "crates.txt").write_text("".join(rows))


def lines_with(room, crate, edit, folder, words):
    """What `rt try` prints in a folder of the copy with an edit planted, without proof."""
    texts = planted(crate, edit)
    for path, text in texts.items():
        write(room / "crates" / crate / path, text)
    run = subprocess.run(["rt", "try", *words], cwd=folder, stdin=subprocess.DEVNULL, stdout=subprocess.PIPE, stderr=subprocess.DEVNULL, text=True)
    for path in texts:
        write(room / "crates" / crate / path, text_of(crate, path))
    return run.stdout.split("\n")


def changes_its_page(room, crate, edit):
    """Whether the session that an edit names prints another page with it."""
    name, folder = named_by(edit, "session"), room / "crates" / SESSIONS
    data = [word for it in (folder / "data" / name).iterdir() for word in ("--data", f"{name}/{it.name}={it}")]
    is_other = name in lines_with(room, crate, edit, folder, data)
    print(f"session {name} with {crate}/{edit.name}: " + ("another page, as it must be" if is_other else "NOT REFUSED: its own page, or none"), flush=True)
    return is_other


def fails_the_tests(room, crate, edit, name):
    """Whether a test of a crate fails with an edit."""
    lines = lines_with(room, crate, edit, room / "crates" / name, ["--test"])
    failed = [line.split(" ")[1] for line in lines if line.startswith("test ") and line.endswith(" FAILED")]
    print(f"tests of {name} with {crate}/{edit.name}: " + (f"{', '.join(failed)} failed, as it must be" if failed else "NOT REFUSED"), flush=True)
    return bool(failed)


def write(file, text):
    """Writes a file of the copy, whose name is one of two names of the repository's own."""
    file.unlink()
    file.write_text(text)


def are_refused(room, crate, files):
    """Whether each of these edits of a crate is refused."""
    planned = [it for it in files if not named_by(it, "session") and not named_by(it, "tests")]
    well = [changes_its_page(room, crate, it) for it in files if named_by(it, "session")]
    well += [fails_the_tests(room, crate, it, name) for it in files for name in named_by(it, "tests").split()]
    if planned:
        folder = room / "crates" / crate / "must-fail"
        folder.mkdir()
        for it in planned:
            shutil.copy(it, folder)
        well.append(subprocess.run(["rt", "must-fail", crate], cwd=room, stdin=subprocess.DEVNULL).returncode == 0)
        shutil.rmtree(folder)
    return all(well)


def try_all(wanted):
    """Whether these edits are refused, crate by crate."""
    out = TOP / "crates" / "gateway_program" / "out"
    out.mkdir(exist_ok=True)
    with tempfile.TemporaryDirectory(dir=out, prefix="edits-") as room:
        room = pathlib.Path(room)
        copy(room)
        crates = dict.fromkeys(crate for crate, _ in wanted)
        return all([are_refused(room, it, [file for (crate, _), file in wanted.items() if crate == it]) for it in crates])


def main(words):
    found = edits()
    if words in ([], ["--stale"]):
        stale = [f"{crate}/{name}" for (crate, name), file in found.items() if not planted(crate, file)]
        print("\n".join(stale) or f"{len(found)} edits stand in the code")
        return bool(stale)
    wanted = {it: file for it, file in found.items() if words == ["--all"] or list(it[: len(words)]) == words}
    if not wanted:
        sys.exit(f"there is no edit {'/'.join(words)}: edits/CRATE/NAME.edit or crates/CRATE/must-fail/NAME.edit")
    for it in (signal.SIGTERM, signal.SIGHUP):
        signal.signal(it, lambda number, _: sys.exit(128 + number))
    return not try_all(wanted)


if __name__ == "__main__":
    sys.exit(main(sys.argv[1:]))
