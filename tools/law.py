#!/usr/bin/env python3
"""Writes docs/LAW.md: the definitions that the main theorem rests on, from those of Headline.antt through all that they name.

With --check it writes nothing, and ends with 1 where docs/LAW.md is not what it would write. What a file imports counts only where a definition that
was reached names it. Types of the code are listed apart; of those, invariants and the laws of traits are followed too.
"""
import pathlib, re, sys

TOP = pathlib.Path(__file__).resolve().parent.parent
CRATES = TOP / "crates"
PAGE = TOP / "docs" / "LAW.md"
HEADLINE = CRATES / "gateway_top" / "specs" / "Headline.antt"
BEGINS = re.compile(r"(?:(?:abbrev|unfoldable|pub|record|data|opaque) )+(?P<name>[^\s:{(]+)")
IMPORT = re.compile(r"^\s*(?:ghost )?use (?P<path>Rattle\.\w+\.[\w.«»]+?)(?:\.\{(?P<names>[^}]*)\}| as (?P<alias>\w+))?;?$", re.M)
WORD = re.compile(r"[^\W\d][\w']*(?:\.[\w']+)*")


def target(path):
    """The file that a path leads into, and the name that is left of it; none where it leads into std."""
    _, crate, kind, *rest = path.replace("«", "").replace("»", "").split(".")
    while rest and (CRATES / rest[0]).is_dir():
        crate, *rest = rest
    if not (CRATES / crate).is_dir():
        return None
    if kind != "specs" or rest[:1] == ["contracts"]:
        return None
    if rest[:1] == ["declared"]:
        ends = [at for at in range(len(rest), 1, -1) if source(crate, rest[1:at])]
        return (source(crate, rest[1 : ends[0]]), rest[ends[0]]) if ends and ends[0] < len(rest) else None
    for at in range(len(rest), 0, -1):
        file = CRATES / crate / "specs" / ("/".join(rest[:at]) + ".antt")
        if file.is_file():
            return file, ".".join(rest[at:])
    return None


def source(crate, modules):
    """The file of the code that has this module."""
    found = [CRATES / crate / "src" / ("/".join(modules) + end) for end in (".rt", "/mod.rt")]
    return next((it for it in found if it.is_file()), None)


def imports(text):
    """What names stand for: a name or an alias, and the file and the name in it."""
    found = {}
    for it in IMPORT.finditer(text):
        leads = target(it["path"])
        if not leads:
            continue
        file, inner = leads
        for name in re.split(r",\s*", (it["names"] or "").strip()) if it["names"] else []:
            own, _, called = name.partition(" as ")
            found[called or own] = file, inner or own
        if not it["names"]:
            found[it["alias"] or it["path"].split(".")[-1]] = file, inner
    return found


def blocks(text):
    """The definitions of a file of specs/: by the name of each, and of each constructor and field, its lines."""
    found, above, own = {}, [], None
    for line in text.split("\n"):
        begins = BEGINS.match(line)
        if begins:
            own = [*above, line]
            found[begins["name"]] = own
        elif own is not None and line.strip() and not line.startswith("--"):
            own += [*above, line]
            inner = re.match(r"\s+pub (\w+)", line)
            if inner:
                found.setdefault(inner[1], own)
        above = [*above, line] if line.startswith("--") else []
    return found


def kept(text, name):
    """Of a type of the code, the lines of its invariant and of the laws of its trait."""
    own = rf"^pub (?:struct|enum|trait) {name}\b.*?^}}|^impl[^\n]* Model for {name}\b.*?^}}"
    return [line for it in re.findall(own, text, re.M | re.S) for line in it.split("\n") if re.match(r"\s+ghost (?!use\b)", line)]


class Law:
    """What was reached: by file, its definitions; and the types of the code."""

    def __init__(self):
        self.texts, self.scopes, self.reached, self.cites, self.types = {}, {}, {}, {}, set()
        for name in blocks(HEADLINE.read_text()):
            self.reach(HEADLINE, name)

    def reach(self, file, name):
        """Notes a definition or a type, and goes on with what it names."""
        if file not in self.texts:
            text = file.read_text()
            is_code = file.suffix == ".rt"
            self.texts[file], self.scopes[file] = ({} if is_code else blocks(text)), imports(text)
        if file.suffix == ".rt":
            if (file, name) not in self.types:
                self.types.add((file, name))
                self.follow(file, kept(file.read_text(), name))
            return
        lines = self.texts[file].get(name)
        if lines is not None and not any(lines is it for it in self.reached.get(file, [])):
            self.reached.setdefault(file, []).append(lines)
            self.follow(file, lines)

    def follow(self, file, lines):
        """Reaches all that some lines of a file name."""
        text = "\n".join(line.partition("--")[0] for line in lines)
        text = re.sub(r'"[^"]*"', "", text)
        for word in WORD.findall(text):
            first, _, rest = word.partition(".")
            if first in self.scopes[file]:
                to, name = self.scopes[file][first]
                self.cite(file, to, name or rest.partition(".")[0])
            elif first in self.texts[file]:
                self.reach(file, first)
        for name, (to, own) in self.scopes[file].items():
            if "◌" in name and name.replace("◌", "").strip() in text:
                self.cite(file, to, own)
        for name in self.texts[file]:
            if "◌" in name and name.replace("◌", "") in text:
                self.reach(file, name)

    def cite(self, file, to, name):
        self.cites.setdefault(file, set()).add(to)
        self.reach(to, name)

    def cited_by(self, file):
        """The files that a file cites, itself or by the types that it names."""
        found = set(self.cites.get(file, ()))
        return found.union(*(self.cites.get(it, ()) for it in found if it.suffix == ".rt"))

    def order(self):
        """The files of definitions, each behind those that cite it where that can be."""
        left, found = [it for it in self.reached], []
        while left:
            cited = {to for it in left for to in self.cited_by(it) if to != it}
            free = [it for it in left if it not in cited]
            same = [it for it in free if found and it.parts[-3] == found[-1].parts[-3]]
            found.append((same or free or left)[0])
            left.remove(found[-1])
        return found


def sentence(file):
    """The first sentence of a file."""
    lines = []
    for line in file.read_text().split("\n"):
        if not line.startswith("--"):
            break
        lines.append(line[2:].strip())
    text = " ".join(lines)
    return re.split(r"(?<=[a-z0-9)])\. ", text)[0].rstrip(".")


def row(law, file):
    """The line of a file."""
    path = file.relative_to(TOP)
    mine, all_ = len(law.reached[file]), len({id(it) for it in law.texts[file].values()})
    much = "" if mine == all_ else f" ({mine} of its {all_} definitions)"
    return f"- [`{path.relative_to('crates')}`](../{path}): {sentence(file)}.{much}"


def crate_of(file):
    return file.relative_to(CRATES).parts[0]


def page(law):
    files = law.order()
    lines = sum(len(it) for file in files for it in law.reached[file])
    whole = sum(file.read_text().count("\n") for file in files)
    definitions = sum(len(law.reached[file]) for file in files)
    text = ["# The law", "", "<!-- Written by tools/law.py: change the definitions, and not this page. -->", ""]
    text += ["For those who want to read what the main theorem says, down to its last word; behind this page they know each definition that it rests on. [The theorem](THEOREM.md) says it in plain words, and how to read these files.", ""]
    text += [f"The main theorem, [`Headline.antt`](../{HEADLINE.relative_to(TOP)}), rests on {definitions} definitions: {lines} lines with their comments, in {len(files)} files of {len({crate_of(it) for it in files})} crates, which have {whole} lines in all. Here they are, each file behind those that cite it, so that they can be read from the top. What stands in `specs/` and not here is cited by contracts, by proofs or by other laws alone, or belongs to a crate that no replay needs."]
    text += ["", "`tools/law.py` made this page from the imports, definition by definition, and `tools/law.py --check` tells whether it is still true."]
    last = None
    for file in files:
        if crate_of(file) != last:
            last = crate_of(file)
            text += ["", f"## {last}", ""]
        text.append(row(law, file))
    text += ["", "## Types", "", "The types of the code that these definitions name:", ""]
    for crate in sorted({crate_of(file) for file, _ in law.types}):
        named = sorted((name, file) for file, name in law.types if crate_of(file) == crate)
        text.append(f"- `{crate}`: " + ", ".join(f"[`{name}`](../{file.relative_to(TOP)})" for name, file in named))
    return "\n".join(text) + "\n"


def main():
    text = page(Law())
    if sys.argv[1:] == ["--check"]:
        if not PAGE.is_file() or PAGE.read_text() != text:
            print("docs/LAW.md is not what tools/law.py writes", file=sys.stderr)
            sys.exit(1)
        return
    PAGE.write_text(text)


if __name__ == "__main__":
    main()
