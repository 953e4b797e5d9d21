#!/usr/bin/env python3
"""Draws docs/map.svg from crates.txt: its shelves as rows, its crates as boxes, and the way of one Search as a line through them.

A head of crates.txt, `# Units: Z39.50 as octets`, begins a shelf; `# Laws of units` begins the laws of that shelf, which stand at its end. A box is as
wide as its name, or as its lines of code, definitions and proofs where these take more. With --check it draws nothing, and ends with 1 where
docs/map.svg is not what it would draw; a crate may have grown or shrunk by a tenth, or by 200 lines, since then.
"""
import html, pathlib, re, sys

TOP = pathlib.Path(__file__).resolve().parent.parent
PICTURE = TOP / "docs" / "map.svg"

# The way of one Search: each crate that it comes through, what is done there, at which edges of its box the line comes and goes, and the lane by which
# it goes on to the next: none where that is at the same gap between two shelves, -2 and -1 left of the boxes, 1 to 3 right of them.
WAY = [
    ("serve", "octets are read, and fed to a connection", "top", "top", 0),
    ("front_conn", "a step takes the next unit", "bottom", "top", -2),
    ("z_frame", "which is cut from the stream", "bottom", "bottom", 0),
    ("z_read", "and read as a Search", "bottom", "bottom", -1),
    ("front_session", "the checks: its databases, its operands, limits", "top", "bottom", -1),
    ("package", "a leg is begun for each of its classes", "top", "top", 0),
    ("leg", "does one deed at each turn", "top", "top", 0),
    ("pool_index", "a session is taken, or the place of a new one", "bottom", "top", 0),
    ("z_client", "the search is asked, and looked for", "bottom", "bottom", 0),
    ("test_wire", "a link, here to a test target, which answers", "bottom", "bottom", 1),
    ("leg", "has its hits, then records; gives the session back", "top", "top", 0),
    ("package", "all legs are done: records in merged order", "top", "top", 2),
    ("front_session", "the request is settled, the set is kept", "bottom", "top", 2),
    ("z_write", "the reply is written", "bottom", "bottom", 3),
    ("front_conn", "its mark is listed, its cost summed", "top", "bottom", 0),
    ("serve", "the reply is handed to the client", "top", "top", 0),
]
# The first of these that is on the way back.
BACK = 11

WIDE, LEFT, HIGH, GAP, ROW = 1300, 200, 42, 10, 82
# (right of the boxes of a shelf stand the lanes, and then its laws)
LANES, LAWS = 914, 950
PER_LINE, LETTER = 0.0225, 7.23
PARTS = (("src", ".rt", "#3d6a8a", "code"), ("specs", ".antt", "#d59f3c", "definitions"), ("proofs", ".antt", "#bdb6a6", "proofs"))


def shelves():
    """The shelves of crates.txt in its order: of each the name, what it is for, its crates and the crates of its laws."""
    found = []
    for row in (TOP / "crates.txt").read_text().splitlines()[1:]:
        head = re.match(r"# (?P<name>[^:]+?)(?:: (?P<gloss>.*))?$", row)
        if head and head["name"].startswith("Laws of "):
            crates = found[-1]["laws"]
        elif head:
            found.append({"name": head["name"], "gloss": head["gloss"] or "", "crates": [], "laws": []})
            crates = found[-1]["crates"]
        elif row.strip():
            crates.append(re.match(r"[\w-]+", row)[0])
    return found


def lines_of(crate):
    """How many lines of code, of definitions and of proofs a crate has."""
    files = [[it for it in (TOP / "crates" / crate / part).rglob(f"*{end}")] for part, end, *_ in PARTS]
    return tuple(sum(it.read_bytes().count(b"\n") for it in part) for part in files)


def drawn():
    """The lines that the picture was drawn with, crate by crate."""
    text = PICTURE.read_text() if PICTURE.is_file() else ""
    found = re.findall(r'data-crate="([\w-]+)" data-lines="(\d+) (\d+) (\d+)"', text)
    return {crate: tuple(map(int, lines)) for crate, *lines in found}


def is_near(one, other):
    return all(abs(a - b) <= max(200, a // 10) for a, b in zip(one, other))


def text(x, y, what, kind, **more):
    rest = "".join(f' {key.replace("_", "-")}="{it}"' for key, it in more.items())
    return f'<text class="{kind}" x="{x:.0f}" y="{y:.0f}"{rest}>{html.escape(what)}</text>'


def knot(number, x, y):
    kind = "knot back" if number >= BACK else "knot"
    return [f'<circle class="{kind}" cx="{x}" cy="{y}" r="9"/>', text(x, y + 3.5, str(number), "number", text_anchor="middle")]


def bent(points):
    """A line through points that goes straight up, down or across, with its corners rounded."""
    kept = [it for at, it in enumerate(points) if at == 0 or it != points[at - 1]]
    path = [f"M {kept[0][0]} {kept[0][1]}"]
    for (a, b), (x, y), (c, d) in zip(kept, kept[1:], kept[2:]):
        near = [min(6, (abs(x - to) + abs(y - at)) / 2) for to, at in ((a, b), (c, d))]
        ends = [(x + sign(to - x) * r, y + sign(at - y) * r) for r, (to, at) in zip(near, ((a, b), (c, d)))]
        path.append(f"L {ends[0][0]:.1f} {ends[0][1]:.1f} Q {x} {y} {ends[1][0]:.1f} {ends[1][1]:.1f}")
    return " ".join([*path, f"L {kept[-1][0]} {kept[-1][1]}"])


def sign(number):
    return (number > 0) - (number < 0)


class Picture:
    def __init__(self, lines):
        self.lines, self.boxes, self.at, self.y = lines, [], {}, 84
        for shelf in shelves():
            self.draw_shelf(shelf)

    def width(self, crate):
        return max(len(crate) * LETTER + 18, sum(self.lines[crate]) * PER_LINE + 12)

    def draw_shelf(self, shelf):
        """Puts the crates of a shelf into rows, from the left, and those of its laws behind the first."""
        is_passed = {*shelf["crates"]} & {crate for crate, *_ in WAY} or shelf["laws"]
        room, x = (LANES if is_passed else WIDE) - 12, LEFT
        self.draw_head(shelf)
        over = LAWS
        for crate in shelf["laws"]:
            over = self.draw_box(crate, over, "law")
        for crate in shelf["crates"]:
            if x > LEFT and x + self.width(crate) > room:
                x, self.y = LEFT, self.y + HIGH + 14
            x = self.draw_box(crate, x, "box")
        self.y += ROW

    def draw_head(self, shelf):
        self.boxes.append(text(24, self.y + 16, shelf["name"], "shelf"))
        words, row, y = shelf["gloss"].split(), "", self.y + 31
        for word in [*words, None]:
            if word is None or len(f"{row} {word}") > 22:
                self.boxes.append(text(24, y, row, "gloss"))
                row, y = "", y + 13
            row = f"{row} {word}".strip()

    def draw_box(self, crate, x, kind):
        """Draws a crate, and beneath its name its lines, and gives the place of the next."""
        wide, lines = self.width(crate), self.lines[crate]
        self.at[crate] = x, self.y, wide
        self.boxes.append(f'<g data-crate="{crate}" data-lines="{lines[0]} {lines[1]} {lines[2]}"><title>{crate}: {lines[0]} lines of code, {lines[1]} of definitions, {lines[2]} of proofs</title>')
        self.boxes.append(f'<rect class="{kind}" x="{x:.1f}" y="{self.y}" width="{wide:.1f}" height="{HIGH}" rx="5"/>')
        self.boxes.append(text(x + 9, self.y + 21, crate, "crate"))
        self.draw_bar(x + 6, self.y + HIGH - 10, lines)
        self.boxes.append("</g>")
        return x + wide + GAP

    def draw_bar(self, x, y, lines):
        for much, (_, _, colour, _) in zip(lines, PARTS):
            self.boxes.append(f'<rect x="{x:.1f}" y="{y}" width="{much * PER_LINE:.1f}" height="4" fill="{colour}"/>')
            x += much * PER_LINE

    def knots(self):
        """Where the line comes to its crates: at an edge of each, beside where it comes or came another time."""
        crates, found = [crate for crate, *_ in WAY], []
        for at, (crate, _, edge, _, _) in enumerate(WAY):
            x, y, wide = self.at[crate]
            times, before = crates.count(crate), crates[:at].count(crate)
            found.append((round(x + wide * (before + 1) / (times + 1)), y + (HIGH if edge == "bottom" else 0)))
        return found

    def gap(self, at, edge):
        """The gap between two shelves that is at an edge of a crate of the way: its lower end."""
        return self.at[WAY[at][0]][1] + (ROW if edge == "bottom" else 0)

    def runs(self):
        """The line from knot to knot as runs along gaps: from where to where, at which gap, and the lane that follows."""
        knots, found = self.knots(), []
        for at in range(len(WAY) - 1):
            (x, _), (to, _), lane = knots[at], knots[at + 1], WAY[at][4]
            one, other = self.gap(at, WAY[at][3]), self.gap(at + 1, WAY[at + 1][2])
            over = LANES - 8 + 10 * lane if lane > 0 else LEFT - 8 + 9 * lane
            found.append([(x, over, one), (over, to, other)] if lane else [(x, to, one)])
        return found

    def rails(self):
        """For each run its height: runs that share a gap and a place are given different ones."""
        taken, found = {}, []
        for part in self.runs():
            heights = []
            for x, to, gap in part:
                low, high = min(x, to) - 8, max(x, to) + 8
                rail = next(it for it in range(9) if all(high < a or b < low for a, b in taken.get((gap, it), [])))
                taken.setdefault((gap, rail), []).append((low, high))
                heights.append(gap - 12 - 5 * rail)
            found.append(heights)
        return found

    def thread(self):
        """The line: from knot to knot along gaps and lanes, and through the boxes that it comes to at one edge and leaves at another."""
        knots, found = self.knots(), []
        for at, (part, heights) in enumerate(zip(self.runs(), self.rails())):
            points = [knots[at]]
            for (x, to, _), y in zip(part, heights):
                points += [(x, y), (to, y)]
            kind = "thread back" if at + 2 >= BACK else "thread"
            found.append(f'<path class="{kind}" d="{bent([*points, knots[at + 1]])}"/>')
        return found

    def stations(self):
        found = []
        for number, (x, y) in enumerate(self.knots(), 1):
            found += knot(number, x, y)
        return found

    def legend(self):
        """What the line does at each of its knots, and what the bars are."""
        found, top = [], self.y + 22
        found.append(text(24, self.y, "The way of one Search", "shelf"))
        high = (len(WAY) + 2) // 3
        for at, (crate, what, *_) in enumerate(WAY):
            x, y = 24 + at // high * 424, top + at % high * 22
            found += knot(at + 1, x + 9, y - 4)
            found.append(text(x + 25, y, crate, "crate"))
            found.append(text(x + 32 + len(crate) * LETTER, y, what, "gloss"))
        return found, top + high * 22 + 12

    def key(self):
        """The head of the picture, with what its colours and sizes mean."""
        found = [text(24, 38, "The crates of Zaklumen", "title")]
        x = 24
        for part, (_, _, colour, name) in enumerate(PARTS):
            found.append(f'<rect x="{x}" y="52" width="{1000 * PER_LINE:.1f}" height="4" fill="{colour}"/>')
            found.append(text(x + 29, 57, name if part else "1,000 lines of code", "gloss"))
            x += 29 + 6.4 * len(name if part else "1,000 lines of code") + 18
        found.append(f'<rect class="law" x="{x}" y="47" width="26" height="14" rx="4"/>')
        found.append(text(x + 33, 57, "a crate of laws, which no call runs through", "gloss"))
        return found

    def drawing(self):
        legend, high = self.legend()
        head = [
            f'<svg xmlns="http://www.w3.org/2000/svg" viewBox="0 0 {WIDE} {high}" width="{WIDE}" height="{high}" role="img" aria-label="The crates of Zaklumen by shelves, and the way of one Search through them">',
            "<!-- Drawn by tools/map.py from crates.txt, which also checks that it is still true. -->",
            f"<style>{STYLE}</style>",
            f'<rect width="{WIDE}" height="{high}" rx="8" fill="#fffdf8"/>',
        ]
        return "\n".join([*head, *self.key(), *self.thread(), *self.boxes, *self.stations(), *legend, "</svg>"]) + "\n"


STYLE = """
text { font-family: "DejaVu Sans", Verdana, Helvetica, sans-serif; fill: #2b2b2b }
.title { font-size: 20px; font-weight: bold }
.shelf { font-size: 14px; font-weight: bold }
.gloss { font-size: 11px; fill: #6d675c }
.crate { font-family: "DejaVu Sans Mono", Menlo, Consolas, monospace; font-size: 12px }
.box { fill: #f5efe2; stroke: #cdbf9f }
.law { fill: #edf2f8; stroke: #8ea6c4; stroke-dasharray: 4 3 }
.thread { fill: none; stroke: #c2412d; stroke-width: 2.4; stroke-linecap: round }
.knot { fill: #c2412d; stroke: #fffdf8; stroke-width: 1.5 }
.thread.back { stroke: #1f7a66 }
.knot.back { fill: #1f7a66 }
.number { font-size: 9.5px; font-weight: bold; fill: #ffffff }
"""


def main():
    crates = [it for shelf in shelves() for it in [*shelf["crates"], *shelf["laws"]]]
    lines = {it: lines_of(it) for it in crates}
    if sys.argv[1:] == ["--check"]:
        old = drawn()
        kept = {it: old[it] if it in old and is_near(old[it], lines[it]) else lines[it] for it in crates}
        if not PICTURE.is_file() or PICTURE.read_text() != Picture(kept).drawing():
            print("docs/map.svg is not what tools/map.py draws", file=sys.stderr)
            sys.exit(1)
        return
    PICTURE.write_text(Picture(lines).drawing())


if __name__ == "__main__":
    main()
