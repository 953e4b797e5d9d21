#!/usr/bin/env python3
"""Tells each link of the repository's pages that leads to no file, or to no head of a page, and each crate without a page; ends with 1 where there is one."""
import pathlib, re, sys

TOP = pathlib.Path(__file__).resolve().parent.parent


def pages():
    return [it for it in TOP.rglob("*.md") if not {".git", "out"} & {*it.relative_to(TOP).parts}]


def anchors(page):
    """The names under which the heads of a page are linked."""
    heads = re.findall(r"^#+ (.*)$", page.read_text(), re.M)
    return {re.sub(r"[^\w\- ]", "", head.lower()).replace(" ", "-") for head in heads}


def leads(page, link):
    """Whether a link of a page leads somewhere; those to other machines are taken to."""
    path, _, head = link.partition("#")
    to = page.parent / path if path else page
    return ":" in link or to.exists() and (not head or head in anchors(to))


def main():
    lost = [f"{page.relative_to(TOP)}: {link}" for page in pages() for link in re.findall(r"\]\(([^)\s]+)\)", page.read_text()) if not leads(page, link)]
    lost += [f"{crate.relative_to(TOP)} has no README.md" for crate in sorted((TOP / "crates").iterdir()) if (crate / "src").is_dir() and not (crate / "README.md").is_file()]
    print("\n".join(lost), end="\n" if lost else "", file=sys.stderr)
    sys.exit(1 if lost else 0)


if __name__ == "__main__":
    main()
