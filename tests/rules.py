#!/usr/bin/env python3
"""Sees that the pages of the project name nothing that is not there. In docs/*.md and README.md, between backquotes or not, every path must exist, as it
stands, below crates/ or in some crate; every name behind a path (`senders/specs/Record.antt: is_live, is_qualified`) must be defined in that file;
every `crate::module::name` must be an item of that crate. A part of a path in CAPITALS stands for any name; what is built (target/), and a file with
a line behind it (`src/protocol.c:3580`), which is another project's, are not asked for. In docs/RULES.md, what stands behind Definition, Contract and
Theorem must be of the second form, each rule has an id of its own, and ids that are cited exist; so do the numbers of readings. The page of the day
in README.md is the one that is printed."""
import pathlib
import re
import sys

ROOT = pathlib.Path(__file__).resolve().parent.parent
CRATES = sorted(p.name for p in (ROOT / "crates").iterdir())
PLACES = {"crates", "docs", "tests", "examples", "include", "second", "speak", "bench", ".ci", "src", "specs", "proofs", "must-fail", "edits", *CRATES}
SPAN = re.compile(r"`([^`]+)`")
NAMED = re.compile(r"([\w./-]+/[\w./-]+): (.+)")
PATH = re.compile(r"(?<![\w./-])\.?[\w-]+(?:/[\w.*-]+)+/?|(?<![\w./-])[\w-]+/(?![\w.*(-])")
FILE = re.compile(r"\.(?:antt|rt|rs|md|py|h|c|txt|edit)$")
ITEM = re.compile(r"([a-z_]+)(?:::[A-Za-z_0-9]+)+")


def found(path):
    """The files and folders that a path names: from the top, below crates/, or in some crate."""
    path = path.rstrip("/")
    return [hit for start in ("", "crates/", "crates/*/") for hit in ROOT.glob(start + path)]


def defines(text, name):
    """Whether a file defines a name: a function, type, field of a record or constant of Rattle, or a definition, record or theorem of antt."""
    word = re.escape(name)
    return re.search(rf"(?:fn|struct|enum|const|mod) {word}\b|^\s*(?:abbrev |unfoldable )?(?:pub )?(?:record |data )?{word}(?=[ :])", text, re.M)


class Page:
    """A page, and what is wrong with it."""

    def __init__(self, file):
        self.name = str(file.relative_to(ROOT))
        self.text = file.read_text()
        self.wrong = []
        self.seen = 0

    def miss(self, what):
        self.wrong.append(f"{self.name}: {what}")

    def path(self, path):
        """A path that must exist."""
        self.seen += 1
        if not found(path):
            self.miss(f"no such file or folder: {path}")

    def names(self, path, names):
        """Names that some file of that path must define."""
        texts = [f.read_text() for f in found(path) if f.is_file()]
        if not texts:
            self.miss(f"no such file: {path}")
        for name in names:
            self.seen += 1
            if texts and not any(defines(t, name) for t in texts):
                self.miss(f"not defined in {path}: {name}")

    def item(self, path):
        """An item of a crate of the project, by its path."""
        crate, *_, name = path.split("::")
        if crate in CRATES:
            self.names(f"{crate}/src/*.rt", [name])

    def span(self, span):
        """What stands between backquotes."""
        named = NAMED.fullmatch(span)
        if named and found(named[1]):
            self.names(named[1], re.split(r", *", named[2]))
        elif named and re.search(r"\.\w+$", named[1]):
            self.miss(f"no such file: {named[1]}")
        for path in ITEM.finditer(span):
            self.item(path[0])

    def check(self):
        prose = re.sub(r"^(?: {4}|\t).*$|^```.*?^```$", "", self.text, flags=re.M | re.S if "```" in self.text else re.M)
        for span in SPAN.findall(prose):
            self.span(span)
        for path in PATH.finditer(prose):
            if re.match(r":\d", prose[path.end() :]):
                continue
            parts = path[0].rstrip(".").split("/")
            ours = parts[0] in PLACES or FILE.search(parts[-1]) or not {"src", "specs", "proofs"}.isdisjoint(parts)
            if ours and not any(re.fullmatch(r"[A-Z]+|target", part) for part in parts):
                self.path("/".join(parts))


def rules(page):
    """docs/RULES.md besides: ids, and the form of what holds a rule."""
    ids = re.findall(r"^#### ([A-Z]\d+) ", page.text, re.M)
    for twice in {i for i in ids if ids.count(i) > 1}:
        page.miss(f"an id twice: {twice}")
    for line in re.findall(r"^- \*(?:Definition|Contract|Theorem)\*: (.*)$", page.text, re.M):
        for span in SPAN.findall(line):
            if not NAMED.fullmatch(span) and not span.startswith("&"):
                page.miss(f"not a file with names: {span}")
    return set(ids)


def readings(page):
    """docs/DECISIONS.md besides: the numbers of the readings, each once."""
    numbers = re.findall(r"^- \*\*(\d+)\.\*\*", page.text, re.M)
    for twice in {n for n in numbers if numbers.count(n) > 1}:
        page.miss(f"a reading twice: {twice}")
    return set(numbers)


def day(page):
    """README.md besides: the day's page stands in it as it is printed."""
    printed = (ROOT / "crates/day/stdout").read_text()
    if "".join(f"    {line}".rstrip() + "\n" for line in printed.splitlines()) not in page.text:
        page.miss("the day's page is not the one in crates/day/stdout")


def main():
    pages = [Page(f) for f in [*sorted((ROOT / "docs").glob("*.md")), ROOT / "README.md"]]
    by_name = {page.name: page for page in pages}
    ids = rules(by_name["docs/RULES.md"])
    read = readings(by_name["docs/DECISIONS.md"])
    day(by_name["README.md"])
    for page in pages:
        page.check()
        for cited in re.findall(r"\brules? ([A-Z]\d+)\b", page.text):
            if cited not in ids:
                page.miss(f"no such rule: {cited}")
        for cited in re.findall(r"\breadings? (\d+)\b", page.text):
            if cited not in read:
                page.miss(f"no such reading: {cited}")
    wrong = [w for page in pages for w in page.wrong]
    print(f"{sum(page.seen for page in pages)} paths and names, {len(ids)} rules, {len(wrong)} not found")
    print("\n".join(wrong))
    return 1 if wrong or not ids else 0


if __name__ == "__main__":
    sys.exit(main())
