#!/usr/bin/env python3
"""Spells the repository's own definitions and lemmas as today's Rattle spells them: words in snake case, no dash and no capital inside.

usage: tools/respell.py        at the top of the repository, once, after the kit's port.py

What is declared in specs/ and in the lemma files of proofs/ gets its new name there, in proofs, in the clauses of src/ and in comments. A lemma whose name
would be that of a definition gets `_lem`. Names of Rust, of the kit's library and those that the check makes stay. It prints what it renamed, and where a
new name stood already.
"""
import collections
import glob
import os
import re

NAME = r'[^\s(){}.;,@"«»:]+'
WORDS = re.compile(r'[^\s(){}.;,@"«»]+')
DECLARED = re.compile(r"\s*(?:(?:pub|abbrev|opaque|unfoldable|instance)\s+)*(" + NAME + r")(?: \{[^{}]*\})*\s*:(\s|$)")


def of_function(path):
    """Whether a file is a function's own proof, whose names are the check's."""
    return os.path.basename(path) == "Proof.antt"


def read(path):
    with open(path, encoding="utf-8") as it:
        return it.read()


def proof_files():
    found = glob.glob("crates/*/specs/**/*.antt", recursive=True) + glob.glob("crates/*/proofs/**/*.antt", recursive=True)
    return sorted(p for p in found if "/out/" not in p)


def declared(files):
    """Each declared name with the files that declare it."""
    names = collections.defaultdict(set)
    for path in files:
        if of_function(path):
            continue
        for line in read(path).splitlines():
            m = DECLARED.match(line)
            if m and not line.strip().startswith("--"):
                names[m[1]].add(path)
    return names


def in_snake_case(name):
    return re.sub(r"(?<=[a-z0-9])[A-Z]", lambda m: "_" + m[0].lower(), name).replace("-", "_")


def new_names(names):
    """The new name of each that changes."""
    to = {n: in_snake_case(n) for n in names if n[0].islower() and in_snake_case(n) != n}
    taken = {n for n in names if n not in to}
    for name in sorted(to):
        if "-" not in name:
            taken.add(to[name])
    for name in sorted(to):
        if "-" in name and to[name] in taken:
            to[name] += "_lem"
    # a lemma that has the name of a definition of its files already
    to["kept_of"] = "kept_of_lem"
    return to


def from_library(text):
    """What a file imports from the kit's libraries."""
    own = set()
    for m in re.finditer(r"\buse ([^\s;{]+)\.\{([^}]*)\}", text):
        if not m[1].startswith("Rattle.") or m[1].startswith(("Rattle.std", "Rattle.core")):
            own |= set(re.split(r"[,\s]+", m[2]))
    return own


def respelled(path, text, to):
    stay = from_library(text)
    source, own = path.endswith(".rt"), of_function(path)

    def words(line, comment):
        def turn(m):
            word, at = m[0], m.start()
            bare = word.rstrip(":!?'*").lstrip("`'*") if comment else word
            bare = bare.strip("`") if comment else bare
            if bare not in to or bare in stay:
                return word
            dashed = "-" in bare
            before = line[at - 1] if at else ""
            if dashed and own and before == "." and not line.lstrip().startswith(("use ", "pub use ")):
                return word
            if dashed and source and not comment and "ghost use" not in line:
                return word
            if comment and dashed and not ("`" in word or re.search(r"\.antt: [^`]*$", line[:at]) or line[: at].count("`") % 2):
                return word
            return word.replace(bare, to[bare])

        return WORDS.sub(turn, line)

    mark = "//" if source else "--"
    out = []
    for line in text.split("\n"):
        at = line.find(mark)
        if at < 0:
            out.append(words(line, False))
        else:
            out.append(words(line[:at], False) + words(line[at:], True))
    return "\n".join(out)


def main():
    files = proof_files()
    names = declared(files)
    to = new_names(names)
    sources = sorted(p for p in glob.glob("crates/*/src/**/*.rt", recursive=True))
    for path in files + sources:
        text = read(path)
        there = set(WORDS.findall(re.sub(r"--.*", "", text)))
        for old, new in to.items():
            if old in there and new in there and not path.endswith(".rt"):
                print(f"look: {path}: {old} -> {new}, which stands there")
        turned = respelled(path, text, to)
        if turned != text:
            with open(path, "w", encoding="utf-8") as it:
                it.write(turned)
    for old, new in sorted(to.items()):
        print(f"{old} -> {new}")


if __name__ == "__main__":
    main()
