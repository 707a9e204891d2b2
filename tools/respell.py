#!/usr/bin/env python3
"""Brings the names of definitions and lemmas to today's spelling: words in snake case, `′` as `'`.

Run it once, at the top, after the toolchain's own script. It renames what crates/*/specs and crates/*/proofs declare under
a name with a capital inside it or a dash (mayGo, flows-trans), in definitions, laws, proofs and contracts, and in the pages
where such a name stands alone in code. Types and modules keep their names, and so do functions of src/ and what
the toolchain makes of them. A law that would take the name of a definition ends in `_lem`.
"""
import os
import re

WORD = re.compile(r"[A-Za-z_][A-Za-z0-9_\-'′₀-₉]*")
DECLARED = re.compile(
    r"^\s*(?:pub\s+)?(?:abbrev\s+|unfoldable\s+|record\s+|data\s+)*(?:pub\s+)?([^\s:(){}.,=λ;]+)\s*(?:\{[^}]*\}\s*)?:(?!=)"
)
# A law whose name in snake case is a word of the library that stands beside it.
APART = {"bit-and": "bit_of_and", "bit-or": "bit_of_or", "bit-xor": "bit_of_xor"}
# Operators that are words, and what several names to a line, a word brought in under another name or a proof alone declares.
OTHERS = {
    "andThen": "and_then",
    "orElse": "or_else",
    "endUpcall": "end_upcall",
    "setPair": "set_pair",
    "readClock": "read_clock",
    "gateReturn": "gate_return",
    "loadWord": "load_word",
    "lessThan": "less_than",
    "taskAt": "task_at",
}
# Laws that had their names in snake case already, which a definition takes now: the file that declares each.
TAKEN = {
    "kept_pair": "crates/changes/proofs/Calling.antt",
    "seen_by": "crates/model/proofs/Sight.antt",
    "is_digit": "crates/reader/proofs/Loops.antt",
    "same_row": "crates/model/proofs/PairTest.antt",
    "no_record": "crates/record_calls/proofs/Laws.antt",
    "number_size": "crates/texts/proofs/Text.antt",
    "entry_seen": "crates/texts/proofs/Listing.antt",
    "same_seen": "crates/noninterference/proofs/Paths.antt",
}


def files(root, endings):
    """The files below a folder with one of these endings, but for what the toolchain makes."""
    for folder, below, names in os.walk(root):
        below[:] = sorted(b for b in below if b != "out")
        for name in sorted(names):
            if name.endswith(endings):
                yield os.path.join(folder, name)


def snake(name):
    """The name in snake case."""
    name = name.replace("′", "'")
    name = re.sub(r"(?<=[a-z0-9])([A-Z])", lambda m: "_" + m.group(1).lower(), name)
    name = re.sub(r"(?<=_[a-z])([A-Z])(?=_|$|-)", lambda m: "_" + m.group(1).lower(), name)
    return name.replace("-", "_")


def declared():
    """Each name that a definition or a law has, and the files that declare it."""
    found = {}
    for path in files("crates", (".antt",)):
        with open(path, encoding="utf-8") as text:
            for line in text:
                match = DECLARED.match(line)
                if match and not match.group(1).startswith("--"):
                    found.setdefault(match.group(1), set()).add(path)
    return found


def renamings(found):
    """What each name becomes."""
    by_hand = {n for n, paths in found.items() if all(p.endswith("/Proof.antt") for p in paths)}
    old = [n for n in found if not n[0].isupper() and n not in by_hand and snake(n) != n]
    definitions = {snake(n) for n in old if "-" not in n} | {n for n in found if n not in by_hand}
    result = dict(OTHERS)
    for name in old:
        new = APART.get(name) or snake(name)
        if "-" in name and name not in APART and new in definitions:
            new += "_lem"
        result[name] = new
    return result


def respelled(text, renamed, path):
    """A file's text with the names in today's spelling. A step of a generated proof keeps its name: it follows a dot."""

    def one(match):
        word = match.group(0)
        if word not in renamed:
            return word
        after_dot = match.start() > 0 and text[match.start() - 1] == "."
        if path.endswith("/Proof.antt") and "-" in word and after_dot:
            return word
        return renamed[word]

    return WORD.sub(one, text)


def imports(text, name, module):
    """Whether a file takes this name from this module."""
    return any(
        re.search(r"(?<![\w'-])" + name + r"(?![\w'-])", items)
        for items in re.findall(r"use " + re.escape(module) + r"\.\{([^}]*)\}", text)
    )


def module_of(path):
    """The name under which other files take something from this one."""
    parts = path[: -len(".antt")].split("/")
    return ".".join(["Rattle"] + parts[1:])


def rewrite(path, change):
    """Changes a file's text, where that makes a difference."""
    with open(path, encoding="utf-8") as text:
        old = text.read()
    new = change(old)
    if new != old:
        with open(path, "w", encoding="utf-8") as text:
            text.write(new)


def free_taken_names(found):
    """Gives the laws whose names a definition takes another name."""
    for name, home in TAKEN.items():
        if home not in found.get(name, ()):
            continue
        whole = re.compile(r"(?<![\w'.-])" + name + r"(?![\w'-])")
        for path in files("crates", (".antt",)):
            with open(path, encoding="utf-8") as text:
                mine = path == home or imports(text.read(), name, module_of(home))
            if mine:
                rewrite(path, lambda text: whole.sub(name + "_lem", text))


def main():
    found = declared()
    renamed = renamings(found)
    free_taken_names(found)
    for path in files("crates", (".antt", ".rt")):
        rewrite(path, lambda text: respelled(text, renamed, path))
    # The toolchain's script has turned some names in the definitions alone.
    now = set(found) | set(renamed.values())
    in_code = re.compile(r"`([A-Za-z_][A-Za-z0-9_\-'′]*)`")

    def in_page(match):
        name = match.group(1)
        if name not in found and snake(name) in now:
            name = snake(name)
        return "`" + renamed.get(name, name) + "`"

    for path in list(files("docs", (".md",))) + ["README.md"]:
        rewrite(path, lambda text: in_code.sub(in_page, text))
    print(f"respell: {len(renamed)} names")


main()
