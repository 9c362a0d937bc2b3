#!/usr/bin/env python3
"""Spells the repository's own definitions and lemmas in snake case, in proofs, contracts, edits and documents.

usage: python3 tools/respell.py          at the top of the repository, once, after port.py
       python3 tools/respell.py --look   prints the names that would fall together, and writes nothing

A name with a capital or a dash inside, that the repository's .antt files declare or bind outside the proofs of single
functions, gets underscores: leastCutOf-value becomes least_cut_of_value. A name that is imported from the library
keeps its spelling, and so does every name of src/ and every name that the toolchain makes.
"""

import collections
import os
import re
import sys

# Names that would fall together with another. Where a definition and its lemma do, the lemma gets _lem, as in the library:
# the dashed ones by rule, and these, which port.py spelled.
LEMMAS = {
    "crates/network/specs/laws/NetworkLaws.antt": ["link_fits"],
    "crates/network_file/specs/laws/ReadingSteps.antt": ["size_in"],
    "crates/plan/specs/laws/ShapeLaws.antt": ["step_fits"],
    "crates/listing/specs/laws/LengthLaws.antt": ["pair_line", "pairs_of"],
}
APART = {
    "Cut-tree": "IsCutTree",
    "on-path": "is_on_path",
    "reading-of": "reading_from",
}
TOKEN = re.compile(r"[^\s(){}\[\].,;@«»|`]+")
USE = re.compile(r"use ([^\s;{]+)\.\{([^}]*)\}", re.M)
OF_A_FUNCTION = re.compile(r"/proofs/.*/Proof\.antt$")
DASH = re.compile(r"[A-Za-z0-9_'*+]-[A-Za-z0-9_*+]")
CAMEL = re.compile(r"(?:^|-)[a-z][a-z0-9]*[A-Z]")


def is_old(word):
    return bool(DASH.search(word) or CAMEL.search(word))


def respelled(word):
    if word in APART:
        return APART[word]
    parts = []
    for part in word.split("-"):
        if not part[:1].isupper():
            part = re.sub(r"(?<=[a-z0-9])([A-Z])", lambda m: "_" + m[1].lower(), part)
        parts.append(part)
    if parts[0][:1].isupper() and all(p.islower() for p in parts[1:]):
        return parts[0] + "".join(p.capitalize() for p in parts[1:])
    return "_".join(parts)


def without_comments(text):
    return re.sub(r"--.*", "", text)


def files(ends, top="crates"):
    for folder, dirs, names in os.walk(top):
        dirs[:] = sorted(d for d in dirs if d not in ("out", "target", ".git"))
        for name in sorted(names):
            if name.endswith(ends):
                yield os.path.join(folder, name)


def read(path):
    with open(path, encoding="utf-8") as f:
        return f.read()


def gathered():
    """The old names of the repository and the file's words, by file."""
    library, words = set(), {}
    for path in files(".antt"):
        text = without_comments(read(path))
        for module, names in USE.findall(text):
            if re.match(r"Rattle\.(std|core)\b|(?!Rattle\.)", module):
                library.update(n.strip() for n in names.split(","))
        words[path] = set(TOKEN.findall(text))
    own = set()
    for path, found in words.items():
        if not OF_A_FUNCTION.search(path):
            own.update(w for w in found if is_old(w))
    return own - library, words


def turned(text, table, of_a_function):
    def new(m):
        word = m[0]
        if word not in table:
            return word
        before = text[m.start() - 1] if m.start() else ""
        if before == "." and of_a_function and not re.search(r"\.(specs|proofs)\.[\w.]*$", text[: m.start()]):
            return word
        return table[word]

    return TOKEN.sub(new, text)


def edited(text):
    """An edit's lines as port.py spells the file that they are of: tight projections, and the names that it turned."""
    text = re.sub(r"\((\w[\w']*(?: \.\w+)+)\)", lambda m: m[1].replace(" .", "."), text)
    text = re.sub(r"(?<=[\w')]) \.(?=\w)", ".", text)
    text = re.sub(r"Rattle\u00b7(\w+)(?:\u00b7specs)?\.specs", r"Rattle.\1.specs", text)
    return TOKEN.sub(lambda m: respelled(m[0]) if CAMEL.search(m[0]) else m[0], text)


def main(argv):
    own, words = gathered()
    table = {w: respelled(w) for w in own}
    taken = {table[w] for w in own if "-" not in w} | {"answer_in"}
    for old in own:
        if "-" in old and table[old] in taken:
            table[old] += "_lem"
    back = collections.defaultdict(set)
    for old, new in table.items():
        back[new].add(old)
    clash = False
    for new, olds in sorted(back.items()):
        if len(olds) > 1:
            print("together:", new, *sorted(olds))
            clash = True
    for path, found in sorted(words.items()):
        for old in sorted(found & own):
            if OF_A_FUNCTION.search(path) or path == "crates/exports/proofs/Contracts.antt" or table[old] == "cut_tree":
                continue  # there the new name stands only in the paths of modules
            if table[old] in found and table[old] not in LEMMAS.get(path, []):
                print("meets:", path, old, table[old])
                clash = True
    if clash or argv == ["--look"]:
        return int(clash)
    for path in list(files((".antt", ".rt", ".edit"))):
        text = read(path)
        lemmas = {w: w + "_lem" for w in LEMMAS.get(path, [])}
        made = turned(text, table | lemmas, bool(OF_A_FUNCTION.search(path)))
        if path.endswith(".edit"):
            made = edited(made)
        if made != text:
            with open(path, "w", encoding="utf-8") as f:
                f.write(made)
    for path in ["README.md", *files(".md", "docs")]:
        text = read(path)
        made = re.sub(r"`[^`\n]+`", lambda m: turned(m[0], table, False), text)
        if made != text:
            with open(path, "w", encoding="utf-8") as f:
                f.write(made)
    return 0


if __name__ == "__main__":
    raise SystemExit(main(sys.argv[1:]))
