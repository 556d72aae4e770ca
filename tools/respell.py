#!/usr/bin/env python3
"""Respells the definitions and lemmas of this repository: words in snake case, a prime as an apostrophe, a dash only between two names.

usage: python3 tools/respell.py               at the top of a checkout, once, after /opt/rattle/port/port.py
       python3 tools/respell.py documents     the documents alone

tools/respell.tsv has each old name beside the new one. A lemma whose new name would be a definition's ends in `_lem`. Functions of src/, strings, exported
names, inputs and outputs keep their names. In the documents a name is turned where it stands in backticks.
"""
import glob
import os
import re
import sys

WORD = r"[^\s(){}.;,@\"«»\[\]\\`]+"
TOKEN = re.compile(r"--[^\n]*|//[^\n]*|\"(?:[^\"\\]|\\.)*\"|'(?:[^'\\\s]|\\.)'|«[^»]*»|" + WORD)
# A lemma that port.py respelled, and whose definition is respelled here to the same name.
IN_FILES = {
    "crates/hall_length/proofs/Counting.antt": {"too_long": "too_long_lem"},
}
# Names that port.py respelled in crates/, and which the documents have too.
IN_DOCUMENTS = {
    "addressOf": "address_of",
    "bytesAt": "bytes_at",
    "codeOf": "code_of",
    "getD": "get_or",
    "isSet": "is_set",
    "lengthOf": "length_of",
    "no-longer": "no_longer",
    "one-form": "one_form",
    "one-place": "one_place",
    "partOf": "part_of",
    "placeOf": "place_of",
    "planOf": "plan_of",
    "round-trip": "round_trip",
    "rowsBy": "rows_by",
    "rowsFrom": "rows_from",
    "same-rows": "same_rows",
    "stateOf": "state_of",
    "wordAt": "word_at",
    "wordOf": "word_of",
    "writtenOf": "written_of",
}


def table(path):
    with open(path, encoding="utf-8") as lines:
        return dict(line.rstrip("\n").split("\t")[:2] for line in lines if not line.startswith("#"))


def fields(top):
    """The fields of the repository's own records that have a dash: they follow a point too."""
    found = set()
    for path in texts(top, (".antt",)):
        inside = False
        for line in open(path, encoding="utf-8"):
            if re.match(r"\s*(pub )?record ", line):
                inside = True
            elif inside and (m := re.match(r"\s+(?:pub )?(" + WORD + r") :\s", line)):
                found.add(m.group(1))
            elif line.strip() and not line.startswith(" "):
                inside = False
    return {f for f in found if "-" in f}


def texts(top, endings):
    for folder, dirs, files in os.walk(os.path.join(top, "crates")):
        dirs[:] = sorted(d for d in dirs if d != "out")
        for name in sorted(files):
            if name.endswith(endings):
                yield os.path.join(folder, name)


def turn(text, names, dashed_fields, comment_mark):
    def one(m):
        word = m.group()
        if word.startswith(comment_mark):
            return re.sub(r"`[^`]*`", lambda q: TOKEN.sub(one_quoted, q.group()), camel(word))
        if word[0] in "\"'«":
            return word
        return named(word, m.start() > 0 and text[m.start() - 1] == ".")

    def one_quoted(m):
        return named(m.group(), False)

    def camel(comment):
        return re.sub(r"[A-Za-z][A-Za-z0-9]*", lambda q: names.get(q.group(), q.group()) if re.search("[a-z0-9][A-Z]", q.group()) else q.group(), comment)

    def named(word, after_point):
        if word not in names or after_point and "-" in word and word not in dashed_fields:
            return word
        return names[word]

    return TOKEN.sub(one, text)


def documents(top):
    """Those that speak of the crates as they are; docs/PORT.md has old and new names side by side."""
    found = [os.path.join(top, name) for name in ("README.md", "CONTRIBUTING.md")]
    found += glob.glob(os.path.join(top, "docs", "*.md")) + glob.glob(os.path.join(top, "docs", "changes", "*.md"))
    return sorted(path for path in found if os.path.basename(path) != "PORT.md")


def rewrite(path, turned):
    with open(path, encoding="utf-8") as f:
        old = f.read()
    new = turned(old)
    if new != old:
        with open(path, "w", encoding="utf-8") as f:
            f.write(new)


def main(top=".", crates=True):
    names = table(os.path.join(os.path.dirname(os.path.abspath(__file__)), "respell.tsv"))
    dashed = fields(top)
    for path in texts(top, (".antt", ".rt", ".edit")) if crates else ():
        own = IN_FILES.get(os.path.relpath(path, top), {})
        mark = "//" if path.endswith(".rt") else "--"
        # in an edit only the texts that are exchanged
        rewrite(path, lambda old: turn(turn(old, own, set(), "--") if own else old, names, dashed, mark))
    names.update(IN_DOCUMENTS)
    for path in documents(top):
        rewrite(path, lambda old: re.sub(r"`[^`\n]*`", lambda quoted: re.sub(WORD, lambda m: names.get(m.group(), m.group()), quoted.group()), old))


if __name__ == "__main__":
    main(crates=sys.argv[1:] != ["documents"])
