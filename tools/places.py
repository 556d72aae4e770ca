#!/usr/bin/env python3
"""Finds the places that docs/DESIGN-PASS.md counts: python3 tools/places.py [COMMIT]

Reads crates/*/src of a commit, or of the work tree, and prints for each point of the page the places that it finds: the file, the line and the name.
With --counts it prints the numbers alone. It reads text and proves nothing: what it finds is judged on the page."""
import collections
import re
import subprocess
import sys

LETTER = re.compile(r"[A-Za-z_][A-Za-z0-9_]*")
TOKEN = re.compile(r'[A-Za-z_][A-Za-z0-9_]*|b?"(?:[^"\\]|\\.)*"|b?\'(?:[^\'\\]|\\.)\'|0x[0-9a-fA-F_]+|\d[\d_]*(?:[ui](?:8|16|32|64|size))?|==|!=|<=|>=|&&|\|\||->|=>|::|<<|>>|\+=|-=|\*=|/=|[^\s]')
KEYWORDS = set("as break const continue else enum fn for if impl in let loop match mod mut pub return self Self struct trait unsafe use where while true false".split())


def sources(commit):
    """The files of crates/*/src with their text."""
    if commit:
        names = subprocess.run(["git", "ls-tree", "-r", "--name-only", commit, "crates"], capture_output=True, text=True, check=True).stdout.split()
        names = [name for name in names if re.match(r"crates/[^/]+/src/.*\.rt$", name)]
        return {name: subprocess.run(["git", "show", f"{commit}:{name}"], capture_output=True, text=True, check=True).stdout for name in sorted(names)}
    import glob
    return {name: open(name, encoding="utf-8").read() for name in sorted(glob.glob("crates/*/src/**/*.rt", recursive=True))}


def bare(text):
    """The text without comments, in lines of the same numbers."""
    return re.sub(r"//[^\n]*", "", text)


class Function:
    """A function of a file: its name, line, parameters, result, clauses and body."""

    def __init__(self, file, line, name, head, body):
        self.file, self.line, self.name, self.head, self.body = file, line, name, head, body
        inside = re.search(r"\((.*?)\)\s*(?:->\s*(.*?))?\s*(?:requires|ensures|$)", head, re.S)
        self.parameters = [" ".join(p.split()) for p in re.split(r",(?![^\[<(]*[\]>)])", inside.group(1)) if p.strip()] if inside else []
        self.result = " ".join((inside.group(2) or "").split()) if inside else ""

    def place(self):
        return f"{self.file}:{self.line} {self.name}"


def functions(files):
    found = []
    for file, text in files.items():
        text = bare(text)
        for match in re.finditer(r"\bfn\s+([a-z_][a-z0-9_]*)", text):
            at = match.end()
            depth, i = 0, at
            # the body is the first block that begins a line, or that follows the signature where there is no clause
            begun = None
            while i < len(text):
                if text[i] == "{":
                    before = text[at:i].rstrip()
                    if re.search(r"(requires|ensures)(\s+[a-z_]+)?$", before) and depth == 0:
                        i = closing(text, i)
                    else:
                        begun = i
                        break
                elif text[i] == ";" and depth == 0:
                    break
                elif text[i] in "([":
                    depth += 1
                elif text[i] in ")]":
                    depth -= 1
                i += 1
            if begun is None:
                continue
            end = closing(text, begun)
            line = text.count("\n", 0, match.start()) + 1
            found.append(Function(file, line, match.group(1), text[at:begun], text[begun + 1:end]))
    return found


def closing(text, at):
    depth = 0
    for i in range(at, len(text)):
        if text[i] == "{":
            depth += 1
        elif text[i] == "}":
            depth -= 1
            if depth == 0:
                return i
    return len(text)


def shape(body):
    """The tokens of a body, its names by the order in which they come and each numeral alike."""
    names, out = {}, []
    for token in TOKEN.findall(body):
        if token in KEYWORDS:
            out.append(token)
        elif LETTER.match(token):
            out.append(f"n{names.setdefault(token, len(names))}")
        elif token[0].isdigit() or token.startswith("b\"") or token.startswith("\""):
            out.append("#")
        else:
            out.append(token)
    return tuple(out)


def main():
    arguments = [a for a in sys.argv[1:] if not a.startswith("--")]
    files = sources(arguments[0] if arguments else None)
    all_functions = functions(files)
    found = collections.OrderedDict()

    def point(name):
        return found.setdefault(name, [])

    def each(name, pattern, flags=re.M):
        for file, text in files.items():
            text = bare(text)
            for match in re.finditer(pattern, text, flags):
                line = text.count("\n", 0, match.start()) + 1
                point(name).append(f"{file}:{line} {' '.join(match.group(0).split())[:90]}")

    # 1
    point("1a enums of two cases that carry a value, or with a case for none")
    for file, text in files.items():
        for match in re.finditer(r"^(?:pub )?enum (\w+) \{(.*?)^\}", bare(text), re.M | re.S):
            cases = re.findall(r"^    (\w+)( ?[({])?", match.group(2), re.M)
            if (len(cases) == 2 and any(c[1] for c in cases)) or any(c[0] in ("Neither", "None", "No", "Nothing") for c in cases):
                line = bare(text).count("\n", 0, match.start()) + 1
                point("1a enums of two cases that carry a value, or with a case for none").append(f"{file}:{line} {match.group(1)}")
    point("1b structs with a number of the table or a flag beside values")
    for file, text in files.items():
        for match in re.finditer(r"^(?:pub )?struct (\w+)(?:<[^>]*>)? \{(.*?)^\}", bare(text), re.M | re.S):
            if re.search(r"\b(number|kind|phase|seeded|kmac|source|malformed): (u8|bool)", match.group(2)):
                line = bare(text).count("\n", 0, match.start()) + 1
                point("1b structs with a number of the table or a flag beside values").append(f"{file}:{line} {match.group(1)}")
    each("1c constants that number refusals or kinds", r"^\s*pub const [A-Z_]+: u8 = \d+;")
    name = "1d functions that answer or take a number of the table"
    point(name)
    for f in all_functions:
        if f.file.split("/")[1] in ("testing", "keccak_states", "round_constants", "lanes_out"):
            continue
        if f.result == "u8" or any(re.match(r"(mut )?(number|refusal|start): u8$", p) for p in f.parameters):
            point(name).append(f.place())
    name = "1e functions that answer 0 for none"
    point(name)
    for f in all_functions:
        if re.search(r"return 0;|=> 0,", f.body) and f.result in ("usize", "u32"):
            point(name).append(f.place())

    # 2
    groups = collections.defaultdict(list)
    for f in all_functions:
        s = shape(f.body)
        forward = re.fullmatch(r"[\w\s:(),&]*", f.body) and "(" in f.body  # calls of calls, which only hand on
        if len(s) >= 8 and not forward:
            groups[s].append(f)
    name = "2 functions of one shape (names and numerals apart)"
    point(name)
    for group in groups.values():
        if len(group) > 1:
            for f in group[1:]:
                point(name).append(f"{f.place()} is as {group[0].file}:{group[0].line} {group[0].name}")

    # 3
    each("3 loops by while", r"^\s*while [^\n]*")

    # 4
    name = "4 conversions and choices written by hand"
    point(name)
    for f in all_functions:
        body = " ".join(f.body.split())
        if re.fullmatch(r"\w+ as \w+", body) or re.fullmatch(r"if (\w+) < (\w+) \{ \1 \} else \{ \2 \}", body) \
                or re.fullmatch(r"match \w+ \{ (\w+::\w+(\(\w+\))? => (\d+|\w+),? ?)+\}", body) or re.match(r"(imported|exported|source_number|phase_|number_of|is_set)", f.name) \
                or re.fullmatch(r"if b \{ 1 \} else \{ 0 \}", body):
            point(name).append(f.place())
    each("4 numbers of several bytes put together or taken apart by hand", r"^\s*fn (load|store)\d\b[^\n]*|^\s*fn half\b[^\n]*|^\s*pub fn word\b[^\n]*")

    # 5
    facts = collections.defaultdict(list)
    for f in all_functions:
        for clause in re.findall(r"requires \{(.*?)\}", f.head, re.S):
            for fact in re.split(r"\)\s*×\s*\(", " ".join(clause.split()).strip("() ")):
                facts[fact.strip()].append(f)
    name = "5a facts in the requires of three functions or more"
    point(name)
    for fact, where in facts.items():
        if len(where) >= 3:
            point(name).append(f"{len(where)} times: {fact}: {', '.join(sorted(set(f.file.split('/')[1] + '::' + f.name for f in where)))}")
    name = "5b parameters that travel together: in one crate, of three functions or more, each that has one of them has all"
    point(name)
    crates = collections.defaultdict(lambda: collections.defaultdict(set))
    for f in all_functions:
        for p in f.parameters:
            if ":" in p and not p.startswith("rt:") and not p.startswith("self"):
                plain = re.sub(r"&('[a-z]+ )?(mut )?", "", p)
                crates[f.file.split("/")[1]][plain].add(f.place())
    for crate, where in crates.items():
        groups = collections.defaultdict(list)
        for parameter, places in where.items():
            if len(places) >= 3:
                groups[frozenset(places)].append(parameter)
        for places, parameters in groups.items():
            if len(parameters) > 1:
                point(name).append(f"{len(places)} times in {crate}: {', '.join(parameters)}")

    # 6
    each("6 buffers with a length beside them", r"^\s*pub (len|length): usize,[^\n]*")
    name = "6 parallel arrays"
    point(name)
    for f in all_functions:
        if any(p.startswith("kinds:") for p in f.parameters) and any(p.startswith("values:") for p in f.parameters):
            point(name).append(f.place())

    # 7
    each("7 switches on a letter", r"^\s*match letter \{|^\s*if letter [<=][^\n]*")

    for name, places in found.items():
        print(f"{name}: {len(places)}")
        if "--counts" not in sys.argv:
            for place in places:
                print(f"    {place}")


main()
