#!/usr/bin/env python3
"""Breaks the lines of .antt files that are longer than 160 characters, which the turned names have made of some, and lays the files out by rattle fmt.

usage: python3 tools/break_lines.py [FILE..]      at the top of a checkout; without files, all of crates/*/specs and crates/*/proofs

A line is broken within as few brackets as there can be, best before an arrow or after `=`, `in` or a comma, else before another sign or an argument,
late in the line. It stays whole if the broken text has other tokens.
"""
import glob
import os
import subprocess
import sys

MOST = 160


def rattle(*words):
    kit = os.path.dirname(subprocess.run(["rt", "doc"], stdout=subprocess.PIPE, check=True, text=True).stdout.strip())
    return subprocess.run([f"{kit}/bin/rattle", "fmt", *words], stdout=subprocess.PIPE, stderr=subprocess.PIPE, text=True, check=False)


def tokens(path):
    """The tokens of a file, without their places; a comma or semicolon before a closing bracket goes with the layout."""
    found = [line.split(" ", 4)[3:] for line in rattle("--tokens", path).stdout.splitlines() if not line.startswith("file ")]
    return [token for token, after in zip(found, [*found[1:], None]) if not (token[-1] in ('","', '";"') and after and after[-1] in ('")"', '"]"', '"}"'))]


def blanks(line):
    """The places where the line can be broken, best first."""
    depth, found = 0, []
    for place, letter in enumerate(line):
        depth += (letter in "([{") - (letter in ")]}")
        if letter == " " and 40 < place <= 150 and line[:place].strip():
            after, before = line[place + 1 :].split(" ")[0], line[:place].split(" ")[-1]
            kind = 0 if after == "→" or before in ("=", "in") or before[-1:] in (",", ";", "{") else 1 if after in ("≡", "≤", "∙", "++", "×", "⊎", "+") else 2
            found.append((depth, kind, -place))
    return [-place for _, _, place in sorted(found)]


def long_line(text):
    lines = text.split("\n")
    return next((number for number, line in enumerate(lines) if len(line) > MOST and not line.lstrip().startswith(("use ", "pub use ", "--"))), None)


def broken(path):
    """Breaks one line of the file that is too long, and returns whether it could."""
    with open(path, encoding="utf-8") as file:
        old = file.read()
    number, was = long_line(old), tokens(path)
    lines = old.split("\n")
    line = lines[number]
    indent = len(line) - len(line.lstrip())
    for place in blanks(line):
        text = "\n".join([*lines[:number], line[:place], " " * (indent + 4) + line[place + 1 :], *lines[number + 1 :]])
        with open(path, "w", encoding="utf-8") as file:
            file.write(text)
        if rattle("--write", path).returncode == 0 and tokens(path) == was:
            with open(path, encoding="utf-8") as file:
                new = file.read()
            if sum(len(it) > MOST for it in new.split("\n")) < sum(len(it) > MOST for it in lines):
                return True
    with open(path, "w", encoding="utf-8") as file:
        file.write(old)
    return False


def main(paths):
    for path in paths or sorted(glob.glob("crates/*/specs/**/*.antt", recursive=True) + glob.glob("crates/*/proofs/**/*.antt", recursive=True)):
        while long_line(open(path, encoding="utf-8").read()) is not None:
            if not broken(path):
                print(f"{path}: a line stays too long")
                break
            print(f"{path}: a line is broken")


if __name__ == "__main__":
    main(sys.argv[1:])
