#!/usr/bin/env python3
"""Brings the must-fail edits of the last commit before the port to today's text: crates/NAME/must-fail/LABEL.edit.

usage: python3 tools/turn_edits.py           at the top of a checkout: writes each edit anew, from LANDED's edit and file and from today's file
       python3 tools/turn_edits.py --check   writes nothing; fails if an edit differs from what it would write
       python3 tools/turn_edits.py --list    prints each edit whose texts changed, LANDED's and today's

Text of Rust code stands as it did. Text of a clause or of specs/ is spelled as tools/respell.py spells it, and with today's projections: `x .f` is `x.f`,
`f a .g` is `(f a).g`. tools/edits.tsv has the few that no rule makes, each with its reason. Whatever it wrote, an edit must hold: each old text stands once
in today's file, in the item in which LANDED's stood; the new text differs from it; and each name of the new text is one that today's file knows.
"""
import re
import subprocess
import sys
from pathlib import Path

ROOT = Path(__file__).resolve().parents[1]
LANDED = (ROOT / "docs/PORT.md").read_text(encoding="utf-8").splitlines()[0]
# words of the library that no rule makes
WORDS = {"getD": "get_or"}
FIELDS = {".ptr": ".ref_ptr"}
# what ends an application
ENDS = set("≡ × → ↔ ⊎ ∷ ++ + - * / % ^ ≤ < && || = : ; , λ in then else let .".split())


def git(*words):
    return subprocess.run(["git", "-C", str(ROOT), *words], capture_output=True, check=True).stdout.decode()


def landed_files():
    """Each file of crates/ at LANDED, by its path."""
    paths = [p for p in git("ls-tree", "-r", "--name-only", LANDED, "crates").split("\n") if p.endswith((".rt", ".antt", ".edit"))]
    asked = "".join(f"{LANDED}:{p}\n" for p in paths)
    out = subprocess.run(["git", "-C", str(ROOT), "cat-file", "--batch"], input=asked.encode(), capture_output=True, check=True).stdout
    files, at = {}, 0
    for path in paths:
        end = out.index(b"\n", at)
        size = int(out[at:end].split()[2])
        files[path] = out[end + 1:end + 1 + size].decode()
        at = end + 1 + size + 1
    return files


def table(name):
    rows = (line.rstrip("\n").split("\t") for line in (ROOT / "tools" / name).read_text(encoding="utf-8").splitlines())
    return [row for row in rows if len(row) > 1 and not row[0].startswith("#")]


def snake(word):
    word = re.sub(r"(?<=[a-z0-9])([A-Z])", lambda m: "_" + m.group(1).lower(), word)
    return word.replace("-", "_").replace("′", "'")


def words_of(text):
    return set(re.findall(r"[\w'′]+(?:-[\w'′]+)*", text))


def respelled(text, names, today):
    """The words as they are spelled today."""
    known = words_of(today)

    def one(m):
        word = m.group()
        if word in WORDS:
            return WORDS[word]
        if word in names:
            return names[word]
        if word[0].islower() and (re.search("[a-z0-9][A-Z]", word) or "-" in word) and word not in known and snake(word) in known:
            return snake(word)
        return word

    return re.sub(r"(?<![\w'′-])[a-z][\w'′]*(?:-[\w'′]+)*", one, text)


def tokens(text):
    """Words, parentheses, spaces and marks; ` .f` after a space is one."""
    return re.findall(r"\.[A-Za-z0-9_'-]+|\s+|[(){}⟨⟩;,:]|[^\s(){}⟨⟩;,:.]+|\.", text)


def joined(atoms):
    return "".join(text for _, text in atoms)


def projected(text):
    """`x .f` becomes `x.f`, `f a .g` becomes `(f a).g`, and parentheses around nothing but `x.f` go."""
    levels = [[]]  # for each parenthesis that stands open, what is in it: atoms, spaces and ends of an application
    for token in tokens(text):
        top = levels[-1]
        if token == "(":
            levels.append([])
        elif token == ")" and len(levels) > 1:
            inner = levels.pop()
            alone = [kind for kind, _ in inner] == ["atom"] and re.search(r"\.[A-Za-z]", inner[0][1])
            levels[-1].append(("atom", joined(inner) if alone else f"({joined(inner)})"))
        elif re.fullmatch(r"\.[A-Za-z0-9_'-]+", token):
            begin = len(top)
            while begin and top[begin - 1][0] != "end":
                begin -= 1
            while begin < len(top) and top[begin][0] == "space":
                begin += 1
            run = top[begin:]
            while run and run[-1][0] == "space":
                run.pop()
            del top[begin:]
            whole = joined(run) if len(run) < 2 else f"({joined(run)})"
            top.append(("atom", whole + FIELDS.get(token, token)))
        elif token.isspace():
            top.append(("space", token))
        else:
            top.append(("end" if token in ENDS or token in "{};,:" else "atom", token))
    while len(levels) > 1:  # a parenthesis that the text does not close
        inner = levels.pop()
        levels[-1].append(("atom", "(" + joined(inner)))
    return joined(levels[0])


def turned(text, names, today, code, lent):
    """A text of a clause or of a definition; `lent` is what the value of an argument before the call is called: `now` of a `&`, `old` of a `&mut`."""
    edge = re.fullmatch(r"(\s*)(.*?)(\s*)", text, re.DOTALL)
    text = projected(respelled(edge.group(2), names, today))
    if code:
        text = re.sub(r"λ r\. ⌜ (.*) ⌝", r"\1", text)
        text = re.sub(r"(?<![\w.])r(?![\w])", "result", text)
        text = re.sub(r"\bnow (\w+)\.entry", rf"\1.{lent}", text)
        text = re.sub(r"\bnow (\w+)\.exit", r"\1.new", text)
    text = re.sub(r"\((\w+(?:\.\w+)+)\)", r"\1", re.sub(r"\bnow (\w+)", r"\1.now", text))
    return edge.group(1) + text + edge.group(3)


def parsed(text):
    """The lines of an edit; each pair with the file that it changes."""
    lines, pairs, name = text.split("\n"), [], None
    for number, line in enumerate(lines):
        key, _, value = line.partition(": ")
        if key == "file":
            name = value
        elif key == "old":
            pairs.append([name, number, value, None, None])
        elif key == "new":
            pairs[-1][3:] = [number, value]
    return lines, pairs


def item_at(text, place, is_code):
    """The item in which a place stands: of code the words that declare it, of definitions the name."""
    found = "(head)"
    at = 0
    for line in text.splitlines(keepends=True):
        if at > place:
            break
        if is_code:
            m = re.match(r"\s*(?:pub )?(?:unsafe )?(?:extern \"C\" )?((?:fn|struct|enum|const|impl|mod|trait) ?.*?)[\s(:{<;=]*(?:[(:{<;=]|$)", line)
        else:
            m = re.match(r"\s*(?:abbrev |unfoldable |pub |record |data )*([^\s(){}:=]+)(?:\s[^:=]*)?\s[:=](?:\s|$)", line)
            m = m if m and not line.startswith("      ") else None
            m = m or re.match(r"(use )", line)
        if m:
            found = m.group(1).strip()
        at += len(line)
    return found


def unknown(new, today, elsewhere):
    """The names of the new text that today's file does not have, nor, for a field or a word of a path, any file of the repository."""
    bound = {word for words in re.findall(r"λ\s*([^.]*)\.", new) for word in words.split()}
    new = re.sub(r"b?\"[^\"]*\"|b?'.'|«[^»]*»|//.*", "", new)
    members = set(re.findall(r"(?<=\.)[\w']+|(?<=::)\w+|\w+(?=::)|\w+(?=: )|(?<=[{;] )\w+(?= = )", new))
    found = {word for word in words_of(new) if not re.match(r"[0-9]|_$", word)}
    plain = set("record true false let in if else return as mut for while loop match len usize u64 u32 u16 u8 bool".split())
    return sorted(found - plain - bound - words_of(today) - (members & elsewhere))


def brought(path, files, names, hand, elsewhere, faults):
    """An edit of LANDED as it is today."""
    crate = path.split("/")[1]
    label = f"{crate}/{Path(path).stem}"
    lines, pairs = parsed(files[path])
    rest = respelled(" ".join(new for _, _, _, _, new in pairs[1:]), names, "")  # what a later pair imports or names
    before, after = {}, {}
    for number, (name, at_old, old, at_new, new) in enumerate(pairs, 1):
        file = f"crates/{crate}/{name}"
        before.setdefault(file, files[file])
        after.setdefault(file, (ROOT / file).read_text(encoding="utf-8"))
        was, now = before[file], after[file]
        if was.count(old) != 1:
            raise SystemExit(f"{label}: LANDED's own text stands {was.count(old)} times")
        code = name.endswith(".rt")
        key = (label, str(number))
        if key in hand:
            today_old, today_new = hand[key]
        elif code and now.count(old) == 1:
            today_old, today_new = old, new
        else:
            for lent in ("old", "now"):
                today_old, today_new = turned(old, names, now, code, lent), turned(new, names, now, code, lent)
                if now.count(today_old) == 1:
                    break
        if now.count(today_old) != 1:
            faults.append(f"{label} {number}: {name}: the old text stands {now.count(today_old)} times: {today_old}\n    LANDED {old}\n    LANDED {new}\n    now    {today_new}")
        else:
            item, item_now = item_at(was, was.index(old), code), item_at(now, now.index(today_old), code)
            if respelled(item, names, now) != item_now and not (code and item == item_now):
                faults.append(f"{label} {number}: {name}: stood in `{item}`, stands in `{item_now}`: {today_old}")
        if today_old == today_new or today_new in ("", None):
            faults.append(f"{label} {number}: {name}: changes nothing")
        if missing := unknown(today_new, now + rest, elsewhere):
            faults.append(f"{label} {number}: {name}: {', '.join(missing)}: not known there\n    LANDED {new}\n    now    {today_new}")
        before[file], after[file] = was.replace(old, new), now.replace(today_old, today_new)
        lines[at_old], lines[at_new] = "old: " + today_old, "new: " + today_new
    return "\n".join(lines)


def anew(path, faults):
    """An edit that says the same wrong thing in other words (tools/edits_anew.txt): it stays as it stands here, if its texts fit."""
    text, after = (ROOT / path).read_text(encoding="utf-8"), {}
    for number, (name, _, old, _, new) in enumerate(parsed(text)[1], 1):
        now = after.get(name) or (ROOT / path).parents[1].joinpath(name).read_text(encoding="utf-8")
        if now.count(old) != 1 or old == new:
            faults.append(f"{path} {number}: {name}: the old text stands {now.count(old)} times: {old}")
        after[name] = now.replace(old, new)
    return text


def main():
    files = landed_files()
    names = {row[0]: row[1] for row in table("respell.tsv")}
    hand = {(row[0], row[1]): (row[2], row[3]) for row in table("edits.tsv")} if (ROOT / "tools/edits.tsv").exists() else {}
    edits = sorted(p for p in files if re.fullmatch(r"crates/\w+/must-fail/[^/]+\.edit", p))
    elsewhere = words_of((ROOT / "crates.txt").read_text(encoding="utf-8") + "".join(p.read_text(encoding="utf-8") for kind in ("src/**/*.rt", "specs/**/*.antt") for p in sorted(ROOT.glob("crates/*/" + kind))))
    reworded = {line.split(":")[0] for line in (ROOT / "tools/edits_anew.txt").read_text(encoding="utf-8").splitlines() if not line.startswith("#")}
    faults, changed, differ = [], 0, []
    for path in edits:
        label = f"{path.split('/')[1]}/{Path(path).stem}"
        text = anew(path, faults) if label in reworded else brought(path, files, names, hand, elsewhere, faults)
        if text != files[path]:
            changed += 1
            if "--list" in sys.argv:
                print(path)
                for was, now in zip(files[path].split("\n"), text.split("\n")):
                    if was != now:
                        print(f"  - {was}\n  + {now}")
        target = ROOT / path
        if not target.exists() or target.read_text(encoding="utf-8") != text:
            differ.append(path)
            if "--check" not in sys.argv:
                target.parent.mkdir(parents=True, exist_ok=True)
                target.write_text(text, encoding="utf-8")
    here = {str(p.relative_to(ROOT)) for p in ROOT.glob("crates/*/must-fail/*.edit")}
    for path in sorted(here - set(edits)):
        print(f"not LANDED's: {path}")
    for fault in faults:
        print(fault)
    print(f"{len(edits)} edits, {changed} whose text differs from LANDED's, {len(differ)} that stood otherwise, {len(faults)} faults")
    return 1 if faults or ("--check" in sys.argv and differ) else 0


if __name__ == "__main__":
    sys.exit(main())
