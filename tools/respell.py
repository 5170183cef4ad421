#!/usr/bin/env python3
"""Respells this repository's own definitions and lemmas for today's Rattle.

usage: python3 tools/respell.py [--list]     at the top of the repository, once, after the kit's port.py

Words in snake case, types and modules in camel case: `first-by` becomes `first_by`, `Well-formed` becomes `WellFormed`.
Functions of src/, exported names, strings, inputs and outputs keep their names, and so do goals, which Rattle names.
Names are turned in specs/ and proofs/, in clauses and imports of src/, and in comments and pages where they stand in backquotes.
"""

import glob
import re
import sys

ANTT = sorted(glob.glob("crates/*/specs/**/*.antt", recursive=True) + glob.glob("crates/*/proofs/**/*.antt", recursive=True))
SOURCE = sorted(glob.glob("crates/*/src/**/*.rt", recursive=True))
PAGES = ["README.md"] + sorted(p for p in glob.glob("docs/*.md") if not p.endswith("PORT.md"))
DECLARED = re.compile(r"^(\s*)((?:abbrev |unfoldable |pub |data |record |ruleset )*)([^\s:(){},;.]+)\s*(?:[({].*)?:\s*(\S*)")
# words of today's library that stand in such names
WORDS = {"getD": "get_or", "sumBy": "sum_by"}
# names that a library has, under this spelling or under the one they would get: they stay
KEPT = {"bit-or", "bit-and", "eq-eqb"}
TOKEN = re.compile(r"[^\s(){}\[\],;.`\"]+")


def respelled(name):
    if name in KEPT:
        return name
    parts = [WORDS.get(p, p) for p in name.split("-")]
    if name[0].isupper():
        return "".join(p[0].upper() + p[1:] for p in parts)
    return "_".join(parts)


def declared():
    """The names that this repository declares: {name: it is a field of a record}."""
    names = {}
    for path in ANTT:
        record = None
        for line in open(path, encoding="utf-8"):
            text = line.split("--")[0] if line.lstrip().startswith("--") else line
            found = DECLARED.match(text)
            if text.strip() and not text.startswith(" "):
                record = None
            if not found or found.group(3) in ("use", "module"):
                continue
            indent, marks, name, first = found.groups()
            if first.startswith("goal.") or first.startswith("given."):
                continue
            if "record" in marks.split():
                record = len(indent)
            field = record is not None and "record" not in marks.split() and len(indent) > record
            if record is not None and len(indent) <= record and "record" not in marks.split():
                record = None
                field = False
            names[name] = names.get(name, False) or field
    return names


def turned(text, names, aliases=()):
    """A piece of antt with its own names respelled; a name at a module's alias too."""

    def one(m):
        word = m.group(0)
        if word not in names:
            return word
        if m.start() > 0 and text[m.start() - 1] == ".":
            # a field of a record, or a name at a module's alias; a step of a proof stays
            head = re.search(r"([^\s(){}\[\],;`\"]+)\.$", text[: m.start()])
            path = head.group(1) if head else ""
            if not names[word] and not path.startswith("Rattle") and path not in aliases:
                return word
        return respelled(word)

    return TOKEN.sub(one, text)


def renamed_imports(text):
    """The names that a file gives to what it imports, as `touches-in` of `touches as touches-in`."""
    made = re.findall(r" as ([a-z][\w?']*(?:-[\w?']+)+)(?=[,}])", text)
    return {n: False for n in made if respelled(n) != n}


def quoted(text, names):
    """A comment or a page: names in backquotes alone, and those that the kit's script turned before."""
    here = {n: False for q in re.findall(r"`[^`\n]*`", text) for n in TOKEN.findall(q) if "-" in n and respelled(n) in DECLARES}
    return re.sub(r"`[^`\n]*`", lambda m: turned(m.group(0), {**here, **names}), text)


def antt(text, names):
    aliases = set(re.findall(r"^use \S+ as (\S+)", text, re.M)) - {"goal", "given"}
    names = {**names, **renamed_imports(text)}
    lines = []
    for line in text.split("\n"):
        at = re.search(r"(^|\s)--(\s|$)", line)
        if at:
            lines.append(turned(line[: at.start()], names, aliases) + quoted(line[at.start() :], names))
        else:
            lines.append(turned(line, names, aliases))
    return "\n".join(lines)


def source(text, names):
    piece = re.compile(r'//[^\n]*|b?"(?:\\.|[^"\\])*"|(?:(?!b?"|//).)+', re.S)
    names = {**names, **renamed_imports(text)}
    return "".join(
        p if p.startswith(('"', 'b"')) else quoted(p, names) if p.startswith("//") else turned(p, names)
        for p in piece.findall(text)
    )


DECLARES = set()


def main():
    own = declared()
    DECLARES.update(own)
    names = {n: f for n, f in own.items() if respelled(n) != n}
    made = {}
    for n in list(own):
        made.setdefault(respelled(n), []).append(n)
    clash = {k: v for k, v in made.items() if len(v) > 1}
    if "--list" in sys.argv:
        for n in sorted(names):
            print(n, respelled(n), "field" if names[n] else "")
        for k, v in sorted(clash.items()):
            print("falls together:", k, v)
        return
    if clash:
        sys.exit(f"names fall together: {clash}")
    for paths, turn in ((ANTT, antt), (SOURCE, source), (PAGES, quoted)):
        for path in paths:
            old = open(path, encoding="utf-8").read()
            new = turn(old, names)
            if new != old:
                open(path, "w", encoding="utf-8").write(new)


main()
