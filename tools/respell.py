#!/usr/bin/env python3
"""Brings the names of definitions and lemmas to the spelling of today's Rattle, once, after port.py.

usage: tools/respell.py [--list]      at the top of the repository; --list only prints the names, old and new

- words are in snake case: wordLikeThis becomes word_like_this;
- a dash between the parts of a lemma's name stays;
- a fact, that is a function into Type, keeps its capital inside a name: noNoise-append becomes NoNoise-append;
- a lemma that would have its function's name ends in _lem: all_short, beside the definition allShort, becomes all_short_lem.

It goes over crates/**/*.antt and *.rt, and over what stands between backquotes in *.md. Functions and fields of src/ are spelled so already.
It stops where two other names would fall together.
"""

import collections
import os
import re
import sys

TOKEN = re.compile(r"[A-Za-z0-9_'₀-₉+*≤<≡?-]*[A-Za-z][A-Za-z0-9_'₀-₉+*≤<≡?-]*")
DECLARED = re.compile(r"^(\s*)(?:(?:unfoldable|abbrev|pattern) )?(?:pub )?(?:(data|record) )?([^\s(){}«»:;,|]+)\s*(?:\(|\{|:)", re.M)
CAMEL = re.compile(r"(?<=[a-z0-9'])(?=[A-Z])")
# what port.py made of a name that it took for one of the library's
AGAIN = {"get_d_after": "get_or-after", "getD": "get_or"}


def texts(*endings):
    for folder, dirs, files in os.walk("."):
        dirs[:] = sorted(d for d in dirs if d not in ("out", ".git", "target", "notes"))
        for f in sorted(files):
            if f.endswith(endings):
                yield os.path.join(folder, f)


def read(path):
    with open(path, encoding="utf-8") as f:
        return f.read()


def is_law_file(path):
    """A file of definitions or of lemmas, not one of a function's proof."""
    parts = path.split(os.sep)
    return path.endswith(".antt") and ("specs" in parts or parts[-2] == "proofs")


def snake(part):
    return CAMEL.sub("_", part).lower() if re.match(r"[a-z]", part) else part


def declared():
    """The names that specs/ and proofs/*.antt declare, by the file; and those that are types."""
    names, types = collections.defaultdict(set), set()
    for path in texts(".antt"):
        if not is_law_file(path):
            continue
        text = re.sub(r"--.*", "", read(path))
        for it in DECLARED.finditer(text):
            name = it.group(3)
            if re.search("[A-Za-z]", name) and name not in ("use", "mod", "let", "where", "in", "if", "module", "open"):
                names[name].add(path)
                if it.group(2):
                    types.add(name)
        for it in re.finditer(r"^\s*(?:abbrev |unfoldable )?(?:pub )?([A-Z]\S*) :.*Type", text, re.M):
            types.add(it.group(1))
    return names, types


def main(argv):
    names, types = declared()
    def part(p):
        p = AGAIN.get(p, p)
        big = p[:1].upper() + p[1:]
        if re.search("[a-z0-9][A-Z]", p) and p not in names and big in types:
            return big
        return snake(p)

    def respell(name):
        return AGAIN.get(name) or "-".join(part(p) for p in name.split("-"))

    laws = {n: respell(n) for n in names}
    groups = collections.defaultdict(set)
    for n, new in laws.items():
        groups[new].add(n)
    for olds in [o for o in groups.values() if len(o) == 2]:
        lemma = [n for n in olds if not any("specs" in p.split(os.sep) for p in names[n]) and not CAMEL.search(n)]
        if len(lemma) == 1:
            laws[lemma[0]] += "_lem"
    moved = {n: new for n, new in laws.items() if n != new}
    groups = collections.defaultdict(set)
    for n, new in laws.items():
        groups[new].add(n)
    fell = {new: olds for new, olds in groups.items() if len(olds) > 1}
    if "--list" in argv:
        for n in sorted(moved):
            print(n, moved[n])
        print("--- fall together:", fell)
        return 0
    if fell:
        print("respell: these fall together:", fell, file=sys.stderr)
        return 1

    def token(it, lemmas=True):
        t, at, whole = it.group(0), it.start(), it.string
        path = whole[at - 1 : at] == "." or whole[it.end() : it.end() + 1] == "."
        if t in moved and (CAMEL.search(t) or lemmas and (not path or "-" in t)):
            return moved[t]
        if re.search(r"(^|-)[a-z][a-z0-9_']*[A-Z]", t):
            return "-".join(part(p) for p in t.split("-"))
        return t

    def code(text, lemmas=True):
        return TOKEN.sub(lambda it: token(it, lemmas), text)

    def line(text, lemmas):
        """Code as code; in a comment only what stands between backquotes, and names with a capital inside."""
        it = re.search(r"(^|\s)(--|//)( |$)", text)
        at = it.start() if it else len(text)
        return code(text[:at], lemmas) + re.sub(r"`[^`]*`|\b[a-z]+[a-z0-9]*(?:[A-Z][a-z0-9]*)+\b", lambda m: code(m.group(0)), text[at:])

    changed = 0
    for path in texts(".antt", ".rt", ".md"):
        old = read(path)
        if path.endswith(".md"):
            new = re.sub(r"(?<!`)`[^`\n]+`(?!`)", lambda m: code(m.group(0)), old)
        else:
            new = "".join(line(l, path.endswith(".antt")) for l in old.splitlines(keepends=True))
        if new != old:
            with open(path, "w", encoding="utf-8") as f:
                f.write(new)
            changed += 1
    print(f"respell: {len(moved)} names, {changed} files")
    return 0


if __name__ == "__main__":
    sys.exit(main(sys.argv[1:]))
