#!/usr/bin/env python3
"""Spells the repository's own definitions and lemmas in snake case, as the library spells its own.

usage: python3 tools/snake_names.py [--list]     at the top of the repository, after the kit's port script; --list only prints

A name changes if a file of crates/*/specs or crates/*/proofs declares it (not at a type 'goal.x', which is a name that the check makes),
it begins with a small letter or joins words by dashes, and it has a dash or a capital inside. Dashes become underscores, and a capital inside a
word becomes an underscore and a small letter; a fact with dashes gets capitals in their place. Those of MEET would meet another name.
Only whole words change, in .antt files with their comments, and in the clauses, ghost items and comments' code spans of .rt files. Rust's own names, strings and
the labels that the check makes stay, and so does a name in a file that imports it from the library. A second run changes nothing.
"""

import os
import re
import sys

WORD = r'[^\s(){}.;,@"«»`]+'
DECLARED = re.compile(
    r"(?m)^ *(?:(?:pub|abbrev|unfoldable|ruleset) +)*(" + WORD + r")(?: +\{[^{}\n]*\})* *: *(\S+)?"
)
# Lemmas whose new name would be that of a definition or of the function that they are for: these get _lem behind it.
MEET = """
    decided-nodes direct-one end-label next-found no-route row-names row-says to-of
    untilBy-found untilBy-rounds untilBy-stage until-found until-of until-rounds until-stage at-once
    at-place in-turn columns-tell edges-tell formulas-stand rounds-stand rows-compute rows-expand
    rows-lift searches-settle
""".split()
RUST = re.compile(
    r"""//[^\n]*|/\*.*?\*/|[bc]?"(?:\\.|[^"\\])*"|b?'(?:\\u\{[0-9a-fA-F_]+\}|\\x..|\\.|[^'\\])'|'?\w+|\s+|.""", re.S
)
CLAUSE = re.compile(
    r"(?:requires|ensures)\s*\*?\s*(?:\w+\s*)?\{|ghost\s*(?:\w+\s*(?::\s*(?:(?:owns|lends)\s*)?|=\s*))?\{"
)
LIBRARY = re.compile(r"\buse Rattle\.std\.[\w.]+\.\{([^}]*)\}")
GHOST_USE = re.compile(r"ghost\s+use\b[^;]*;")


def texts(root):
    for folder, dirs, files in os.walk(os.path.join(root, "crates")):
        dirs[:] = sorted(d for d in dirs if d not in ("out", ".git"))
        for f in sorted(files):
            if f.endswith((".rt", ".antt")):
                yield os.path.join(folder, f)


def spelled(name):
    if name[0].isupper():
        return "".join(w[0].upper() + w[1:] for w in name.split("-"))
    return re.sub(r"(?<=[a-z0-9])[A-Z]", lambda m: "_" + m[0].lower(), name).replace("-", "_")


def declared(root):
    own, made = {}, set()
    for p in texts(root):
        if not p.endswith(".antt"):
            continue
        with open(p, encoding="utf-8") as f:
            t = re.sub(r"(?m)(^|\s)--[^\n]*", " ", f.read())
        for name, of in DECLARED.findall(t):
            if of.startswith("goal."):
                made.add(name)
            elif re.search(r"[a-z0-9][A-Z]|-", name) and re.fullmatch(r"[A-Za-z][\w'-]*", name):
                if name[0].islower() or "-" in name:
                    own.setdefault(name, set()).add(p)
    return own, made


def closing(text, at):
    depth = 1
    while at < len(text):
        depth += {"{": 1, "}": -1}.get(text[at], 0)
        if depth == 0:
            return at
        at += 1
    return None


def turn(text, table):
    """Whole words; behind 'c.', 'w.', 'goal.' and the like the first name is the check's own."""

    def one(m):
        w, before = m[0], text[: m.start()]
        if w not in table:
            return w
        if before.endswith(".") and re.search(r"(?<![^\s(){};,])(?:goal|c|w\d*'*|l|g)\.$", before[-12:]):
            return w
        return table[w]

    return re.sub(WORD, one, text)


def turn_rt(text, table):
    out, at = [], 0
    while at < len(text):
        word = RUST.match(text, at)[0]
        end = at + len(word)
        clause = CLAUSE.match(text, at) if word in ("requires", "ensures", "ghost") else None
        use = GHOST_USE.match(text, at) if word == "ghost" else None
        if clause and closing(text, clause.end()) is not None:
            end = closing(text, clause.end())
            out.append(clause[0] + turn(text[clause.end() : end], table))
        elif use:
            end = use.end()
            out.append(turn(use[0], table))
        elif word.startswith("//"):
            out.append(re.sub(r"`[^`\n]*`", lambda m: turn(m[0], table), word))
        else:
            out.append(word)
        at = end
    return "".join(out)


def main(argv):
    root = "."
    own, made = declared(root)
    table = {n: spelled(n) + "_lem" * (n in MEET) for n in own}
    table = {a: b for a, b in table.items() if a != b}
    back = {}
    for a, b in table.items():
        back.setdefault(b, []).append(a)
    words = {}
    for p in texts(root):
        with open(p, encoding="utf-8") as f:
            for w in set(re.findall(WORD, f.read())):
                words.setdefault(w, set()).add(p)
    met = 0
    for b, olds in sorted(back.items()):
        if len(olds) > 1:
            met += 1
            print(f"meet: {' and '.join(sorted(olds))} would both be {b}")
        if b in words:
            shared = [p for p in words[b] if any(p in words.get(a, ()) for a in olds)]
            print(f"look: {olds[0]} -> {b}, which stands in {len(words[b])} files, {len(shared)} of them with the old name: {sorted(shared)[:3] or sorted(words[b])[:3]}")
    if "--list" in argv:
        for a in sorted(table):
            print(a, "->", table[a], "" if a not in made else "(a label too)")
        return 0
    if met:
        print("names fall together: add the lemma to MEET")
        return 1
    n = 0
    for p in texts(root):
        with open(p, encoding="utf-8") as f:
            t = f.read()
        theirs = {n for items in LIBRARY.findall(t) for n in re.findall(WORD, items)}
        here = {a: b for a, b in table.items() if a not in theirs}
        new = turn(t, here) if p.endswith(".antt") else turn_rt(t, here)
        if new != t:
            n += 1
            with open(p, "w", encoding="utf-8") as f:
                f.write(new)
    print(f"{len(table)} names spelled anew in {n} files")
    return 0


if __name__ == "__main__":
    raise SystemExit(main(sys.argv[1:]))
