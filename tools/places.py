#!/usr/bin/env python3
"""Lists the places of src/ at which a reader would look for a newer form, by point, with their number.

usage: tools/places.py [ROOT]      (ROOT: a checkout; this one if none is given)

It goes by text, so it finds candidates. What each is, docs/DESIGN-PASS.md says."""
import difflib, itertools, os, re, sys

root = sys.argv[1] if len(sys.argv) > 1 else os.path.join(os.path.dirname(os.path.abspath(__file__)), "..")
files = sorted(os.path.join(d, f) for crate in os.listdir(os.path.join(root, "crates")) for d, _, fs in os.walk(os.path.join(root, "crates", crate, "src")) for f in fs if f.endswith(".rt"))
found = {}


def put(point, file, line, what):
    found.setdefault(point, []).append("%s:%s: %s" % (os.path.relpath(file, root), line, what))


def functions(text):
    """name, line, head, body of each function"""
    for m in re.finditer(r"^( *)(?:pub(?:\([a-z]+\))? )?(?:const )?fn ([a-z_0-9]+)", text, re.M):
        end = re.search(r"^%s\}" % m.group(1), text[m.start():], re.M)
        if end is None:
            continue
        whole = text[m.start():m.start() + end.end()]
        cut = re.search(r"^%s\{|\{$" % m.group(1), whole, re.M)
        head, body = (whole[:cut.start()], whole[cut.start():]) if cut else (whole, "")
        yield m.group(2), text[:m.start()].count("\n") + 1, head, body


def shape(body):
    words = re.findall(r"\"[^\"]*\"|[A-Za-z_][A-Za-z_0-9]*|\d+|[^\sA-Za-z_0-9]", body)
    keep = {"for", "in", "if", "else", "match", "let", "return", "continue", "while", "mut", "self", "Some", "None", "Ok", "Err", "true", "false", "as"}
    return [w if w in keep or not re.match(r"[A-Za-z_\d\"]", w) else "_" for w in words]


def parameters(head):
    m = re.search(r"\((.*?)\)\s*(?:->|$|\n|requires|ensures)", head, re.S)
    return [p.split(":")[0].strip().replace("mut ", "") for p in re.split(r",\s", m.group(1)) if ":" in p] if m else []


# What is sought in a line, by point, and in which lines it is passed over.
LINES = [
    ("1 enums", r"\benum [A-Z]", None),
    ("1 numbers for kinds", r"\b(kind|tag|route|layer|last|number|code|reason): u(8|16|32)\b", r"fn "),
    ("1 flags beside values", r"\(bool, |, bool\)|\bbool,$", None),
    ("3 while", r"^\s*(while|loop)\b", None),
    ("3 counted by hand", r"\+= 1;", None),
    ("4 conversions in place", r"\* 256|\{ 1 \} else \{ 0 \}|as u(8|16|32)\b|as usize\b", None),
    ("4 conversion functions", r"fn (of_kind|of_record|from_[a-z]+|to_[a-z]+|named|number)\(", None),
    (
        "6 arithmetic in an index, buffers with a length",
        r"\[[^\]\[]*\*[^\]\[]*\+[^\]\[]*\]|\[0; [A-Z_]{3,}\]|\b(low|high|used)\b.*=",
        r"^\s*(ensures|requires|ghost)",
    ),
    ("7 steps chosen by a value", r": (Rule|Part|Sight|Argument|Quantifier|Connective|Route)\b", None),
]
all_functions, clauses, groups = [], {}, {}
for file in files:
    text = open(file).read()
    tests = "#[test]" in text or file.endswith("tests.rt") or "_tests/" in file
    lines = text.split("\n")
    for n, line in enumerate(lines, 1):
        code = line.split("//")[0]
        for point, sought, passed in LINES:
            if re.search(sought, code) and not (passed and re.search(passed, code)):
                put(point, file, n, code.strip())
        if re.search(r"\bpub struct |\bpub enum ", code):
            above = " ".join(l for l in lines[max(0, n - 4):n - 1] if "derive" in l)
            if "PartialEq" not in above and "&'" not in text[text.find(line):text.find(line) + 200]:
                put("4 types without derived comparison", file, n, code.strip())
    for name, n, head, body in functions(text):
        all_functions.append((file, name, n, shape(body), tests))
        for m in re.finditer(r"^\s*for ([a-z_]+) in ([^{]+)\.\.", body, re.M):
            used = re.search(r"\[[^\]\n]*\b%s\b[^\]\n]*\]|\* %s\b" % (m.group(1), m.group(1)), body[m.end():])
            if used:
                put("3 ranges that index", file, n, "%s: for %s in %s.." % (name, m.group(1), m.group(2).strip()))
        if re.search(r"unreachable\(\)", body):
            put("1 arms that cannot be", file, n, name)
        if tests:
            continue
        for m in re.finditer(r"requires(?: [a-z_]+)? \{ (.*) \}$", head, re.M):
            clauses.setdefault(re.sub(r"\.old|\.now", "", re.sub(r"[SG]\.(System|Structure)\.meaning structure|kripke_of structure", "meaning", m.group(1))), []).append((file, n, name))
        groups[(file, n, name)] = frozenset(parameters(head)) - {"heap"}
for a, b in itertools.combinations(all_functions, 2):
    if min(len(a[3]), len(b[3])) < 24 or max(len(a[3]), len(b[3])) > 1.5 * min(len(a[3]), len(b[3])):
        continue
    like = difflib.SequenceMatcher(None, a[3], b[3], False).ratio()
    if like >= 0.85:
        put("2 functions of one shape", a[0], a[2], "%s ~ %s %s (%d%%)" % (a[1], os.path.relpath(b[0], root), b[1], round(100 * like)))
for clause, where in sorted(clauses.items()):
    if len(where) >= 3:
        put("5 one fact in three contracts", where[0][0], where[0][1], "%s (%s)" % (clause, ", ".join(w[2] for w in where)))
shared = {a & b for a in groups.values() for b in groups.values() if len(a & b) >= 3}
shared |= {a & b for a in shared for b in groups.values() if len(a & b) >= 3}
having = {group: tuple(f for f in sorted(groups) if group <= groups[f]) for group in shared}
for group, where in sorted(having.items(), key=lambda item: item[1]):
    if len(where) >= 3 and not any(group < other and where == having[other] for other in shared):
        put("5 parameters that travel together", where[0][0], where[0][1], "%s (%s)" % (", ".join(sorted(group)), ", ".join(w[2] for w in where)))
for point in sorted(found):
    print("== %s: %d" % (point, len(found[point])))
    for place in found[point]:
        print("   " + place)
answers = [os.path.join(d, f) for crate in os.listdir(os.path.join(root, "crates")) for d, _, fs in os.walk(os.path.join(root, "crates", crate, "proofs")) for f in fs if f.endswith(".antt")]
goals = sum(len(re.findall(r"^pub [^ ]+ : goal\.", open(f).read(), re.M)) for f in answers)
lines = sum(len(open(f).read().split("\n")) - 1 for f in answers)
print("== 8 proofs: %d files, %d answers, %d lines" % (len(answers), goals, lines))
