#!/usr/bin/env python3
# Counts, in the sources of the folder crates/ below the working directory, the places that docs/DESIGN-PASS.md speaks of:
#     python3 tools/places.py          a line for each kind of place
#     python3 tools/places.py KIND     the places of one kind, by file and line
import glob
import re
import sys
from collections import defaultdict

FILES = sorted(glob.glob("crates/*/src/*.rt"))
TEXT = {f: open(f, encoding="utf-8").read() for f in FILES}
found = defaultdict(list)


def lines(kind, pattern, only=lambda f: True):
    for f in FILES:
        if only(f):
            for i, line in enumerate(TEXT[f].split("\n"), 1):
                code = line.split("//")[0]
                if re.search(pattern, code):
                    found[kind].append((f, i, code.strip()))


# A function: file, line, head (up to its body), body.
def functions():
    for f in FILES:
        text = re.sub(r"//[^\n]*", "", TEXT[f])
        for m in re.finditer(r"^ *(?:pub )?(?:extern \"C\" )?fn (\w+)", text, re.M):
            brace = text.find("\n{", m.end())
            same_line = re.search(r"[^{\n]* \{\n", text[m.end():])
            indent = re.match(r" *", m.group(0)).group(0)
            at = text.find("\n" + indent + "{", m.end())
            start = same_line and m.end() + same_line.end()
            if at < 0 or (start and start < at and "ensures" not in text[m.end():start] and "requires" not in text[m.end():start]):
                at = start
            end = text.find("\n" + indent + "}", at or m.end())
            if not at or end < 0:
                continue
            yield f, text.count("\n", 0, m.start()) + 1, m.group(1), text[m.start():at], text[at:end]


FUNCTIONS = list(functions())

# 1
lines("1 an enum of the shape of Option or Result", r"enum (Field|Head|Lines|Sheet|DayResult|Need)\b")
lines("1 a flag with a value beside it", r"\b(present|history|last): bool")
lines("1 a number for a kind or a refusal", r"\b(family|call|answer|code|cause|kind|phase): (u64|usize)\b|(Refused|Unmet)\(u64\)|fn (of_\w+|refusal|kind|digit|refused)\(.*-> u64|^    0$")


# 2: functions of one crate or of crates of one kind whose text is the same but for names and numbers of their own
def shape(head, body):
    text = re.sub(r"\b(requires|ensures)\b[^\n]*", "", head) + body
    text = re.sub(r"\b0x[0-9a-fA-F_]+\b|\b\d[\d_.e-]*\b", "N", text)
    names = {}
    keep = {"let", "mut", "if", "else", "while", "return", "match", "fn", "pub", "for", "in", "true", "false", "as", "self", "u64", "f64", "usize", "bool", "u8"}

    def rename(m):
        w = m.group(0)
        return w if w in keep or w == "N" else names.setdefault(w, "v%d" % len(names))

    return re.sub(r"\s+", " ", re.sub(r"\b[A-Za-z_]\w*\b", rename, text)), text.count("\n")


shapes = defaultdict(list)
for f, i, name, head, body in FUNCTIONS:
    key, size = shape(head, body)
    if body.count("\n") >= 3 and "N, N, N, N" not in key:
        shapes[key].append((f, i, name))
    if "N, N, N, N" in key:
        shapes["a table"].append((f, i, name))
for same in shapes.values():
    if len(same) > 1:
        for f, i, name in same:
            found["2 a function of another's shape"].append((f, i, name))

# 3
lines("3 a loop by `while`", r"^\s*while ")

# 4
lines("4 an arm of a match that is a boolean", r"=> (true|false),")
lines("4 a boolean returned early", r"return (true|false);")
lines("4 a field copied from a value of the same type", r"^\s*(\w+): \w+\.(\w+\.)?\1,")
lines("4 a function that compares, converts or prints by hand", r"fn (same\w*|larger|smaller|shorter|least|capped|one_more|one_if|wide|phase_of|phase_number|in_numbers|call_name|answer_name|say|number|print_\w+)\(")

# 5 and 6
facts = defaultdict(list)
for f, i, name, head, body in FUNCTIONS:
    for clause in re.findall(r"requires\b(?: \w+)? \{ ([^\n]*?) \}\n", head + "\n"):
        facts[(f.split("/")[1], re.sub(r"\s+", " ", clause))].append((f, i, name))
for (crate, fact), where in facts.items():
    if len(where) >= 3:
        for f, i, name in where:
            found["5 a `requires` that three functions of a crate or more have"].append((f, i, "%s: %s" % (name, fact)))
for f, i, name, head, body in FUNCTIONS:
    m = re.search(r"\((.*?)\)\s*(->|requires|ensures|\{|$)", re.sub(r"\s+", " ", head))
    count = len(re.findall(r"\w+: ", m.group(1))) if m else 0
    if count >= 6:
        found["5 a function of six parameters or more"].append((f, i, "%s: %d" % (name, count)))
    if len(re.findall(r"\b(refusals|junctions|stages|passes|scaled_radii): &", head)) >= 3:
        found["6 parallel arrays as parameters"].append((f, i, name))
    if re.search(r"&(mut )?\[u8\], at: usize", re.sub(r"\s+", " ", head)):
        found["6 a text or a buffer with a place beside it"].append((f, i, name))

# 7
lines("7 a choice of what to run by a number, a flag or a kind", r"match (family|form|call|setting\.family|rule)\b|if setting\.family ==|minutes: bool|if (call|minutes) ?(==|\{)")

# 8
walks = glob.glob("crates/*/proofs/**/Proof.antt", recursive=True)
answers = glob.glob("crates/*/proofs/**/Answers.antt", recursive=True)
size = sum(len(open(f, encoding="utf-8").read().split("\n")) for f in walks)
for f in walks:
    found["8 a proof that walks the code"].append((f, 1, ""))
for f in answers:
    found["8 a file of answers"].append((f, 1, ""))

if len(sys.argv) > 1:
    for kind in found:
        if kind.startswith(sys.argv[1]):
            for f, i, what in found[kind]:
                print("%s:%d: %s" % (f, i, what))
else:
    for kind in sorted(found):
        print("%4d  %s" % (len(found[kind]), kind))
    print("%4d  lines of walks" % size)
