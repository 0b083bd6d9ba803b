#!/usr/bin/env python3
"""Gives the names that a walk of an older Rattle cites the spelling of names.json (rt check --generated DIR --old-names).

usage: walks.py NAMES.JSON CRATE [FUNCTION ..]     rewrites CRATE/proofs/FUNCTION/Proof.antt in place
"""
import json, os, re, sys

W = r"[^\s(){}.;,@\"\[\]\\]+"
TOKEN = re.compile(r"--[^\n]*|\"(?:[^\"\\]|\\.)*\"|" + W + r"|\.")
key = lambda s: s.replace("_", "-")

def maps(d):
    needs, places, fields, loops = {}, {}, {}, {}
    for old, new in d["needs"]:
        needs.setdefault(key(old), new)
        if key(old).startswith("element-copy-out-"):
            needs.setdefault("array-read-" + key(old)[17:], new)
        if re.match(r"(add|sub|mul|shl|shr|cast|step)-", key(old)):
            needs.setdefault("overflow-" + key(old), new)
        if re.match(r"(div|rem)-", key(old)):
            needs.setdefault("nonzero-" + key(old), new)
    for old, new in zip([p[0] for p in d["places"]], d["places_by_name"]):
        places[key(old)] = new
    for p in d["places"]:
        if p[2] and p[2][0]:
            fields[key(p[2][0])] = p[2][1]
    for (old, new), _ in d["loops"]:
        loops[key(old)] = new
        fields.setdefault(key(old), new)
    return needs, places, fields, loops

def arms(d):
    """Of each step of a match: what its parts are called in the arm."""
    found = {}
    for a in d["arms"]:
        if a:
            for field, step, path in a[2]:
                found.setdefault(key(step), []).append((path, a[0], field))
    return found

def opened(text, d):
    """Drops `.before`, since each record shows the fields of those before it, and names what an arm has."""
    of = arms(d)
    def one(m):
        step, path = key(m.group(1)), [x for x in m.group(2).split(".") if x]
        for old, arm, field in sorted(of.get(step, []), key=lambda x: -len(x[0])):
            if old and path[:len(old)] == old:
                return "." + ".".join([arm, field] + path[len(old):])
        return m.group()
    text = re.sub(r"\.branch(?![\w'-])", ".branch-raw", text)
    lines = []
    for l in text.split("\n"):
        if not l.lstrip().startswith("--"):
            l = re.sub(r"(\blet \S+ = [\w'₀]+)(?:\.before)+ in\b", r"\1 in", l)
            l = re.sub(r"(?:\.before)+\.(?!before\b)", ".", l)
            l = re.sub(r"\.([A-Za-z_][\w'-]*)((?:\.(?:given|keys\d+|\d+))+)", one, l)
        lines.append(l)
    return "\n".join(lines)

def named(text, d):
    """What a call leaves of its arguments goes by their names."""
    for p in d["places"]:
        if p[3] and p[2][0]:
            ps = d["params"].get(p[3], [])
            for i, name in enumerate(ps):
                text = re.sub(r"\.%s\.new\.%d\b" % (re.escape(p[2][1]), i), ".%s.new.%s" % (p[2][1], name), text)
    return text

def turn(text, d, fn):
    text = opened(text, d)
    needs, places, fields, loops = maps(d)
    news = {key(new): new for _, new in d["needs"]}
    uses = [(m.start(), m.end()) for m in re.finditer(r"(?m)^(?:pub )?use [^\n]*$", text)]
    out, last, prev, prev2 = [], 0, "", ""
    toks = [(m.start(), m.end(), m.group()) for m in TOKEN.finditer(text)]
    i = 0
    missing = set()
    res = []
    pos = 0
    def emit(a, b, new):
        nonlocal pos
        res.append(text[pos:a]); res.append(new); pos = b
    for j, (a, b, t) in enumerate(toks):
        if t.startswith("--") or t == ".":
            continue
        dotted = j > 0 and toks[j-1][2] == "." and toks[j-1][1] == a
        base = toks[j-2][2] if dotted and j > 1 and toks[j-2][1] == toks[j-1][0] else ""
        k = key(t)
        if dotted and base == "tie":
            if t.startswith("Need-"):
                n = needs.get(key(t[5:])) or news.get(key(t[5:]))
                if n: emit(a, b, "Need-" + n)
                else: missing.add(t)
            elif k in places:
                emit(a, b, places[k])
            elif re.match(r"(invariant|decreases)-", t):
                h, r = t.split("-", 1)
                if key(r) in loops: emit(a, b, h + "-" + loops[key(r)])
            continue
        if dotted:
            deep = j > 2 and toks[j-3][2] == "." and toks[j-3][1] == toks[j-2][0]
            if deep or any(u <= a < v for u, v in uses):
                if k in ("well-formed", "type-inv"): emit(a, b, k.replace("-", "_"))
                continue
            if k in fields and fields[k] == t + "-1" and base != "c":
                continue
            if k in fields: emit(a, b, fields[k])
            elif k in ("well-formed", "type-inv"): emit(a, b, k.replace("-", "_"))
            continue
        if k == key(fn) + "-spec":
            emit(a, b, fn + "_spec")
    res.append(text[pos:])
    return "".join(res), missing

def main(names, crate, *only):
    d = json.load(open(names))
    for k, v in d.items():
        m = re.match(r"Rattle-([a-z_0-9]+)-proofs\.(.*)\.Lts$", k)
        if not m: continue
        path = m.group(2).replace(".", "/")
        if only and path not in only: continue
        f = os.path.join(crate, "proofs", path, "Proof.antt")
        if not os.path.exists(f): continue
        t = open(f, encoding="utf-8").read()
        new, missing = turn(t, v, path.split("/")[-1])
        new = named(new, v)
        new = re.sub(r"\.(in_default[\w-]*)\.(rest|keys\d+)\b", r".\1.\1-own.\2", new)
        if missing: print(f, "missing:", ", ".join(sorted(missing)))
        open(f, "w", encoding="utf-8").write(new)
main(*sys.argv[1:])
