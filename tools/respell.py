#!/usr/bin/env python3
"""Spells the definitions and lemmas of this repository in snake case (types in camel case), as today's Rattle does. Run once, right after port.py.

usage: respell.py [--check]     at the top of the repository

It renames what the files of specs/ and proofs/ declare with a dash or in camel case: whole names, in .antt files, and in the clauses and `ghost` lines of
.rt files. Functions, exported names, strings, inputs and outputs keep their names. A name that would meet another is in OTHERWISE.
"""
import glob
import os
import re
import sys

ROOT = os.path.dirname(os.path.dirname(os.path.abspath(__file__)))
NAME = r"[^\s(){}.;,@\"«»\[\]\\λ:|]+"
TOKEN = re.compile(r"--[^\n]*|\"(?:[^\"\\]|\\.)*\"|" + NAME + r"|[\s\S]")
OWN = re.compile(r"\buse Rattle\.(\w+)\.(?:specs|proofs)\b")
LIBRARY = {"std", "core", "io", "libc", "os"}
STEPS = {"ensures", "requires", "result", "args", "new", "invariant", "auto"}
OTHERWISE = {
    "pointWords": "words_of_point",
    "proofBytes": "bytes_of_proof",
    "workspaceWords": "words_of_workspace",
    "logWords": "words_of_log",
    "sampledWords": "words_sampled",
    "layerCount": "count_of_layers",
    "entryCount": "count_of_entries",
    "readOff": "read_joined",
    "log-room": "log_room_fits",
    "All-logged": "AllLogged",
    "K1-K10": "k1_to_k10",
    "ASSERT-ZERO": "ASSERT_ZERO",
}
# Lemmas that say what a definition of the same spelling is.
for lemma in "base-cell element-of claims-words claim-words cubic-words cubics-words entry-count weighed-at sheet-read used-up variables-of elements-given".split():
    OTHERWISE[lemma] = lemma.replace("-", "_") + "_is"


def texts(kind):
    return sorted(p for p in glob.glob(os.path.join(ROOT, "crates", "**", "*" + kind), recursive=True) if "/out/" not in p)


def read(path):
    with open(path, encoding="utf-8") as f:
        return f.read()


def is_odd(name):
    return "◌" not in name and re.search(r"[^\W\d_]", name) and (re.search(r"\w-\w", name) or re.match(r"[a-z]\w*[A-Z]", name)) and not re.match(r"\d", name)


def snake(name):
    if name in OTHERWISE:
        return OTHERWISE[name]
    if name[0].isupper():
        return re.sub(r"^[A-Z][A-Za-z]*|^K\d+", lambda m: m[0].lower(), name).replace("-", "_") if "-" in name else name
    return re.sub(r"(?<=[a-z0-9])[A-Z]", lambda m: "_" + m[0].lower(), name).replace("-", "_").replace("·", "_")


def words(text):
    for t in TOKEN.findall(text):
        if not t.startswith("--") and not t.startswith('"'):
            yield t


# The names that a file brings in from a library that is not of this repository.
def lent(text):
    out = set()
    for m in re.finditer(r"(?m)^(?:ghost )?use ([\w.+'-]+?)\.\{([^}]*)\}", text):
        path = m.group(1).split(".")
        if path[0] != "Rattle" or path[1] in LIBRARY:
            out |= {n.strip().split(" as ")[-1] for n in m.group(2).split(",")}
    return out


# The names that a file declares: at the head of a line, as a field, by `let`, or in a binder.
def declared(text):
    out = set()
    code = "\n".join(l for l in text.split("\n") if not l.lstrip().startswith("--"))
    for m in re.finditer(r"(?m)^[ \t]*((?:(?:abbrev|pub|unfoldable|record|data|let|where|and|instance) )*)((?:" + NAME + r" )+)(?=(?:[({][^\n]*)?:)", code):
        out |= set(m.group(2).split())
    for m in re.finditer(r"(?:\blet |[({]|λ )((?:" + NAME + r" )*" + NAME + r")(?= ?[:.=]| \()", code):
        out |= set(m.group(1).split())
    for m in re.finditer(r"(?m)(?:\[|\|) (" + NAME + r") (?:" + NAME + r" )*↦", code):
        out |= set(m.group(1).split())
    for m in re.finditer(r"(?m)^ *record (" + NAME + ")|\\bas (" + NAME + ")", code):
        out |= {it for it in m.groups() if it}
    return {n for n in out if is_odd(n)}


def turn_words(text, table, keep, is_walk):
    out, path, dotted = [], [], False
    own = {m.group(1) for m in re.finditer(r"(?m)^(" + NAME + r") : tie\.", text)} if is_walk else set()
    for t in TOKEN.findall(text):
        if t.startswith("--") or t.startswith('"') or not re.match(NAME + r"\Z", t):
            if t == ".":
                dotted = bool(path)
            else:
                path, dotted = [], False
            out.append(t)
            continue
        path = path + [t] if dotted else [t]
        dotted = False
        made = is_walk and (t in own or len(path) > 1 and (path[0] in ("tie", "lts", "reads") or path[0].endswith("-reads") or not STEPS & set(path[1:-1])))
        out.append(t if made or t in keep or t not in table else table[t])
    return "".join(out)


# A .rt file: its lines `ghost use`, and its clauses.
def turn_source(text, table):
    keep = lent(text)
    out, at = [], 0
    for m in re.finditer(r"(?m)^ *ghost [^\n]*(?:\n[^\n;]*)*?;|^\s*(?:requires|ensures)\*?(?: \w+)? \{", text):
        start, end = m.span()
        if start < at:
            continue
        if text[m.end() - 1] == "{":
            depth, end = 1, m.end()
            while depth:
                depth += {"{": 1, "}": -1}.get(text[end], 0)
                end += 1
        out += [text[at:start], turn_words(text[start:end], table, keep, False)]
        at = end
    return "".join(out + [text[at:]])


# Names in camel case that a comment has.
def turn_comments(text, mark, table):
    camel = {a: b for a, b in table.items() if "-" not in a}
    turn = lambda m: re.sub(r"\b[a-z]\w*\b(?!\()", lambda w: camel.get(w[0], w[0]), m[0])
    return re.sub(r"(?m)(?<!\S)" + mark + r"[^\n]*", turn, text)


def main():
    antts = texts(".antt")
    table, met = {}, {}
    for p in antts:
        if p.endswith("/Proof.antt"):
            continue
        t = read(p)
        for n in declared(t) - lent(t):
            table[n] = snake(n)
    table = {a: b for a, b in table.items() if a != b}
    for a, b in table.items():
        met.setdefault(b, []).append(a)
    twice = {b: a for b, a in met.items() if len(a) > 1}
    bad = []
    for p in antts + texts(".rt"):
        t = read(p)
        if p.endswith(".rt"):
            ghost = " ".join(m.group(0) for m in re.finditer(r"(?m)^ *ghost [^\n]*(?:\n[^\n;]*)*?;|^\s*(?:requires|ensures)[^\n]*", t))
            code = set(words(ghost))
            have = set(re.findall(r"(\w+): ", t)) | set(re.findall(r"λ ([^.]*)\.", ghost))
        else:
            code = set(words(t))
            have = set(words(re.sub(r"(?m)^use [\w.+']+", "", t)))
        for a, b in table.items():
            if a in code and b in have and a not in lent(t) and not p.endswith("/Proof.antt"):
                bad.append(f"{os.path.relpath(p, ROOT)}: {a} -> {b} is there")
        bad += [f"{os.path.relpath(p, ROOT)}: {' '.join(a)} -> {b}" for b, a in twice.items() if len(set(a) & code) > 1]
    print("\n".join(sorted(bad)))
    print(f"respell: {len(table)} names, {len(bad)} that meet another")
    if bad or "--check" in sys.argv:
        return 1
    for p in antts + texts(".rt"):
        t = read(p)
        new = turn_source(t, table) if p.endswith(".rt") else turn_words(t, table, lent(t), p.endswith("/Proof.antt"))
        new = turn_comments(new, "//" if p.endswith(".rt") else "--", table)
        if new != t:
            with open(p, "w", encoding="utf-8") as f:
                f.write(new)
    return 0


if __name__ == "__main__":
    raise SystemExit(main())
