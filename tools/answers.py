#!/usr/bin/env python3
"""Turns a crate's proofs/F/Proof.antt of the older Rattle into Invariants.antt and Answers.antt.

usage: answers.py NAMES CRATE..     at the top of the repository; NAMES is a folder for what `rt check --generated --old-names` writes

A path into the steps, as c.before.before.load.ensures, becomes the step's name today, c.load-x.ensures; an answer that only says `search rules` goes.
What it could not turn is printed, a line each.
"""
import json
import os
import re
import subprocess
import sys

NAME = r"[^\s(){}.;,@\"«»⟪⟫\[\]\\λ|]+"
TOKEN = re.compile(r"--[^\n]*|\"(?:[^\"\\]|\\.)*\"|" + NAME + r"|[\s\S]")
HEAD = re.compile(r"^(?:pub )?(?:abbrev )?(?:pub )?(?:private )?(" + NAME + r")\s*:\s*([\s\S]*)")


# The names of the named clauses of a kind, of each function of the repository.
def clauses_of(top, kind):
    out = {}
    for crate in sorted(os.listdir(os.path.join(top, "crates"))):
        src = os.path.join(top, "crates", crate, "src")
        for folder, _, files in os.walk(src):
            for name in files:
                if not name.endswith(".rt"):
                    continue
                with open(os.path.join(folder, name), encoding="utf-8") as it:
                    text = it.read()
                inside = os.path.relpath(os.path.join(folder, name), src)[:-3].split("/")
                module = [] if inside in (["lib"], ["main"]) else inside
                owner, fn = None, None
                for line in text.split("\n"):
                    m = re.match(r"impl(?:<[^>]*>)? (\w+)", line)
                    if m:
                        owner = m.group(1)
                    if line.startswith("}"):
                        owner = None
                    m = re.match(r"\s*(?:pub(?:\([^)]*\))? )?(?:unsafe )?(?:extern \"C\" )?(?:const )?fn (\w+)", line)
                    if m:
                        fn = [crate] + ([owner] if owner else module) + [m.group(1)]
                    m = re.match(r"\s*" + kind + r" (\w+) \{", line)
                    if m and fn:
                        out.setdefault("::".join(fn), []).append(m.group(1))
    return out


ENSURES, REQUIRES = {}, {}


def alike(name):
    return re.sub(r"[-_]", "", name).lower()


def said(text):
    print("left: " + text)


class Function:
    def __init__(self, crate, path, of):
        self.crate, self.path = crate, path
        self.of = of
        self.parent = {p[0]: p[1] for p in of["places"]}
        self.label = {p[0]: p[2] for p in of["places"]}
        self.callee = {p[0]: p[3] for p in of["places"]}
        self.number = {p[0]: i for i, p in enumerate(of["places"])}
        self.clauses = dict(zip([p[0] for p in of["places"]], of.get("clauses") or []))
        self.needs = {}
        for (old, new), at in zip(of["needs"], of["asked_at"]):
            self.needs[alike(old)] = (new, at[0])
        self.settled = {alike(it) for it in of.get("settled", [])}
        self.pre = REQUIRES.get("::".join([crate] + path.split("/")))
        self.asked = {alike(k): v for k, v in of.get("asked", {}).items()}
        self.loops = {alike(l[0][0]): (l[0][1], l[1], ch) for l, ch in zip(of["loops"], of["changed"])}

    # What the first arm of that variant binds.
    def bound(self, variant):
        name = self.path.split("/")[-1]
        for folder, _, files in os.walk(os.path.join("crates", self.crate, "src")):
            for it in files:
                with open(os.path.join(folder, it), encoding="utf-8") as file:
                    m = re.search(r"\bfn " + name + r"\b[\s\S]*?\n *\{\n([\s\S]*?)\n(?:    )?\}\n", file.read())
                arm = m and re.search(r"::" + re.sub(r"-\d+$", "", variant) + r"\s*[({]([^)}]*)[)}]", m.group(1))
                if arm:
                    return [b.strip().split(":")[-1].strip() for b in arm.group(1).split(",") if b.strip()]
        return []

    def up(self, place, n):
        for _ in range(n):
            place = self.parent.get(place)
        return place

    # The place, from `place` upwards, at which the step has that label.
    def step(self, place, label):
        at = place
        label = {"is_IsWord": "is_word"}.get(label, re.sub(r"_lem$", "", label))  # what port.py made of the labels
        while at:
            if alike(self.label[at][0]) == alike(label) and self.label[at][0]:
                return at
            at = self.parent.get(at)
        all_ = [p for p in self.label if self.label[p][0] and alike(self.label[p][0]) == alike(label)]
        return all_[0] if len({self.label[p][1] for p in all_}) == 1 else None


# .0, .1.0, .1.1.0, .., .1.1.1 into the names of n parts; how many of the steps that took.
def part(path, names):
    k = 0
    for i, name in enumerate(names):
        last = i == len(names) - 1
        if last:
            return name, k
        if k < len(path) and path[k] == "0":
            return name, k + 1
        if k < len(path) and path[k] == "1":
            k += 1
            continue
        return None, 0
    return None, 0


# The same of what is told of each parameter, where the last part is a .0 too; the whole path then.
def by_parameter(path, params):
    got, k = part(path, params)
    if not got:
        return None
    k += got == params[-1] and path[k : k + 1] == ["0"]
    return [got] + path[k:]


def turn_path(f, place, path, env):
    """path: the list of names behind `c`. Answers the new path text."""
    ups = 0
    while ups < len(path) and path[ups] == "before":
        ups += 1
    at = f.up(place, ups)
    rest = path[ups:]
    if not rest:
        return ("place", at)
    field = rest[0]
    if field.replace("-", "_") in ("args", "ranges", "well_formed", "lifetimes", "utf8", "type_inv"):
        return ("text", ".".join(["c", field.replace("-", "_")] + rest[1:]))
    if field == "requires":
        if not rest[1:] and not env.get("raw"):
            return ("text", whole("c.requires", f.pre))
        return ("text", "c.requires" + names_of(rest[1:], f.pre))
    where = f.step(at, field) if at else None
    if where is None:
        where = f.step(place, field)
        if where is None:
            said(f"{f.path}: no step {field} from {place} by {'.'.join(path)}")
            return ("text", ".".join(["c"] + rest))
    new = f.label[where][1]
    out = ["c", new]
    rest = rest[1:]
    if rest[:2] in (["given", "1"], ["given", "0"]):
        arm = where
        while arm and not f.label[arm][1].startswith("in-"):
            arm = f.parent.get(arm)
        if arm and rest[1] == "1":
            return ("text", ".".join(["c", f.label[arm][1], "is"] + rest[2:]))
        k = 2
        while rest[k : k + 1] == ["1"]:
            k += 1
        bound = f.bound(f.label[arm][1][3:]) if arm else []
        if rest[k : k + 1] == ["0"] and k - 2 < len(bound):
            return ("text", ".".join(["c", f.label[arm][1], bound[k - 2]] + rest[k + 1 :]))
    if rest == ["ensures"] and not env.get("raw"):
        return ("text", whole(".".join(out) + ".ensures", ENSURES.get(f.callee[where])))
    if rest and rest[0] == "ensures":
        return ("text", ".".join(out) + ".ensures" + names_of(rest[1:], ENSURES.get(f.callee[where])))
    if rest and rest[0] in ("auto", "new") and rest[1:2] in (["0"], ["1"]):
        told = by_parameter(rest[1:], f.of["params"].get(f.callee[where] or "", []))
        if told:
            return ("text", ".".join(out + [rest[0]] + told))
    return ("text", ".".join(out + rest))


# All of a contract of named clauses, as the older Rattle had it.
def whole(head, names):
    return head if not names else head + "." + names[0] if len(names) == 1 else "⟪" + ", ".join(head + "." + n for n in names) + "⟫"


# Such a whole is a tuple, and in a tactic's list its parts.
def settle(text):
    out, stack, last = [], [], ""
    for t in TOKEN.findall(text):
        if t in "([{":
            stack.append(last in ("omega", "grind", "cc", "search", "simp", "rw"))
        elif t in ")]}" and stack:
            stack.pop()
        if t == "⟪":
            t = "" if stack and stack[-1] else "("
        elif t == "⟫":
            t = "" if stack and stack[-1] else ")"
        out.append(t)
        if t.strip():
            last = t
    return "".join(out)


def names_of(path, names):
    if names and not path:
        return ""
    if names:
        got, k = part(path, names)
        if got:
            return "".join("." + it for it in [got] + path[k:])
    return "".join("." + it for it in path)


LETV = re.compile(r"let (" + NAME + r") = (" + NAME + r")((?:\." + NAME + r")*) in\s*")


def turn_body(f, place, body, subst=None):
    env = {} if subst else {"c": ("place", place, [])}
    parts, autos = {}, {}
    out = []
    tokens = [t for t in TOKEN.findall(body)]
    i = 0
    text = []
    while i < len(tokens):
        t = tokens[i]
        # let v = PLACE in
        if t == "let":
            m = LETV.match("".join(tokens[i:]))
            if m and m.group(2) in env and env[m.group(2)][0] == "place":
                path = [it for it in m.group(3).split(".") if it]
                r = turn_path(f, env[m.group(2)][1], path, env)
                if r[0] == "place":
                    env[m.group(1)] = ("place", r[1])
                    n, k = len(m.group(0)), 0
                    while n > 0:
                        n -= len(tokens[i + k])
                        k += 1
                    i += k
                    continue
                # an alias of a contract with named clauses
                if path and path[-1] == "requires" and f.pre:
                    parts[m.group(1)] = f.pre
                elif path and path[-1] == "auto":
                    ups = 0
                    while path[ups] == "before":
                        ups += 1
                    w = f.step(f.up(env[m.group(2)][1], ups) or env[m.group(2)][1], path[ups])
                    if w and f.of["params"].get(f.callee[w] or ""):
                        autos[m.group(1)] = f.of["params"][f.callee[w]]
                elif path and path[-1] == "ensures":
                    ups = 0
                    while path[ups] == "before":
                        ups += 1
                    w = f.step(f.up(env[m.group(2)][1], ups) or env[m.group(2)][1], path[ups])
                    if w and ENSURES.get(f.callee[w]):
                        parts[m.group(1)] = ENSURES[f.callee[w]]
        before = "".join(text[-1:])
        if re.match(NAME + r"\Z", t) and before != ".":
            path, j = [], i + 1
            while j + 1 < len(tokens) and tokens[j] == "." and re.match(NAME + r"\Z", tokens[j + 1]):
                path.append(tokens[j + 1])
                j += 2
            if t in env and env[t][0] == "place":
                if path:
                    env["raw"] = j + 1 < len(tokens) and "".join(tokens[j : j + 3]).strip().startswith("in") and re.search(r"let " + NAME + r" = $", "".join(text))
                    r = turn_path(f, env[t][1], path, env)
                    text.append("c" if r[0] == "place" else r[1])
                    i = j
                    continue
                text.append("c")
                i += 1
                continue
            if t in autos and path[:1] in (["0"], ["1"]):
                told = by_parameter(path, autos[t])
                if told:
                    text.append(".".join([t] + told))
                    i = j
                    continue
            if t in parts and "".join(text[-2:]) != "let " and "".join(tokens[i + 1 : i + 3]) not in (" =", " :"):
                text.append(t + names_of(path, parts[t]) if path else whole(t, parts[t]))
                i = j
                continue
            if subst and t in subst:
                text.append(subst[t])
                i += 1
                continue
        text.append(t)
        i += 1
    text = [re.sub(r"(?<![\w.'-])(?!c\.|goal\.)([a-z][\w']{0,3})\.([a-z]\w*(?:-[a-z]\w*)+)", lambda m: m[1] + "." + m[2].replace("-", "_"), "".join(text))]
    return re.sub(r"\(?\bnot-(?:true|false) (?:_|[\w.'-]+) (c\.[\w.'-]+)(\)?)", not_not, settle("".join(text)))


# A test of `!f(x)` says today what f(x) is.
def not_not(m):
    return m[1] if m[0][0] == "(" and m[2] else ("(" if m[0][0] == "(" else "") + m[1] + m[2]


def top_commas(text):
    depth, at, out = 0, 0, []
    for i, ch in enumerate(text):
        if ch in "([{":
            depth += 1
        elif ch in ")]}":
            depth -= 1
        elif ch == "," and depth == 0:
            out.append(text[at:i])
            at = i + 1
    return out + [text[at:]] if text[at:].strip() else out


# A tuple of n parts at the end of a body into a record of the names.
def as_record(body, names):
    lets = ""
    text = body.strip()
    while True:
        m = re.match(r"^(let [\s\S]*? in\s+)(?=let |\()", text)
        if not m:
            break
        lets += m.group(1)
        text = text[m.end() :]
    if len(names) == 1:
        return lets + "record { " + names[0] + " = " + text + " }"
    if not (text.startswith("(") and text.endswith(")")):
        return None
    depth = 0
    for i, ch in enumerate(text):
        depth += {"(": 1, ")": -1}.get(ch, 0)
        if depth == 0 and i < len(text) - 1:
            return None
    inner = top_commas(text[1:-1])
    flat = []
    while True:
        if len(flat) + len(inner) == len(names):
            flat += inner
            break
        if len(flat) + len(inner) > len(names):
            keep = len(names) - len(flat) - 1
            flat += inner[:keep] + ["(" + ",".join(inner[keep:]).strip() + ")" if len(inner) > keep + 1 else inner[keep]]
            break
        last = inner[-1].strip()
        flat += inner[:-1]
        if not (last.startswith("(") and last.endswith(")")):
            return None
        inner = top_commas(last[1:-1])
    return lets + "record { " + "; ".join(f"{n} = {v.strip()}" for n, v in zip(names, flat)) + " }"


def blocks(text):
    out, now = [], []
    for line in text.split("\n"):
        if line and not line[0].isspace() and now and not (now and all(l.startswith("--") for l in now)):
            # a new block begins where a declaration, a use, or a comment begins; bodies follow their heads
            out.append("\n".join(now))
            now = []
        now.append(line)
    return out + ["\n".join(now)]


def invariant_params(vars_, changed):
    return [v if not c else v + "₀" for v, c in zip(vars_, changed)] + [v for v, c in zip(vars_, changed) if c]


def turn(crate, path, of, top):
    file = os.path.join(top, "crates", crate, "proofs", path, "Proof.antt")
    with open(file, encoding="utf-8") as it:
        text = it.read()
    f = Function(crate, path, of)
    module = ".".join(["Rattle", crate, "proofs"] + path.split("/"))
    uses, decls, order = [], {}, []
    lead = []
    for b in blocks(text):
        s = b.strip()
        if not s:
            continue
        first = [l for l in s.split("\n") if not l.startswith("--")]
        if not first:
            lead.append(s)
            continue
        if first[0].startswith("use "):
            if not re.search(r"\.(Statement|Tie|Reads|Lts|Code|Met)\b", s):
                uses.append("\n".join(first))
            continue
        m = HEAD.match("\n".join(first))
        if m:
            name = m.group(1)
            decls[name] = {"type": m.group(2).strip(), "lines": [], "head": "\n".join(first), "note": [l for l in s.split("\n") if l.startswith("--")]}
            order.append(name)
        elif order:
            decls[order[-1]]["lines"].append("\n".join(first))
        else:
            said(f"{path}: block {s[:60]}")
    answers, invariants, helpers = [], [], []
    for name in order:
        d = decls[name]
        kind = re.sub(r"\s+", " ", d["type"])
        body = "\n".join(d["lines"])
        if "statement M" in kind:
            continue
        m = re.match(r"tie\.(invariant|decreases)-(\S+)", kind)
        if m:
            loop = f.loops.get(alike(m.group(2)))
            if not loop:
                said(f"{path}: no loop {kind}")
                continue
            new, vars_, changed = loop
            m2 = re.match(r"(?:abbrev )?" + re.escape(name) + r"\s+([^=]*?)\s*=\s*([\s\S]*)", re.sub(r"^(unfolding[^\n]*\n)*", "", body))
            given = m2.group(1).split()
            want = invariant_params(vars_, changed)
            subst = {}
            if len(given) != len(want):
                said(f"{path}: {name} has {given}, wanted {want}")
            for i, g in enumerate(given):
                w = want[i] if i < len(want) else "?" + g
                is_first = w.endswith("₀") and i < len(vars_)
                v = w[:-1] if is_first else w
                subst[g] = ("l.initial." if is_first else "l.") + v
            invariants.append((m.group(1) + "-" + new, turn_body(f, "", m2.group(2), subst)))
            continue
        m = re.match(r"(?:\(t : ℕ\) → )?(?:tie|[\w-]*lts)\.Need-(\S+)", kind)
        if m:
            old = alike(re.sub(r"^overflow-", "", m.group(1)))
            unfold = "".join(l + "\n" for l in re.findall(r"(?m)^unfolding[^\n]*", body))
            rest = re.sub(r"(?m)^unfolding[^\n]*\n?", "", body)
            m2 = re.match(re.escape(name) + r"((?:\s+[^\s=]+)*)\s*=\s*([\s\S]*)", rest)
            if not m2:
                said(f"{path}: body of {name}")
                continue
            if m2.group(2).strip() == "search rules" and not unfold:
                continue
            if old not in f.needs:
                if old in f.settled:
                    continue
                said(f"{path}: no goal for {name} ({kind})")
                helpers.append("-- no goal today: " + name + "\n" + "\n".join("-- " + l for l in body.split("\n")))
                continue
            new, place = f.needs[old]
            params = [it for it in m2.group(1).split() if it != "κs"]
            b = turn_body(f, place, m2.group(2))
            if "κs" in b:
                said(f"{path}: κs in {name}")
            names = f.asked.get(alike(m.group(1))) or f.asked.get(alike(new))
            if names:
                r = as_record(b, names)
                if r:
                    b = r
                elif re.match(r"(search|omega|grind|cc)\b", b.strip()):
                    b = "record { " + "; ".join(f"{n} = {b.strip()}" for n in names) + " }"
                else:
                    steps = ["".join(".1" for _ in range(i)) + (".0" if i < len(names) - 1 else "") for i in range(len(names))]
                    b = "let whole = " + b.strip() + " in record { " + "; ".join(f"{n} = whole{p}" for n, p in zip(names, steps)) + " }"
            answers.append("".join(l + "\n" for l in d["note"]) + f"pub {new} : goal.{new}\n{unfold}{new} {' '.join(params)} = {b.strip()}\n")
            continue
        note = "".join(l + "\n" for l in d["note"])
        helpers.append(note + re.sub(r"^pub ", "", d["head"]) + "\n" + body + "\n")
        helpers[-1] = helpers[-1].replace("tie.Start", "goal.Start")
        if "tie." in kind.replace("tie.Start", "") or "lts." in kind:
            said(f"{path}: helper {name} : {kind[:80]}")
    folder = os.path.dirname(file)
    note = "".join(l + "\n" for l in lead)
    helps = "\n".join(helpers)
    if invariants:
        body = "".join(f"\nabbrev pub {n} : goal.{n}\n{n} l = {b.strip()}\n" for n, b in invariants)
        with open(os.path.join(folder, "Invariants.antt"), "w", encoding="utf-8") as out:
            out.write("\n".join(uses) + f"\nuse {module}.Given as goal\n" + body)
    if answers:
        with open(os.path.join(folder, "Answers.antt"), "w", encoding="utf-8") as out:
            out.write(note + "\n".join(uses) + f"\nuse {module}.Goals as goal\n\n" + (helps + "\n" if helps else "") + "\n".join(answers))
    elif helps:
        said(f"{path}: helpers and no answers")
    return file


def main(argv):
    room, crates = argv[0], argv[1:]
    top = os.getcwd()
    ENSURES.update(clauses_of(top, "ensures"))
    REQUIRES.update(clauses_of(top, "requires"))
    for c in crates:
        to = os.path.join(room, c)
        os.makedirs(to, exist_ok=True)
        r = subprocess.run(["rt", "check", "--generated", to, "--old-names"], cwd=os.path.join(top, "crates", c), capture_output=True, text=True)
        if not os.path.exists(os.path.join(to, "names.json")):
            print(r.stdout[-2000:] + r.stderr[-2000:])
            continue
        with open(os.path.join(to, "names.json")) as it:
            names = json.load(it)
        done = []
        root = os.path.join(top, "crates", c, "proofs")
        for folder, _, files in sorted(os.walk(root)):
            if "Proof.antt" not in files:
                continue
            path = os.path.relpath(folder, root)
            key = f"Rattle-{c}-proofs.{path.replace('/', '.')}.Lts"
            if key not in names:
                said(f"{c}: {path}: not in names.json")
                continue
            try:
                done.append(turn(c, path, names[key], top))
            except Exception as e:
                said(f"{c}: {path}: {type(e).__name__} {e}")
        for file in done:
            os.remove(file)
        print(f"answers: {c}: {len(done)} files turned")


if __name__ == "__main__":
    main(sys.argv[1:])
