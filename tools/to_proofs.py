#!/usr/bin/env python3
"""tools/to_proofs.py: at the top of the checkout. Moves theorems that rest on edited definitions from specs/ to proofs/, and rewrites what names them.

WHOLE: modules that move as they are. SPLIT: modules of which the named declarations stay in specs/ and the rest moves to proofs/.
Text only, and safe to run again: what has moved is left alone, what still names the old place is rewritten."""
import glob, os, re, sys

WHOLE = {
    "ring": "Solver Quote Examples",
    "field": "ColumnLaws PointLaws",
    "multilinear": "TableLaws RoundSumLaws InterpolateLaws",
    "gkr": "Honest Keeps OneWord VerifierCount Forks Reads Steps Replays",
    "domain": "Extension Tree",
    "soundness": "Counted Examples FromLog Interactive Shape Sound StepLaws Supplied Union Unique",
    "wire": "ByteLaws",
    "stored": "ElementLaws RoundTrip",
    "stored_sheet": "SheetLaws",
    "poly": "CheckLaws",
}
# what stays, which of it gets modifiers, and the header of what stays
SPLIT = {
    ("gkr", "TranscriptLaws"): ("sampled_words", {}, "-- The sampled words of a log.\n-- Assumes nothing."),
    ("gkr", "Count"): ("layers_cost run_cost lengths entry_bytes", {},
        "-- What layers and runs cost, in observations and challenges; the lengths of a proof's polynomial entries, and their bytes.\n-- Assumes nothing."),
    ("gkr", "Samples"): ("unmark words_sampled", {}, "-- The values of the sampled words of a log.\n-- Assumes nothing."),
    ("domain", "Prime"): ("undivided tried", {"undivided": "pub", "tried": "pub"}, "-- Trial division, and how far it goes for 2013265921.\n-- Assumes nothing."),
    ("domain", "Inverse"): ("computed", {"computed": "pub"}, "-- The power of 11 that tells that it is no square in the base field.\n-- Assumes nothing."),
    ("soundness", "Extension"): ("inverse inverts plain_sum live_rows", {},
        "-- Over the extension field: rows whose root is (0, q0), with q0 not zero.\n-- Assumes nothing."),
    ("soundness", "Uniform"): ("Bounded", {}, "-- THE SOUNDNESS ERROR over the extension field.\n-- Assumes nothing."),
    ("soundness", "WordLog"): ("Fours plain element elements read DrewAt",
        {"Fours": "pub", "plain": "pub", "element": "pub", "elements": "unfoldable pub", "read": "unfoldable pub"},
        "-- The elements of a log of words, and what a log has where a challenge was drawn.\n-- Assumes nothing."),
    ("stored", "ReadWords"): ("CanonClaims CanonCubic", {}, "-- Claims and sub-rounds of canonical words.\n-- Assumes nothing."),
    ("stored", "Lengths"): ("up_from lengths Rounds proof_size", {}, "-- A proof of n rounds: how many layers and sub-rounds it has, and how many bytes: 22 + 65 n + 24 n (n - 1).\n-- Assumes nothing."),
}
# modules whose name Rattle gives to a module of its own in proofs/
CALLED = {("gkr", "Reads"): "ReadLaws"}
HEADS = {
    "ring": "-- The solver for equations in rings (Quote reads the goal; the rest is how it works), and examples.",
    "multilinear": "-- The laws of tables, round sums and interpolation.",
    "gkr": "-- What is proved of the run.",
    "domain": "-- Base and extension are fields, from the prime and from 11; and what that says of the tree.",
    "soundness": "-- The verifier is sound: Sound (every proof and transcript), StepLaws (bad challenges are few), Unique, Counted (every prover that does not look ahead), Interactive,\n"
        "-- FromLog and WordLog (challenges that are any function of the log), Extension and Uniform (over the extension).",
}
# headers of specs/Lib.antt that name what has moved
LIBS = {
    "ring": (["-- Commutative rings (Ring, RingLaws, Field), and the solver for equations in them (Quote reads the goal; the rest is how it works)."],
        ["-- Commutative rings (Ring, RingLaws, Field), and the expressions that the solver for equations in them reads."]),
    "field": (["-- Laws of words, cells, points and columns: ElementLaws, CellLaws, PointLaws, ColumnLaws."], ["-- Laws of words and cells: ElementLaws, CellLaws."]),
    "multilinear": (["-- Multilinear tables and what is summed over them: definitions (Forms, Table, Interpolate, RoundSum), and their laws."],
        ["-- Multilinear tables and what is summed over them: Forms, Table, Interpolate, RoundSum."]),
    "domain": (["-- Base and extension are fields, from the prime and from 11. Definitions: Field, Rows. What is proved: FieldLaws, Prime, Fermat, Inverse, Extension, Tree."],
        ["-- What it takes to be a field. Definitions: Field, Rows. What is proved: FieldLaws, Fermat. What is computed: Prime, Inverse."]),
    "soundness": (["-- Theorems: Sound (every proof and transcript), StepLaws (bad challenges are few), Unique, Counted (every prover that does not look ahead), Interactive,",
        "-- FromLog and WordLog (challenges that are any function of the log), Extension and Uniform (over the extension). The rest is how they are proved."],
        ["-- The rest is what the proofs of the theorems use."]),
    "poly": (["-- What the helpers answer. Definitions: Checks, Evaluations, Folds, Reports. Laws: CheckLaws, Exact, Unique."],
        ["-- What the helpers answer. Definitions: Checks, Evaluations, Folds, Reports. Laws: Exact, Unique."]),
}

NAME = r"[^\s(){}.;,@\"λ:=]+"
SIGNED = re.compile(rf"((?:abbrev |unfoldable |pub |ghost )*)({NAME}(?: {NAME})*) (?:\(.*?\) )*: ")
MADE = re.compile(rf"((?:pub )?(?:record|data|ruleset) )({NAME})")

def called(crate, module):
    return CALLED.get((crate, module), module)

def read(path):
    return open(path, encoding="utf-8").read()

def write(path, text):
    os.makedirs(os.path.dirname(path), exist_ok=True)
    open(path, "w", encoding="utf-8").write(text)

def indent(line):
    return len(line) - len(line.lstrip())

def parsed(lines):
    """The items of lines of one indentation: (kind, name, lines, items)."""
    items, i, above = [], 0, []
    while i < len(lines):
        line = lines[i]
        if not line.strip():
            if above: items.append(("heading", None, above, None)); above = []
            i += 1; continue
        at = indent(line)
        said = line.strip()
        if said.startswith("--"):
            above.append(line); i += 1; continue
        if said.startswith("use "):
            items.append(("use", None, above + [line], None)); above = []; i += 1; continue
        end = i + 1
        if said.startswith("module ") and said.endswith(" where"):
            while end < len(lines) and (not lines[end].strip() or indent(lines[end]) > at): end += 1
            body = lines[i + 1:end]
            opens = []
            while body and re.match(r"\s+(open|infix[lr]?) ", body[0]): opens.append(body.pop(0))
            items.append(("module", None, above + [line] + opens, parsed(body))); above = []; i = end; continue
        signed = MADE.match(said) or SIGNED.match(said)
        if not signed:
            sys.exit(f"no declaration: {line}")
        name = signed[2]
        while end < len(lines):
            if not lines[end].strip():
                k = end
                while k < len(lines) and not lines[k].strip(): k += 1
                if k < len(lines) and indent(lines[k]) > at: end = k; continue
                break
            if indent(lines[end]) <= at and not re.match(rf"\s*(unfolding |\}}|{re.escape(name)}(?![\w'-]))", lines[end]): break
            end += 1
        items.append(("decl", name, above + lines[i:end], None)); above = []; i = end
    if above: items.append(("heading", None, above, None))
    return items

def half(items, keep):
    """The lines of the items whose name is kept."""
    out, headings = [], []
    for kind, name, lines, inner in items:
        if kind == "heading": headings = [lines]
        elif kind == "decl" and keep(name):
            if re.match(r"\s*-- [A-Z]{2}", lines[0]): headings = []
            for h in headings: out += h + [""]
            headings = []
            out += lines + [""]
        elif kind == "module":
            body = half(inner, keep)
            if body:
                if re.match(r"\s*-- [A-Z]{2}", lines[0]): headings = []
                for h in headings: out += h + [""]
                headings = []
                if len(lines) > 1 and lines[-1].lstrip().startswith(("open", "infix")): lines = lines + [""]
                out += lines + body
    return out

def names(items):
    for kind, name, lines, inner in items:
        if kind == "decl": yield name
        elif kind == "module": yield from names(inner)

def tokens(text):
    return set(re.findall(r"[^\s(){}.;,\"λ]+", re.sub(r"--.*", "", text)))

def used(name, words):
    parts = [p for p in re.split("◌", name) if p]
    return name in words or all(p in words for p in parts)

def pruned(uses, body):
    words, out = tokens(body), []
    for line in uses:
        at = re.match(r"(use (\S+?))\.\{([^}]*)\}$", line)
        if at:
            kept = [n for n in at[3].split(", ") if used(n.split(" as ")[-1].strip(), words)]
            if kept: out.append(f"{at[1]}.{{{', '.join(kept)}}}")
            continue
        name = line.split(" as ")[-1] if " as " in line else line.split(".")[-1]
        if re.search(rf"(?<![\w.]){re.escape(name)}\.", body): out.append(line)
    return out

def split(crate, module):
    here, there = f"crates/{crate}/specs/{module}.antt", f"crates/{crate}/proofs/{module}.antt"
    if os.path.isfile(there) or not os.path.isfile(here): return
    stays, modifiers, head = SPLIT[crate, module]
    stays = stays.split()
    lines = read(here).split("\n")
    first = next(i for i, l in enumerate(lines) if l.startswith("use "))
    header, items = lines[:first], parsed(lines[first:])
    have = list(names(items))
    for n in stays:
        if have.count(n) != 1: sys.exit(f"{here}: {n} is declared {have.count(n)} times")
    uses = [i[2][-1] for i in items if i[0] == "use"]
    low = "\n".join(half(items, lambda n: n in stays)).strip() + "\n"
    high = "\n".join(half(items, lambda n: n not in stays)).strip() + "\n"
    for n, m in modifiers.items():
        low, c = re.subn(rf"(?m)^( *)((?:abbrev |unfoldable |pub )*){n} (?=(?:\([^=\n]*\) )?: )",
            lambda a: a[1] + " ".join(k for k in ("abbrev", "unfoldable", "pub") if k in [*a[2].split(), *m.split()]) + f" {n} ", low)
        if c != 1: sys.exit(f"{here}: the signature of {n} is found {c} times")
    words = tokens(high)
    own = f"use Rattle.{crate}.specs.{module}.{{{', '.join(n for n in stays if n in words)}}}"
    uses_high = pruned(uses, high)
    at = max([i for i, l in enumerate(uses_high) if l.startswith(f"use Rattle.{crate}.specs.")], default=len(uses_high) - 1)
    uses_high.insert(at + 1, own)
    write(here, "\n".join([head, *pruned(uses, low), "", low]))
    write(there, "\n".join([*header, *uses_high, "", high]))
    print(f"split {crate}/{module}: stays {' '.join(stays)}; moves {' '.join(n for n in have if n not in stays)}")

def move(crate, module):
    here, there = f"crates/{crate}/specs/{module}.antt", f"crates/{crate}/proofs/{called(crate, module)}.antt"
    if not os.path.isfile(here): return
    if os.path.isfile(there): sys.exit(f"both {here} and {there}")
    os.makedirs(os.path.dirname(there), exist_ok=True)
    os.rename(here, there)
    print(f"moved {crate}/{module}: {' '.join(n for n in re.findall(r'(?m)^ *(?:(?:abbrev|unfoldable) )?pub (?:(?:record|data|ruleset) )?(' + NAME + ')', read(there)))}")

def libs(crate, whole, parts):
    specs, proofs = f"crates/{crate}/specs/Lib.antt", f"crates/{crate}/proofs/Lib.antt"
    text = read(specs)
    gone = [m for m in whole if re.search(rf"(?m)^pub mod {m}$", text)]
    for m in whole: text = re.sub(rf"(?m)^pub mod {m}\n", "", text)
    if crate in LIBS:
        old, new = ("\n".join(side) + "\n" for side in LIBS[crate])
        text = text.replace(old, new)
    if text != read(specs): write(specs, text)
    text = read(proofs) if os.path.isfile(proofs) else HEADS[crate] + "\n"
    was = text
    for m in [*(called(crate, m) for m in whole), *parts]:
        if os.path.isfile(f"crates/{crate}/proofs/{m}.antt") and not re.search(rf"(?m)^pub mod {m}$", text):
            text = re.sub(rf"(?m)^mod {m}$", "", text).rstrip("\n") + f"\npub mod {m}\n"
    if text != was or not os.path.isfile(proofs): write(proofs, text)

END = r"(?![\w'-])"

def renamed(text):
    for crate, modules in WHOLE.items():
        text = re.sub(rf"(?<![\w.])(Rattle[.·]{crate}\.)specs\.({modules.replace(' ', '|')}){END}", r"\1proofs.\2", text)
    for (crate, module), name in CALLED.items():
        text = re.sub(rf"(?m)^((?:ghost )?use Rattle\.{crate}\.proofs\.){module}(;?)$", rf"\1{name} as {module}\2", text)
        text = re.sub(rf"(?<![\w.])(Rattle\.{crate}\.proofs\.){module}{END}", rf"\1{name}", text)
    return text

def parted(path, text):
    """Imports of split modules, parted by name."""
    for (crate, module), (stays, *_) in SPLIT.items():
        stays, low, high = stays.split(), f"Rattle.{crate}.specs.{module}", f"Rattle.{crate}.proofs.{module}"
        if low not in text: continue
        # full paths in text
        text = re.sub(rf"(?<![\w.]){re.escape(low)}\.({NAME})", lambda a: a[0] if a[1] in stays else f"{high}.{a[1]}", text)
        out, named = [], []
        lines = text.split("\n")
        for line in lines:
            at = re.match(rf"(\s*(?:ghost |pub )*use ){re.escape(low)}(?:\.\{{([^}}]*)\}}| as ({NAME}))?(;?)$", line)
            if not at: out.append(line); continue
            front, listed, alias, end = at[1], at[2], at[3], at[4]
            if listed is not None:
                sides = ([n for n in listed.split(", ") if (n.split(" as ")[0].strip() in stays) == is_low] for is_low in (True, False))
                out += [f"{front}{p}.{{{', '.join(ns)}}}{end}" for p, ns in zip((low, high), sides) if ns]
                continue
            name = alias or module
            told = set(re.findall(rf"(?<![\w.]){re.escape(name)}\.({NAME})", text.replace(line, "")))
            lows = sorted(told & set(stays))
            if told and told <= set(stays): out.append(line); continue
            out.append(line.replace(low, high))
            if lows:
                named.append((name, lows))
                out.append(f"{front}{low}.{{{', '.join(lows)}}}{end}")
        text = "\n".join(out)
        for name, lows in named:
            for n in lows: text = re.sub(rf"(?<![\w.]){re.escape(name)}\.{n}{END}", n, text)
            print(f"{path}: {name}.{{{', '.join(lows)}}} by name")
        # one import of a module by name
        seen, out = {}, []
        for line in text.split("\n"):
            at = re.match(rf"((?:ghost )?use (?:{re.escape(low)}|{re.escape(high)}))\.\{{([^}}]*)\}}(;?)$", line)
            if at and at[1] in seen:
                first = seen[at[1]]
                before = re.match(r"(.*\.\{)([^}]*)(\}.*)$", out[first])
                out[first] = before[1] + ", ".join(dict.fromkeys(before[2].split(", ") + at[2].split(", "))) + before[3]
                continue
            if at: seen[at[1]] = len(out)
            out.append(line)
        text = "\n".join(out)
    return text

def rewrite():
    for path in sorted(glob.glob("crates/**/*", recursive=True)):
        if "/out/" in path or not path.endswith((".antt", ".rt", ".edit")) or not os.path.isfile(path): continue
        was = read(path)
        text = renamed(was)
        if not path.endswith(".edit"): text = parted(path, text)
        else:
            crate = path.split("/")[1]
            for m in WHOLE.get(crate, "").split():
                text = re.sub(rf"(?m)^file: specs/{m}\.antt$", f"file: proofs/{called(crate, m)}.antt", text)
        if text != was: write(path, text)
    for path in sorted(glob.glob("docs/*.md") + ["README.md"]):
        if path.endswith(("GATE.md", "PORT.md", "READING.md")): continue
        was = text = read(path)
        text = renamed(text)
        for crate, modules in WHOLE.items():
            text = re.sub(rf"(?<![\w-])({crate}/)specs/({modules.replace(' ', '|')}){END}", lambda a: f"{a[1]}proofs/{called(crate, a[2])}", text)
        if text != was: write(path, text)

def checked():
    bad = 0
    for path in sorted(glob.glob("crates/**/*", recursive=True)):
        if "/out/" in path or not os.path.isfile(path): continue
        crate = path.split("/")[1]
        if "/specs/" in path and path.endswith(".antt") or path.endswith(".rt"):
            for line in read(path).split("\n"):
                if re.search(rf"Rattle\.{crate}\.proofs\.", line): bad += 1; print(f"{path}: {line.strip()}")
    return bad

if __name__ == "__main__":
    if not os.path.isdir("crates"): sys.exit("run it at the top of the checkout")
    for c, ms in WHOLE.items():
        for m in ms.split(): move(c, m)
    for c, m in SPLIT: split(c, m)
    for c in {*WHOLE, *(c for c, _ in SPLIT)}:
        libs(c, WHOLE.get(c, "").split(), [m for d, m in SPLIT if d == c])
    rewrite()
    if checked(): sys.exit("a file of specs/, or a clause, names proofs of its own crate")
