"""The public functions of the crates as their sources have them: comment, contract, parameters, and the definitions that are cited."""
import glob
import os
import re

ROOT = os.path.join(os.path.dirname(os.path.abspath(__file__)), "..")
TEXTS = {}
# The libraries of the toolchain whose words a contract has as it has symbols.
LIBRARY = ("std", "core")


def text_of(path):
    if path not in TEXTS:
        TEXTS[path] = open(path, encoding="utf-8").read()
    return TEXTS[path]


class Function:
    """A public function, or what stands for one below: its comment, its contract, and the lines that it is made of, by file."""

    inner, members, given, lent, returns, contract, said = False, False, [], [], True, [], []

    def __init__(self, crate, path, name, comment, lines=()):
        self.crate, self.path, self.name, self.comment = crate, path, name, comment
        self.full = crate + "::" + name
        self.places = [(path, list(lines))]

    # What the contract says, with the file whose imports its names are of.
    def texts(self):
        return [(" ".join(self.said), self.path)]

    # The names of definitions that the contract may have, with crate and module.
    def known(self):
        return {n: of for _, path in self.texts() for n, of in imports(path).items()}


class Written(Function):
    """A function or a method, as the source has it."""

    def __init__(self, crate, path, lines, start, head_end, end, name, comment):
        super().__init__(crate, path, name, comment, lines[start : end + 1])
        clauses = [" ".join(c.split()) for c in re.split(r"\n(?=\s*(?:requires|ensures)\b)", "\n".join(lines[start : head_end + 1]).removesuffix("\n" + lines[head_end]))]
        self.contract = [c.removesuffix(";") for c in clauses if c.startswith("ensures")]
        self.inner = any(c.startswith("requires") for c in clauses)
        head = re.split(r"\n\s*(?:requires|ensures)\b", "\n".join(lines[start : head_end + 1]))[0]
        self.given = re.findall(r"(\w+): ", head)
        self.lent = re.findall(r"(\w+): &(?:'\w+ )?mut ", head) + ["self"] * ("&mut self" in head)
        self.returns = "->" in head
        # What each clause says, without its name.
        self.said = [re.sub(r"^ensures\*?(?: \w+)? \{ (.*) \}$", r"\1", c) for c in self.contract]


class Given(Function):
    """What an implementation of a library's trait gives for a public type, by the implementation's ghost members. One without any has no contract."""

    def __init__(self, crate, path, block, comment):
        super().__init__(crate, path, "%s for %s" % (block.trait, block.owner), comment, block.lines)
        for member, body in block.members.items():
            bound, said = re.match(r"(?:λ ([^.]*)\. )?(.*)$", body).groups()
            bound = (bound or "").split()
            # that a call may be made is a premise; all else is what it gives
            if member.startswith("can_"):
                self.inner = True
                continue
            said = replaced(said, {bound[-1]: "result"}) if member.endswith("_gives") else "result ≡ " + said
            self.contract, self.said, self.given = self.contract + ["ensures { %s }" % said], self.said + [said], self.given + bound


class Fixed(Function):
    """A constant of a public trait, or the `==` that it asks of its types, whose contract is a law of the trait."""

    def __init__(self, crate, path, name, comment, lines, law):
        super().__init__(crate, path, name, comment, lines)
        self.law, self.said = law, ["result ≡ " + law.split(" ≡ ", 1)[1]]
        self.contract, self.given = ["ensures { %s }" % s for s in self.said], re.findall(r"\w+", law.split(" → ")[0].split(" : ")[0]) if " → " in law else []

    def texts(self):
        return [(self.law, self.path)]


class Method(Function):
    """A method or a constant of a trait of this repository, for one public type: in the trait's contract the type's ghost members stand for the trait's."""

    def __init__(self, promised, block, crate, path, places):
        super().__init__(crate, path, block.owner + "::" + promised.name.split("::")[1], promised.comment)
        self.promised = promised
        self.given, self.lent, self.returns, self.inner = promised.given, promised.lent, promised.returns, promised.inner
        self.contract, self.said = ([replaced(c, block.members) for c in told] for told in (promised.contract, promised.said))
        self.places, self.spoken = places, []
        for text, home in promised.texts():
            members = {m for m in block.members if has_word(m, text)}
            self.spoken += [(replaced(text, {m: "" for m in members}), home), (" ".join(block.members[m] for m in sorted(members)), path)]

    def texts(self):
        return self.spoken


class Block:
    """An implementation or a trait: its type, of an implementation its trait, the ghost members that it gives, and its lines."""

    def __init__(self, path, lines, i, head):
        self.is_trait, self.trait, self.owner = head.group(1) == "trait", head.group(2), head.group(3)
        self.path, self.start, self.end = path, i, lines.index("}", i)
        self.lines = lines[i : self.end + 1]
        self.members = {m: " ".join(body.split()) for m, body in re.findall(r"(?ms)^    ghost (\w+) = \{ (.*?) \};$", "\n".join(self.lines))}

    # The lines of a method or a constant, with the constant's ghost.
    def lines_of(self, name):
        for k, line in enumerate(self.lines):
            if re.match(r"    (?:final )?fn %s\b" % name, line):
                return self.lines[k : self.lines.index("    }", k) + 1] if not line.endswith(";") else [line]
        heads = [k for k, line in enumerate(self.lines) if re.match(r"    (?:ghost|const) %s\b" % name, line)]
        return [line for k in heads for line in self.lines[k : next(n for n in range(k, len(self.lines)) if self.lines[n].endswith(";")) + 1]]


BLOCK = re.compile(r"^(?:pub )?(impl|trait)(?:<[^>]*>)? (?:(?:\w+::)*(\w+(?:<[^ ]*>)?) for )?(\w+)")


def blocks(path):
    lines = text_of(path).split("\n")
    return [Block(path, lines, i, BLOCK.match(line)) for i, line in enumerate(lines) if BLOCK.match(line) and line.endswith(" {") or re.match(r"^pub trait ", line)]


# The text with other texts in the place of some of its words.
def replaced(text, by):
    return re.sub(r"(?<![\w'.])(%s)(?![\w'])" % "|".join(map(re.escape, by)), lambda m: by[m.group(1)], text) if by else text


# The comment above a line, without attributes and derives between them.
def comment_above(lines, i, pad):
    above, j = [], i - 1
    while lines[j].startswith(pad + "#["):
        j -= 1
    while j >= 0 and lines[j].startswith(pad + "//"):
        if not lines[j].strip().startswith("// Stays: "):
            above.insert(0, lines[j].strip()[2:].strip())
        j -= 1
    return " ".join(above)


# The comment above a line of a trait, or above those before it that it stands with.
def comment_of_group(lines, i):
    while i and not comment_above(lines, i, "    "):
        i -= 1
    return comment_above(lines, i, "    ")


# A public type of a crate, by its name: the file, its comment, and its lines, with its derives.
def declared(crate):
    out = {}
    for path in sources(crate):
        lines = text_of(path).split("\n")
        for i, line in enumerate(lines):
            m = re.match(r"^pub (?:struct|enum) (\w+)", line)
            if m:
                first = i
                while lines[first - 1].startswith("#["):
                    first -= 1
                out[m.group(1)] = (path, comment_above(lines, i, ""), lines[first : (i if line.endswith(";") else lines.index("}", i)) + 1])
    return out


# What a trait promises beside its methods: its constants, and `==` of its types, each by the law that has it on the left.
def laws_of(crate, block):
    lines = text_of(block.path).split("\n")
    for i in range(block.start, block.end):
        m = re.match(r"^    ghost \w+: \{ ((?:\([^()]*\) → )?(?:([A-Z_]+)|Self\.(eq) \([^()]*\) \([^()]*\)) ≡ .*) \};$", lines[i])
        if m:
            name = m.group(2) or m.group(3)
            home = next((k for k in range(block.start, block.end) if lines[k].startswith("    ghost %s: " % name)), i)
            yield Fixed(crate, block.path, block.owner + "::" + name, comment_of_group(lines, home), block.lines_of(name) or [lines[i]], m.group(1))


# What implementations give: those of the library's traits by their ghost members, those of this repository's by the trait's contract.
def implementations(crate, path, traits):
    types = declared(crate)
    for block in blocks(path):
        if not block.trait:
            continue
        promised = traits.get(block.trait)
        if promised is None:
            # its own comment, or that of the type, or that of the file
            lines = text_of(path).split("\n")
            if block.owner in types:
                yield Given(crate, path, block, comment_above(lines, block.start, "") or types[block.owner][1] or comment_above(lines, next(k for k, l in enumerate(lines) if not l.startswith("//")), ""))
            continue
        for f in promised:
            name = f.name.split("::")[1]
            places = [(path, block.lines_of(name))] if block.lines_of(name) else f.places
            if name == "eq":
                places = [(types[block.owner][0], types[block.owner][2])]
            yield Method(f, block, crate, path, places)


# The public functions of a file, with the comment above each, and what its public traits promise.
def functions(crate, path):
    lines = text_of(path).split("\n")
    owner, trait = "", False
    for i, line in enumerate(lines):
        block = BLOCK.match(line)
        if block:
            owner, trait = block.group(3) + "::", block.group(1) == "trait"
        m = re.match(r"^(\s*)pub (?:const )?(?:extern \"C\" )?fn (\w+)", line) or trait and re.match(r"^(    )(?:final )?fn (\w+)", line)
        if not m:
            continue
        pad, k = m.group(1), i
        while lines[k] != pad + "{" and not lines[k].endswith(" {") and not (trait and lines[k].endswith(";")):
            k += 1
        end = k if lines[k].endswith(";") else lines.index(pad + "}", k)
        head_end = k + 1 if lines[k].endswith(";") else k
        f = Written(crate, path, lines, i, head_end, end, (owner if pad else "") + m.group(2), comment_above(lines, i, pad))
        f.members = trait
        yield f
    for block in blocks(path):
        for f in laws_of(crate, block) if block.is_trait else []:
            f.members = True
            yield f


# The names that a source or a file of laws brings in from specs, with the crate and the module of each.
def imports(path):
    out = {}
    for m in re.finditer(r"(?m)^(?:ghost )?use Rattle\.(\w+)\.specs\.([\w.]+?)(?:\.\{([^}]*)\}| as (\w+));?$", text_of(path)):
        for n in [] if m.group(1) in LIBRARY else [n.strip().split(" as ")[-1] for n in m.group(3).split(",")] if m.group(3) else [m.group(4)]:
            out[n] = (m.group(1), m.group(2))
    return out


def has_word(name, text):
    return re.search(r"(?<![\w'])%s(?![\w'])" % re.escape(name), text)


# The definitions that a contract cites: name, crate and module.
def cited(f):
    return list(dict.fromkeys((n, c, m) for said, path in f.texts() for n, (c, m) in imports(path).items() if n not in f.given and has_word(n, said)))


def sources(crate):
    return sorted(glob.glob(os.path.join(ROOT, "crates", crate, "src", "*.rt")))


# Of every crate, in the order of crates.txt.
def public_functions():
    crates = re.findall(r"(?m)^(\w+)(?: staticlib)?:", text_of(os.path.join(ROOT, "crates.txt")))
    written = {path: list(functions(c, path)) for c in crates for path in sources(c)}
    # the methods, constants and laws of each trait of ours, with the lines of all that implement it
    traits = {b.owner: [f for f in fs if f.members and f.name.startswith(b.owner + "::")] for path, fs in written.items() for b in blocks(path) if b.is_trait}
    found = [f for c in crates for path in sources(c) for f in [*written[path], *implementations(c, path, traits)]]
    for f in found:
        if f.members:
            f.places = f.places + [at for g in found if isinstance(g, Method) and g.promised is f for at in g.places if at not in f.places]
    return found
