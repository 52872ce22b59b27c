"""Makes random and damaged cases from a seed. Sizes stay within LARGEST."""

import ask
import model as m
from forms import FORMS

P = m.P
TOP = (1 << 32) - 1
EDGE = [0, 1, 2, P - 1]
BAD = [P, P + 1, 1 << 31, TOP]
# The longest lists and buffers of a case, by its arguments, for programs that read them into arrays (lists of poly: 8,200).
LARGEST = {40: (13, 1, 16400, 320, 2900, 48, 1000, 32800), 50: ((1 << 64) - 1, 21, 16400, 320, 48, 1000), 60: (65600, 16400), 70: (16400, 48),
           80: ((1 << 64) - 1, 21, 16400, 1000, 48)}


def within(code, a):
    """Whether a case keeps to LARGEST."""
    if FORMS[code][0] == "poly":
        rooms = a[-2:-1] if code in (26, 27, 30) else []
        return all(len(x) <= 8200 for x in a if isinstance(x, list)) and all(r <= 8200 for r in rooms)
    return all((len(x) if isinstance(x, list) else x) <= most for x, most in zip(a, LARGEST.get(code, ())))


class Make:
    """Random pieces of cases, all from one random.Random."""

    def __init__(self, random):
        self.r = random

    def word(self):
        r = self.r.random()
        return self.r.randrange(P) if r < 0.8 else self.r.choice(EDGE) if r < 0.95 else self.r.randrange(100)

    def element(self):
        r = self.r.random()
        if r < 0.1:
            return (self.word(), 0, 0, 0)
        return tuple(self.word() for _ in range(4)) if r < 0.95 else m.ZERO

    def unit(self):
        e = self.element()
        return m.ONE if e == m.ZERO else e

    def any_element(self):
        return tuple(self.r.choice(BAD) if self.r.random() < 0.2 else self.r.randrange(1 << 32) if self.r.random() < 0.2
                     else self.word() for _ in range(4))

    def words(self, count):
        return [self.word() for _ in range(count)]

    def list(self, count):
        """That many elements, as words."""
        return m.flat(self.element() for _ in range(count))

    def filler(self):
        return self.r.choice([self.r.randrange(1, 10), self.r.randrange(1 << 32), TOP])

    def near(self, size, short=0.1):
        """A buffer's length: exactly enough, a little more, or too short."""
        r = self.r.random()
        if r < short:
            return max(0, size - self.r.choice([1, 1, 1, 2, 4, size]))
        return size if r < 0.6 else size + self.r.randrange(1, 9)

    def spoil(self, words, chance=0.05):
        """Perhaps with one word that is not canonical."""
        if words and self.r.random() < chance:
            words[self.r.randrange(len(words))] = self.r.choice(BAD)
        return words

    def size(self):
        """A number of variables: mostly small, now and then the largest."""
        r = self.r.random()
        return self.r.randrange(0, 5) if r < 0.9 else self.r.randrange(5, 8) if r < 0.985 else self.r.randrange(8, m.ROUNDS + 1)

    # --- sheets and proofs

    def rows(self, n, kind=None):
        """2^n rows as (p, q) pairs."""
        kind = kind or self.r.choice(["pairs", "pairs", "last", "random", "degenerate", "small"])
        count = 1 << n
        if kind == "small":
            rows = [(m.const(self.r.randrange(10)), m.const(self.r.randrange(1, 10))) for _ in range(count)]
        else:
            rows = [(self.element(), self.unit() if kind in ("pairs", "last") else self.element()) for _ in range(count)]
        if kind == "pairs" and n:
            rows = [half for p, q in rows[:count // 2] for half in ((p, q), (m.sub(m.ZERO, p), q))]
            self.r.shuffle(rows)
        if kind in ("last", "small") and n:
            rows[-1] = self.closing(rows[:-1])
        if kind == "degenerate":
            for _ in range(self.r.randrange(1, 4)):
                i = self.r.randrange(count)
                rows[i] = self.r.choice([(m.ZERO, m.ZERO), (self.element(), m.ZERO), (m.ZERO, m.ONE), (m.ZERO, self.element())])
        return rows

    @staticmethod
    def closing(rows):
        """The row that brings the sum to zero."""
        s = (m.ZERO, m.ONE)
        for row in rows:
            s = m.fraction_sum(s, row)
        return m.sub(m.ZERO, s[0]), s[1]

    def challenges(self, n):
        return self.list(m.challenge_words(n) // 4)

    def prove(self):
        n = self.size()
        rows = [w for p, q in self.rows(n) for w in (*p, *q)]
        if self.r.random() < 0.08:
            rows = self.words(self.r.choice([8 * self.r.randrange(0, 40), self.r.randrange(0, 100)]))
        if self.r.random() < 0.003:
            rows = [1] * 8 * self.r.choice([m.ROWS + 1, 2 * m.ROWS, self.r.randrange(m.ROWS, 2 * m.ROWS)])
        modes, asserted = self.r.randrange(2), self.r.randrange(2)
        modes |= self.r.choice([0, m.DRAWN]) | self.r.choice([0, m.SIZED])
        count = len(rows) // 8
        n = count.bit_length() - 1 if m.power_of_two(count) and count <= m.ROWS else 0
        needed = self.spoil(self.challenges(n), 0.04)
        challenges = (needed + [self.r.choice(BAD + EDGE) for _ in range(self.r.randrange(0, 6))])[:self.near(len(needed) + 4, 0.05)]
        return 40, [modes, asserted, self.spoil(rows, 0.04), challenges, self.near(m.proof_bytes(n), 0.03),
                    self.near(4 * n, 0.03), self.near(m.log_words(n, asserted, modes & m.SIZED), 0.03),
                    self.near(m.work_words(n), 0.03), self.filler()]

    def honest(self, sizes, modes=0):
        """(n, proof, challenges) of an honest run for each n, by the Rust; the challenges are those that stand in its log."""
        made = [([w for p, q in self.rows(n, self.r.choice(["pairs", "last"])) for w in (*p, *q)], self.challenges(n)) for n in sizes]
        said = [ask.parts(s) for s in ask.replies([ask.prove_command(rows, modes, 1, c) for rows, c in made])]
        return [(n, ask.unhex(s["proof"]), sampled(ask.unwords(s["log"]))) for n, s in zip(sizes, said)]

    def verify(self, honest, modes=0):
        n, proof, challenges = honest
        proof, challenges, rounds = list(proof), list(challenges), n
        kind = self.r.randrange(21)
        if kind < 8:
            proof = self.damage(proof)
        elif kind < 12:
            proof = self.damage_bytes(proof)
        elif kind < 14:
            challenges[self.r.randrange(len(challenges))] = self.word()
        elif kind == 14:
            rounds = self.r.choice([0, 11, n - 1, n + 1, n + (1 << 32), (1 << 64) - 1])
        elif kind == 15:
            challenges = self.spoil(challenges, 1)
        elif kind == 16:
            challenges = challenges[:self.near(len(challenges), 0.5)]
        elif kind == 17:
            proof[0] = self.r.choice([0, 1, 2, 2, 3, 255])
        challenges += [self.r.choice(BAD + EDGE) for _ in range(self.r.choice([0, 0, 1, 4]))]
        size = rounds if rounds <= m.ROUNDS else 1
        rooms = [self.near(4 * size, 0.02), self.near(m.log_words(size, True, m.is_sized(proof)), 0.02), self.filler()]
        live = self.r.randrange(2)
        if live and self.r.random() < 0.1:
            proof[5:21] = [0] * len(proof[5:21])
        return 50, [rounds, live | modes, proof, challenges, *rooms]

    def damage(self, proof):
        """A proof that keeps the layout, with one to three things wrong."""
        (q0, layers, polys), version = m.read_proof(proof), proof[0]
        layers, polys = [list(l) for l in layers], [[list(s) for s in e] for e in polys]
        for _ in range(self.r.choice([1, 1, 1, 2, 3])):
            kind = self.r.randrange(11)
            entry = self.r.choice(polys) if polys else []
            if kind == 0:
                q0 = self.element()
            elif kind < 3 and layers:
                self.r.choice(layers)[self.r.randrange(4)] = self.element()
            elif kind < 5 and entry:
                self.r.choice(entry)[self.r.randrange(3)] = self.element()
            elif kind == 5 and entry:
                del entry[self.r.randrange(len(entry))]
            elif kind == 6 and polys:
                entry.insert(self.r.randrange(len(entry) + 1), [self.element() for _ in range(3)])
            elif kind == 7:
                self.change_count(layers, [self.element() for _ in range(4)])
            elif kind == 8:
                self.change_count(polys, [])
            elif kind == 9 and layers:
                layer = self.r.choice(layers)
                layer[:] = layer[2:] + layer[:2]
            elif layers:
                layer = self.r.choice(layers)
                word = list(layer[0])
                word[self.r.randrange(4)] = self.r.choice(BAD + EDGE)
                layer[0] = tuple(word)
        return m.write_proof(q0, layers, polys, version)

    def change_count(self, things, extra):
        if things and self.r.randrange(2):
            del things[self.r.randrange(len(things))]
        elif len(things) < 12:
            things.append(extra)

    def damage_bytes(self, proof):
        kind = self.r.randrange(7)
        if kind == 0:
            proof = proof[:self.r.randrange(len(proof))]
        elif kind == 1:
            proof = proof + [self.r.randrange(256) for _ in range(self.r.randrange(1, 4))]
        elif kind == 2:
            proof[self.r.randrange(len(proof))] = self.r.randrange(256)
        elif kind == 3:
            proof[self.r.randrange(min(6, len(proof)))] = self.r.randrange(256)
        elif kind == 4:
            proof = repaired(proof[:self.r.randrange(len(proof))])
        elif kind == 5:
            proof = repaired(proof + [self.r.randrange(256) for _ in range(self.r.randrange(1, 70))])
        else:
            at = self.r.randrange(5, len(proof))
            proof = repaired(proof[:at] + proof[at + self.r.choice([1, 4, 16, 48, 64]):])
        return proof

    def sheet(self):
        r = self.r.random()
        count = 1 << self.size() if r < 0.8 else self.r.randrange(0, 20) if r < 0.997 else self.r.randrange(m.ROWS, 2 * m.ROWS + 1)
        data = [1, *count.to_bytes(2, "big")] + [b for w in self.spoil(self.words(8 * count), 0.1) for b in m.word_bytes(w)]
        kind = self.r.randrange(10)
        if kind == 0:
            data = data[:self.r.randrange(len(data) + 1)]
        elif kind == 1:
            data += [self.r.randrange(256) for _ in range(self.r.choice([1, 4, 32]))]
        elif kind == 2:
            data[self.r.randrange(min(5, len(data)))] = self.r.randrange(256)
        return 60, [data, self.near(8 * count), self.filler()]

    def evaluate(self):
        r = self.r.random()
        n = self.size()
        rows = self.words(8 << n) if r < 0.9 else [] if r < 0.93 else self.words(8 * self.r.randrange(0, 20))
        if r > 0.997:
            rows = [1] * 8 * self.r.randrange(m.ROWS, 2 * m.ROWS + 1)
        point = self.list(n) if rows else self.list(self.r.randrange(0, 2))
        return 70, [self.cut(self.spoil(rows)), self.cut(self.spoil(point))]

    # --- helpers

    def field(self):
        code = self.r.choice([c for c, f in FORMS.items() if f[0] == "field"])
        return code, [self.any_element() if c == "e" else self.r.choice(self.any_element()) for c in FORMS[code][2]]

    def poly(self):
        code = self.r.choice([c for c, f in FORMS.items() if f[0] == "poly"])
        k = self.size()
        x, t = self.list(k), self.list(1 << k)
        if code < 23:
            return code, [self.any_element() for _ in FORMS[code][2]]
        if self.r.random() < 0.01:
            k = m.ROUNDS + 1
            x, t = self.list(k), [1] * 4 * self.r.choice([m.ROWS, m.ROWS + 1, 2 * m.ROWS])
        spoil, cut, e = self.spoil, self.cut, self.element()
        beside = tuple(spoil(list(e), 0.04))
        if code == 23:
            return code, [cut(spoil(x)), cut(spoil(self.list(k)))]
        if code in (24, 25):
            return code, [cut(spoil(t)), cut(spoil(x))]
        if code in (26, 27):
            return code, [cut(spoil(x)), self.near(len(t)), self.filler()]
        if code in (28, 29):
            few = self.list(self.r.randrange(0, 20)) if self.r.random() < 0.9 else t
            return code, [cut(spoil(few)), beside]
        if code == 30:
            return code, [cut(spoil(t)), beside, self.near(len(t) // 8 * 4), self.filler()]
        columns = [self.list(1 << k) for _ in range(5)] if k <= m.ROUNDS else [t] * 5
        return code, [beside] + [cut(spoil(c, 0.02), 0.02) for c in columns]

    def cut(self, words, chance=0.05):
        """Perhaps shorter or longer by a few words."""
        if self.r.random() >= chance:
            return words
        by = self.r.choice([-8, -4, -1, 1, 4, 8])
        return words[:by] if by < 0 else words + self.words(by)


def sampled(log):
    """The sampled words of a log."""
    return [w - m.SAMPLED for w in log if w >= m.SAMPLED]


def repaired(proof):
    """With the stored length that the bytes have."""
    if len(proof) < 5:
        return proof
    return proof[:1] + m.word_bytes(len(proof) - 5) + proof[5:]


def logged(make, case):
    """The replay of a verifier's case from the log that it leaves, in half of the cases with a word or two changed, dropped or added."""
    rounds, modes, proof, challenges, point, _, filler = case
    log = (list(m.outcome(50, [rounds, modes, proof, challenges, point, 1000, filler]).fronts) or [[], []])[1] if rounds <= 4 else []
    for _ in range(make.r.choice([0, 0, 1, 2])):
        at = make.r.randrange(len(log) + 1)
        log = make.r.choice([log[:at], log[:at] + [make.r.choice(BAD + EDGE)] + log[at:], log[:at] + [w ^ m.SAMPLED for w in log[at:at + 1]] + log[at + 1:],
                             log[:at] + [make.word() | make.r.choice([0, m.SAMPLED])] + log[at + 1:], log[:at] + log[at + 1:]])
    return 80, [rounds, modes, proof, log[:1000], point, filler]


def random_cases(kind, count, random):
    make = Make(random)
    if kind == "log":
        return [logged(make, a) for _, a in random_cases("verifier", count, random)]
    if kind == "verifier":
        sizes = [max(1, make.size()) for _ in range(max(1, count // 4))]
        honest = [(modes & m.DRAWN, run) for modes in (0, m.DRAWN, m.SIZED, m.DRAWN | m.SIZED) for run in make.honest(sizes, modes)]
        chosen = [random.choice(honest) for _ in range(count)]
        # One in ten is verified in the mode that it was not proved in.
        return [make.verify(run, modes ^ random.choice([m.DRAWN] + [0] * 9)) for modes, run in chosen]
    one = {"field": make.field, "poly": make.poly, "prover": make.prove, "sheet": make.sheet, "evaluation": make.evaluate}[kind]
    return [one() for _ in range(count)]


K2_PROOF = m.write_proof(m.const(4), [[m.const(1), m.const(2), m.const(-1), m.const(2)]], [])
