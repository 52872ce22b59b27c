"""Document 01 as a small program, written from the document and not from the Rust.

It decides what the Rust has no answer for: refusals added by the document, stored forms, live mode, and what every buffer
holds after every answer. It can also do the runs itself, by plain sums, so that its values can be held against the Rust's.
An outcome is (number, plain fields, element fields, what is written to the front of each buffer, what was used up: challenges
sampled and log words written, none before a run).
"""
from collections import namedtuple
from hashlib import shake_128

P = 2013265921
ROWS, ROUNDS = 1024, 10
SAMPLED = 1 << 31
LIVE, DRAWN, SIZED, EMPTY = 1, 4, 8, 16
ROW_WORDS, PROOF_WORDS, CHALLENGE_WORDS, POINT_WORDS = 1, 2, 3, 4
LABEL = b"frac-gkr/1"
HALF, SIXTH = 1006632961, 1677721601
ZERO, ONE = (0, 0, 0, 0), (1, 0, 0, 0)

UNUSED = (0, 0)

Outcome = namedtuple("Outcome", "no plain elements fronts used", defaults=((), (), (), UNUSED))

# --- arithmetic: c0 + c1 x + c2 x^2 + c3 x^3 with x^4 = 11; any words, by their remainders


def const(k):
    return (k % P, 0, 0, 0)


def add(a, b):
    return tuple((x + y) % P for x, y in zip(a, b))


def sub(a, b):
    return tuple((x - y) % P for x, y in zip(a, b))


def scale(a, k):
    return tuple(x * k % P for x in a)


def mul(a, b):
    a0, a1, a2, a3 = a
    b0, b1, b2, b3 = b
    return ((a0 * b0 + 11 * (a1 * b3 + a2 * b2 + a3 * b1)) % P, (a0 * b1 + a1 * b0 + 11 * (a2 * b3 + a3 * b2)) % P,
            (a0 * b2 + a1 * b1 + a2 * b0 + 11 * a3 * b3) % P, (a0 * b3 + a1 * b2 + a2 * b1 + a3 * b0) % P)


def total(elements):
    s = ZERO
    for e in elements:
        s = add(s, e)
    return s


def product(elements):
    r = ONE
    for e in elements:
        r = mul(r, e)
    return r


def elements(words):
    return [tuple(words[i:i + 4]) for i in range(0, len(words), 4)]


def flat(es):
    return [w for e in es for w in e]


# --- polynomials


def weight(z, i):
    """The product over bits k of z_k where bit k of i is 1 and 1 - z_k where it is 0."""
    return product(zk if i >> k & 1 else sub(ONE, zk) for k, zk in enumerate(z))


def weights(z):
    return [weight(z, i) for i in range(1 << len(z))]


def value(t, z):
    return total(mul(ti, weight(z, i)) for i, ti in enumerate(t))


def pairs(t):
    """Entries 2y and 2y+1: the first challenge binds the lowest bit of the index."""
    return [(t[2 * y], t[2 * y + 1]) for y in range(len(t) // 2)]


def line(t0, t1, x):
    return add(t0, mul(x, sub(t1, t0)))


def fold(t, r):
    return [line(t0, t1, r) for t0, t1 in pairs(t)] if len(t) > 1 else list(t)


def summand(eq, p0, q0, p1, q1, lam):
    return mul(eq, add(add(mul(p0, q1), mul(p1, q0)), mul(lam, mul(q0, q1))))


def round_sums(lam, columns):
    """s(1), s(2), s(3) over eq, p0, q0, p1, q1; columns of one entry give a constant."""
    if len(columns[0]) == 1:
        return [summand(*(c[0] for c in columns), lam)] * 3
    rows = list(zip(*(pairs(c) for c in columns)))
    return [total(summand(*(line(t0, t1, const(x)) for t0, t1 in row), lam) for row in rows) for x in (1, 2, 3)]


def interpolate(values, x):
    """Lagrange's form through 0, 1, .. of two, three or four values; only 2 and 6 need inverses."""
    inverse = {1: 1, -1: -1, 2: HALF, -2: -HALF, 6: SIXTH, -6: -SIXTH}
    result = ZERO
    for i, v in enumerate(values):
        others = [j for j in range(len(values)) if j != i]
        down = 1
        for j in others:
            down *= i - j
        result = add(result, scale(mul(v, product(sub(x, const(j)) for j in others)), inverse[down]))
    return result


def eval_in_place(t, z):
    """The value, and the table that eval_mle_evals_at_point leaves: the last variable first, each time into the lower half."""
    t = list(t)
    for k in reversed(range(len(z))):
        for i in range(1 << k):
            t[i] = line(t[i], t[i + (1 << k)], z[k])
    return t[0], t


# --- the fraction tree and the run


def fraction_sum(a, b):
    return add(mul(a[0], b[1]), mul(a[1], b[0])), mul(a[1], b[1])


def fraction_tree(rows):
    nodes = [None] * len(rows) + list(rows)
    for k in reversed(range(1, len(rows))):
        nodes[k] = fraction_sum(nodes[2 * k], nodes[2 * k + 1])
    return nodes


def drawn(used, log):
    """The first 8 output bytes, big-endian, modulo the prime, of SHAKE128 over the label and all log words so far."""
    hashed = shake_128(LABEL + b"".join(w.to_bytes(4, "big") for w in log))
    return int.from_bytes(hashed.digest(8), "big") % P


def source(modes, challenges):
    """The next sampled word, by the number of those before it and by the log."""
    return drawn if modes & DRAWN else lambda used, log: challenges[used]


class Transcript:
    def __init__(self, source):
        self.source, self.used, self.challenges, self.log = source, 0, 0, []

    def observe(self, *es):
        self.log += flat(es)

    def sample_word(self):
        w = self.source(self.used, self.log)
        self.used += 1
        self.log.append(w | SAMPLED)
        return w

    def sample(self):
        self.challenges += 1
        return tuple(self.sample_word() for _ in range(4))


def used_up(ts):
    return ts.challenges, len(ts.log)


def observe_size(ts, n):
    """The element n, before anything else, of a proof that binds its size."""
    ts.observe(const(n))


def observe_root(ts, p, q, asserted):
    ts.observe(*([q] if asserted else [p, q]))


def new_point(mu, rhos):
    return [mu] + rhos


def version(modes):
    """Of a new proof: 2 where it binds its size."""
    return 2 if modes & SIZED else 1


def fractional_sumcheck(rows, asserted, source, modes=0):
    """Outcome 0 or 8 for 2^n rows, n >= 1, or none; fronts: proof, point, log, workspace. Of the modes the version is taken."""
    if not rows:
        return Outcome(0, [0], [ZERO, ONE], [write_proof(ONE, [], [], version(modes)), [], [], []])
    n = len(rows).bit_length() - 1
    wiped = [0] * work_words(n)
    tree = fraction_tree(rows)
    p, q = tree[1]
    if asserted and p != ZERO:
        return Outcome(8, fronts=[[], [], [], wiped])
    ts = Transcript(source)
    if modes & SIZED:
        observe_size(ts, n)
    observe_root(ts, p, q, asserted)
    layers, polys, point = [], [], []
    for r in range(n):
        level = tree[2 << r:4 << r]
        columns = [[level[2 * y + side][part] for y in range(1 << r)] for side in (0, 1) for part in (0, 1)]
        columns, rhos, entry = [weights(point)] + columns, [], []
        if r > 0:
            lam = ts.sample()
        for _ in range(r):
            s = round_sums(lam, columns)
            ts.observe(*s)
            rho = ts.sample()
            columns = [fold(c, rho) for c in columns]
            entry.append(s)
            rhos.append(rho)
        claims = [c[0] for c in columns[1:]]
        ts.observe(*claims)
        point = new_point(ts.sample(), rhos)
        layers.append(claims)
        if r > 0:
            polys.append(entry)
    return Outcome(0, [n], [p, q], [write_proof(q, layers, polys, version(modes)), flat(point), ts.log, wiped], used_up(ts))


def cross(claims):
    p0, q0, p1, q1 = claims
    return fraction_sum((p0, q0), (p1, q1))


def root_checks(q0, p, q):
    if p != ZERO:
        return Outcome(16, elements=[p])
    if q != q0:
        return Outcome(17, elements=[q0, q])
    return None


def verify_gkr(proof, n, source, sized=False):
    """Outcome 0 or 14 to 19; fronts: point, log. The size is bound by a proof of version 2."""
    if n == 0:
        return Outcome(0, [], [ZERO, ONE], [[], []])
    q0, layers, polys = proof
    if len(layers) != n:
        return Outcome(14, [n, len(layers)])
    if len(polys) != n - 1:
        return Outcome(15, [n - 1, len(polys)])
    ts = Transcript(source)
    if sized:
        observe_size(ts, n)
    ts.observe(q0, *layers[0])
    failed = root_checks(q0, *cross(layers[0]))
    point, claims = [], layers[0]
    for r in range(n):
        rhos = []
        if r > 0:
            failed, claims = verify_layer(ts, r, layers[r], polys[r - 1], numer, denom, point, rhos), layers[r]
        if failed:
            return failed._replace(fronts=[[], ts.log], used=used_up(ts))
        mu = ts.sample()
        p0, c0, p1, c1 = claims
        numer, denom = line(p0, p1, mu), line(c0, c1, mu)
        point = new_point(mu, rhos)
    return Outcome(0, [], [numer, denom], [flat(point), ts.log], used_up(ts))


def verify_layer(ts, r, claims, entry, numer, denom, point, rhos):
    lam = ts.sample()
    claim = add(numer, mul(lam, denom))
    if len(entry) != r:
        return Outcome(18, [r, r, len(entry)])
    for s in entry:
        ts.observe(*s)
        rhos.append(ts.sample())
        claim = interpolate([sub(claim, s[0]), *s], rhos[-1])
    ts.observe(*claims)
    p, q = cross(claims)
    expected = mul(add(p, mul(lam, q)), eq_value(point, rhos))
    return Outcome(19, [r], [expected, claim]) if expected != claim else None


def eq_value(x, y):
    """The weights of x, as a table, at y: the product of x y + (1 - x)(1 - y)."""
    return product(add(mul(a, b), mul(sub(ONE, a), sub(ONE, b))) for a, b in zip(x, y))


# --- replay from a log


def plain_word(w):
    """A sampled word without its bit; 0 for one that is not canonical."""
    return w - SAMPLED if w - SAMPLED < P else 0


def log_challenges(log):
    """The log's challenges: its sampled words in their order, filled up with zeros."""
    words = [plain_word(w) for w in log if w >= SAMPLED]
    return (words + [0] * challenge_words(ROUNDS))[:challenge_words(ROUNDS)]


def log_gap(given, left):
    """24, 25 or 26 with the first place where the log given is not the log left, or None."""
    differ = [i for i, (g, w) in enumerate(zip(given, left)) if g != w]
    if differ:
        return Outcome(24, differ[:1])
    if len(given) == len(left):
        return None
    return Outcome(25 if len(given) < len(left) else 26, [min(len(given), len(left))])


def replayed(o, log):
    """What a replay answers where the plain verifier on the log's challenges answers so; fronts: point. The log is looked at after a run, and after 0 rounds."""
    gap = log_gap(log, o.fronts[1]) if o.no in (0, 16, 17, 18, 19) else None
    return gap or o._replace(fronts=o.fronts[:1])


def evaluate(words, point):
    """The values of both columns, p and q by turns; without rows those of the empty sum."""
    p, q = words[::2], words[1::2]
    return Outcome(0, [len(point)], [value(p, point), value(q, point)] if p else [ZERO, ONE])


# --- stored forms


def word_bytes(w):
    return list(w.to_bytes(4, "big"))


def write_proof(q0, layers, polys, version=1):
    out = flat_bytes([q0]) + [len(layers)] + [b for l in layers for b in flat_bytes(l)] + [len(polys)]
    for entry in polys:
        out += [len(entry)] + [b for s in entry for b in flat_bytes(s)]
    return [version] + word_bytes(len(out)) + out


def flat_bytes(es):
    return [b for w in flat(es) for b in word_bytes(w)]


def known(data):
    """Whether the first byte is a version."""
    return bytes(data[:1]) in (b"\1", b"\2")


def is_sized(data):
    return bytes(data[:1]) == b"\2"


def read_proof(data):
    """12, 13, or (q0, layers, polys) with words of any size, of either version."""
    data = bytes(data)
    if not known(data):
        return 12
    if len(data) < 5 or int.from_bytes(data[1:5], "big") != len(data) - 5:
        return 13
    at = 5

    def take(n):
        nonlocal at
        if at + n > len(data):
            raise EOFError
        at += n
        return data[at - n:at]

    def some(n):
        b = take(16 * n)
        return elements([int.from_bytes(b[i:i + 4], "big") for i in range(0, 16 * n, 4)])

    try:
        q0 = some(1)[0]
        layers = [some(4) for _ in range(take(1)[0])]
        polys = [[some(3) for _ in range(take(1)[0])] for _ in range(take(1)[0])]
    except EOFError:
        return 13
    return (q0, layers, polys) if at == len(data) else 13


# --- sizes


def challenge_words(n):
    return 4 * (2 * n - 1 + n * (n - 1) // 2) if n else 0


def needed(modes, n):
    """The challenge words that a call looks at: none where it draws them."""
    return 0 if modes & DRAWN else challenge_words(n)


def log_words(n, asserted=True, sized=False):
    return 8 * n * n + 16 * n + (4 * (not asserted) + 4 * bool(sized) if n else 0)


def proof_bytes(n):
    return 22 + 65 * n + 24 * n * (n - 1) if n else 23


def work_words(n):
    return 32 << n if n else 0


# --- refusals before the run: None lets it run


def power_of_two(k):
    return k > 0 and k & (k - 1) == 0


def bad(*lists):
    return any(w >= P for l in lists for w in l)


def bad_word(*lists):
    """6 with the place of the first bad word, counted from 0, and the number of its list; the lists in the order given."""
    return next((Outcome(6, [i, number]) for number, words in lists for i, w in enumerate(words) if bad([w])), None)


def first(*tests):
    """The number of the first test that holds."""
    return next((no for no, test in tests if test()), None)


def row_tests(rows):
    count = len(rows) // 8
    return [(1, lambda: len(rows) % 8 != 0), (2, lambda: count > ROWS), (3, lambda: count and not power_of_two(count))]


def rounds(count):
    return count.bit_length() - 1 if count else 0


def prove_refusal(modes, asserted, rows, challenges, proof, point, log, work):
    count = len(rows) // 8
    n = rounds(count)
    fractions = elements(rows)
    no = first(*row_tests(rows),
               (4, lambda: len(challenges) < needed(modes, n)),
               (5, lambda: proof < proof_bytes(n) or point < 4 * n or log < log_words(n, asserted, modes & SIZED)
                or work < work_words(n)))
    if no:
        return Outcome(no)
    six = bad_word((ROW_WORDS, rows), (CHALLENGE_WORDS, challenges[:needed(modes, n)]))
    if six:
        return six
    over_zero = [i for i in range(count) if fractions[2 * i + 1] == ZERO]
    if modes & LIVE and over_zero:
        return Outcome(7, [over_zero[0]])
    if count == 1:
        return Outcome(8 if asserted and fractions[0] != ZERO else 9)
    return None


def verify_refusal(n, modes, proof, challenges, point, log):
    no = first((10, lambda: n == 0 and not modes & EMPTY), (11, lambda: n > ROUNDS), (4, lambda: len(challenges) < needed(modes, n)),
               (12, lambda: not known(proof)), (5, lambda: point < 4 * n or log < log_words(n, True, is_sized(proof))))
    if no:
        return Outcome(no)
    read = read_proof(proof)
    if isinstance(read, int):
        return Outcome(read)
    q0, layers, polys = read
    words = [w for es in [[q0], *layers, *(s for entry in polys for s in entry)] for e in es for w in e]
    six = bad_word((PROOF_WORDS, words), (CHALLENGE_WORDS, challenges[:needed(modes, n)]))
    if six:
        return six
    if n == 0:
        return empty_refusal(q0, layers, polys)
    counted = len(layers) == n and len(polys) == n - 1
    return Outcome(27) if modes & LIVE and counted and q0 == ZERO else None


def replay_refusal(n, modes, proof, log, point):
    """The verifier's own, with challenges and a log room that are always long enough."""
    return verify_refusal(n, modes, proof, log_challenges(log), point, log_words(ROUNDS, True, True))


def empty_refusal(q0, layers, polys):
    """0 rounds, where they are valid."""
    if layers:
        return Outcome(14, [0, len(layers)])
    if polys:
        return Outcome(15, [0, len(polys)])
    return Outcome(22, elements=[q0]) if q0 != ONE else None


def read_sheet(data, room):
    data = bytes(data)
    count = int.from_bytes(data[1:3], "big")
    words = [int.from_bytes(data[i:i + 4], "big") for i in range(3, len(data), 4)]
    no = first((12, lambda: data[:1] != b"\1"), (13, lambda: len(data) < 3 or len(data) != 3 + 32 * count),
               (2, lambda: count > ROWS), (3, lambda: count and not power_of_two(count)),
               (5, lambda: room < 8 * count))
    return Outcome(no) if no else bad_word((ROW_WORDS, words)) or Outcome(0, [count], [], [words])


def evaluate_refusal(rows, point):
    no = first(*row_tests(rows), (13, lambda: len(point) != 4 * rounds(len(rows) // 8)))
    return Outcome(no) if no else bad_word((ROW_WORDS, rows), (POINT_WORDS, point))


def split(*lists):
    return any(len(l) % 4 for l in lists)


def table_refusal(table, z):
    return first((13, lambda: split(table, z)), (11, lambda: len(z) > 4 * ROUNDS), (13, lambda: len(table) != 4 << len(z) // 4),
                 (6, lambda: bad(table, z)))


def helper_refusal(code, a):
    """Of the list helpers, by their command codes and arguments (forms.py)."""
    if code == 23:
        x, y = a
        return first((13, lambda: split(x, y) or len(x) != len(y)), (11, lambda: len(x) > 4 * ROUNDS), (6, lambda: bad(x, y)))
    if code in (24, 25):
        return table_refusal(*a)
    if code in (26, 27):
        x, room, _ = a
        return first((13, lambda: split(x)), (11, lambda: len(x) > 4 * ROUNDS), (5, lambda: room < 4 << len(x) // 4),
                     (6, lambda: bad(x)))
    if code in (28, 29):
        c, x = a
        width = 4 if code == 28 else 1
        return first((13, lambda: len(c) % width), (2, lambda: len(c) > width * ROWS), (6, lambda: bad(c, x)))
    if code == 30:
        source, r, room, _ = a
        return first((13, lambda: split(source)), (2, lambda: len(source) > 4 * ROWS),
                     (3, lambda: not power_of_two(len(source) // 4)), (5, lambda: room < len(source) // 8 * 4),
                     (6, lambda: bad(source, r)))
    if code == 31:
        lam, *columns = a
        count = len(columns[0]) // 4
        return first((13, lambda: split(*columns) or any(len(c) != len(columns[0]) for c in columns)),
                     (2, lambda: count > ROWS), (3, lambda: not power_of_two(count)), (6, lambda: bad(lam, *columns)))
    return None


def refusal(code, a):
    """The outcome of a case that does not come to a run, or None."""
    if code == 40:
        return prove_refusal(*a[:8])
    if code == 50:
        return verify_refusal(*a[:6])
    if code == 60:
        return read_sheet(*a[:2])
    if code == 70:
        return evaluate_refusal(*a)
    if code == 80:
        return replay_refusal(*a[:5])
    no = helper_refusal(code, a)
    return Outcome(no) if no else None


# --- the runs, and the single-element operations


def base(f):
    return lambda *a: f(*((w, 0, 0, 0) for w in a))[:1]


SINGLE = {1: add, 2: sub, 3: lambda a: sub(ZERO, a), 4: lambda a: add(a, a), 5: lambda a, b: mul(a, b), 6: lambda a: mul(a, a),
          7: lambda a: scale(a, HALF), 8: lambda a, b: scale(a, b)}
SINGLE.update({11: base(add), 12: base(sub), 13: base(SINGLE[3]), 14: base(SINGLE[4]), 15: base(SINGLE[5]), 16: base(SINGLE[6]),
               17: base(SINGLE[7])})


def run(code, a):
    """The outcome of a case that is not refused, by this model alone."""
    if code in SINGLE:
        return Outcome(0, [], [SINGLE[code](*a)])
    if code in (20, 21, 22):
        return Outcome(0, [], [interpolate(a[:-1], a[-1])])
    if code == 23:
        return Outcome(0, [], [eq_value(elements(a[0]), elements(a[1]))])
    if code in (24, 25):
        t, z = elements(a[0]), elements(a[1])
        v, left = eval_in_place(t, z)
        assert v == value(t, z)
        return Outcome(0, [], [v], [flat(left)])
    if code in (26, 27):
        return Outcome(0, fronts=[flat(weights(elements(a[0])))])
    if code in (28, 29):
        coefficients = elements(a[0]) if code == 28 else [const(w) for w in a[0]]
        powers = [ONE]
        for _ in coefficients:
            powers.append(mul(powers[-1], a[1]))
        return Outcome(0, [], [total(mul(c, p) for c, p in zip(coefficients, powers))])
    if code == 30:
        return Outcome(0, fronts=[flat(fold(elements(a[0]), a[1]))])
    if code == 31:
        return Outcome(0, [], round_sums(a[0], [elements(c) for c in a[1:]]))
    if code == 40:
        rows = elements(a[2])
        return fractional_sumcheck(list(zip(rows[::2], rows[1::2])), a[1], source(a[0], a[3]), a[0])
    if code == 50:
        return verify_gkr(read_proof(a[2]), a[0], source(a[1], a[3]), is_sized(a[2]))
    if code == 80:
        return replayed(verify_gkr(read_proof(a[2]), a[0], source(a[1], log_challenges(a[3])), is_sized(a[2])), a[3])
    if code == 70:
        return evaluate(elements(a[0]), elements(a[1]))
    raise ValueError(code)


def outcome(code, a):
    refused = refusal(code, a)
    return refused if refused is not None else run(code, a)
