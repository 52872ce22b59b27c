"""The recorded cases of replays from a log (document 02, W13): the verdict is the Rust's verifier's on the log's challenges, the log must be the one that it leaves."""
import itertools

import model as m
from cases import replay_case, small
from generate import K2_PROOF, P, TOP, repaired
from sized import FIVE, NONE, as_version

MODES = {name: modes for modes, name in ((0, ""), (m.LIVE, ", live"), (m.DRAWN, ", drawn"), (m.LIVE | m.DRAWN, ", live, drawn"))}
ANY = [[], [TOP]]


def left(n, proof, challenges, modes=0):
    """The log that the plain verifier leaves."""
    o = m.outcome(50, [n, modes, proof, challenges, 40, 964, 0])
    return list(o.fronts[1]) if o.fronts else []


def log(make):
    """Honest runs of n = 1, 2, 3 of both versions, supplied and drawn; then everything that can be wrong with a log."""
    def case(label, n, proof, words, modes=0, **named):
        return (label, *replay_case(n, proof, list(words), modes=modes, **named))
    runs = {}
    for drawn, version in itertools.product((0, m.DRAWN), (1, 2)):
        for n, proof, c in make.honest([1, 2, 3], drawn | m.SIZED * (version == 2)):
            runs[n, version, drawn] = proof, c, left(n, proof, c, drawn)
    yield from honest(case, runs)
    yield from rejected(case, make, runs)
    yield from changed(case, runs)
    yield from lengths(case, runs)
    yield from other_words(case, runs)
    yield from before(case, runs)
    yield from none(case)
    (n, proof, c), = make.honest([10], m.SIZED)
    yield case("ten rounds, version 2, live", 10, proof, left(10, proof, c), m.LIVE, by=3)
    yield case("ten rounds, version 2, a word more: 26", 10, proof, left(10, proof, c) + [0])


def named(n, version, drawn):
    return f"n = {n}, version {version}{', drawn' if drawn else ''}"


def honest(case, runs):
    for (n, version, drawn), (proof, c, words) in runs.items():
        for live in (0, m.LIVE) if n < 3 else (m.LIVE,):
            yield case(f"its own log, {named(n, version, drawn)}{', live' if live else ''}", n, proof, words, live | drawn, by=n % 3, filler=TOP - n)
        if n == 1:
            yield case(f"its own log, {named(n, version, drawn)}, 0 rounds valid", n, proof, words, drawn | m.EMPTY)
        if not drawn:
            # sampled words that are canonical and not drawn
            yield case(f"its own log, which was not drawn, replayed as drawn, {named(n, version, 0)}: 24", n, proof, words, m.DRAWN)
        else:
            yield case(f"the log of a drawn run replayed as supplied, {named(n, version, drawn)}: accepted", n, proof, words)
    for n, drawn in itertools.product((1, 2), (0, m.DRAWN)):
        for version in (1, 2):
            proof, c, words = runs[n, version, drawn]
            yield case(f"the same proof as the other version, {named(n, version, drawn)}: 24", n, as_version(3 - version, proof), words, drawn)


def rejected(case, make, runs):
    """Logs of rejected proofs, by 16 to 19: exactly their words; one less; one more; those of the accepted proof."""
    def bent(n, version, drawn, no, change):
        proof, c, accepted = runs[n, version, drawn]
        q0, layers, polys = m.read_proof(proof)
        parts = [q0], [list(l) for l in layers], [[list(s) for s in e] for e in polys]
        change(*parts)
        wrong = m.write_proof(parts[0][0], *parts[1:], version)
        words, what = left(n, wrong, c, drawn), f"{named(n, version, drawn)}, a proof rejected by {no}"
        yield case(f"{what}: its own log", n, wrong, words, drawn, by=1, filler=8)
        yield case(f"{what}: a word less, 25", n, wrong, words[:-1], drawn)
        yield case(f"{what}: a word more, 26", n, wrong, words + [m.SAMPLED], drawn)
        yield case(f"{what}: the log of the accepted proof", n, wrong, accepted, drawn)
        yield case(f"{what}: no log, 25", n, wrong, [], drawn)
    for version, drawn in itertools.product((1, 2), (0, m.DRAWN)):
        yield from bent(1, version, drawn, 16, lambda q, l, p: l[0].__setitem__(0, make.unit()))
        yield from bent(1, version, drawn, 17, lambda q, l, p: q.__setitem__(0, make.unit()))
        yield from bent(2, version, drawn, 18, lambda q, l, p: p[0].clear())
        yield from bent(2, version, drawn, 19, lambda q, l, p: l[1].__setitem__(2, make.unit()))
    yield from bent(3, 2, m.DRAWN, 18, lambda q, l, p: p[1].pop())
    yield from bent(3, 1, 0, 19, lambda q, l, p: p[1][1].__setitem__(2, make.unit()))


def changed(case, runs):
    """One word changed at each place: by 1, by the sampled bit, into one that is not canonical."""
    for n, version, drawn in ((1, 1, 0), (1, 2, m.DRAWN), (2, 1, m.DRAWN), (2, 2, 0)):
        proof, c, words = runs[n, version, drawn]
        for i, w in enumerate(words):
            sampled = w & m.SAMPLED
            ways = [("another", (w % m.SAMPLED + 1) % P | sampled), ("without its bit" if sampled else "with the bit", w ^ m.SAMPLED),
                    ("the prime above it", w % m.SAMPLED + P if w % m.SAMPLED + P < m.SAMPLED else P | sampled)]
            for what, other in ways if n == 1 else ways[i % 4 % 3:][:1]:
                yield case(f"word {i} is {what}, {named(n, version, drawn)}", n, proof, words[:i] + [other] + words[i + 1:], drawn, by=i % 2)
    # the first of two is told
    proof, c, words = runs[1, 1, 0]
    for a, b in ((0, 1), (0, 23), (3, 4), (19, 20), (20, 22), (22, 23)):
        yield case(f"words {a} and {b} are changed: 24, {min(a, b)}", 1, proof, [w ^ m.SAMPLED if i in (a, b) else w for i, w in enumerate(words)])
    for k in (1, P - 1, P, P + 1, m.SAMPLED - 1):
        yield case(f"the last word is {k} with the bit", 1, proof, words[:-1] + [m.SAMPLED + k])


def lengths(case, runs):
    for (n, version, drawn), (proof, c, words) in runs.items():
        what = named(n, version, drawn)
        cuts = (1, 4, len(words) // 2, len(words)) if n < 3 else (1,)
        for k in cuts:
            yield case(f"{k} words less, {what}: 25", n, proof, words[:-k], drawn)
        for more in ([0], [m.SAMPLED, 1]) if n < 3 else ([P],):
            yield case(f"{len(more)} words more, {what}: 26", n, proof, words + more, drawn)
        if n == 1:
            yield case(f"a word more and the first changed, {what}: 24", n, proof, [words[0] ^ 1] + words[1:] + [0], drawn)
            yield case(f"a word less and the first changed, {what}: 24", n, proof, [words[0] ^ 1] + words[1:-1], drawn)
            yield case(f"the first word dropped, {what}", n, proof, words[1:], drawn)
            yield case(f"the log twice, {what}: 26", n, proof, words * 2, drawn)
    proof, c, words = runs[1, 1, 0]
    yield case("976 words more: 26", 1, proof, words + [m.SAMPLED] * 976)


def other_words(case, runs):
    """A sampled bit among the observed words puts all challenges after it off: the first word that is told stands at or before it."""
    proof, c, words = runs[2, 1, 0]
    for i in (0, 19, 24, 28, 40):
        yield case(f"a sampled word put in before word {i}, n = 2", 2, proof, words[:i] + [m.SAMPLED + 5] + words[i:])
    for i in (20, 24, 63):
        yield case(f"the sampled word {i} dropped, n = 2", 2, proof, words[:i] + words[i + 1:])
    yield case("two sampled words exchanged, n = 2", 2, proof, words[:20] + [words[21], words[20]] + words[22:])
    swapped = runs[1, 1, 0][0], runs[1, 2, 0][0]
    yield case("another challenge, n = 1: the log of another run, accepted", 1, swapped[0], left(1, swapped[0], FIVE))
    yield case("another challenge, version 2, n = 1: the log of another run, accepted", 1, swapped[1], left(1, swapped[1], FIVE))
    yield case("other challenges, n = 2: the log of another run, 19", 2, proof, left(2, proof, small(16)))
    yield case("all challenges 0, n = 2", 2, proof, left(2, proof, [0] * 16))
    yield case("a drawn run, one drawn word changed in the log: 24", 2, runs[2, 1, m.DRAWN][0], left(2, runs[2, 1, m.DRAWN][0], small(16)), m.DRAWN)


def before(case, runs):
    """Refusals before the run come first, whatever the log is; 4 is not among them, and 5 is the point's."""
    for words in ANY + [runs[1, 1, 0][2]]:
        what = f"a log of {len(words)} words"
        yield case(f"0 rounds: 10, {what}", 0, K2_PROOF, words)
        yield case(f"11 rounds: 11, {what}", 11, K2_PROOF, words)
        yield case(f"version 3, a short point: 12, {what}", 1, as_version(3, K2_PROOF), words, by=-1)
        yield case(f"a short point: 5, {what}", 1, runs[1, 1, 0][0], words, by=-1)
        yield case(f"no point: 5, {what}", 2, runs[2, 2, 0][0], words, by=-8)
        yield case(f"a byte more: 13, {what}", 1, K2_PROOF + [0], words)
        yield case(f"cut short, length repaired: 13, {what}", 1, repaired(K2_PROOF[:-1]), words)
        yield case(f"a proof word is the prime: 6, {what}", 1, K2_PROOF[:5] + m.word_bytes(P) + K2_PROOF[9:], words)
        yield case(f"a proof of one round given as 2: 14, {what}", 2, K2_PROOF, words)
        yield case(f"an entry too many: 15, {what}", 1, m.write_proof(m.const(4), [[m.ONE] * 4], [[]]), words)
        yield case(f"0/0, live: 27, {what}", 1, m.write_proof(m.ZERO, [[m.ZERO] * 4], []), words, m.LIVE)
        yield case(f"a short point, drawn: 5, {what}", 1, K2_PROOF, words, m.DRAWN, by=-4)
    yield case("0/0, sandbox: accepted", 1, m.write_proof(m.ZERO, [[m.ZERO] * 4], []), [0] * 20 + [m.SAMPLED + 5] + [m.SAMPLED] * 3)


def none(case):
    """0 rounds where they are valid: nothing is logged."""
    for name, modes in MODES.items():
        for version in (1, 2):
            proof = as_version(version, NONE)
            yield case(f"no rounds, no log, version {version}{name}", 0, proof, [], m.EMPTY | modes, by=2)
            yield case(f"no rounds, a log: 26, version {version}{name}", 0, proof, [m.SAMPLED], m.EMPTY | modes)
        yield case(f"no rounds, q0 is zero: 22{name}", 0, m.write_proof(m.ZERO, [], []), [1], m.EMPTY | modes)
        yield case(f"no rounds, a layer: 14{name}", 0, K2_PROOF, [1], m.EMPTY | modes)
        yield case(f"no rounds, an entry: 15{name}", 0, m.write_proof(m.ONE, [], [[]]), [1], m.EMPTY | modes)
        yield case(f"no rounds, the old mode: 10{name}", 0, NONE, [], modes)
