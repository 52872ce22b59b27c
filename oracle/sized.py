"""The recorded cases of proofs that bind their size, version 2 (document 02, W9). `record` puts them after all others."""
import itertools

import model as m
from cases import prove_case, small, verify_case, words_of
from drawn import MODES
from generate import K2_PROOF, P, TOP

NONE = m.write_proof(m.ONE, [], [])
FIVE = [5, 0, 0, 0]


def as_version(version, proof):
    return [version] + proof[1:]


def prover(make):
    def case(label, rows, challenges=(), modes=0, asserted=1, **named):
        return (f"sized, {label}", *prove_case(rows, list(challenges), modes | m.SIZED, asserted, **named))

    def rows(*fractions):
        return words_of((m.const(p), m.const(q)) for p, q in fractions)
    k2, k6 = rows((1, 2), (-1, 2)), rows((1, 1), (1, 1))
    for drawn, ((live, asserted), name) in itertools.product((0, m.DRAWN), MODES.items()):
        way = "drawn" if drawn else "supplied"
        yield case(f"no rows, {way}, {name}", [], [], live | drawn, asserted)
        if asserted or live:
            yield case(f"K2, {way}, {name}", k2, FIVE, live | drawn, asserted)
    for drawn in (0, m.DRAWN):
        n, way = 2 + drawn // 4, "drawn" if drawn else "supplied"
        yield case(f"honest, n = {n}, {way}, rooms longer", words_of(make.rows(n, "pairs")), make.challenges(n), drawn, 1, by=(2, 1, 3, 1), filler=TOP)
        yield case(f"not zero, n = {n}, {way}, not asserted", words_of(make.rows(n, "random")), make.challenges(n), drawn, 0)
    yield case("K6, asserted: 8", k6, FIVE)
    yield case("K6, not asserted, drawn", k6, [], m.DRAWN, 0)
    # the room of version 1 is four words short; the other rooms are the same
    for asserted in (1, 0):
        for by in ((0, 0, -4, 0), (0, 0, -1, 0), (-1, 0, 0, 0), (0, -1, 0, 0), (0, 0, 0, -1)):
            yield case(f"rooms {by} from exact: 5, {'asserted' if asserted else 'not asserted'}", k2, FIVE, 0, asserted, by=by)
    yield case("no rows, a proof room of 22: 5", [], [], 0, 1, by=(-1, 0, 0, 0))
    yield case("one row 0/1: 9", rows((0, 1)))
    yield case("a row over zero, live: 7", rows((1, 0), (0, 1)), FIVE, m.LIVE)
    yield case("few challenges, and the room of version 1: 4", k2, FIVE[:3], by=(0, 0, -4, 0))
    yield case("a bad row word, and the room of version 1: 5", [P] * 16, FIVE, by=(0, 0, -4, 0))


def verifier(make):
    def case(label, n, proof, challenges=(), modes=0, **named):
        return (label, *verify_case(n, proof, list(challenges), modes=modes, **named))
    supplied = {n: (proof, c) for n, proof, c in make.honest([1, 2, 3], m.SIZED)}
    drawn = {n: (proof, c) for n, proof, c in make.honest([1, 2, 3, 4], m.DRAWN | m.SIZED)}
    first = {n: proof for n, proof, _ in make.honest([1, 2, 3], m.DRAWN)}
    for n, (proof, c) in supplied.items():
        yield case(f"sized, honest, n = {n}", n, proof, c, n & 1, filler=TOP - n)
        yield case(f"the same proof as version 1, n = {n}", n, as_version(1, proof), c, n & 1, by=(1, 4))
    for n, (proof, c) in drawn.items():
        yield case(f"sized, drawn, honest, n = {n}", n, proof, [], m.DRAWN | ~n & 1, filler=TOP - n)
    # where challenges are drawn the version is in every one of them
    for n in (1, 2):
        told = "accepted" if n == 1 else 19
        yield case(f"a drawn proof of version 2 as version 1, n = {n}: {told}", n, as_version(1, drawn[n][0]), [], m.DRAWN)
        yield case(f"a drawn proof of version 1 as version 2, n = {n}: {told}", n, as_version(2, first[n]), [], m.DRAWN)
    yield case("sized, drawn, its challenges supplied, n = 2: accepted", 2, *drawn[2])
    yield from versions(case)
    yield from damaged(case, make, supplied)
    # 0 rounds: nothing is observed, and either version is read
    for name, modes in (("", 0), (", live, drawn", m.LIVE | m.DRAWN)):
        yield case(f"sized, empty, the proof of no rows{name}", 0, as_version(2, NONE), [], m.EMPTY | modes, by=(0, 3))
    yield case("sized, empty, q0 is zero: 22", 0, m.write_proof(m.ZERO, [], [], 2), [], m.EMPTY)
    yield case("sized, empty, K2, one layer: 14", 0, as_version(2, K2_PROOF), [], m.EMPTY)
    yield case("sized, the proof of no rows, the old mode: 10", 0, as_version(2, NONE), [])
    yield case("empty, version 3: 12", 0, as_version(3, NONE), [], m.EMPTY)


def versions(case):
    """Every version byte with the room of version 1 and of version 2, with a word less than each, and with none."""
    for version, more in itertools.product((0, 1, 2, 3, 255), (-24, -1, 0, 3, 4)):
        by = (0, more - 4 * (version == 2))
        for modes in (0, m.DRAWN) if more in (0, 4) and version in (1, 2) else (0,):
            way = ", drawn" if modes else ""
            yield case(f"version {version}, a log of {24 + more} words{way}", 1, as_version(version, K2_PROOF), FIVE, modes, by=by)
    # 12 after 4 and before 5 and 13
    yield case("version 3, few challenges: 4", 1, as_version(3, K2_PROOF), FIVE[:3])
    yield case("version 3, a short point: 12", 1, as_version(3, K2_PROOF), FIVE, by=(-1, 0))
    yield case("version 3, drawn, no room at all: 12", 1, as_version(3, K2_PROOF), [], m.DRAWN, by=(-4, -24))
    yield case("no first byte, no room at all: 12", 1, [], FIVE, by=(-4, -24))
    yield case("no first byte, few challenges: 4", 1, [], FIVE[:3], by=(-4, -24))
    yield case("version 3 and nothing else: 12", 1, [3], FIVE)
    yield case("version 2 and nothing else, the room of version 1: 5", 1, [2], FIVE, by=(0, -4))
    yield case("version 2 and nothing else: 13", 1, [2], FIVE)
    yield case("version 3, 11 rounds: 11", 11, as_version(3, K2_PROOF), FIVE)
    yield case("sized, a byte more: 13", 1, as_version(2, K2_PROOF) + [0], FIVE)
    yield case("sized, a word is the prime: 6", 1, as_version(2, K2_PROOF[:5] + m.word_bytes(P) + K2_PROOF[9:]), FIVE)
    yield case("sized, ten rounds, the room of version 1: 5", 10, [2], small(256), by=(0, -4))


def damaged(case, make, honest):
    """Each number that a proof of version 2 gets, with one thing changed; and rounds that are not its own."""
    def bent(n, label, change, modes=0):
        q0, layers, polys = m.read_proof(honest[n][0])
        parts = [q0], [list(l) for l in layers], [[list(s) for s in e] for e in polys]
        change(*parts)
        return case(f"sized, {label}, n = {n}", n, m.write_proof(parts[0][0], *parts[1:], 2), honest[n][1], modes, by=(1, 1), filler=8)
    yield bent(1, "a layer too many: 14", lambda q, l, p: l.append([m.ZERO] * 4))
    yield bent(1, "an entry too many: 15", lambda q, l, p: p.append([]))
    yield bent(1, "q0 is zero, live: 27", lambda q, l, p: q.__setitem__(0, m.ZERO), m.LIVE)
    yield bent(1, "numerator of layer 0 changed: 16", lambda q, l, p: l[0].__setitem__(0, make.unit()))
    yield bent(1, "q0 changed: 17", lambda q, l, p: q.__setitem__(0, make.unit()))
    yield bent(2, "no sub-rounds in round 1: 18", lambda q, l, p: p[0].clear())
    yield bent(2, "s(2) changed: 19", lambda q, l, p: p[0][0].__setitem__(1, make.unit()))
    yield bent(3, "claim of layer 2 changed: 19", lambda q, l, p: l[2].__setitem__(1, make.unit()))
    for n, rounds in ((1, 2), (2, 1)):
        yield case(f"sized, a proof of {n} rounds given as {rounds}: 14", rounds, honest[n][0], small(m.challenge_words(rounds)))


CASES = {"prover": prover, "verifier": verifier}
