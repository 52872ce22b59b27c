"""The recorded cases of prover and verifier in drawn mode: `record` puts them after all others."""
import itertools

import model as m
from cases import prove_case, small, verify_case, words_of
from generate import K2_PROOF, P, TOP, repaired

MODES = {(live, asserted): f"{'live' if live else 'sandbox'}, {'asserted' if asserted else 'not asserted'}"
         for live, asserted in itertools.product((0, 1), (1, 0))}


def prover(make):
    def case(label, rows, challenges=(), live=0, asserted=1, **named):
        return (f"drawn, {label}", *prove_case(rows, list(challenges), live | m.DRAWN, asserted, **named))

    def rows(*fractions):
        return words_of((m.const(p), m.const(q)) for p, q in fractions)
    for n, ((live, asserted), name) in itertools.product((0, 1, 2, 3, 4, 5), MODES.items()):
        if n < 4 or live == asserted:
            sheet = words_of(make.rows(n, "pairs")) if n else []
            yield case(f"honest, n = {n}, {name}", sheet, [], live, asserted, filler=TOP - n)
        if 0 < n < 3:
            yield case(f"random sheet, n = {n}, {name}", words_of(make.rows(n, "random")), [], live, asserted, by=(1, 1, 1, 1))
    for live, asserted in MODES:
        name = MODES[live, asserted]
        yield case(f"K2, {name}", rows((1, 2), (-1, 2)), [], live, asserted)
        yield case(f"K3, {name}", rows((1, 1), (2, 1), (-1, 1), (-2, 1)), [], live, asserted)
        yield case(f"K4, two rows 0/0, {name}", rows((0, 0), (0, 0)), [], live, asserted)
        yield case(f"K5, one row 1/1, {name}", rows((1, 1)), [], live, asserted)
        yield case(f"K6, 1/1 and 1/1, {name}", rows((1, 1), (1, 1)), [], live, asserted)
        yield case(f"K7, 1/0 and 0/1, {name}", rows((1, 0), (0, 1)), [], live, asserted)
    good = words_of(make.rows(2, "pairs"))
    for lent in ([], [7], make.challenges(2), make.challenges(2)[:-1], [P] * 16, [0] * 15 + [TOP], [TOP] * 17):
        yield case(f"{len(lent)} challenge words lent, {'with bad ones' if m.bad(lent) else 'all good'}: not read", good, lent, 1, 1)
    yield case("no rows, bad challenge words lent", [], [P] * 8)
    for asserted, by in itertools.product((1, 0), itertools.product((-1, 0, 1), repeat=4)):
        if by.count(0) == 3 or by == (-1, -1, -1, -1):
            yield case(f"rooms {by} from exact, n = 2", good, [], 0, asserted, by=by, filler=8)
    yield case("a row word too many: 1", good + [0])
    yield case("3 rows: 3", rows((1, 1), (1, 1), (-2, 1)))
    yield case("short rooms, a bad row word, no challenges: 5", [P] * 16, by=(0, 0, -1, 0))
    yield case("a bad row word, bad challenge words: 6", [P] * 16, [P] * 4)
    yield case("the prime less one in each row word", [P - 1] * 16, [], 0, 0)


def verifier(make):
    def case(label, n, proof, challenges=(), live=0, drawn=m.DRAWN, **named):
        return (f"drawn, {label}" if drawn else label, *verify_case(n, proof, list(challenges), modes=live | drawn, **named))
    drawn = {n: (proof, c) for n, proof, c in make.honest([1, 2, 3, 4, 5, 10], m.DRAWN)}
    supplied = {n: (proof, c) for n, proof, c in make.honest([1, 2, 3])}
    for n, (proof, _) in drawn.items():
        for live in (0, 1) if n < 3 else (n % 2,):
            yield case(f"honest, n = {n}, {'live' if live else 'sandbox'}", n, proof, [], live, filler=TOP - n)
    zeros = m.write_proof(m.ZERO, [[m.ZERO] * 4], [])
    yield case("K4, 0/0, sandbox", 1, zeros)
    yield case("K4, 0/0, live: 27", 1, zeros, [], m.LIVE)
    # a pair of which only one draws: with one round nothing is checked after a challenge, with more the claims do not meet
    for n, (proof, c) in supplied.items():
        yield case(f"a proof over supplied challenges, which are lent and not read, n = {n}: {'accepted' if n == 1 else 19}", n, proof, c)
    for n in (1, 2):
        proof, c = drawn[n]
        yield case(f"a drawn proof verified with other challenges supplied, n = {n}: {'accepted' if n == 1 else 19}", n, proof,
                   make.challenges(n), drawn=0)
        yield case(f"a drawn proof verified with its challenges supplied, n = {n}: accepted", n, proof, c, drawn=0)
        yield case(f"a drawn proof verified with its challenges but one supplied, n = {n}: 4", n, proof, c[:-1], drawn=0)
    # lent challenges are not read
    for n, lent in ((1, [7]), (1, [P] * 4), (1, [TOP] * 5), (2, [P] * 16), (2, small(15))):
        yield case(f"{len(lent)} challenge words lent, {'with bad ones' if m.bad(lent) else 'all good'}: not read, n = {n}", n,
                   drawn[n][0], lent)
    yield from damaged(case, make, drawn)
    # refusals before the run, with no challenges lent
    for by in ((-1, 0), (0, -1), (-4, -24), (2, 3)):
        yield case(f"rooms {by} from exact, n = 1", 1, K2_PROOF, by=by, filler=6)
    yield case("0 rounds: 10", 0, K2_PROOF)
    yield case("11 rounds: 11", 11, K2_PROOF)
    yield case("short rooms, one byte: 5", 10, [1], by=(-1, 0))
    yield case("no proof: 12", 10, [])
    yield case("version 3: 12", 1, [3] + K2_PROOF[1:])
    yield case("a byte more: 13", 1, K2_PROOF + [0])
    yield case("a proof word is the prime, bad challenge words: 6", 1, K2_PROOF[:5] + m.word_bytes(P) + K2_PROOF[9:], [P] * 4)
    yield case("cut short, length repaired: 13", 1, repaired(K2_PROOF[:-1]))


def damaged(case, make, honest):
    """Honest drawn proofs with one thing changed, as the verifier answers them drawing anew."""
    def bent(n, label, change):
        q0, layers, polys = m.read_proof(honest[n][0])
        parts = [q0], [list(l) for l in layers], [[list(s) for s in e] for e in polys]
        change(*parts)
        return case(f"{label}, n = {n}", n, m.write_proof(parts[0][0], *parts[1:]), by=(1, 1), filler=8)
    yield bent(1, "numerator of layer 0 changed: 16", lambda q, l, p: l[0].__setitem__(0, make.unit()))
    yield bent(1, "q0 changed: 17", lambda q, l, p: q.__setitem__(0, make.unit()))
    yield bent(1, "an entry too many: 15", lambda q, l, p: p.append([]))
    yield bent(2, "claim of layer 1 changed: 19", lambda q, l, p: l[1].__setitem__(2, make.unit()))
    yield bent(2, "sides of layer 0 swapped: 19", lambda q, l, p: l.__setitem__(0, l[0][2:] + l[0][:2]))
    yield bent(2, "s(1) changed: 19", lambda q, l, p: p[0][0].__setitem__(0, make.unit()))
    yield bent(2, "no sub-rounds in round 1: 18", lambda q, l, p: p[0].clear())
    yield bent(2, "a layer too few: 14", lambda q, l, p: l.pop())
    yield bent(2, "an entry too few: 15", lambda q, l, p: p.pop())
    yield bent(3, "a sub-round too few in round 2: 18", lambda q, l, p: p[1].pop())
    yield bent(3, "s(3) of the last sub-round changed: 19", lambda q, l, p: p[1][1].__setitem__(2, make.unit()))


CASES = {"prover": prover, "verifier": verifier}
