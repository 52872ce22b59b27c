"""The recorded cases of 0 rounds where they are valid, all by the model: the Rust panics there. `record` puts them after all others."""
import model as m
from cases import small, verify_case
from generate import K2_PROOF, P, TOP, repaired

NONE = m.write_proof(m.ONE, [], [])
MODES = {"": 0, ", live": m.LIVE, ", drawn": m.DRAWN, ", live, drawn": m.LIVE | m.DRAWN}


def verifier(make):
    def case(label, *args, modes=0, **named):
        return (f"empty, {label}", *verify_case(*args, modes=modes | m.EMPTY, **named))
    for name, modes in MODES.items():
        yield case(f"the proof of no rows{name}", 0, NONE, [], modes=modes)
        yield case(f"the proof of no rows, rooms longer, bad challenge words{name}", 0, NONE, [P, TOP], (3, 5), TOP, modes=modes)
        yield case(f"q0 is zero: 22, not 27{name}", 0, m.write_proof(m.ZERO, [], []), [], (1, 1), modes=modes)
        yield case(f"K2, one layer: 14{name}", 0, K2_PROOF, small(4), (1, 1), modes=modes)
        yield case(f"an entry, and q0 is zero: 15{name}", 0, m.write_proof(m.ZERO, [], [[]]), [], (2, 2), modes=modes)
        yield ("the proof of no rows, the old mode: 10" + name, *verify_case(0, NONE, [], (1, 1), modes=modes))
    for k, w in ((0, 2), (0, P - 1), (1, 1), (2, 1), (3, P - 1)):
        q0 = tuple(w if i == k else int(i == 0) for i in range(4))
        yield case(f"word {k} of q0 is {w}", 0, m.write_proof(q0, [], []), [])
    for layers, entries in ((0, 1), (0, 3), (1, 1), (2, 0)):
        for q0 in (m.ONE, m.const(7)):
            yield case(f"{layers} layers, {entries} entries, q0 = {q0[0]}", 0, m.write_proof(q0, [[m.ZERO] * 4] * layers, [[]] * entries), [])
    yield case("an entry with a sub-round: 15", 0, m.write_proof(m.ONE, [], [[[m.ZERO] * 3]]), [])
    # 12, 13 and 6 before the counts
    for k in (0, 1, 4, 5, 21, 22):
        yield case(f"prefix of {k} bytes", 0, NONE[:k], [])
        if k >= 5:
            yield case(f"prefix of {k} bytes, length repaired", 0, repaired(NONE[:k]), [])
    yield case("a byte more: 13", 0, NONE + [0], [])
    yield case("a byte more, length repaired: 13", 0, repaired(NONE + [0]), [])
    yield case("version 129: 12", 0, [129] + NONE[1:], [])
    for at in range(5, 21, 4):
        yield case(f"proof word at byte {at} is the prime: 6", 0, NONE[:at] + m.word_bytes(P) + NONE[at + 4:], [])
    yield case("a bad word and a layer: 6", 0, m.write_proof((P, 0, 0, 0), [[m.ONE] * 4], []), [])
    # of one round or more the mode says nothing
    for n, proof, c in make.honest((1, 2)):
        for name, modes in (("", 0), (", live", m.LIVE)):
            yield case(f"honest, n = {n}{name}", n, proof, c, (1, 0), modes=modes)
        yield case(f"the proof of no rows given as {n} rounds", n, NONE, c)
        yield case(f"a proof of {n} rounds given as 0: 14", 0, proof, [])
    yield case("K4, 0/0, live: 27", 1, m.write_proof(m.ZERO, [[m.ZERO] * 4], []), [5, 0, 0, 0], modes=m.LIVE)
    yield case("11 rounds: 11", 11, NONE, [], (-9, -99))


CASES = {"verifier": verifier}
