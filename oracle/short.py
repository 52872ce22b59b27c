"""Exhaustively short cases of each kind."""
import itertools

import model as m
from forms import FORMS
from generate import K2_PROOF, P, TOP, repaired


def strings(alphabet, lengths):
    return [list(s) for k in lengths for s in itertools.product(alphabet, repeat=k)]


def short_field():
    words = [0, 1, 2, 3, P - 1, P, P + 1, 1 << 31, TOP]
    for code, (kind, _, form) in FORMS.items():
        if kind == "field" and "e" not in form:
            for a in itertools.product(words, repeat=len(form)):
                yield code, list(a)
    few = [tuple(e) for e in itertools.product([0, 1, P - 1], repeat=4)]
    for a, b in itertools.product(few, few):
        yield 5, [a, b]
    for code in (3, 4, 6, 7):
        for a in few:
            yield code, [a]


def short_poly():
    def upto(k, word=3):
        return [word] * k
    for x, y in itertools.product(range(13), range(13)):
        yield 23, [upto(x), upto(y, 5)]
    for t, x in itertools.product(range(21), range(13)):
        yield 24, [list(range(2, 2 + t)), upto(x)]
        yield 25, [list(range(2, 2 + t)), upto(x)]
    for x, room in itertools.product(range(13), range(36)):
        yield 26, [upto(x), room, 7]
        yield 27, [upto(x), room, 8]
    for c in range(14):
        yield 28, [list(range(c)), (2, 0, 0, 0)]
        yield 29, [list(range(c)), (2, 0, 0, 0)]
    for s, room in itertools.product(range(37), range(18)):
        yield 30, [list(range(1, 1 + s)), (5, 0, 0, 0), room, 9]
    for lengths in itertools.product([0, 3, 4, 8], repeat=5):
        yield 31, [(3, 0, 0, 0)] + [upto(k, 2 + i) for i, k in enumerate(lengths)]


def short_prover():
    for words, c in itertools.product(range(42), [0, 3, 4, 15, 16, 17]):
        yield 40, [0, 0, [2] * words, [3] * c, 200, 8, 68, 128, 6]
    row = [1, 0, 0, 0, 2, 0, 0, 0], [P - 1, 0, 0, 0, 2, 0, 0, 0]
    for count, modes, asserted in itertools.product([0, 1, 2, 4], (0, 1, m.SIZED, m.SIZED | m.DRAWN), (0, 1)):
        rows, n = (row[0] + row[1]) * 2, {0: 0, 1: 0, 2: 1, 4: 2}[count]
        sizes = [m.proof_bytes(n), 4 * n, m.log_words(n, asserted, modes & m.SIZED), m.work_words(n)]
        for by in itertools.product((-1, 0, 1), repeat=4):
            rooms = [max(0, s + d) for s, d in zip(sizes, by)]
            yield 40, [modes, asserted, rows[:8 * count], [4] * m.challenge_words(n), *rooms, 5]
    kinds = [(0, 0), (0, 1), (1, 0), (1, 1), (P - 1, 1)]
    for count in (1, 2, 4):
        for rows in itertools.product(kinds, repeat=count):
            n = count.bit_length() - 1
            for live, asserted in itertools.product((0, 1), (0, 1)):
                flat = [w for p, q in rows for w in (p, 0, 0, 0, q, 0, 0, 0)]
                yield 40, [live, asserted, flat, [3] * m.challenge_words(n), m.proof_bytes(n), 4 * n,
                           m.log_words(n, asserted), m.work_words(n), 1]


def short_verifier():
    for proof in strings([0, 1, 2, 255], range(4)) + strings([0, 1], range(4, 8)):
        yield 50, [1, len(proof) & 1, proof, [5, 0, 0, 0], 4, 24, 7]
    for version, modes, point, log in itertools.product(range(256), (0, m.DRAWN), (3, 4), (0, 23, 24, 27, 28)):
        yield 50, [1, modes, [version] + K2_PROOF[1:], [5, 0, 0, 0], point, log, 7]
    for k in range(len(K2_PROOF) + 1):
        yield 50, [1, k & 1, K2_PROOF[:k], [5, 0, 0, 0], 4, 24, 7]
        yield 50, [1, k & 1, repaired(K2_PROOF[:k]), [5, 0, 0, 0], 4, 24, 7]
        yield 50, [1, k & 1, repaired(K2_PROOF + [0] * k), [5, 0, 0, 0], 4, 24, 7]
    for rounds, c, point, log in itertools.product([0, 1, 2, 10, 11], [0, 3, 4, 5, 15, 16, 17], [0, 3, 4, 7, 8, 9],
                                                   [0, 23, 24, 25, 63, 64, 65]):
        yield 50, [rounds, c & 1, K2_PROOF, [5] * c, point, log, 7]
    small = [m.const(k) for k in (0, 1, -1)]
    for q0, *layer in itertools.product(small, repeat=5):
        for live in (0, 1):
            yield 50, [1, live, m.write_proof(q0, [layer], []), [5, 6, 7, 8], 5, 26, 9]


def short_sheet():
    for data in strings([0, 1, 2, 4, 255], range(5)):
        yield 60, [data, 8, 7]
    for count, extra, room in itertools.product(range(6), (-32, -4, -1, 0, 1, 4, 32), range(0, 34, 1)):
        yield 60, [[1, 0, count] + [1] * max(0, 32 * count + extra), room, 7]


def short_evaluation():
    few = [m.const(k) for k in (0, 1, -1)]
    for p, q, r, s, z in itertools.product(few, few, few, few, [m.const(k) for k in (0, 1, 2, -1)]):
        yield 70, [m.flat([p, q, r, s]), list(z)]
    for rows, point in itertools.product(range(0, 50), range(0, 13)):
        yield 70, [[1] * rows, [2] * point]


def short_log():
    """Logs of K2 with one word changed, a word less or more at each place, and all short logs over four words."""
    for version, modes in itertools.product((1, 2), (0, 1, m.DRAWN)):
        proof = [version] + K2_PROOF[1:]
        log = m.outcome(50, [1, modes, proof, [5, 0, 0, 0], 4, 28, 7]).fronts[1]
        for i, w in itertools.product(range(len(log) + 1), (0, 1, P, m.SAMPLED, m.SAMPLED + 5, m.SAMPLED + P, TOP)):
            for bent in (log[:i] + [w] + log[i + 1:], log[:i] + [w] + log[i:], log[:i]):
                yield 80, [1, modes, proof, bent, 4, 7]
    for log, rounds, point in itertools.product(strings([0, 1, m.SAMPLED, TOP], range(4)), (0, 1, 11), (3, 4)):
        yield 80, [rounds, m.EMPTY, K2_PROOF if rounds else m.write_proof(m.ONE, [], []), log, point, 7]


SHORT = {"field": short_field, "poly": short_poly, "prover": short_prover, "verifier": short_verifier, "sheet": short_sheet,
         "evaluation": short_evaluation, "log": short_log}
