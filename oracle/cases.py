"""Cases of prover, verifier and replay with rooms as long as the run needs; rows and plain words to fill them with."""
import model as m


def small(k, first=1):
    """A list of k small words, for cases whose values do not matter or whose size does."""
    return [(first + i) % 9 + 1 for i in range(k)]


def words_of(rows):
    return [w for p, q in rows for w in (*p, *q)]


def prove_case(rows, challenges, modes=0, asserted=1, by=(0, 0, 0, 0), filler=7):
    """Rooms as long as a run of these rows needs, changed by the four numbers."""
    count = len(rows) // 8
    n = count.bit_length() - 1 if m.power_of_two(count) and count <= m.ROWS else 0
    sizes = [m.proof_bytes(n), 4 * n, m.log_words(n, asserted, modes & m.SIZED), m.work_words(n)]
    return 40, [modes, asserted, rows, challenges] + [max(0, s + d) for s, d in zip(sizes, by)] + [filler]


def verify_case(n, proof, challenges, by=(0, 0), filler=7, modes=0):
    size = n if n <= m.ROUNDS else 1
    return 50, [n, modes, proof, challenges, max(0, 4 * size + by[0]), max(0, m.log_words(size, True, m.is_sized(proof)) + by[1]), filler]


def replay_case(n, proof, log, by=0, filler=7, modes=0):
    size = n if n <= m.ROUNDS else 1
    return 80, [n, modes, proof, log, max(0, 4 * size + by), filler]
