"""The commands of `sheetproof` over a folder of files, by document 01's model: what each prints, and the files that it writes.

Written from README.md's words on the commands and docs/, with the model for every number; nothing of the crates is used.
"""
import re

import model as m

WORDS = {
    1: "RaggedRows: the words of the rows are no multiple of eight",
    2: "TooManyRows: more than 1024 rows",
    3: "NotPowerOfTwo: the number of rows is neither 0 nor a power of two (rows 0/1 can be added, they leave the sum as it is)",
    4: "ShortChallenges: there are fewer challenges than the rounds need",
    5: "ShortRoom: a buffer is too short for what it has to hold",
    7: "ZeroDenominator: row %s has a denominator of zero (rows are counted from 0; live mode)",
    8: "NonZeroRootSum: the numerator of the sum is not zero, and zero was asserted",
    9: "SingleRow: a sheet of one row has no round to prove",
    10: "ZeroRounds: a proof of 0 rounds is not verified",
    11: "TooManyRounds: more than 10 rounds",
    12: "BadVersion: the first byte is missing, or is no version: 1 of a sheet, 1 or 2 of a proof",
    13: "BadLength: a stored length or count disagrees with the bytes that are there",
    14: "IncorrectLayerCount: the number of layers in the proof: expected %s, actual %s",
    15: "IncorrectSumcheckPolyCount: the number of polynomial entries in the proof: expected %s, actual %s",
    16: "ZeroCheckFailed: the numerator of the sum: expected 0, actual %s",
    17: "RootConsistencyCheckFailed: the denominator of the sum, as stated and as layer 0 has it: expected %s, actual %s",
    18: "IncorrectSubroundCount: the number of sub-rounds in round %s: expected %s, actual %s",
    19: "LayerConsistencyCheckFailed: the claim of round %s, as its layer has it and as its sub-rounds reach it: expected %s, actual %s",
    22: "InvalidZeroRoundValue: the denominator of the sum of no rows: expected 1, actual %s",
    24: "LogMismatch: the log differs at its word %s, counted from 0",
    25: "LogShort: the log ends before its word %s, counted from 0, and the verifier's goes on",
    26: "LogLong: the log goes on at its word %s, counted from 0, and the verifier's has ended",
    27: "ZeroRoot: the denominator of the sum is zero, so that the proof says nothing about the rows (live mode)",
}
SHEET, PROOF, TEXT, LOG = 3 + 32 * m.ROWS, 65536, 262144, 4 * m.log_words(m.ROUNDS, True, True)
WORD = r"-?[0-9]+"
ELEMENT = r"(%s(?:,%s){3}|%s)" % (WORD, WORD, WORD)
LINE = re.compile(r"[ \t\r]*%s(?:(?:[ \t\r]*/[ \t\r]*|[ \t\r]+)%s)?[ \t\r]*" % (ELEMENT, ELEMENT))


class Refused(Exception):
    """The lines that are printed."""


def element_names(layers, counts):
    """The elements of a proof in stored order, with so many sub-rounds in each entry."""
    claims = ["layer %d, %s" % (r, name) for r in range(layers) for name in ("p0", "q0", "p1", "q1")]
    return ["q0"] + claims + ["layer %d, sub-round %d, s(%d)" % (r, j, k) for r, c in enumerate(counts, 1) for j in range(c) for k in (1, 2, 3)]


def log_names(sized):
    """The elements of a verifier's log of ten rounds."""
    def claims(r):
        return ["layer %d, %s" % (r, name) for name in ("p0", "q0", "p1", "q1")] + ["mu of round %d" % r]
    names = ["the size"] * sized + ["q0"] + claims(0)
    for r in range(1, m.ROUNDS):
        names += ["lambda of round %d" % r] + ["layer %d, sub-round %d, %s" % (r, j, name) for j in range(r) for name in ("s(1)", "s(2)", "s(3)", "rho")] + claims(r)
    return names


def log_word(o, sized):
    """What the word of the log is of that 24 or 25 tells the place of."""
    return ": %s, word %d" % (log_names(sized)[o.plain[0] // 4], o.plain[0] % 4) if o.no in (24, 25) else ""


def bad_word(place, number, shape=None):
    """The words of 6 for the place of a bad word in its list; of a proof by its elements' names, where layers and sub-rounds are known."""
    word = "word %d, counted from 0" % (place % 4)
    name = {m.ROW_WORDS: "row %d, counted from 0, word %d of its %s" % (place // 8, place % 4, "pq"[place // 4 % 2]),
            m.PROOF_WORDS: "word %d of the proof's elements, counted from 0" % place,
            m.CHALLENGE_WORDS: "challenge %d, %s" % (place // 4, word),
            m.POINT_WORDS: "coordinate %d, %s" % (place // 4, word)}[number]
    if shape and number == m.PROOF_WORDS:
        name = "%s, %s" % (element_names(*shape)[place // 4], word)
    return "refused 6 BadWord: %s, is not below 2013265921" % name


def refusal(o, shape=None):
    if o.no == 6:
        return bad_word(*o.plain, shape) if o.plain else "refused 6 BadWord: a word is not below the prime 2013265921"
    return "refused %d %s" % (o.no, WORDS[o.no] % (*o.plain, *map(short, o.elements)))


def used_line(o):
    return "used %d challenges, %d log words" % o.used


def signed(w):
    return w - m.P if w > m.P // 2 else w


def short(e):
    """An element of the base is one number, any other its four words; above half the prime by what is missing to it."""
    return ",".join(str(signed(w)) for w in (e if any(e[1:]) else e[:1]))


def long(e):
    return ",".join(map(str, e))


def element(text):
    """The element, or None where a word is not below the prime."""
    words = [int(w) for w in text.split(",")]
    return tuple(w % m.P for w in words + [0] * (4 - len(words))) if all(abs(w) < m.P for w in words) else None


def read_list(name, text, size, room, kind):
    """Lines of so many elements each, as many as there is room for; and whether there were more."""
    rows = []
    for number, line in enumerate(text.decode("latin-1").split("\n"), 1):
        if re.fullmatch(r"[ \t\r]*(#.*)?", line, re.S):
            continue
        found = LINE.fullmatch(line)
        row = [element(e) for e in found.groups() if e] if found else []
        if len(row) != size or None in row:
            raise Refused("refused: line %d of %s is not %s" % (number, name, kind))
        if len(rows) == room:
            return rows, True
        rows.append(row)
    return rows, False


def rows_of(files, name):
    data = files[name]
    o = m.Outcome(2) if len(data) > SHEET else m.read_sheet(data, 8 * m.ROWS)
    if o.no:
        raise Refused(refusal(o))
    return o.fronts[0]


def challenges_of(files, modes, name):
    if modes & m.DRAWN:
        return []
    if name is None:
        return m.flat(m.const(k) for k in range(1, 65))
    return [w for row in read_list(name, files[name][:65536], 1, 64, "an element")[0] for e in row for w in e]


def make(files, text, sheet):
    if len(files[text]) > TEXT:
        raise Refused("refused: %s has more than %d bytes" % (text, TEXT))
    rows, more = read_list(text, files[text], 2, m.ROWS, "a fraction p/q of elements")
    no = 2 if more else 3 if rows and not m.power_of_two(len(rows)) else 0
    if no:
        raise Refused(refusal(m.Outcome(no)))
    files[sheet] = bytes([1, *len(rows).to_bytes(2, "big")] + [b for row in rows for b in m.flat_bytes(row)])
    return ["rows %d" % len(rows)]


def show(files, sheet):
    es = m.elements(rows_of(files, sheet))
    level, size, lines = list(zip(es[::2], es[1::2])), 1, []
    if not level:
        return ["rows:", "sum: 0/1"]
    while True:
        text = "".join(" %s/%s" % (short(p), short(q)) for p, q in level)
        lines += (["rows:" + text] if size == 1 else []) + (["sum:" + text] if len(level) == 1 else ["sums of %d rows:%s" % (size, text)] if size > 1 else [])
        if len(level) == 1:
            return lines
        level, size = [m.fraction_sum(a, b) for a, b in zip(level[::2], level[1::2])], 2 * size


def keep_log(files, name, words):
    if name:
        files[name] = bytes(b for w in words for b in m.word_bytes(w))


def prove(files, sheet, proof, modes, asserted, challenges, log):
    rows = rows_of(files, sheet)
    o = m.outcome(40, [modes, asserted, rows, challenges_of(files, modes, challenges), 2832, 40, 968, 32768, 0])
    if o.no:
        raise Refused(refusal(o))
    files[proof] = bytes(o.fronts[0])
    keep_log(files, log, o.fronts[2])
    lines = ["rows %d" % (len(rows) // 8), "rounds %d" % o.plain[0], "sum " + " ".join(map(long, o.elements))]
    return lines + notes(o.elements[1], modes, challenges)


def notes(denominator, modes, challenges):
    """A sum over zero, and challenges that are counted, are told after the answer."""
    over = ["note: the denominator of the sum is zero, so that the proof says nothing about the rows"] if denominator == m.ZERO else []
    return over + ([] if challenges or modes & m.DRAWN else ["note: the challenges are counted, for demonstrations only"])


def compare(files, sheet, rounds, point, claims):
    """The claims beside the sheet's own values at the point: a line."""
    try:
        rows = rows_of(files, sheet)
    except Refused as said:
        return str(said)
    about = 2**rounds if rounds else 0
    if len(rows) // 8 != about:
        return "refused: the sheet has %d rows, and a proof of %d rounds is about %d" % (len(rows) // 8, rounds, about)
    return "claims match the sheet" if m.outcome(70, [rows, point]).elements == claims else "refused: the claims are not the sheet's"


def proof_of(files, name):
    if len(files[name]) > PROOF:
        raise Refused("refused: %s has more than %d bytes, and a proof of 10 rounds has 2832" % (name, PROOF))
    return files[name]


def verdict(o, proof, modes, challenges):
    """The lines of a verifier's answer, or of a replay's."""
    if o.no:
        read = m.read_proof(proof)
        shape = None if isinstance(read, int) else (len(read[1]), [len(entry) for entry in read[2]])
        raise Refused(refusal(o, shape) + log_word(o, m.is_sized(proof)), used_line(o))
    point = "".join(" " + long(e) for e in m.elements(o.fronts[0]))
    lines = ["verdict 0", "numer " + long(o.elements[0]), "denom " + long(o.elements[1]), "point" + point, used_line(o)]
    return lines + notes(m.read_proof(proof)[0], modes, challenges)


def verify(files, proof, rounds, modes, challenges, sheet, log):
    stored = proof_of(files, proof)
    o = m.outcome(50, [rounds, modes, stored, challenges_of(files, modes, challenges), 40, 964, 0])
    keep_log(files, log, o.fronts[1] if o.fronts else [])
    lines = verdict(o, stored, modes, challenges)
    return lines + ([compare(files, sheet, rounds, o.fronts[0], o.elements)] if sheet else [])


def replay(files, proof, rounds, log, modes):
    stored, data = proof_of(files, proof), files[log]
    if len(data) > LOG:
        raise Refused("refused: %s has more than %d bytes, and no verifier logs more than %d words" % (log, LOG, LOG // 4))
    if len(data) % 4:
        raise Refused("refused: %s has %d bytes, and each word of a log has 4" % (log, len(data)))
    words = [int.from_bytes(data[i:i + 4], "big") for i in range(0, len(data), 4)]
    return verdict(m.outcome(80, [rounds, modes, stored, words, 40, 0]), stored, modes, log)


def run(files, line):
    """What a command line of known words prints; `size NAME` tells the bytes of a file."""
    name, *args = line.split(" ")
    challenges, sheet, log = (args[args.index(option) + 1] if option in args else None for option in ("--challenges", "--sheet", "--log"))
    modes = sum(bit for option, bit in (("--live", m.LIVE), ("--drawn", m.DRAWN), ("--sized", m.SIZED), ("--empty", m.EMPTY)) if option in args)
    try:
        if name == "size":
            return ["bytes %d" % len(files[args[0]]) if args[0] in files else "no such file"]
        if name == "make":
            return make(files, *args)
        if name == "show":
            return show(files, *args)
        if name == "prove":
            return prove(files, args[0], args[1], modes, "--no-assert" not in args, challenges, log)
        if name == "replay":
            return replay(files, args[0], int(args[1]), args[2], modes)
        return verify(files, args[0], int(args[1]), modes, challenges, sheet, log)
    except Refused as said:
        return list(said.args)
