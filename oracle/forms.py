"""The text form of cases and answers: decimal numbers, single spaces, a list after its length, one case or answer a line.

A case is (code, arguments). The letters of FORMS: w a word or number, e an element (four words, no length before them),
l a list. README.md has the same as a table.
"""
FORMS = {
    1: ("field", "add", "ee"), 2: ("field", "sub", "ee"), 3: ("field", "neg", "e"), 4: ("field", "double", "e"),
    5: ("field", "mul", "ee"), 6: ("field", "square", "e"), 7: ("field", "halve", "e"), 8: ("field", "mul_base", "ew"),
    11: ("field", "base_add", "ww"), 12: ("field", "base_sub", "ww"), 13: ("field", "base_neg", "w"),
    14: ("field", "base_double", "w"), 15: ("field", "base_mul", "ww"), 16: ("field", "base_square", "w"),
    17: ("field", "base_halve", "w"),
    20: ("poly", "linear", "eee"), 21: ("poly", "quadratic", "eeee"), 22: ("poly", "cubic", "eeeee"),
    23: ("poly", "eval_eq_mle", "ll"), 24: ("poly", "eval_mle_evals_at_point", "ll"), 25: ("poly", "value by halves", "ll"),
    26: ("poly", "evals_eq_hypercube", "lww"), 27: ("poly", "evals_eq_hypercube_serial", "lww"),
    28: ("poly", "horner_eval", "le"), 29: ("poly", "horner_eval_base", "le"),
    30: ("poly", "fold_mle_evals", "leww"), 31: ("poly", "round_poly", "elllll"),
    40: ("prover", "prove", "wwllwwwww"),
    50: ("verifier", "verify", "wwllwww"),
    60: ("sheet", "read_sheet", "lww"),
    70: ("evaluation", "evaluate", "ll"),
    80: ("log", "replay", "wwllww"),
}
KINDS = ("field", "poly", "prover", "verifier", "sheet", "evaluation", "log")


def write_case(code, a):
    out = [str(code)]
    for letter, x in zip(FORMS[code][2], a, strict=True):
        if letter == "w":
            out.append(str(int(x)))
        elif letter == "e":
            assert len(x) == 4
            out += map(str, x)
        else:
            out.append(str(len(x)))
            out += map(str, x)
    return " ".join(out)


def read_case(line):
    v = [int(w) for w in line.split()]
    code, at, a = v[0], 1, []
    for letter in FORMS[code][2]:
        if letter == "w":
            a.append(v[at])
            at += 1
        elif letter == "e":
            a.append(tuple(v[at:at + 4]))
            at += 4
        else:
            a.append(v[at + 1:at + 1 + v[at]])
            at += 1 + v[at]
    assert at == len(v)
    return code, a


def listed(v):
    return [len(v), *v]


def buffer(front, length, filler):
    """A buffer of that length which held the filler before its front was written."""
    assert len(front) <= length
    return [length, *front, *[filler] * (length - len(front))]


def fields(o):
    """Number, three plain fields, two element fields; those that an answer does not name are zero."""
    plain, es = list(o.plain), [w for e in o.elements for w in e]
    return [o.no, *plain, *[0] * (3 - len(plain)), *es, *[0] * (8 - len(es))]


def told(o):
    """Those of the prover and the verifier, and then what was used up: challenges sampled, log words written."""
    return fields(o) + list(o.used)


def value(o, count=1):
    return [o.no, *(w for e in o.elements for w in e)] if o.no == 0 else [o.no] + [0] * 4 * count


def write_answer(code, a, o):
    """The answer line of an outcome (model.Outcome)."""
    fronts = list(o.fronts)
    if code < 23 or code in (23, 25, 28, 29):
        v = value(o)
    elif code == 24:
        v = value(o) + listed(fronts[0] if o.no == 0 else a[0])
    elif code in (26, 27):
        v = [o.no] + buffer(fronts[0] if o.no == 0 else [], a[1], a[2])
    elif code == 30:
        part = fronts[0] if o.no == 0 else []
        v = [o.no] + listed(part) + listed(a[0]) + buffer(part if len(a[0]) > 4 else [], a[2], a[3])
    elif code == 31:
        v = value(o, 3)
    elif code == 40:
        proof, point, log, work = fronts or [[]] * 4
        v = (told(o) + buffer(proof, a[4], a[8] % 256) + buffer(point, a[5], a[8]) + buffer(log, a[6], a[8])
             + buffer(work, a[7], a[8]))
    elif code == 50:
        point, log = fronts or [[]] * 2
        v = told(o) + buffer(point, a[4], a[6]) + buffer(log, a[5], a[6])
    elif code == 70:
        v = fields(o)
    elif code == 80:
        v = told(o) + buffer(fronts[0] if fronts else [], a[4], a[5])
    else:
        v = fields(o) + buffer(fronts[0] if o.no == 0 else [], a[1], a[2])
    return " ".join(map(str, v))
