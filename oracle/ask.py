"""The oracle process: cases become its commands, its replies become outcomes (model.Outcome)."""
import os
import subprocess

import model as m
from forms import FORMS

HERE = os.path.dirname(os.path.abspath(__file__))


def program(build="release"):
    """The oracle's path; ORACLE in the environment puts another in the place of the release build."""
    path = f"{HERE}/rust/target/{build}/oracle"
    if build == "release":
        path = os.environ.get("ORACLE", path)
    if not os.path.exists(path):
        raise SystemExit("build the oracle first: oracle/build RUST_DIR")
    return path


def recorded(kind):
    """The files of a kind's recorded cases, of their answers, and of what each is for; RECORDED in the environment puts another
    folder in the place of this repository's."""
    top = os.path.normpath(os.environ.get("RECORDED", f"{HERE}/.."))
    crate = f"{top}/crates/replay_{kind}"
    return [f"{crate}/stdin", f"{crate}/stdout", f"{top}/oracle/recorded/{kind}.about"]


def replies(commands, build="release"):
    """One reply for each command, from one process."""
    if not commands:
        return []
    done = subprocess.run([program(build)], input="\n".join(commands) + "\n", capture_output=True, text=True, check=True)
    lines = done.stdout.splitlines()
    assert len(lines) == len(commands), "the oracle did not answer every command"
    return lines


def words(v):
    return ",".join(map(str, v)) if v else "-"


def unwords(s):
    return [] if s == "-" else [int(w) for w in s.split(",")]


def unhex(s):
    return [] if s == "-" else list(bytes.fromhex(s))


def parts(reply):
    """The words `name=value` of a reply."""
    return dict(w.split("=", 1) for w in reply.split()[1:] if "=" in w)


def source(modes, challenges):
    """What stands in the place of the challenges."""
    return "drawn" if modes & m.DRAWN else words(challenges)


def prove_command(rows, modes, asserted, challenges):
    """A proof binds its size where `sized` follows; of the verifier's the version byte says so."""
    return f"prove {int(asserted)} {words(rows)} {source(modes, challenges)}{' sized' if modes & m.SIZED else ''}"


def verified(a):
    """What the plain verifier is asked where a log is replayed: its own challenges."""
    return [a[0], a[1], a[2], m.log_challenges(a[3])]


def command(code, a):
    """What the Rust is asked for a case, with the lists as they are, or None where it has no such call."""
    name = FORMS[code][1]
    if code == 40:
        return prove_command(a[2], a[0], a[1], a[3])
    if code == 50:
        return f"verify {a[0]} {bytes(a[2]).hex() or '-'} {source(a[1], a[3])}"
    if code == 80:
        return command(50, verified(a))
    if code in (60, 70):
        return None
    if code in (20, 21, 22):
        return f"{name} {words(m.flat(a[:-1]))} {words(a[-1])}"
    if code == 25:
        name = "eval_mle_evals_at_point"
    if code in (26, 27):
        a = a[:1]
    if code == 30:
        a = a[:2]
    if code == 31:
        variables = max(len(a[1]) // 4, 1).bit_length() - 1
        return f"{name} {variables} {words(a[0])} {words(a[1])} {words([w for c in a[2:] for w in c])}"
    return " ".join([name] + [str(x) if isinstance(x, int) else words(x) for x in a])


def used_up(got):
    """The challenges sampled, which the oracle's transcript counts in words, and the words that stand in its log."""
    assert int(got["used"]) % 4 == 0
    return int(got["used"]) // 4, len(unwords(got["log"]))


def outcome(code, a, reply):
    """The outcome that the Rust's reply says, or None where it panicked."""
    kind, got = reply.split()[0], parts(reply)
    if kind == "panic":
        return None
    if code == 40:
        wiped = [0] * m.work_words((len(a[2]) // 8).bit_length() - 1 if a[2] else 0)
        if kind == "err":
            return m.Outcome(int(got["no"]), fronts=[[], [], [], wiped], used=used_up(got))
        point = unwords(got["point"])
        return m.Outcome(0, [len(point) // 4], m.elements(unwords(got["p"]) + unwords(got["q"])),
                         [unhex(got["proof"]), point, unwords(got["log"]), wiped], used_up(got))
    if code == 50:
        if kind == "ok":
            claims = m.elements(unwords(got["numer"]) + unwords(got["denom"]))
            return m.Outcome(0, [], claims, [unwords(got["point"]), unwords(got["log"])], used_up(got))
        no = int(got["no"])
        both = [got[k] for k in ("expected", "actual") if k in got]
        numbers = ([got["round"]] if "round" in got else []) + (both if no in (14, 15, 18) else [])
        es = [tuple(unwords(e)) for e in both] if no in (16, 17, 19) else []
        return m.Outcome(no, [int(x) for x in numbers], es, [[], unwords(got["log"])], used_up(got))
    if code == 80:
        return m.replayed(outcome(50, verified(a), reply), a[3])
    said = reply.split()[1:]
    if code in (26, 27, 30):
        return m.Outcome(0, fronts=[unwords(said[0])])
    return m.Outcome(0, [], m.elements(unwords(said[0])), [unwords(s) for s in said[1:]])


class Disagree(Exception):
    pass


def expected(cases, cross=lambda code, a: True):
    """For each case its outcome and where it comes from: `rust`, the Rust's run, or `model`, document 01 alone.

    Where both have an answer and cross(case) holds they are held against each other; so are the Rust's panics.
    """
    refused = [m.refusal(code, a) for code, a in cases]
    asked = [i for i, (code, a) in enumerate(cases) if comparable(code, a, refused[i])]
    said = dict(zip(asked, replies([command(*cases[i]) for i in asked])))
    result = []
    for i, (code, a) in enumerate(cases):
        rust = outcome(code, a, said[i]) if i in said else None
        if refused[i] is not None:
            check_refusal(code, a, refused[i], i in said, rust)
            result.append((refused[i], "rust" if code == 40 and refused[i].no == 8 else "model"))
            continue
        if code == 70 or none_verified(code, a):
            result.append((m.run(code, a), "model"))
            continue
        if rust is None:
            raise Disagree(f"the Rust panics, the model does not refuse: {code} {a}: {said.get(i)}")
        if cross(code, a) and not same(code, m.run(code, a), rust):
            raise Disagree(f"model and Rust differ: {code} {a}\n{m.run(code, a)}\n{rust}")
        result.append((rust, "rust"))
    return result


def none_verified(code, a):
    """The Rust panics at 0 rounds."""
    return code in (50, 80) and a[0] == 0


def comparable(code, a, refused):
    """Whether the Rust can be asked: a run, a refusal that is the Rust's too, one where it panics, or our proof reader's."""
    if code in (60, 70):
        return False
    if refused is None:
        return not none_verified(code, a)
    if code == 40:
        return refused.no in (3, 8, 9)
    return code in (50, 80) and refused.no in (6, 12, 13, 27)


def check_refusal(code, a, refused, asked, rust):
    if not asked:
        return
    if code == 40 and refused.no in (3, 9):
        good = rust is None
    elif code == 40:
        good = rust is not None and (rust.no, rust.used) == (8, refused.used)
    elif code == 50 and refused.no == 6 and m.bad(a[3][:m.needed(a[1], a[0])]):
        good = rust is None or rust.no not in (12, 13)
    elif refused.no == 27:
        # the Rust has no live mode: it runs, so both counts are right
        good = rust is not None and rust.no not in (14, 15)
    else:
        good = rust is not None and rust.no == refused.no
    if not good:
        raise Disagree(f"refusal {refused} but the Rust says {rust}: {code} {a}")


def same(code, x, y):
    fronts = (lambda o: [list(f) for f in o.fronts if f]) if code != 25 else lambda o: 0
    return (x.no, list(x.plain), [tuple(e) for e in x.elements], fronts(x), x.used) == \
        (y.no, list(y.plain), [tuple(e) for e in y.elements], fronts(y), y.used)
