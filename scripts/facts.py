#!/usr/bin/env python3
"""What each edit is refused for, by what `rt ci` or `rt must-fail` says: a line for each edit, also for those that an earlier run tried and that are kept.
`scripts/facts.py [FILE]` reads that text, or standard input, and fails where an edit of crates/*/must-fail has no line, was not tried, was not refused, is bad,
or is refused for no fact, a promise or a law that is no longer proved, but for a name that is missing, for a search that found nothing, or by a limit of
the prover alone."""
import glob
import os
import re
import sys

ROOT = os.path.join(os.path.dirname(os.path.abspath(__file__)), "..")
LINE = re.compile(r"rt: must-fail (\w+)/([\w.-]+)\.edit: (.*)")
FACT = "refused, as it must be: "
# What a first line says that is no fact: nothing was found, or a name is missing. (A goal that a function without answers no longer proves is told as such.)
NONE = re.compile(r"`(?:search|cc|simp)`: |`rw`: no occurrence|list the missing equation|(?:record|module) \S+ has no |not in scope|not declared")
# The place of what the prover says first, and what it says: an error, or a goal that is not proved.
SAID = re.compile(r"(?:note: )?(?:\./)?(\S+?):(\d+):\d+: (?:error: )?(.*)")


def edits(text):
    """Crate, name and what is said of each edit, in the order of the text; of an edit that is told twice, the last."""
    told = {}
    for line in text.split("\n"):
        found = LINE.match(line)
        if found:
            told[found.group(1), found.group(2)] = found.group(3)
    for (crate, name), said in told.items():
        yield crate, name, said


def short(text, most=130):
    """The text without the modules of its names, and not longer than that."""
    text = re.sub(r"(?<![\w.'/])(?:[A-Za-z][\w'-]*\.)+(?=[^\s.])", "", re.sub(r"\s+", " ", text))
    return text if len(text) <= most else text[: most - 1] + "…"


def fact(said):
    """(place, what no longer holds, True), or ("", what was said instead, False)."""
    found = SAID.match(said[len(FACT) :]) if said.startswith(FACT) else None
    if not found or NONE.search(said):
        return "", short(said), False
    return "%s:%s" % found.group(1, 2), short(found.group(3).replace("`", "")), True


def main():
    text = (open(sys.argv[1], encoding="utf-8", errors="replace") if len(sys.argv) > 1 else sys.stdin).read()
    tried, bad = set(), []
    for crate, name, said in edits(text):
        tried.add((crate, name))
        _, told, good = fact(said)
        if not good:
            bad.append("%s/%s is refused for no fact: %s" % (crate, name, told))
    for path in sorted(glob.glob(os.path.join(ROOT, "crates", "*", "must-fail", "*.edit"))):
        crate, name = path.split(os.sep)[-3], os.path.basename(path)[:-5]
        if (crate, name) not in tried:
            bad.append("%s/%s was not tried" % (crate, name))
    for line in bad:
        print("facts: " + line)
    print("facts: %d edits, %d of them refused for a fact" % (len(tried), len(tried) - sum("no fact" in b for b in bad)))
    sys.exit(1 if bad else 0)


if __name__ == "__main__":
    main()
