"""Brings the names of this repository's own definitions and lemmas to one spelling: words in snake case, a dash only between the names of two definitions.
Usage: python3 tools/respell.py, at the top, once, after the older spelling was turned. It goes by text, over specs/, proofs/, the ghost parts of src/, and the planted bugs."""

import collections
import glob
import re
import sys

# The definitions that a lemma's name may join by dashes: its left side, the outer one first.
WORDS = set("""
length get_or set drop take append map sum replicate nth push
tags stored leftover count decimal digits narrow
owes owners layers overlaid laid snaps page pages
marked mark share bit low narrow entries full
unique spelled spaced printed lines line
""".split())
# Names that Rattle makes: the goals of a function's proof.
MADE = re.compile(r"^\s*(?:abbrev\s+)?(?:pub\s+)?(\S+)\s*:\s*goal\.\1\s*$")
DECLARED = re.compile(r"^\s*(?:(?:pattern|unfoldable|abbrev|pub|opaque)\s+)*(?:(?:data|record)\s+)?([^\s:(){}.;,=|]+)\s*(?:\{[^}]*\}\s*)?:(?:\s|$)")
BOUND = [re.compile(r"\blet\s+([a-z][\w'-]*)\s*[:=]"), re.compile(r"λ\s*\(?([a-z][^.:()]*)[.:]"), re.compile(r"[({]([a-z][^:(){};,]*)\s:\s"), re.compile(r"[{;]\s*([a-z][\w'-]*)\s:\s"), re.compile(r"\|\s*\w+((?:\s+[a-z][\w'-]*)+)\s*↦")]
TOKEN = re.compile(r"[^\s(){}\[\],.;:|=`←λ⌜⌝]+")
# The runs of the worked examples are lists of events; their statements go by the same words.
RUNS = "lastPlace inOrder fullRing takenOver withinReach outOfReach sharedBit".split()
# Lemmas that would have their function's name.
LEMMAS = "area-letter blocking-down covers-some is-logged on-page read-checked settled-from writes-back".split()
CAMEL = re.compile(r"(?<=[a-z0-9])(?=[A-Z])")


def snake(word):
    if "→" in word or not re.match(r"[a-z]", word) or not re.search(r"[a-z][A-Z]", word):
        return word
    return CAMEL.sub("_", word).lower()


def spelled(name):
    if name in RUNS:
        return snake(name) + "_events"
    if name in LEMMAS:
        return name.replace("-", "_") + "_lem"
    parts = [snake(p).replace("get_d", "get_or") for p in name.split("-")]
    out = parts[0]
    for left, right in zip(parts, parts[1:]):
        out += ("-" if left in WORDS and right in WORDS else "_") + right
    return out


def names(files):
    made, own = set(), set()
    for f in files:
        for line in open(f):
            text = line.split("-- ")[0] if not line.lstrip().startswith("--") else ""
            if m := MADE.match(text):
                made.add(m[1])
            elif m := DECLARED.match(text):
                own.add(m[1])
            for form in BOUND:
                for m in form.finditer(text):
                    own.update(m[1].split())
    return made, {n for n in own if re.match(r"[a-z]", n) and ("-" in n or snake(n) != n)}


def made_by_rattle(name):
    return re.match(r"(in|returns|loop|invariant|decreases|if|then|else|match|overflow|bounds|slice|offset|ghost)-", name) is not None and name not in KEPT


# Own names that begin like one that Rattle makes.
KEPT = set("in-cons in-first in-later in-none in-sight in-slot in-order-run bounds-kept".split())


def main():
    antt = sorted(glob.glob("crates/*/specs/**/*.antt", recursive=True) + glob.glob("crates/*/proofs/**/*.antt", recursive=True))
    others = sorted(glob.glob("crates/*/src/**/*.rt", recursive=True) + glob.glob("crates/*/must-fail/*.edit") + glob.glob("must-not-compile/*.edit"))
    made, own = names(antt)
    table = {n: spelled(n) for n in own if n not in made and not made_by_rattle(n) and spelled(n) != n}
    taken = collections.defaultdict(set)
    for old, new in table.items():
        taken[new].add(old)
    whole = "\n".join(open(f).read() for f in antt + others)
    there = set(TOKEN.findall(whole))
    for new in sorted(taken):
        if new in there:
            print("is there already:", new, sorted(taken[new]))
    clash = {n: o for n, o in taken.items() if len(o) > 1}
    for new, olds in sorted(clash.items()):
        print("falls together:", new, sorted(olds))
    for f in antt + others:
        t = open(f).read()
        code = f.endswith(".rt") or f.endswith(".edit")

        def turn(m):
            w = m[0]
            if w in table:
                return table[w]
            return w if "-" in w or code else snake(w)

        new = TOKEN.sub(turn, t)
        if new != t:
            open(f, "w").write(new)
    if "--list" in sys.argv:
        for old, new in sorted(table.items()):
            print(old, new)


if __name__ == "__main__":
    main()
