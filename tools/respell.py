#!/usr/bin/env python3
"""Turns this repository's own names of specs/ and proofs/ to today's spelling: words in snake case, a dash only between two names.

usage: python3 tools/respell.py [--dry]      at the top of the repository, once, after the kit's port.py
It turns definitions, lemmas, constructors and record fields in every .antt file, in the clauses of every .rt file, in every must-fail edit,
and where README.md and docs/ quote them. Names of src/, modules, types, strings, inputs and outputs stay. The table of what it turned goes to tools/respelled.tsv.
"""
import os
import re
import sys

NAME = r"[^\s(){}\[\]:,;.«»`\"|@]+"
# names that would fall together, or that the rule would spell badly
BY_HAND = {"isRNR": "is_rnr", "step_given": "step_given_lem"}
# names that the kit's script has turned in .rt and .antt files, and not in the edits and documents
PORTED = """
add-kept add-left after-both after-small and-left and-right answerOf bit-at bits-back bitsOf bodyOf by-address byte-next byte-small byteOf bytes-back
bytes-drop bytes-take bytesOf codeOf count-small digits-more down-run drop-bits endOf few-bytes first-run found-among found-first frameOf has-room
held-back heldOf in-kept inWords is-byte keep-all kept-from kept-on kindOf length-three lengthOf lineOf lines-step linesFrom linesOf listOf low-bit
low-ones low-step moved-address next-one no-bits no-flag no-room no-seven no-six none-within nothing-left numberAt one-byte one-later open-stays
orderIn orderOf outOf pairAt part-length pick-first pick-second put-as put-holds put-last put-next put-on put-one put-right put-whole putOf read-back
readOf rest-all room-fits room-small round-trip run-on run-small said-fits same-answer same-digits same-end same-head same-length second-run
seek-found seen-at seen-first seen-more seen-next shifted-in side-same slot-small slots-same some-bytes start-back step-fits step-given step-right
stepOf sub-read tail-at take-part takeOf takenOf there-and-back two-bytes two-digits two-here up-run wayOf went-on whole-of width-some xor-assoc
""".split()
# words of the library that a dash may join to a name of ours
STD = set("append cons nil snoc zero suc length take drop map set get_or ◌++◌".split())
LEAVE = set("eq-eqb".split())


def files(root, ends):
    for folder, dirs, names in os.walk(root):
        dirs[:] = sorted(d for d in dirs if d not in ("out", ".git", "target"))
        for n in sorted(names):
            if n.endswith(ends):
                yield os.path.join(folder, n)


def read(p):
    with open(p, encoding="utf-8") as f:
        return f.read()


def declared():
    """The names that our .antt files define: at the top of a file, and below it (constructors, fields, local lemmas)."""
    tops, below = {}, {}
    for p in files("crates", ".antt"):
        for l in read(p).splitlines():
            m = re.match(r"(?:abbrev |unfoldable |pub |ruleset )*(" + NAME + r")(?: \{[^}]*\})* :(?: |$)", l)
            m = m or re.match(r"(?:pub )?ruleset (" + NAME + ")", l)
            if m and not l.startswith(("use ", "infix")) and m[1] not in ("data", "record"):
                if not (p.endswith("Proof.antt") and "tie." in l):
                    tops.setdefault(m[1], set()).add(p)
            m = re.match(r"\s+(?:pub )?(?:abbrev )?(" + NAME + r")(?: \{[^}]*\})* :(?: |$)", l)
            if m:
                below.setdefault(m[1], set()).add(p)
    return tops, below


def snake(part):
    if not part[:1].islower():
        return part
    part = re.sub(r"([a-z0-9])([A-Z])", r"\1_\2", part)
    return "_".join(w.lower() if w[:1].isupper() else w for w in part.split("_")).lower()


def spelled(name, known):
    """The name as the rule spells it; a dash stays where both sides are names."""
    if name in BY_HAND:
        return BY_HAND[name]
    if name.startswith(("bitbus-", "master-room", "slave-room", "no-")):
        return name.replace("-", "_")
    parts = [p for p in name.split("-")]
    out = snake(parts[0])
    for i in range(1, len(parts)):
        left, right = parts[i - 1], parts[i]
        joins = (left in known or left in STD) and (right in known or right in STD)
        out += ("-" if joins else "_") + snake(right)
    return out


def table():
    tops, below = declared()
    functions = {n for n, where in tops.items() if any("/specs/" in p for p in where)}
    constructors = {n for n, where in below.items() if any("/specs/" in p for p in where)}
    # the parts of a name that are names: definitions of specs/, as they are spelled before and after
    known = functions | {snake(n) for n in functions}
    turned = {}
    for n in sorted(set(tops) | set(below)):
        if n in LEAVE or n.endswith("_spec") or n.endswith("-spec"):
            continue
        s = spelled(n, known)
        if s != n:
            turned[n] = s
    # a lemma that would have a definition's name gets `_lem`
    for s, ns in clashes(turned, tops, below).items():
        for n in ns:
            if "-" in n and n in tops and all("/proofs/" in p for p in tops[n]):
                turned[n] = s + "_lem"
    return turned, tops, below


def clashes(turned, tops, below):
    every = set(tops) | set(below)
    back = {}
    for n in every:
        back.setdefault(turned.get(n, n), set()).add(n)
    return {s: ns for s, ns in back.items() if len(ns) > 1}


def turn(text, turned):
    return re.sub(r"(?<![^\s(){}\[\]:,;.«»`\"|@/])" + r"(" + NAME + r")", lambda m: turned.get(m[1], m[1]), text)


def main(argv):
    turned, tops, below = table()
    bad = clashes(turned, tops, below)
    for s, ns in sorted(bad.items()):
        where = {n: sorted({p.split("/")[1] + "/" + "/".join(p.split("/")[2:]) for p in tops.get(n, set()) | below.get(n, set())})[:4] for n in ns}
        print(f"falls together: {s}: {where}")
    if "--dry" in argv:
        for n, s in sorted(turned.items()):
            print(f"{n}\t{s}")
        return 0
    quoted = turned | {n: snake(n.replace("-", "_")) for n in PORTED}
    camel = {n: s for n, s in turned.items() if re.search(r"[a-z0-9][A-Z]", n)}
    fields = {n: s.removesuffix("_lem") for n, s in turned.items()}
    for p in files("crates", (".antt", ".rt", ".edit")):
        old = read(p)
        # of the outcomes each field has the name of its function
        full = quoted if p.endswith(".edit") else fields if "Outcomes" in p else turned
        new = "\n".join(turn(l, full if p.endswith((".antt", ".edit")) or "ghost use" in l or re.match(r"\s*(requires|ensures)", l) else camel) if not l.startswith("file:") else l for l in old.split("\n"))
        if new != old:
            with open(p, "w", encoding="utf-8") as f:
                f.write(new)
    for p in ["README.md", *files("docs", ".md")]:
        old = read(p)
        new = re.sub(r"`[^`\n]*`", lambda m: turn(m[0], quoted), old)
        if new != old:
            with open(p, "w", encoding="utf-8") as f:
                f.write(new)
    with open("tools/respelled.tsv", "w", encoding="utf-8") as f:
        f.writelines(f"{n}\t{s}\n" for n, s in sorted(turned.items()))
    print(f"{len(turned)} names turned")
    return 0


if __name__ == "__main__":
    raise SystemExit(main(sys.argv[1:]))
