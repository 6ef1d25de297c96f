#!/usr/bin/env python3
"""Spells the definitions and lemmas of this repository in snake case: sameBytes and run-found become same_bytes and run_found.

usage: python3 tools/respell.py [--dry]        at the top, once, right after /opt/rattle/port/port.py

It renames what the files of specs/ and proofs/ declare, in those files, in the ghost lines, clauses and comments of src/, and in must-fail edits.
Types keep their capital, and a type at the head of a name keeps its dash. A name that a definition needs is given up by the lemma of that name, which
gets `_lem` at its end. Code, strings, inputs and outputs stay. Each crate is laid out by `rt fmt` afterwards.
"""
import collections
import os
import re
import subprocess
import sys

NAME = r"[^\s(){}.;,@\"«»]+"
DECLARED = re.compile(r"^\s*(?:(?:pattern|unfoldable|abbrev|axiom|pub) )*(" + NAME + r")(?: \{[^{}\n]*\})? :(?: |$)")
TOKEN = re.compile(r'"[^"\n]*"|(\.?)(' + NAME + ")")
# Names that one file spells otherwise: a local that would hide a definition of its new name, and a fact, which is a type.
ONE_FILE = {
    "crates/commits/specs/CommitSteps.antt": {"can_store": "storable"},
    "crates/journal/specs/Writes.antt": {"small": "IsSmall", "sized": "IsSized"},
    "crates/journal_writer/src/write.rt": {"small": "IsSmall", "sized": "IsSized"},
    "crates/journal_writer/proofs/WriteLaws.antt": {"sized": "IsSized"},
    "crates/journal_writer/proofs/SizeLaws.antt": {"small": "IsSmall"},
}


def snake(name):
    if re.fullmatch(r"[A-Z][A-Z0-9]*(-[A-Z0-9]+)*", name):
        return name.replace("-", "_")
    head, dash, rest = name.partition("-")
    if dash and re.fullmatch(r"[A-Z]\w*", head):
        return head + "-" + snake(rest)
    if not dash and re.fullmatch(r"[A-Z]\w*", head):
        return name
    words = re.sub(r"(?<=[a-z0-9'])[A-Z]", lambda m: "_" + m[0].lower(), name)
    return words.replace("-", "_")


def files(top, ends):
    for folder, dirs, names in os.walk(os.path.join(top, "crates")):
        dirs[:] = sorted(d for d in dirs if d != "out")
        for n in sorted(names):
            if n.endswith(ends):
                yield os.path.join(folder, n)


def read(path):
    with open(path, encoding="utf-8") as f:
        return f.read()


def declared(top):
    found = set()
    for p in files(top, ".antt"):
        for line in read(p).splitlines():
            m = DECLARED.match(line)
            if m:
                found.add(m.group(1))
    return found


def is_plain(name):
    """Whether the name may be an item of src/ too, or a folder of proofs/."""
    return re.fullmatch(r"[a-z0-9_']+", name) is not None


def plan(names):
    turned = collections.defaultdict(list)
    for n in names:
        turned[snake(n)].append(n)
    new = {}
    for to, olds in turned.items():
        # the definition has capitals, a lemma that port.py respelt is plain, and another lemma has dashes
        olds.sort(key=lambda n: ("-" in n, n == snake(n) and len(olds) > 1 and not any("-" in o for o in olds), n))
        for k, old in enumerate(olds):
            name = to + "_lem" * k
            if name != old:
                new[old] = name
    return new


def turned(text, new, plain, in_proof):
    def turn(m):
        word = m.group(2)
        if not word or m.group(1) and (in_proof or is_plain(word)) or is_plain(word) and not plain:
            return m.group(0)
        return m.group(1) + new.get(word, word)

    return TOKEN.sub(turn, text)


USED = re.compile(r"^(?:ghost )?use ([^\s;{]+?)\.?\{([^}]*)\}", re.M)


def from_elsewhere(text, crates):
    """The names that a file imports from no crate of this repository."""
    found = set()
    for m in USED.finditer(text):
        steps = m.group(1).split(".")
        if steps[0] != "Rattle" or len(steps) < 2 or steps[1] not in crates:
            for one in m.group(2).split(","):
                found.add(one.split(" as ")[-1].strip())
    return found


def main(argv):
    top = os.getcwd()
    names = declared(top)
    new = plan(names)
    crates = set(os.listdir(os.path.join(top, "crates")))
    for p in files(top, (".antt", ".rt", ".edit")):
        text = read(p)
        own = ONE_FILE.get(os.path.relpath(p, top).replace(os.sep, "/"), {})
        out = turned(text, own, True, False) if own else text
        theirs = from_elsewhere("\n".join(re.findall(r"(?m)^ghost use .*$", text)) if p.endswith(".rt") else text, crates)
        here = {old: to for old, to in new.items() if old not in theirs}
        for old, to in here.items():
            if to in theirs and old in text:
                print(f"look: {os.path.relpath(p, top)}: {old} becomes {to}, which the file imports from the library")
        out = turned(out, here, p.endswith(".antt"), p.endswith("Proof.antt"))
        if out != text and "--dry" not in argv:
            with open(p, "w", encoding="utf-8") as f:
                f.write(out)
    if "--dry" not in argv:
        for crate in sorted(crates):
            subprocess.run(["rt", "fmt"], cwd=os.path.join(top, "crates", crate), stdout=subprocess.DEVNULL, stderr=subprocess.DEVNULL)
    for old, to in sorted(new.items()):
        if to.endswith("_lem"):
            print(f"{old} is {to} now, since a definition has that name")
    print(f"respelt {len(new)} of {len(names)} names")


if __name__ == "__main__":
    main(sys.argv[1:])
