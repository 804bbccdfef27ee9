#!/usr/bin/env python3
"""Brings the names of our own definitions, fields and lemmas to the spelling of the library: words in snake case, types in camel case.

    python3 tools/respell.py            once, at the top, on the tree that the toolchain's port.py left
    python3 tools/respell.py --names    prints each old name with its new one, and changes nothing

Only names that specs/ and proofs/*.antt declare are turned, wherever they are cited: in specs/, in proofs/, in clauses and `ghost use` lines of
src/. Names of functions, fields, types and constants of src/ stay. Where a lemma and a definition would fall together in some file (`digit-of`
and `digitOf`), the lemma ends in _lem.
"""
import os
import re
import subprocess
import sys

ROOT = os.path.realpath(os.path.join(os.path.dirname(os.path.abspath(__file__)), ".."))
SIGNS = r"[^\s(){};,.:λ\"]"
DECLARED = re.compile(r"^ *(?:(?:abbrev|unfoldable|pub|data|record|mutual|axiom) +)*(" + SIGNS + r"+)\s*(?:\n *)?(?:(?:[({][^\n]*?[)}]\s*)*):(?=\s)", re.M)
TOKEN = re.compile(SIGNS + "+")

# Names that the rule alone would not make well: a word of the library has the name already, or a field of a record the name of its type.
GIVEN = {
    "isOk": "is_ok_vote",
    "getD-last": "get_or_last",
    "in-range": "in_reach",
    "sent-backed": "sent_is_backed",
    "held-backed": "held_is_backed",
    "count-right": "count_is_right",
    "copy-times": "copies_in_time",
    "request-times": "requests_in_time",
    "scan": "looked_over",
    "swap": "swapped_sum",
    "Decides": "RulingDecides",
    "HoldsAt": "HoldsThere",
    "Kept-promise": "KeptPromise",
}


# Names that are declared several on a line, or with their type on the next.
MORE = ["votes-ok", "votes-against", "refusedAs", "steppedAs", "asRead", "told-oks", "told-others"]


def files():
    for folder, dirs, names in os.walk(os.path.join(ROOT, "crates")):
        dirs[:] = sorted(d for d in dirs if d != "out")
        for name in sorted(names):
            if name.endswith((".rt", ".antt")):
                yield os.path.join(folder, name)


def read(path):
    with open(path, encoding="utf-8") as file:
        return file.read()


def bare(text):
    return re.sub(r"--[^\n]*", "", text)


def is_own(path):
    """Whether a file declares names of ours: specs/ and the lemmas of proofs/, and no proof of a function."""
    return path.endswith(".antt") and os.path.basename(path) not in ("Proof.antt", "Answers.antt", "Invariants.antt")


def turned(name):
    if name in GIVEN:
        return GIVEN[name]
    if "◌" in name or not re.search(r"[-A-Z′]", name):
        return name
    if "-" not in name and name[0].isupper():
        return name.replace("′", "'")
    parts = re.sub(r"([a-z0-9])([A-Z])", r"\1_\2", name.replace("-", "_").replace("′", "'"))
    return parts.lower() if re.search(r"[a-z]", parts) else parts


def declared():
    names = {}
    for path in files():
        if is_own(path):
            for found in DECLARED.finditer(bare(read(path))):
                names.setdefault(found.group(1), []).append(path)
    names.update((name, []) for name in MORE)
    return names


def tokens(path):
    return set(TOKEN.findall(bare(read(path))))


def table_of(names):
    """Each old name with its new one, where they differ. A lemma that falls together with a definition in some file gets another."""
    table = {name: turned(name) for name in names}
    sharing = {}
    for old, new in table.items():
        sharing.setdefault(new, []).append(old)
    sharing = {new: olds for new, olds in sharing.items() if len(olds) > 1}
    for path in files():
        here = tokens(path)
        for new, olds in sharing.items():
            met = [old for old in olds if old in here]
            lemmas = [old for old in met if "-" in old] or [old for old in met if not re.search(r"[a-z][A-Z]", old)]
            if len(met) > 1:
                for old in lemmas:
                    table[old] = new + "_lem"
    return {old: new for old, new in table.items() if old != new}


def respelled(text, table):
    return TOKEN.sub(lambda found: table.get(found.group(0), found.group(0)), text)


def main():
    table = table_of(declared())
    if "--names" in sys.argv:
        for old, new in sorted(table.items()):
            print(old, new)
        return
    # in src/ only what can be no name of Rust's
    clauses = {old: new for old, new in table.items() if re.search(r"-|^[a-z].*[A-Z]", old)}
    for path in files():
        text = read(path)
        made = respelled(text, clauses if path.endswith(".rt") else table)
        if made != text:
            with open(path, "w", encoding="utf-8") as file:
                file.write(made)
    inside = os.path.join(ROOT, "crates")
    for crate in sorted(os.listdir(inside)):
        subprocess.run(["rt", "fmt"], cwd=os.path.join(inside, crate), stdout=subprocess.DEVNULL, check=True)


main()
