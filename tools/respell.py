#!/usr/bin/env python3
"""Brings the repository's own definitions and lemmas to snake case, after port.py of the kit.

usage: python3 tools/respell.py        at the top of the repository, once; it prints the names that fall together

A name that is declared in specs/ or proofs/ and has a capital or a dash inside becomes snake case everywhere: in
specs/, proofs/, clauses, ghost imports and must-fail edits. A name that a file imports from the kit stays there.
Where two names fall together the definition has the plain one, and the lemma gets `_lem`.
What Rattle itself names (below `tie.`), Rust's names and comments in prose stay.
"""

import os
import re

CRATES = [line.split(":")[0].strip() for line in open("crates.txt") if line.strip() and not line.startswith("#")]
TOKEN = re.compile(r"[^\s(){}.;,@\"«»\[\]\\:]+")
PLAIN = r"[^\s(){}.;,@\"«»\[\]\\:]+"
SIGNATURE = re.compile(
    r"^\s*(?:(?:pub|abbrev|unfoldable|data|record|let)\s+)*(" + PLAIN + r"(?:\s+" + PLAIN + r")*)\s+:\s", re.M
)
USE = re.compile(r"^\s*(?:ghost )?use\s+([^\s{;]+?)(?:\.\{([^}]*)\})?(?:\s+as\s+\S+?)?;?\s*$", re.M)
OTHER = re.compile(r"[a-z0-9][A-Z]|-|′")


def snake(name):
    name = re.sub(r"Of(\d)", r"Of_\1", name).replace("-", "_").replace("′", "'")
    return re.sub(r"(?<=[a-z0-9])([A-Z])", r"_\1", name).lower()


def files(*ends):
    for folder, _, names in sorted(os.walk("crates")):
        for name in sorted(names):
            if name.endswith(ends):
                yield os.path.join(folder, name)


def read(path):
    with open(path, encoding="utf-8") as it:
        return it.read()


def without_remarks(text):
    return re.sub(r"(^|\s)--(\s.*|-.*)?$", r"\1", text, flags=re.M)


def is_mine(module):
    return module.startswith("Rattle.") and module.split(".")[1] in CRATES


def from_kit(text):
    return {
        one.strip().split(" as ")[0]
        for module, names in USE.findall(text)
        if names and not is_mine(module)
        for one in names.split(",")
    }


def declared():
    """Each own name, and whether specs/ declares it."""
    own = {}
    for path in files(".antt"):
        if path.endswith("/Proof.antt"):
            continue
        for group in SIGNATURE.findall(without_remarks(read(path))):
            for name in group.split():
                if re.match(r"[a-z]", name):
                    own[name] = own.get(name, False) or "/specs/" in path
    return own


def bound():
    """Names that stand in the code of specs/ and proofs/ in camel case and that no file takes from the kit: what a signature
    with an implicit argument declares, and what arguments bind."""
    texts = [read(path) for path in files(".antt") if not path.endswith("/Proof.antt")]
    kit = set().union(*map(from_kit, texts))
    found = {name for text in texts for name in TOKEN.findall(without_remarks(text))}
    return {name for name in found - kit if re.fullmatch(r"[a-z][A-Za-z0-9]*[A-Z][A-Za-z0-9]*", name)}


def renames():
    own = declared()
    groups = {}
    for name in own:
        groups.setdefault(snake(name), []).append(name)
    out = {}
    for plain, names in sorted(groups.items()):
        # The definition first, then what is in snake case already, then lemmas.
        names.sort(key=lambda it: (not own[it], "-" in it, OTHER.search(it) is not None, it))
        for at, name in enumerate(names):
            to = plain + "_lem" * at
            if to != name:
                out[name] = to
        if len(names) > 1:
            print("together:", ", ".join(f"{it} -> {out.get(it, it)}" for it in names))
    return {**{name: snake(name) for name in bound()}, **out}


def turned(text, names, kit, is_proof):
    def one(found):
        name = found.group(0)
        before = text[: found.start()]
        if name not in names or name in kit:
            return name
        if before.endswith("."):
            if re.search(r"(?:tie|goal)\.$", before):
                return name
            if is_proof:
                return snake(name)
        return names[name]

    return TOKEN.sub(one, text)


def split_remark(line, sign):
    at = re.search(r"(^|\s)" + sign + r"(\s|$)", line)
    return (line[: at.start()], line[at.start() :]) if at else (line, "")


def by_line(text, names, kit, is_proof, sign):
    out = []
    capitals = {old: new for old, new in names.items() if re.search("[A-Z]", old)}
    for line in text.split("\n"):
        code, remark = split_remark(line, sign)
        out.append(turned(code, names, kit, is_proof) + turned(remark, capitals, kit, False))
    return "\n".join(out)


def write(path, text, old):
    if text != old:
        with open(path, "w", encoding="utf-8") as it:
            it.write(text)


def main():
    names = renames()
    # What port.py had turned already may be a name of Rust's too: so it is changed in antt alone.
    in_rust = {old: new for old, new in names.items() if OTHER.search(old)}
    for path in files(".antt", ".rt"):
        old = read(path)
        kit = from_kit(old)
        if path.endswith(".rt"):
            text = by_line(old, in_rust, kit, False, "//")
        else:
            text = by_line(old, names, kit, path.endswith("/Proof.antt"), "--")
        write(path, text, old)
    for path in files(".edit"):
        old = read(path)
        lines = [turned(it, in_rust, set(), False) if re.match("(old|new):", it) else it for it in old.split("\n")]
        write(path, "\n".join(lines), old)


main()
