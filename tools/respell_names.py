#!/usr/bin/env python3
"""Respells the repository's own definitions and lemmas as today's Rattle spells names: words in snake case, so `freeOn` is `free_on` and `rows-exact` is
`rows_exact`; types and modules keep their camel case. Run once, after port/port.py of the kit and before any edit by hand.

usage: tools/respell_names.py [--table]      at the top of the repository; --table prints the names and changes nothing

A name counts as the repository's own where a signature in specs/ or in a lemma file of proofs/ declares it. Names that Rattle makes (of goals and steps), names
that are imported from elsewhere, names of src/, strings and must-fail edits stay as they are. It stops where two names would fall together."""

import collections
import os
import re
import sys

WORD = r"[^\s(){}\[\],;.«»]+"
SIGNATURE = re.compile(r"^\s*(?:\| ?)?(?:(?:abbrev|unfoldable|opaque|pub|pattern) )*(?:(?:record|data) )?(" + WORD + r")((?: \([^=]*?\)| \{[^=]*?\})*) ?:(?= |$)")
USE = re.compile(r"^\s*(?:(?:pub|unfoldable|ghost) )*use ([^\s;{]+?)(?:\.\{([^}]*)\})?(?: as (\S+?))?;?\s*$")
# Names that would fall together with a definition when they are respelled: a field says what it holds, and a lemma ends in `_lem`.
OTHER = {
    "in-range": "is_in_range",
    "is-placed": "was_placed",
    "first-fit": "by_first_fit",
    "capacity-good": "capacity_is_good",
    "held-a": "a_held",
    "in-class": "is_in_class",
    "no-trailer": "has_no_trailer",
    "none-altered": "none_is_altered",
    "opening-good": "opening_is_good",
    "saves-nothing": "nothing_saved",
    "takes-it": "takes_item",
    "in_group": "in_group_lem",
    "itemsAt": "items_of_place",
    "inOrder": "is_in_order",
}
KEYWORDS = {"let", "in", "use", "mod", "module", "where", "unfolding", "elim", "open", "infix", "infixl", "infixr"}


def files(top):
    for crate in sorted(os.listdir(os.path.join(top, "crates"))):
        base = os.path.join(top, "crates", crate)
        for folder, dirs, names in os.walk(base):
            dirs[:] = sorted(d for d in dirs if d not in ("out", "must-fail"))
            for name in sorted(names):
                if name.endswith((".antt", ".rt")):
                    yield os.path.join(folder, name)


def is_lemma_file(path):
    """A file of specs/, or one right in proofs/; the folders below proofs/ belong to functions."""
    parts = path.split(os.sep)
    if "specs" in parts:
        return True
    return "proofs" in parts and parts.index("proofs") == len(parts) - 2


def snake(name):
    """The name in snake case. Operators with holes are respelled in their words; a name with another sign than a dash is left."""
    holes = re.split("(◌)", name)
    out = []
    for part in holes:
        if re.fullmatch(r"[A-Za-z][A-Za-z0-9]*(?:[-_][A-Za-z0-9]+)*'*", part):
            if part[0].islower():
                part = re.sub(r"(?<=[a-z0-9])(?=[A-Z])|(?<=[A-Z])(?=[A-Z][a-z])", "_", part).lower().replace("-", "_")
        out.append(part)
    return "".join(out)


def main(argv):
    top = "."
    texts = {p: open(p, encoding="utf-8").read() for p in files(top)}
    declared, outside, source = collections.Counter(), set(), set()
    for path, text in texts.items():
        if path.endswith(".rt"):
            source |= set(re.findall(r"\b(?:fn|let|let mut|struct|enum|const|static|mod) ([A-Za-z_]\w*)", text))
            source |= set(re.findall(r"\b([a-z_]\w*)\s*:", text))
        for line in text.split("\n"):
            use = USE.match(line)
            if use:
                if not use[1].startswith("Rattle.") or use[1].split(".")[1] not in os.listdir(os.path.join(top, "crates")):
                    outside |= {n.split(" as ")[-1].strip() for n in (use[2] or "").split(",")}
                continue
            if is_lemma_file(path) and path.endswith(".antt"):
                signature = SIGNATURE.match(line)
                if signature and signature[1] not in KEYWORDS:
                    declared[signature[1]] += 1
    table = {}
    for name in sorted(declared):
        new = OTHER.get(name) or snake(name)
        if new != name and name not in outside:
            table[name] = new
    # A lemma with a dash that would have its function's name.
    for name, new in list(table.items()):
        taken = (new in declared and new not in table) or any(t == new and n != name for n, t in table.items())
        if taken and "-" in name:
            table[name] = new + "_lem"
    clashes = [(n, t) for n, t in table.items() if t in declared and t not in table or t in outside]
    back = collections.defaultdict(list)
    for n, t in table.items():
        back[t].append(n)
    clashes += [(tuple(ns), t) for t, ns in back.items() if len(ns) > 1]
    for n, t in clashes:
        print(f"fall together: {n} -> {t}", file=sys.stderr)
    words = dict(table)
    for n, t in table.items():
        if "◌" in n:
            for a, b in zip(n.split("◌"), t.split("◌")):
                if a != b:
                    words[a] = b
    if "--table" in argv:
        for n, t in words.items():
            print(n, t)
        return 0
    if clashes:
        return 1
    token = re.compile(r"[^\s(){}\[\],;.«»◌]+")

    def respelled(code, names):
        return token.sub(lambda m: names.get(m[0], m[0]), code)

    in_clauses = {n: t for n, t in words.items() if n not in source}
    changed = 0
    for path, text in texts.items():
        if path.endswith(".antt"):
            new = re.sub(r"(?m)^((?:(?! --(?: |$)|^--(?: |$)).)*)", lambda m: respelled(m[0], words), text)
            new = new.replace("Memᴰ as List-as-Memᴰ", "Memᴰ").replace("List-as-Memᴰ", "Memᴰ")
        else:
            new, at = [], 0
            for m in re.finditer(r"(?m)^\s*(?:pub )?ghost use [^;]*;|^\s*(?:(?:requires|ensures)\*?(?: \w+)?|ghost [^{;]*?) ?\{", text):
                if m.start() < at:
                    continue
                end = m.end()
                if m[0].endswith("{"):
                    deep = 1
                    while deep:
                        deep += (text[end] == "{") - (text[end] == "}")
                        end += 1
                new += [text[at : m.start()], respelled(text[m.start() : end], in_clauses).replace("List-as-Memᴰ", "Memᴰ")]
                at = end
            new = "".join(new) + text[at:]
        if new != text:
            with open(path, "w", encoding="utf-8") as f:
                f.write(new)
            changed += 1
    print(f"{len(table)} names, {changed} files")
    return 0


if __name__ == "__main__":
    sys.exit(main(sys.argv[1:]))
