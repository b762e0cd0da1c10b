#!/usr/bin/env python3
"""Imports the library's operators from the library: `rt ci` refuses an operator of std's Prelude that is imported by way of a crate of the repository.

usage: tools/import_operators.py [FILE]..      at the top of the repository; with no FILE every .rt and .antt file of crates/

In each `use` of a module of the repository's, the names that are operators there go over to a `use` of Rattle.std.specs.Prelude. A second run changes nothing."""

import os
import re
import sys

SYMBOLS = set("if◌then◌else◌ ◌%◌ ◌&&◌ ◌*ℤ◌ ◌*◌ ◌++◌ ◌+ℤ◌ ◌+◌ ◌-ℤ◌ ◌-◌ ◌/◌ ◌<ℤ◌ ◌<◌ ◌==◌ ◌^◌ ◌||◌ ◌↔◌ ◌∷◌ ◌≡◌ ◌≢◌ ◌≤ℤ◌ ◌≤◌ ◌⊎◌".split())
STD = "Rattle.std.specs.Prelude"
USE = re.compile(r"(?m)^(?P<lead>(?:ghost )?use )(?P<path>Rattle\.\w+\.[\w.+'-]+)\.\{(?P<names>[^}]*)\}(?P<end>;?)\n")


def turned(text, own):
    moved, end = [], ""
    lead = None

    def drop(m):
        nonlocal end, lead
        if m["path"].split(".")[1] not in own:
            return m[0]
        names = [n.strip() for n in m["names"].split(",") if n.strip()]
        out = [n for n in names if n in SYMBOLS]
        if not out:
            return m[0]
        moved.extend(n for n in out if n not in moved)
        lead, end = m["lead"], m["end"]
        rest = [n for n in names if n not in SYMBOLS]
        mark = "\0" if len(moved) == len(out) else ""
        return mark + (f"{m['lead']}{m['path']}.{{{', '.join(rest)}}}{m['end']}\n" if rest else "")

    new = USE.sub(drop, text)
    if not moved:
        return text
    there = re.search(r"(?m)^(?:ghost )?use " + re.escape(STD) + r"\.\{([^}]*)\};?\n", new)
    if there:
        names = [n.strip() for n in there[1].split(",")]
        line = f"{lead}{STD}.{{{', '.join(names + [n for n in moved if n not in names])}}}{end}\n"
        new = new[: there.start()] + line + new[there.end() :]
        return new.replace("\0", "", 1)
    return new.replace("\0", f"{lead}{STD}.{{{', '.join(moved)}}}{end}\n", 1)


def main(paths):
    own = set(os.listdir("crates"))
    if not paths:
        for folder, dirs, names in os.walk("crates"):
            dirs[:] = [d for d in dirs if d not in ("out", "must-fail")]
            paths += [os.path.join(folder, n) for n in names if n.endswith((".antt", ".rt"))]
    changed = 0
    for path in sorted(paths):
        with open(path, encoding="utf-8") as f:
            text = f.read()
        new = turned(text, own)
        if new != text:
            with open(path, "w", encoding="utf-8") as f:
                f.write(new)
            changed += 1
    print(f"{changed} files")


if __name__ == "__main__":
    main(sys.argv[1:])
