#!/usr/bin/env python3
"""Brings the repository's own names to the spelling of the newer Rattle: words in snake case, types in camel case.

usage: tools/respell.py [--list]      at the top, once, right after the kit's port.py; --list only prints OLD NEW

Renamed are the definitions, lemmas, fields and modules that the .antt files of crates/ declare, and the names of functions and
parameters of src/ where a proof spells them with dashes. Names that a kit's library declares stay, and so do names that Rattle
makes (`returns-2`, `i-end`), and those of goals in a function's proof. `bit-and`, `bit-or` and `bit-xor` keep the dash, which joins the names of two functions there:
the kit has functions `bit_and`, `bit_or` and `bit_xor`. Prose keeps its dashes.
"""

import os
import re
import sys

TOKEN = re.compile(r"[^\s(){}\[\],.;:λ→×↔≡`\"«»]+")
DECLARED = re.compile(
    r"\s*((?:abbrev |unfoldable |pub |record |data |ruleset |number |module )*)([^\s(){}\[\],.;:]+(?:, [^\s(){}\[\],.;:]+)*) :( |$)"
)
NAMED = re.compile(r"\s*(?:pub )?(?:record|data|module) ([^\s(){}]+)")
KEPT = {"bit-and", "bit-or", "bit-xor"}
PROSE = {"read-modify-write"}
# Types with a name in lower case, or with one that would fall together with a variant of `Match` or `Cycle`.
TYPES = {"none_of": "NoneOf", "Space-differs": "SpaceAloneDiffers", "Read-modify-write": "ReadModifyWriteCycle"}

# Variables and names after 'as'.
BOUND = {
    "after-c", "after-d", "image-refusal", "image-size", "low-digits", "marks-of", "read-after", "read-register", "undefined-kind",
    "write-after", "write-answer",
}


def sources():
    for folder, dirs, files in os.walk("crates"):
        dirs[:] = sorted(d for d in dirs if d != "out")
        for name in sorted(files):
            yield os.path.join(folder, name)


def text(path):
    with open(path, encoding="utf-8") as f:
        return f.read()


def uncommented(line):
    return re.sub(r"(^|\s)--( .*|-*$)", "", line)


def camel(name):
    return "".join(part[:1].upper() + part[1:] for part in name.split("-"))


def names():
    """What is renamed: OLD to NEW; and names that the kit's port.py renamed, in what it does not turn: pages and mistakes."""
    declared, words, rust, made = set(), set(), set(), set()
    for path in sources():
        if path.endswith(".antt"):
            for line in text(path).splitlines():
                code = uncommented(line)
                words.update(TOKEN.findall(code))
                found = DECLARED.match(code)
                if found:
                    declared.update(found.group(2).split(", "))
                    if re.search(r" : tie\.", code):
                        made.update(found.group(2).split(", "))
                found = NAMED.match(code)
                if found:
                    declared.add(found.group(1))
        elif path.endswith(".rt"):
            rust.update(re.findall(r"[a-z][a-z0-9]*(?:_[a-z0-9]+)+", text(path)))
    new = dict(TYPES)
    for name in declared | words:
        if "-" not in name or name in KEPT or name in new or name in made or not re.match(r"[A-Za-z]", name):
            continue
        if name in declared:
            new[name] = camel(name) if name[0].isupper() else name.replace("-", "_")
        elif name in BOUND or re.sub(r"\d*$", "", name).replace("-", "_") in rust:
            new[name] = name.replace("-", "_")
    ported = {name.replace("_", "-"): name for name in declared if "_" in name}
    return new, {old: ported[old] for old in ported if old not in new and old not in made}


def respelled(line, new, prose):
    return TOKEN.sub(lambda m: m.group() if prose and m.group() in PROSE else new.get(m.group(), m.group()), line)


def turned(path, new):
    lines = []
    for line in text(path).split("\n"):
        if path.endswith(".md"):
            line = re.sub(r"`[^`]*`", lambda m: respelled(m.group(), new, True), line)
        else:
            mark = {".rt": r"(^|\s)//( |$)", ".antt": r"(^|\s)--( |-|$)", ".edit": r"^(?!(old|new|at|file): )"}[os.path.splitext(path)[1]]
            at = re.search(mark, line)
            at = at.start() if at else len(line)
            line = respelled(line[:at], new, False) + respelled(line[at:], new, True)
        lines.append(line)
    return "\n".join(lines)


def main():
    new, ported = names()
    if sys.argv[1:] == ["--list"]:
        for old in sorted(new):
            print(old, new[old])
        return
    pages = [os.path.join("docs", f) for f in sorted(os.listdir("docs")) if f.endswith(".md")] + ["README.md"]
    for path in [p for p in sources() if p.endswith((".rt", ".antt", ".edit"))] + pages:
        before = text(path)
        after = turned(path, new if path.endswith((".rt", ".antt")) else ported | new)
        if after != before:
            with open(path, "w", encoding="utf-8") as f:
                f.write(after)


main()
