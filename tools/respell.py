#!/usr/bin/env python3
"""Brings the definitions and lemmas of specs/ and proofs/ to one spelling: words in snake case, types in upper camel case.

usage: python3 tools/respell.py [--check]        at the top of the repository

A name is the repository's own where a file of specs/ or proofs/ declares it: as a definition, a lemma, a record, a
field or a constructor. It is replaced wherever it stands alone in a .antt file, in the clauses of a .rt file, and
between back quotes in README.md and docs/. Names of the library, and the names that Rattle makes for goals, stay.
--check only lists what would be renamed, and the names that would fall together.
"""

import os
import re
import sys

# A name's characters; a dot joins a path, and ends a name.
NAME = re.compile(r"[^\s(){}\[\],;:.`\"λ→×≡≤<∷≢⊎⟨⟩|⌜⌝]+")
# Names for a while: of a let, of a binder, of an import.
LOCAL = re.compile(r"(?:\blet |\bas |λ |[({])([A-Za-z][^\s(){}:.,;=]*)(?= =| :|[ .,}])")
BINDERS = re.compile(r"[({]((?:[A-Za-z][^\s(){}:.,;=]* )+):")
FIELD = re.compile(r"^\s+(?:pub\s+)?([^\s(){}:.]+)\s+:\s")
DECLARES = re.compile(r"^\s*(?:(?:abbrev|unfoldable|pub|record|data)\s+)*([^\s(){}:.]+)\s+(?:[({].*[)}]\s*)?:\s")
# Types that were spelled as words, with the module that declares each.
LOWER_TYPES = {
    ("Rattle.kinds.specs.Pieces", "held"): "Held",
    ("Rattle.kinds.specs.Counted", "held"): "Held",
    ("Rattle.sweep.specs.Kept", "kept"): "Kept",
}
ODD = {"getD-placed": "get_or_placed"}


def antt_files():
    for top, _, names in os.walk("crates"):
        if "/out" not in top:
            for name in sorted(names):
                if name.endswith(".antt"):
                    yield os.path.join(top, name)


def module_of(path):
    _, crate, *rest = path[: -len(".antt")].split("/")
    return ".".join(["Rattle", crate, *rest])


def is_answers(path):
    return os.path.basename(path) in ("Answers.antt", "Invariants.antt", "Choices.antt", "Proof.antt")


def declared():
    own = set()
    for path in antt_files():
        for line in open(path, encoding="utf-8"):
            found = DECLARES.match(line)
            if not found or line.lstrip().startswith(("--", "let ")):
                continue
            if is_answers(path) and re.search(r":\s*(goal|given)\.", line):
                continue
            own.add(found.group(1))
    return own


def local_names(text):
    """The names for a while that have a dash, but for those that Rattle makes."""
    code = re.sub(r"--.*|//.*", "", text)
    found = LOCAL.findall(code) + [name for group in BINDERS.findall(code) for name in group.split()]
    return {name for name in found if "-" in name and not re.match(r"(then|else|in|if|loop)-[A-Za-z0-9]+", name)}


def fields():
    out = set()
    for path in antt_files():
        for line in open(path, encoding="utf-8"):
            found = FIELD.match(line)
            if found and not line.lstrip().startswith(("--", "let ")):
                out.add(found.group(1))
    return out


def spelled(name):
    if name in ODD:
        return ODD[name]
    parts = name.split("-")
    if name[0].isupper():
        return "".join(part[:1].upper() + part[1:] for part in parts)
    return "_".join(parts)


def library_names(text):
    """Names that a file takes from the library, which keep their spelling there."""
    out = set()
    for home, names in re.findall(r"use ([^\s{]*)\.\{([^}]*)\}", text):
        if not os.path.isdir(os.path.join("crates", home.removeprefix("Rattle.").split(".")[0])):
            out |= {word.split(" as ")[0].strip() for word in names.split(",")}
    return out


def lower_types(text, module):
    out = {}
    for (home, name), new in LOWER_TYPES.items():
        for names in re.findall(r"use " + re.escape(home) + r"\.\{([^}]*)\}", text):
            if name in [word.strip() for word in names.split(",")]:
                out[name] = new
        if module == home:
            out[name] = new
    return out


def respell(text, table, own_fields):
    """A word after a dot is a field, or a step of the code that Rattle names: only the first is ours."""

    def new(m):
        after_dot = m.start() > 0 and text[m.start() - 1] == "."
        if after_dot and m.group(0) not in own_fields:
            return m.group(0)
        return table.get(m.group(0), m.group(0))

    return NAME.sub(new, text)


def respell_source(text, table, own_fields):
    """Clauses and ghost items only: comments and strings stay."""
    lines = []
    for line in text.split("\n"):
        code = line.lstrip()
        if code.startswith("//") or not re.search(r"\b(ghost|requires|ensures)\b|[≡≤∷]", line):
            lines.append(line)
        else:
            lines.append(respell(line, table, own_fields))
    return "\n".join(lines)


def respell_page(text, table, own_fields):
    return re.sub(r"`[^`\n]*`", lambda m: respell(m.group(0), table, own_fields), text)


def main():
    own = declared()
    own_fields = fields()
    table = {name: spelled(name) for name in own if spelled(name) != name}
    together = [(a, b) for a, b in sorted(table.items()) if b in own]
    seen = {}
    for a, b in sorted(table.items()):
        if b in seen:
            together.append((a, seen[b]))
        seen[b] = a
    if "--check" in sys.argv:
        for a, b in sorted(table.items()):
            print(f"{a} -> {b}")
        for a, b in together:
            print(f"falls together: {a} with {b}")
        return
    for path in antt_files():
        text = open(path, encoding="utf-8").read()
        here = {a: b for a, b in table.items() if a not in library_names(text)}
        here.update({a: spelled(a) for a in local_names(text) - library_names(text)})
        here.update(lower_types(text, module_of(path)))
        new = respell(text, here, own_fields)
        if new != text:
            open(path, "w", encoding="utf-8").write(new)
    for top, _, names in os.walk("crates"):
        for name in names:
            if name.endswith(".rt") and "/out" not in top:
                path = os.path.join(top, name)
                text = open(path, encoding="utf-8").read()
                here = {a: b for a, b in table.items() if a not in library_names(text)}
                here.update({a: spelled(a) for a in re.findall(r" as ([\w]+-[\w-]+)", text)})
                here.update(lower_types(text, ""))
                new = respell_source(text, here, own_fields)
                if new != text:
                    open(path, "w", encoding="utf-8").write(new)
    for path in ["README.md"] + [os.path.join("docs", name) for name in sorted(os.listdir("docs"))]:
        text = open(path, encoding="utf-8").read()
        new = respell_page(text, table, own_fields)
        if new != text:
            open(path, "w", encoding="utf-8").write(new)


main()
