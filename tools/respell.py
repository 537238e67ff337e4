#!/usr/bin/env python3
"""Brings this repository's own definitions and lemmas to the spelling of Rattle's library: words in snake case.

Run once, at the top, after the kit's own port script. A name is ours where a file of specs/ or proofs/ declares it
with a type: a definition, a lemma, a field, or a local definition. Names that Rattle makes (the goals in Answers.antt
and Invariants.antt, the steps that an answer cites) keep their dashes, and so do the library's. Functions of src/ have
neither a dash nor a capital, so none is touched; nor are inputs and outputs. Where two names would fall together it
changes nothing.
"""
import pathlib
import re
import sys

DECLARED = re.compile(r"^\s*(?:abbrev |unfoldable |opaque )?(?:pub )?([^\s:(){}.,;]+)(?: [^\s:(){}.,;]+)*\s+:\s(.*)$")
IMPORT = re.compile(r"^\s*(?:ghost )?use (Rattle\.std|mathlib|Prim|lib)[^{]*\{([^}]*)\}")
# Lemmas whose new spelling would be that of the definition that they are about.
LEMMAS = {"address-at": "address_at_lem", "address-byte": "address_byte_lem", "opened-as": "opened_as_lem"}
WORD = r"[A-Za-z0-9_'\-]"


def own_files():
    for kind in ("specs", "proofs"):
        yield from sorted(pathlib.Path("crates").glob(f"*/{kind}/**/*.antt"))


def snake(name):
    name = re.sub(r"([a-z0-9])([A-Z])", r"\1_\2", name)
    return name.replace("-", "_").lower()


def declared(texts):
    """The names that these files declare, and those that Rattle or its library has."""
    ours, others = set(), set()
    for path, text in texts.items():
        for line in text.splitlines():
            imported = IMPORT.match(line)
            if imported:
                others.update(w.strip() for w in imported.group(2).split(","))
                continue
            found = DECLARED.match(line)
            if not found:
                continue
            head, of = line.split(" :", 1)[0], found.group(2)
            names = re.sub(r"\b(abbrev|unfoldable|opaque|pub|let)\b", " ", head).split()
            if re.match(r"\s*goal\.", of):
                others.update(names)
            else:
                ours.update(names)
    return ours, others


def renamings(ours, others):
    """From the old spelling to the new one, for words (what begins with a capital is a type or a fact)."""
    table = {}
    for name in sorted(ours - others):
        if not re.fullmatch(r"[a-z][A-Za-z0-9_'\-]*", name):
            continue
        new = LEMMAS.get(name, snake(name))
        if new != name:
            table[name] = new
    return table


def fall_together(table, ours):
    """New spellings that another name of ours has already, or that two names share."""
    seen = {}
    for old, new in table.items():
        seen.setdefault(new, []).append(old)
    return {new: olds for new, olds in seen.items() if len(olds) > 1 or new in ours}


def respell(path, text, table):
    if not table:
        return text
    # in the answers to a goal, c. and w. are followed by a step of the code, which is Rattle's to name
    step = r"(?<!\b[cw]\.)" if path.name in ("Answers.antt", "Invariants.antt") else ""
    names = "|".join(re.escape(n) for n in sorted(table, key=len, reverse=True))
    return re.sub(rf"(?<!{WORD}){step}({names})(?!{WORD})", lambda m: table[m.group(1)], text)


def main():
    texts = {p: p.read_text() for p in own_files()}
    ours, others = declared(texts)
    table = renamings(ours, others)
    for name in sorted(n for n in ours & others if snake(n) != n):
        print(f"left as it is, since Rattle or its library has it too: {name}")
    together = fall_together(table, ours)
    for new, olds in together.items():
        print(f"falls together: {new}: {' '.join(olds)}{' (declared)' if new in ours else ''}")
    if together:
        sys.exit("give these names another spelling in LEMMAS")
    sources = sorted(pathlib.Path("crates").glob("*/src/**/*.rt"))
    changed = 0
    for path in [*texts, *sources]:
        text = path.read_text()
        new = respell(path, text, table)
        if new != text:
            path.write_text(new)
            changed += 1
    for old, new in table.items():
        print(f"{old} -> {new}")
    print(f"{len(table)} names in {changed} files", file=sys.stderr)


if __name__ == "__main__":
    main()
