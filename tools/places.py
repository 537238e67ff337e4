#!/usr/bin/env python3
"""Lists the places in src/ that docs/DESIGN-PASS.md counts, one pattern after another.

With -q it prints the numbers alone. Comments are left out; what stands in the crate of cases or below
`#[cfg(test)]` is counted apart, as tests.
"""
import pathlib
import re
import sys

PATTERNS = [
    ("1a", "an enum of our own", r"^\s*(?:pub(?:\(crate\))? )?enum \w+"),
    ("1b", "255 in the place of none", r"[!=]= (?:255|NO_LABEL)\b|min\(255\)|unwrap_or\((?:255|u8::MAX|NO_LABEL)\)"),
    ("1c", "0 in the place of success or of none", r"(?:Ok\(\(?_?\)?\)|None) => \(?0\b|(?:unwrap_or|map_or)\(\(?0\b"),
    ("1d", "if .. { Some(x) } else { None }, or the other way round", r"\{\s*Some\((?:[^{};]*)\)\s*\} else \{\s*None\s*\}|\{\s*None\s*\} else \{\s*Some\((?:[^{};]*)\)\s*\}"),
    ("1e", "an arm `None =>`, `Err(_) =>` or `Some(x) if` of a match taken apart by hand", r"^\s*(?:None|Err\(_\)|Some\(\w+\) if[^=]*(?:[<>=]=[^=>]*)*) =>"),
    ("1f", "a number for a refusal or a question, arm by arm", r"^\s*Refusal::\w+ => \d+,"),
    ("3a", "a loop (for, while, loop)", r"^\s*(?:for|while|loop)\b"),
    ("3b", "a loop over numbers (`for x in a..b`)", r"^\s*for \w+ in [^{]*\.\."),
    ("3c", "a counter by hand", r"\+= 1\b"),
    ("4a", "an `as` between numbers", r" as (?:u8|u16|u32|u64|usize)\b"),
    ("4b", "digits of a number to base 256 by hand", r"\* 256|% 256|256 \*|/ 256|>> \("),
    ("4c", "`Display` by hand", r"^\s*impl fmt::Display for"),
    ("4d", "`From` by hand", r"^\s*impl.* From<"),
    ("4e", "an enum turned into another or into text, arm by arm", r"^\s*(?:Refusal|Question)::\w+ => (?:\"|Refusal::)"),
    ("6a", "fixed memory with a length beside it", r"^\s*(?:pub(?:\(crate\))? )?(?:hops|used|count|len): (?:u8|usize),"),
    ("7a", "a match on which step to run", r"^\s*match (?:question|action|kind|next_word)"),
]


def cut(text):
    """The text without comments, and what of it is tests."""
    text = "\n".join(re.sub(r"(^|\s)//.*$", r"\1", line) for line in text.split("\n"))
    at = text.find("#[cfg(test)]\nmod tests {")
    return (text, "") if at < 0 else (text[:at], text[at:])


def main():
    quiet = "-q" in sys.argv[1:]
    root = pathlib.Path(__file__).resolve().parent.parent / "crates"
    for key, what, pattern in PATTERNS:
        places = []
        for path in sorted(root.glob("*/src/*.rt")):
            code, tests = cut(path.read_text())
            cases = path.parts[-3] == "fabric_cases"
            for part, offset, is_test in ((code, 0, cases), (tests, code.count("\n"), True)):
                for m in re.finditer(pattern, part, re.M):
                    start = m.start() + len(m.group(0)) - len(m.group(0).lstrip())
                    line = offset + part.count("\n", 0, start) + 1
                    shown = " ".join(m.group(0).split())
                    places.append((is_test, f"{path.relative_to(root)}:{line}: {shown}"))
        tests = sum(t for t, _ in places)
        print(f"{key} {what}: {len(places) - tests}, and {tests} in tests")
        if not quiet:
            for is_test, place in places:
                print(f"    {'(test) ' if is_test else ''}{place}")


main()
