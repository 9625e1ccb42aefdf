#!/usr/bin/env python3
"""Brings the repository's own definitions and lemmas to today's spelling, after the kit's port.py has turned the library's names.

usage: python3 tools/respell.py      at the top of the repository, once, right after port.py

- A name in camel case becomes one in snake case: `checkModules` is `check_modules`, `innerE` is `inner_e`.
- A fact with a dash in its name becomes one in upper camel case: `Division-law` is `DivisionLaw`.
- A lemma or a field whose name would then be that of a definition gets its dash back (APART).
- A field, a constructor or a lemma of specs/ with dashes in its name becomes one in snake case (`names-fit` is `names_fit`), or gets another
  name where that one is a definition's (FIELDS).
- The crate `check` has the name of a library of the kit, and becomes `checker`.

Functions and types of src/ keep their names: no name of theirs is in camel case with a small first letter.
"""
import os
import re

# names of today's library, which stay
LIBRARY = {"cases_Bool"}
# facts whose dash joins a type to a lemma of the library stay
LIBRARY_FACTS = {"Decides-eqb"}
# names that would fall together with a definition: where they stand, and their name
APART = [
    ("crates", "inner_first", "inner-first"),
    ("crates/typing/proofs/Walks.antt", "exp_in", "exp-in"),
    ("crates/language/proofs/Stepped.antt", "no_cell", "no-cell"),
    ("crates/language/specs/Samples.antt", "no_items", "no-items"),
    ("crates/language/proofs/Samples.antt", "no_items", "no-items"),
    ("crates/grammar/proofs/Plans.antt", "node_at", "node-at"),
    ("crates/words/proofs/ClassTests.antt", "is_digit", "is-digit"),
    ("crates/words/proofs/LongestRuns.antt", "is_digit", "is-digit"),
    ("crates/words/proofs/Stands.antt", "is_digit", "is-digit"),
    ("crates/words/proofs/Told.antt", "is_digit", "is-digit"),
]
# fields whose name in snake case is that of what they speak of
FIELDS = {
    "in-range": "figures_in_range",
    "inner-first": "inner_parts_first",
    "no-items": "no_items_counted",
    "other-sheet": "other_sheet_done",
    "plus-true": "plus_true_untyped",
    "salt-plus-one": "salt_plus_one_untyped",
    "salt-sheet": "salt_sheet_done",
    "salt-zero": "salt_zero_done",
    "allergen-entry": "allergen_entry_lawful",
    "items-entry": "items_entry_lawful",
    "kcal-entry": "kcal_entry_lawful",
}
DECLARED = re.compile(r"\s*(?:(?:unfoldable|abbrev|pub|data|record)\s+)*([^\s:{}()=|,;λ]+)(?:\s+[({][^)}]*[)}])*\s+:\s")
LETTER = r"[\w'′\-₀-₉ℕℤ]"
WORD = re.compile(r"(?<![\w'′\-₀-₉ℕℤ])[A-Za-z_]" + LETTER + "*")
CAMEL = re.compile(r"[a-z][a-z0-9_]*[A-Z]|.*-[a-z0-9]*[a-z][A-Z]")
DASHED = re.compile(r"[A-Z][A-Za-z]*-[a-z0-9-]+$")
STRING = re.compile(r'b?"(?:[^"\\]|\\.)*"')


def snake(word):
    word = re.sub(r"([A-Z]+)([A-Z][a-z])", r"\1_\2", word)
    word = re.sub(r"([a-z0-9])([A-Z])", r"\1_\2", word)
    return "".join(c.lower() if c.isascii() else c for c in word)


def camel(word):
    return "".join(part[:1].upper() + part[1:] for part in word.split("-"))


def respelled(match):
    word = match.group(0)
    if word in LIBRARY or word in LIBRARY_FACTS:
        return word
    if CAMEL.match(word):
        return snake(word)
    if DASHED.match(word):
        return camel(word)
    return word


def outside_strings(text, turn):
    """turn of all but the texts in quotes"""
    out, at = [], 0
    for m in STRING.finditer(text):
        out += [turn(text[at : m.start()]), m.group(0)]
        at = m.end()
    return "".join(out + [turn(text[at:])])


def files(top, ends):
    if os.path.isfile(top):
        yield top
    for folder, dirs, names in os.walk(top):
        dirs[:] = sorted(d for d in dirs if d not in ("out", ".git"))
        for name in sorted(names):
            if name.endswith(ends):
                yield os.path.join(folder, name)


def turn_file(path, turn):
    with open(path, encoding="utf-8") as f:
        old = f.read()
    new = turn(old)
    if new != old:
        with open(path, "w", encoding="utf-8") as f:
            f.write(new)


def rename_check():
    """the crate `check` is `checker`"""
    for path in files("crates", (".rt", ".antt", ".edit")):
        turn_file(path, lambda t: re.sub(r"(?<![:\w])check::", "checker::", re.sub(r"Rattle([.·])check\b", r"Rattle\1checker", t)))
    turn_file("crates.txt", lambda t: re.sub(r"\bcheck\b", "checker", t))
    os.rename("crates/check", "crates/checker")


def dashed():
    """the names with dashes that specs/ declare, with their new ones"""
    names = {}
    for path in files("crates", (".antt",)):
        if "/specs/" not in path:
            continue
        with open(path, encoding="utf-8") as f:
            for line in f:
                m = DECLARED.match(line.split("--")[0])
                if m and "-" in m.group(1) and m.group(1)[0].islower():
                    names[m.group(1)] = FIELDS.get(m.group(1), m.group(1).replace("-", "_"))
    return names


def main():
    for top, old, new in APART:
        for path in files(top, (".antt",)):
            turn_file(path, lambda t: re.sub(r"(?<![\w'\-])" + old + r"(?![\w'\-])", new, t))
    for path in files("crates", (".rt", ".antt", ".edit")):
        turn_file(path, lambda t: outside_strings(t, lambda part: WORD.sub(respelled, part)))
    for path in files("crates", (".edit",)):
        # an edit's text is not turned by port.py: a field stands tight behind its value
        turn_file(path, lambda t: re.sub(r"\((\w+(?:\.\w+)+)\)", r"\1", re.sub(r"(?<=\w) \.(?=[a-z])", ".", t)) if "file: specs/" in t else t)
    names = dashed()
    for path in files("crates", (".rt", ".antt", ".edit")):
        turn_file(path, lambda t: outside_strings(t, lambda part: WORD.sub(lambda m: names.get(m.group(0), m.group(0)), part)))
    if os.path.isdir("crates/check"):
        rename_check()


if __name__ == "__main__":
    main()
