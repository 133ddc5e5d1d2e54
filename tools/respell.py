#!/usr/bin/env python3
"""Brings the repository's own names to snake case, once, right after the port of an older Rattle.

A name of a definition, a lemma, a field or a constructor that the files of crates/*/specs and crates/*/proofs declare: a capital letter
inside a word becomes `_` and the small letter, a dash becomes `_` (but after a type at the head of the name, as in `Bytes-append`). Where
two names would fall together, the lemma's gets `_lem`. Types, modules, functions of src/, exported names and strings keep their spelling.
In comments, and in the documents between backticks, names in camel case are respelled, and names with a dash where no English word is meant.

    tools/respell.py        at the top of the repository
"""
import os
import re

# These would be one name with a definition's: they are lemmas.
LEMMAS = {
    "blank-kind", "collect-leaves", "decimal-value", "device-bytes", "file-of", "filled-cells", "filled-earlier",
    "first-words", "in_place", "kept-count", "legal-word", "page-bytes", "page-of", "pairs_of", "passed_over",
    "pulses-of", "put-from", "put-words", "read-from", "room-ahead", "room-for", "room_of", "turns-tally", "zero-page", "after-end",
}
# A test, beside a constructor of the name that it would have; laws of bits, beside the library's words; and fields of claims, beside the
# definitions that their clauses cite.
OTHERWISE = {
    "wrongStart": "starts_wrongly", "bit-and": "bit_of_and", "bit-or": "bit_of_or", "bit-xor": "bit_of_xor", "fill-code": "with_fill",
    "fill-code-512": "with_fill_512", "first-page": "of_first_page", "filled-page": "of_filled_page", "bad-numbers": "numbers_of_bad",
    "signed-value": "value_of_signed",
}
# A name is what stands between these.
BREAK = r"\s(){}\[\].,;:\"`|⟨⟩"
NAME = re.compile(f"[^{BREAK}]+")
DECLARED = re.compile(
    r"^\s*(?:(?:abbrev|unfoldable|data|record|ruleset|pub|pattern)\s+)*([^" + BREAK + r"=]+)\s+(?:[({].*[)}]\s*)?:(?:\s|$)")


def files(top, *ends):
    for folder, dirs, names in os.walk(top):
        dirs[:] = sorted(d for d in dirs if d != "out")
        for name in sorted(names):
            if name.endswith(ends):
                yield os.path.join(folder, name)


def snake(name):
    parts = name.split("-")
    words = [re.sub(r"(?<=[a-z0-9])([A-Z])", lambda m: "_" + m.group(1).lower(), p) for p in parts]
    if parts[0][:1].isupper() and len(parts) > 1:
        return words[0] + "-" + "_".join(words[1:])
    return "_".join(words)


def declared():
    """The names that the repository declares, but for what stands in the proof of one function for Rattle's own names."""
    found = set()
    for path in files("crates", ".antt"):
        with open(path) as f:
            text = f.read()
        for line in text.split("\n"):
            if line.lstrip().startswith("--"):
                continue
            m = DECLARED.match(line)
            if m:
                found.add(m.group(1))
        for m in re.finditer(r"^\s*pub use |(?<=\sas )([a-z][^" + BREAK + r"]*)(?=[,}])", text, re.M):
            if m.group(1):
                found.add(m.group(1))
    return found


def renames():
    names = {}
    for name in declared():
        if name[:1].isupper() and "-" not in name:
            continue
        new = OTHERWISE.get(name, snake(name))
        if name in LEMMAS:
            new += "_lem"
        if new != name and re.search(r"[A-Za-z]", name):
            names[name] = new
    return names


def respell(text, names):
    def one(m):
        word = m.group(0)
        if word.startswith('"'):
            return word
        # a name that Rattle makes
        if m.start() >= 4 and text[m.start() - 4 : m.start()] == "tie.":
            return word
        return names.get(word, word)

    return re.sub(r'"(?:[^"\\\n]|\\.)*"|' + NAME.pattern, one, text)


class Spelled(dict):
    """The renames, and a name whose spelling in snake case is declared."""

    def __init__(self, names, known):
        super().__init__(names)
        self.known = known

    def __contains__(self, word):
        return self.get(word, word) != word

    def __getitem__(self, word):
        return self.get(word, word)

    def get(self, word, other):
        if super().__contains__(word):
            return super().__getitem__(word)
        new = snake(word)
        return new if re.search("[A-Za-z]", word) and not word[:1].isupper() and new in self.known else other


def in_code(text, names, comment):
    lines = []
    for line in text.split("\n"):
        at = line.find(comment)
        if at >= 0 and line[:at].strip() == "":
            lines.append(line[:at] + in_prose(line[at:], names))
        else:
            lines.append(respell(line, names))
    return "\n".join(lines)


def in_document(text, names):
    """A fenced block is code."""
    parts = re.split(r"(?m)(^```.*\n(?:.*\n)*?```$)", text)
    return "".join(respell(p, names) if p.startswith("```") else in_prose(p, names) for p in parts)


def in_prose(text, names):
    """Names in camel case, and every name between backticks."""
    text = re.sub(r"`[^`\n]*`", lambda m: respell(m.group(0), names), text)
    return NAME.sub(lambda m: names[m.group(0)] if "-" not in m.group(0) and re.search(r"[a-z][A-Z]", m.group(0)) and m.group(0) in names else m.group(0), text)


def turn(path, how, *more):
    with open(path) as f:
        old = f.read()
    new = how(old, *more)
    if new != old:
        with open(path, "w") as f:
            f.write(new)


def main():
    names = renames()
    taken = {}
    for old, new in sorted(names.items()):
        if new in taken:
            print(f"respell: {taken[new]} and {old} fall together as {new}")
        taken[new] = old
    for path in files("crates", ".antt"):
        turn(path, in_code, names, "--")
    for path in files("crates", ".rt"):
        turn(path, in_code, names, "//")
    # what the port itself had respelled stands in the edits and the documents as it was
    both = Spelled(names, declared())
    for path in files("crates", ".edit"):
        turn(path, in_code, both, "#")
    documents = [p for p in ["README.md", "docs/ANNEX.md", "docs/ARCHITECTURE.md", "docs/C-API.md", "docs/DECISIONS.md"] if os.path.exists(p)]
    for path in documents + list(files("docs/changes", ".md")):
        turn(path, in_document, both)
    print(f"respell: {len(names)} names")


if __name__ == "__main__":
    main()
