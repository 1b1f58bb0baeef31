#!/usr/bin/env python3
"""Brings the names of this repository's definitions, fields, constructors and lemmas to snake case.

Run once at the top of the checkout, after the kit's own script. Types keep their camel case; functions of src/,
goals and the names that the kit makes keep their spelling. It goes by words: a word after a dot is a field.
"""
import glob
import re
import sys

DEFINES = re.compile(r"^(\s*)((?:abbrev |unfoldable |pub |local )*)([^\s(){}\[\];,.:]+)\s*:(?=\s|$)")
WORD = re.compile(r"[^\s(){}\[\];,.\"@]+")

# Names that would fall together with another one, or that are no words yet. A lemma that would have the name of what it
# is about ends in _lem. The rules of the calculus are constructors: the kit has them in snake case, and `tau` and `recv`
# are taken by what is derived.
OWN = {
    "in-range": "in_range_lem",
    "has-reply": "has_reply_lem",
    "side-meaning": "side_meaning_lem",
    "network-asked": "network_asked_lem",
    "network-refusal": "network_refusal_lem",
    "rule-refusal": "rule_refusal_lem",
    "same-label": "one_label",
}
# what the kit's script made of `same-set`, beside the definition `sameSet`
AGAIN = {"crates/calculus/proofs/Exactly.antt": {"same_set": "same_set_lem"}}


def snake(name):
    if name in OWN:
        return OWN[name]
    if re.fullmatch(r"[A-Z]+(-[A-Z]+)*", name) and len(name) > 1:
        return "by_" + name.replace("-", "_").lower()
    if name[0].isupper():
        return name
    name = name.replace("getD", "get_or")
    name = re.sub(r"([a-z0-9])([A-Z])", lambda m: m.group(1) + "_" + m.group(2).lower(), name)
    return name.replace("-", "_")


def code_of(line):
    return re.sub(r"(^|\s)--(\s.*|$)", "", line)


def names_of(files):
    """The names to change, and those of them that are fields of records."""
    names, fields = {}, set()
    for path in files:
        record = False
        for line in open(path, encoding="utf-8"):
            code = code_of(line.rstrip("\n"))
            if code and not code[0].isspace():
                record = bool(re.match(r"(pub )?record\b", code))
            m = DEFINES.match(code)
            if not m or re.search(r":\s*goal\.", code) or snake(m.group(3)) == m.group(3):
                continue
            names[m.group(3)] = snake(m.group(3))
            if record and m.group(1):
                fields.add(m.group(3))
    return names, fields


def respell(text, names, fields, comment):
    out = []
    for line in text.split("\n"):
        cut = re.search(comment, line)
        code, rest = (line[: cut.start()], line[cut.start():]) if cut else (line, "")

        def new(m):
            word = m.group(0)
            dotted = m.start() > 0 and code[m.start() - 1] == "."
            if word not in names or (dotted and word not in fields):
                return word
            if re.search(re.escape(word) + r"\s*:\s*goal\.", code):
                return word
            return names[word]

        out.append(WORD.sub(new, code) + rest)
    return "\n".join(out)


def main():
    proofs = sorted(glob.glob("crates/*/specs/**/*.antt", recursive=True) + glob.glob("crates/*/proofs/**/*.antt", recursive=True))
    sources = sorted(glob.glob("crates/*/src/**/*.rt", recursive=True))
    names, fields = names_of(proofs)
    taken = {}
    for old, new in sorted(names.items()):
        if taken.setdefault(new, old) != old:
            sys.exit(f"{old} and {taken[new]} fall together as {new}")
    for path in proofs + sources:
        text = open(path, encoding="utf-8").read()
        comment = r"(^|\s)--(\s|$)" if path.endswith(".antt") else r"//"
        more = dict(names, **AGAIN.get(path, {}))
        changed = respell(text, more, fields, comment)
        if changed != text:
            open(path, "w", encoding="utf-8").write(changed)
    print(len(names), "names respelled,", len(fields), "of them fields")


if __name__ == "__main__":
    main()
