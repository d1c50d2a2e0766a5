#!/usr/bin/env python3
"""Spells the repository's own words of specs/ and proofs/ as this Rattle's library does.

Run once, at the top of the repository, after the kit's port.py: definitions, lemmas, constructors and
record fields that were written with dashes go to snake case, types and facts to upper camel case, and
a word that the library took since gets the name in OTHERS.
Names that Rattle makes of the code, names of the library, names of src/, comments and strings stay.
It stops, and writes nothing, where two names would fall together.
"""
import collections
import glob
import re
import sys

NAME = r"[^\s(){}\[\].,;:λ·→]+"
DASHED = re.compile(r"onFirst\b|[^\W\d][\w'≢≡≤∀]*(?:-[\w'≢≡≤∀]+)+")
BINDERS = r"((?: (?:\([^()]*\)|\{[^{}]*\}))*)"
DEFINED = re.compile(r"^(\s*)(?:abbrev |unfoldable )?(?:pub )?(record |data )?(" + NAME + ")" + BINDERS + r" : *(\S*)", re.M)
LET = re.compile(r"\blet (" + NAME + ") [:=]")
ALIAS = re.compile(r"\bas ([a-z]\w*(?:-\w+)+)(?=[\s,}])")
# Names that no rule gives: words in camel case, and a lemma that would have a name of the library.
OTHERS = {"onFirst": "on_first", "pairs-from-getD": "pairs_from_get_or", "put-mid": "put_mid_is"}
# The library's All goes by index now; the recursion that the texts were written with has a name of its own.
ALL = re.compile(r"(?<![\w'.-])All(?![\w'-])")


def new_name(name):
    if name in OTHERS:
        return OTHERS[name]
    if name[0].isupper():
        return "".join(part[:1].upper() + part[1:] for part in name.split("-"))
    return name.replace("-", "_")


def without_comments(text):
    return re.sub(r"--.*", "", text)


def own_names(texts):
    """The dashed names that the repository defines, and those of them that are fields of records."""
    own, fields, plain, goals = set(), set(), set(), set()
    for text in texts.values():
        text = without_comments(text)
        for m in DEFINED.finditer(text):
            indent, name, said = m.group(1), m.group(3), m.group(5)
            if said.startswith(("goal.", "given.")):
                goals.add(name)
            elif DASHED.fullmatch(name):
                own.add(name)
                if indent and m.group(0).strip().startswith("pub "):
                    fields.add(name)
            else:
                plain.add(name)
        own.update(n for n in LET.findall(text) + ALIAS.findall(text) if DASHED.fullmatch(n))
    own -= goals
    taken = collections.defaultdict(set)
    for name in own:
        taken[new_name(name)].add(name)
    clashes = [(k, v) for k, v in taken.items() if len(v) > 1 or k in plain]
    if clashes:
        sys.exit("names that would fall together: %s" % clashes)
    return own, fields


def imported(text):
    """The names that a file takes from the library: these stay."""
    names = set()
    for m in re.finditer(r"use ((?:Rattle\.std|borrow|[a-z]\w*)\.[\w.+·]*)\.\{([^}]*)\}", text):
        names.update(n.strip().split(" as ")[0] for n in m.group(2).split(","))
    return names


def respell(text, own, fields, comment):
    outside = imported(text)

    def one(m):
        name, before = m.group(0), text_line[: m.start()]
        if name not in own or name in outside or before.count('"') % 2:
            return name
        if before.endswith(".") and name not in fields:
            return name
        return new_name(name)

    by_recursion = "AllByRecursion as All" in text
    out = []
    for line in text.split("\n"):
        at = line.find(comment)
        code, rest = (line, "") if at < 0 else (line[:at], line[at:])
        text_line = code
        code = DASHED.sub(one, code)
        if by_recursion:
            code = ALL.sub("AllByRecursion", code.replace("AllByRecursion as All", "AllByRecursion"))
        out.append(code + rest)
    return "\n".join(out)


def main():
    antt = sorted(glob.glob("crates/*/specs/**/*.antt", recursive=True) + glob.glob("crates/*/proofs/**/*.antt", recursive=True))
    rust = sorted(glob.glob("crates/*/src/**/*.rt", recursive=True))
    texts = {f: open(f).read() for f in antt}
    own, fields = own_names(texts)
    changed = 0
    for f in antt + rust:
        old = open(f).read()
        new = respell(old, own, fields, "--" if f.endswith(".antt") else "//")
        if new != old:
            open(f, "w").write(new)
            changed += 1
    print("%d names respelled in %d files" % (len(own), changed))


main()
