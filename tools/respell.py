#!/usr/bin/env python3
"""Brings the definitions and lemmas of this repository to snake case, once, after port.py. Run at the top of the checkout.

A name of specs/ or of a lemma file in proofs/ is in snake case; types, records and modules keep their capitals. A dash stays
where it joins two names (`multiple-add`); a plain word hangs on by an underscore. A lemma whose name would be that of a
definition that some file sees beside it ends in `_lem`. Goals and other names that the check makes are not touched.
"""
import collections
import glob
import os
import re

SEPARATORS = r'\s(){}\[\],;.@"`λ'
TOKEN = re.compile("[^" + SEPARATORS + "]+")
MARKS = r"((?:(?:pub|abbrev|unfoldable|pattern|axiom) )*)"
# What the library names: a dash between two of these, or between one of these and a definition, joins two names.
LIBRARY = set(
    """add sub mul div mod neg pow zero one suc succ le lt eq length take drop append map zip reverse get_or set sum val
    replicate listing""".split()
)
# Words that are definitions' names too, but stand for themselves at the head of a name.
PLAIN = set("minus half first second two element doubled product".split())


def declared(text):
    """The names that a file declares, each with whether it is a definition."""
    found = {}
    for line in text.split("\n"):
        s = line.strip()
        if s.startswith("--"):
            continue
        m = re.match(MARKS + r"(?:record|data|module) ([^" + SEPARATORS + r"]+)", s)
        if m:
            found[m[2]] = True
            continue
        m = re.match(MARKS + r"((?:[^" + SEPARATORS + r"]+ )*[^" + SEPARATORS + r"]+)(?: \{[^}]*\})? : ", s)
        if m:
            for name in m[2].split():
                found[name] = found.get(name, False) or "abbrev" in m[1] or "unfoldable" in m[1]
    return found


def camel_to_snake(name):
    if not re.match(r"[a-z]", name):
        return name
    name = re.sub(r"(?<=[a-z0-9])([A-Z])(?=[a-z])", lambda m: "_" + m[1].lower(), name)
    return re.sub(r"(?<=[a-z0-9])([A-Z]+)(?![a-z])", lambda m: "_" + m[1].lower(), name)


def joined(name, known):
    """The name with underscores for dashes, but for those that join two known names."""
    parts = name.split("-")
    out, left = parts[0], parts[0]
    for i in range(1, len(parts)):
        rest = [camel_to_snake("_".join(parts[i:j])) for j in range(i + 1, len(parts) + 1)]
        number = left in ("zero", "one")
        if camel_to_snake(left) in known - PLAIN and any(r in (LIBRARY if number else known) for r in rest):
            out, left = out + "-" + parts[i], parts[i]
        else:
            out, left = out + "_" + parts[i], left + "_" + parts[i]
    return out


def respelled(name, known):
    if name in ("from-P", "plus-one-fits"):
        return name.lower().replace("-", "_")
    words = [camel_to_snake(w) for w in joined(name, known).split("-")]
    name = "-".join("_".join(camel_to_snake(p) for p in w.split("_")) for w in words)
    return name


def paths():
    return sorted(glob.glob("crates/*/specs/**/*.antt", recursive=True) + glob.glob("crates/*/proofs/**/*.antt", recursive=True))


def lemma_file(path):
    return re.match(r"crates/\w+/(specs/.*|proofs/[^/]+\.antt$)", path)


def replace(text, renamed, comment):
    """Whole words; in a comment only between backquotes, and words with an inner capital."""
    out = []
    for line in text.split("\n"):
        code, mark, said = line, "", ""
        m = re.match(r"(.*?)(^|\s)(" + comment + r")(\s.*|)$", line)
        if m:
            code, mark, said = m[1], m[2] + m[3], m[4]
        code = TOKEN.sub(lambda m: renamed.get(m[0], m[0]), code)
        said = re.sub(r"`[^`]*`", lambda m: TOKEN.sub(lambda n: renamed.get(n[0], n[0]), m[0]), said)
        said = TOKEN.sub(lambda m: renamed.get(m[0], m[0]) if "-" not in m[0] else m[0], said)
        out.append(code + mark + said)
    return "\n".join(out)


def main():
    texts = {p: open(p).read() for p in paths()}
    definitions, names = set(), set()
    for path, text in texts.items():
        if lemma_file(path):
            for name, is_definition in declared(text).items():
                names.add(name)
                if is_definition and "-" not in name:
                    definitions.add(name)
    known = LIBRARY | {camel_to_snake(d) for d in definitions if len(d) > 1} | definitions
    known -= {d for d in known if len(d) == 1}
    renamed = {}
    for name in sorted(names):
        if "-" in name and re.search("[A-Za-z]", name) or re.match("[a-z]", name) and re.search("[A-Z]", name):
            renamed[name] = respelled(name, known)
    # a lemma beside a definition of its name
    tokens = {p: set(TOKEN.findall(t)) for p, t in texts.items()}
    by_new = collections.defaultdict(set)
    for name in names:
        by_new[renamed.get(name, name)].add(name)
    for new, old in sorted(by_new.items()):
        for name in sorted(old):
            together = [p for p in tokens if name in tokens[p] and any(o in tokens[p] for o in old if o != name)]
            if "-" in name and together:
                renamed[name] = new + "_lem"
    # a name that a file has already
    for path, found in tokens.items():
        for name in sorted(found):
            if name in renamed and renamed[name] != name and renamed[name] in found and renamed[name] not in by_new:
                print(f"look: {path}: {name} becomes {renamed[name]}, which the file has")
    renamed = {a: b for a, b in renamed.items() if a != b}
    for path, text in texts.items():
        new = replace(text, renamed, "--")
        if new != text:
            open(path, "w").write(new)
    inner = {a: b for a, b in renamed.items()}
    for path in sorted(glob.glob("crates/*/src/**/*.rt", recursive=True) + glob.glob("crates/*/must-fail/*.edit")):
        text = open(path).read()
        new = replace(text, inner, "//")
        if new != text:
            open(path, "w").write(new)
    for a, b in sorted(renamed.items()):
        print(f"{a}\t{b}")


if __name__ == "__main__":
    main()
