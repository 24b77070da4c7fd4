#!/usr/bin/env python3
"""Brings the repository's own definitions and lemmas to today's spelling, after port.py: words in snake case, types and modules in camel case.

usage: python3 tools/respell.py     once, at the top of the repository, on the tree that port.py made

A dash stays in a lemma's name between two names (the name of a definition, or a word of the library), and is `_` elsewhere, and in every
field, constructor and definition. `specs/contracts` becomes `specs/Clauses`, since Rattle makes a module `specs.contracts` itself.
What would fall together with another name of the same file keeps its dash, and is listed.
"""

import os
import re
import sys

# Names whose snake case another name has: a lemma that would have its function's name ends in _lem.
GIVEN = {
    "liveIn": "is_live_in", "liveOut": "is_live_out", "allAny": "is_all_any", "byHandler": "on_handler",
    "continuation-in": "continuation_in_lem", "doubled-with": "doubled_with_lem", "edges-of": "edges_of_lem", "rises-at": "rises_at_lem",
    "all_right": "all_right_lem", "line_first": "line_first_lem", "same_base": "same_base_lem", "bit_in": "bit_in_lem", "all_settled": "all_settled_lem",
}
# Of these, lemmas that have the name of a function of src/: they are respelled in proofs only.
LEMMAS = {"all_right", "line_first", "same_base", "bit_in", "all_settled"}

# Words of the library that a lemma's name may join by a dash.
LIBRARY = set("""or and not add mul div mod sub pow eq ne lt le suc zero min max length map append cons nil set get_or drop take replicate shr shl
true false all any cond same refl sym trans cong mono ext if""".split())

TOKEN = re.compile(r"[^\s(){}\[\],;.«»`\"]+")
DECLARED = re.compile(r"^(\s*)((?:pub\s+|abbrev\s+|unfoldable\s+)*)([a-zA-Z_]\S*(?:\s+[a-zA-Z_]\S*)*)\s+:(?:\s|$)")
IMPORT = re.compile(r"^\s*(?:pub\s+)?(?:ghost\s+)?use\s+([\w.·]+?)\.\{([^}]*)\}")
FOREIGN = ("mathlib", "native", "lib", "Prim", "borrow", "Rattle.std", "Rattle.core", "Rattle.std_alloc")


def files(root, ends):
    for folder, dirs, names in os.walk(root):
        dirs[:] = sorted(d for d in dirs if d not in ("out", "target", ".git"))
        for n in sorted(names):
            if n.endswith(ends):
                yield os.path.join(folder, n)


def snake(name):
    """camelCase parts to snake_case; a part that begins with a capital is a type's name and stays."""
    def one(part):
        if not part or part[0].isupper():
            return part
        return re.sub(r"([a-z0-9])([A-Z])", lambda m: m.group(1) + "_" + m.group(2).lower(), part)
    return "-".join(one(p) for p in name.split("-"))


def declared(path):
    """(name, kind, indented) of what the file declares; kind is 'definition' or 'lemma'."""
    found, within = [], None
    for line in open(path, encoding="utf-8"):
        if re.match(r"^(pub )?(record|data)\b", line.lstrip()):
            within = "definition"
        elif line[:1] not in (" ", "\n"):
            within = None
        m = DECLARED.match(line)
        if not m or line.lstrip().startswith(("--", "use ", "record ", "pub record", "data ", "pub data", "module ", "let ", "in ")):
            continue
        words = m.group(2).split()
        kind = "definition" if ("abbrev" in words or "unfoldable" in words or (within and m.group(1))) else "lemma"
        for n in m.group(3).split():
            found.append((n, kind))
    return found


def foreign(path):
    """Names that the file has from elsewhere."""
    have = set()
    for line in open(path, encoding="utf-8"):
        m = IMPORT.match(line)
        if m and m.group(1).startswith(FOREIGN):
            have |= {w.strip().split(" as ")[0] for w in m.group(2).split(",")} | {w.strip().split(" as ")[-1] for w in m.group(2).split(",")}
    return have


def mapping(root):
    kinds = {}
    for p in files(os.path.join(root, "crates"), ".antt"):
        if os.path.basename(p) == "Proof.antt":
            continue
        for n, k in declared(p):
            if kinds.get(n) != "lemma":
                kinds[n] = k if n not in kinds else kinds[n]
            if k == "definition":
                kinds[n] = "definition"
    names = {snake(n) for n, k in kinds.items() if k == "definition" and "-" not in n} | set(GIVEN.values()) | LIBRARY
    to = {n: GIVEN[n] for n in LEMMAS}
    for n, k in kinds.items():
        s = GIVEN.get(n) or snake(n)
        for old, new in GIVEN.items():
            s = new + snake(n[len(old):]) if n.startswith(old + "-") else s
            s = re.sub(r"(?<=-)" + old + r"(?=-|$)", new, s)
        if "-" in s:
            parts = s.split("-")
            out = parts[0]
            for left, right in zip(parts, parts[1:]):
                named = lambda w: w in names or w[:1].isupper()
                out += ("-" if k == "lemma" and named(left) and named(right) else "_") + right
            s = out
        if s != n:
            to[n] = s
    return to


def split_comment(line):
    i = line.find("-- ")
    if line.lstrip().startswith("--"):
        return "", line
    return (line, "") if i < 0 else (line[:i], line[i:])


def words_of(path, text):
    """The names that a file says by themselves: in code, and not behind a dot. In a source file, where functions have names of their own, the
    parameters and what the clauses say in an older spelling."""
    if path.endswith(".rt"):
        return set(re.findall(r"\b([a-z_]\w*): ", text)) | {w for l in text.splitlines() if not l.lstrip().startswith("//") for w in TOKEN.findall(l) if snake(w) != w or "-" in w}
    code = "".join(split_comment(l)[0] + "\n" for l in text.splitlines())
    return set(TOKEN.findall(re.sub(r"(?<=[\w\)])\.[a-z][^\s(){}\[\],;.]*", " ", code)))


def main():
    root = os.getcwd()
    to = mapping(root)
    texts = {p: open(p, encoding="utf-8").read() for p in files(os.path.join(root, "crates"), (".antt", ".rt", ".edit"))}
    tokens = {p: words_of(p, t) for p, t in texts.items()}
    alien = {p: foreign(p) for p in texts if p.endswith((".antt", ".rt"))}

    # What falls together: in a file that has the old name, the new one stands already, or two old names have it.
    clashes = set()
    for p, have in tokens.items():
        if p.endswith(".edit"):
            continue
        made = {}
        for n in have & to.keys():
            if n in alien.get(p, ()):
                continue
            s = to[n]
            if s in have and to.get(s, s) == s:
                clashes.add((n, s, os.path.relpath(p, root)))
            if s in made:
                clashes.add((n, s, os.path.relpath(p, root)))
                clashes.add((made[s], s, os.path.relpath(p, root)))
            made[s] = n
    for n, s, p in sorted(clashes):
        back = "-".join(w for w in snake(n).split("-"))
        print(f"falls together: {n} with {s} in {p}; it is {back}")
    for n in {n for n, _, _ in clashes}:
        back = snake(n)
        if back == n:
            del to[n]
        else:
            to[n] = back if back != to[n] else n + "_of"

    camel = {n for n in to if re.search(r"[a-z0-9][A-Z]", n)}

    def respell(text, skip, only=None):
        def one(m):
            w = m.group(0)
            if w not in to or w in skip or (only is not None and w not in only) or (w in LEMMAS and text[m.start() - 1:m.start()] == "."):
                return w
            return to[w]
        return TOKEN.sub(one, text)

    for p, t in texts.items():
        out = []
        skip = alien.get(p, set())
        for line in t.splitlines(keepends=True):
            if p.endswith(".rt"):
                line = respell(line, skip | LEMMAS, camel if line.lstrip().startswith("//") else None)
            elif p.endswith(".edit"):
                line = respell(line, skip | LEMMAS, camel if line.startswith("wrong: ") else None)
            else:
                code, comment = split_comment(line)
                line = respell(code, skip) + respell(comment, skip, camel)
            out.append(line.replace("′", "'"))
        new = re.sub(r"(?<=\.specs\.)contracts(?=\.|\b)", "Clauses", "".join(out))
        if p.endswith("specs/Lib.antt"):
            new = re.sub(r"^pub mod contracts$", "pub mod Clauses", new, flags=re.M)
        if new != t:
            with open(p, "w", encoding="utf-8") as f:
                f.write(new)

    # Pages say the new names where they say a name: between back quotes.
    for p in files(root, (".md",)):
        with open(p, encoding="utf-8") as f:
            t = f.read()
        new = re.sub(r"`[^`\n]+`", lambda m: respell(m.group(0), LEMMAS), t)
        new = re.sub(r"specs/contracts\b", "specs/Clauses", new)
        if new != t:
            with open(p, "w", encoding="utf-8") as f:
                f.write(new)

    for crate in sorted(os.listdir(os.path.join(root, "crates"))):
        for ending in (".antt", ""):
            old = os.path.join(root, "crates", crate, "specs", "contracts" + ending)
            if os.path.exists(old):
                os.rename(old, os.path.join(root, "crates", crate, "specs", "Clauses" + ending))
    print(f"{len(to)} names respelled")
    if "--list" in sys.argv:
        for n in sorted(to):
            print(f"  {n} -> {to[n]}")


if __name__ == "__main__":
    main()
