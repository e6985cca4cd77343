#!/usr/bin/env python3
"""Spells the repository's own definitions, laws and record fields in snake case, as the installed Rattle spells its library.

usage: python3 tools/respell.py [ROOT]

Run it once, on what the kit's port.py left. A name that a file of specs/ or proofs/ declares, or binds by let, λ or a parameter, and that
has a dash or a capital inside is turned, in the pages' code spans too: a dash becomes `_`, a capital after a small letter `_` and the small letter. A name that begins
with a capital is a type or a fact and keeps its capitals. What Rattle itself names (an answer, an invariant, a place of the code) stays,
and so does a name that a file has from a library. It stops, and writes nothing, where two names would fall together.
"""

import os
import re
import sys

NAME = r"[^\s(){}.;,@\"«»]+"
TOKEN = re.compile(NAME)
GROUP = r"(?:\s+(?:\{[^{}\n]*\}|\([^()\n]*\)))*"
SIGNATURE = re.compile(r"^ *(?:(?:abbrev|unfoldable|pub|data|record|let|ghost)\s+)*(" + NAME + ")" + GROUP + r"\s+:(?:\s|$)")
BOUND = re.compile(r"(?:\blet\s+|λ\s+(?:" + NAME + r"\s+)*|[(]|[(](?:" + NAME + r"\s+)+)(" + NAME + r")(?=\s+[=:]|\.|(?:\s+" + NAME + r")*\s+:)")
CLAUSE = re.compile(r"^( *)(" + NAME + r")((?:\s+(?:" + NAME + r"|\{[^{}\n]*\}|\([^()\n]*\)))*)\s+=(?:\s|$)")
USE = re.compile(r"^ *(?:pub )?(?:ghost )?use\s+([^\s;{]+)(\{[^}]*\})?", re.M)
# names that Rattle gives, to what a proof by hand cites and declares
MADE = re.compile(r"(invariant|decreases|returns)(-.*)?$")
# what is no name of the repository's own: paths of modules, and what follows the name of a made module
PATHS = re.compile(r"\bRattle(\." + NAME + r")+(?=\.\{|\s)")
UNDER_TIE = re.compile(r"\b(tie|goal|at)\." + NAME)
# names whose spelling here is not only a matter of dashes and capitals
WORDS = {"getD": "get_or"}


def texts(root, ends):
    for folder, dirs, files in os.walk(os.path.join(root, "crates")):
        dirs[:] = sorted(d for d in dirs if d != "out")
        for f in sorted(files):
            if f.endswith(ends):
                yield os.path.join(folder, f)


def snake(name):
    if name[:1].isupper():
        return name.replace("-", "")
    for old, new in WORDS.items():
        name = re.sub(rf"(?<![A-Za-z]){old}(?![a-z])", new, name)
    name = re.sub(r"(?<=[a-z0-9])(?=[A-Z])|(?<=[A-Z])(?=[A-Z][a-z])", "_", name).lower()
    return name.replace("-", "_")


def worth(name):
    if MADE.match(name) or not re.search(r"[A-Za-z]", name) or not re.match(r"[A-Za-z]", name):
        return False
    return bool(re.search(r"[A-Za-z0-9']-[A-Za-z0-9]", name)) or (name[0].islower() and bool(re.search(r"[A-Z]", name)))


def code_of(text):
    """The text without comments, of the same length."""
    return re.sub(r"--[^\n]*", lambda m: " " * len(m[0]) if "--" in m[0] else m[0], text)


def by_hand(path):
    return "/proofs/" in path and os.path.basename(path) in ("Proof.antt", "Answers.antt", "Invariants.antt")


def foreign(text):
    """The names that a file has from a library."""
    found = set()
    for head, items in USE.findall(text):
        steps = head.strip(".").split(".")
        own = steps[0] == "Rattle" and len(steps) > 1 and steps[1] not in ("std", "core", "io", "std_alloc", "std_collections", "libc", "os")
        if not own:
            for it in TOKEN.findall(items or ""):
                found.add(it)
    return found


def main(argv):
    root = argv[0] if argv else "."
    declared, local, all_names = {}, {}, {}
    read = {}
    for p in texts(root, (".antt",)):
        with open(p, encoding="utf-8") as f:
            read[p] = f.read()
    for p, text in read.items():
        code = code_of(text)
        local[p] = set()
        for line in code.split("\n"):
            m = SIGNATURE.match(line)
            if m and re.fullmatch("◌[a-z]+[A-Z][A-Za-z]*◌", m[1]):
                for it in (m[1], m[1].strip("◌")):
                    declared.setdefault(it, set()).add(p)
            elif m:
                all_names.setdefault(m[1], p)
                if worth(m[1]):
                    (local[p].add(m[1]) if by_hand(p) else declared.setdefault(m[1], set()).add(p))
            m = CLAUSE.match(line)
            if m:
                for it in TOKEN.findall(m[3]):
                    if worth(it):
                        local[p].add(it)
        for m in BOUND.finditer(code):
            if worth(m[1]):
                local[p].add(m[1])
        for it in re.findall(r"\bas (" + NAME + ")", code):
            if worth(it):
                local[p].add(it)
    table = {n: snake(n) for n in declared}
    # Where a lemma and a definition of one file would fall together the lemma, which has the dash, gets `_lem`.
    for again in (False, True):
        clashes = set()
        for p, text in read.items():
            here, seen = {**{n: snake(n) for n in local[p]}, **table}, {}
            for n in foreign(text):
                here.pop(n, None)
            for it in set(TOKEN.findall(UNDER_TIE.sub(" ", PATHS.sub(" ", code_of(text))))):
                new = here.get(it, it)
                if new in seen:
                    clashes.add((it, seen[new], p))
                seen[new] = it
        for a, b, p in sorted(clashes):
            if again:
                print(f"together: {a} and {b} in {p}")
                return 1
            it = min((a, b), key=lambda n: ("-" not in n, bool(re.search("[A-Z]", n)), n))
            print(f"a lemma beside a definition: {it}, in {p}")
            table[it] = snake(it) + "_lem"
    if "--look" in argv:
        return 0

    def turn_in(text, names):
        return TOKEN.sub(lambda m: names.get(m[0], m[0]), text)

    changed = 0
    for p, text in read.items():
        here = dict(table)
        for n in local[p]:
            here.setdefault(n, snake(n))
        for n in foreign(text):
            here.pop(n, None)
        out, words = [], set(TOKEN.findall(code_of(text)))
        for line in text.split("\n"):
            at = re.search(r"(?<!\S)--", line)
            cut = at.start() if at else len(line)
            code, note = line[:cut], line[cut:]
            note = re.sub(r"`[^`]*`", lambda m: turn_in(m[0].replace("`", " ` "), here).replace(" ` ", "`"), note)
            note = re.sub(r"(?<![\w-])[A-Za-z][\w'-]*(?![\w'-])", lambda m: here[m[0]] if m[0] in here and m[0] in words else m[0], note)
            out.append(turn_in(code, here) + note)
        new = "\n".join(out)
        if new != text:
            changed += 1
            with open(p, "w", encoding="utf-8") as f:
                f.write(new)
    for p in texts(root, (".rt",)):
        with open(p, encoding="utf-8") as f:
            text = f.read()
        out = []
        for line in text.split("\n"):
            at = re.search(r"(?<!\S)//", line)
            cut = at.start() if at else len(line)
            code, note = line[:cut], line[cut:]
            note = re.sub(r"`[^`]*`", lambda m: turn_in(m[0].replace("`", " ` "), table).replace(" ` ", "`"), note)
            out.append(turn_in(code, table) + note)
        new = "\n".join(out)
        if new != text:
            changed += 1
            with open(p, "w", encoding="utf-8") as f:
                f.write(new)
    for p in texts(root, (".edit",)):
        with open(p, encoding="utf-8") as f:
            text = f.read()
        new = "\n".join(turn_in(l, table) if re.match(r"(old|new):", l) else l for l in text.split("\n"))
        if new != text:
            changed += 1
            with open(p, "w", encoding="utf-8") as f:
                f.write(new)
    pages = [os.path.join(root, "README.md")]
    for folder, _, files in os.walk(os.path.join(root, "docs")):
        pages += [os.path.join(folder, f) for f in sorted(files) if f.endswith(".md")]
    for p in pages:
        with open(p, encoding="utf-8") as f:
            text = f.read()
        new = re.sub(r"`[^`\n]*`", lambda m: "`" + turn_in(m[0][1:-1], table) + "`", text)
        if new != text:
            changed += 1
            with open(p, "w", encoding="utf-8") as f:
                f.write(new)
    print(f"respell: {len(table)} names, {changed} files")
    return 0


if __name__ == "__main__":
    raise SystemExit(main(sys.argv[1:]))
