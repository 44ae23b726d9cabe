#!/usr/bin/env python3
"""Spells this repository's own definitions and lemmas as today's Rattle does. Run once, at the top, after the kit's port.py.

usage: respell.py [--list]

Words are in snake case: begin_of, not beginOf. A dash stays where it joins two names, as in has-with; a plain word is joined by `_`, as in move_kept.
A name counts as one if specs/ declares it without a dash, or the library uses it in its own names. Functions of src/, labels, strings, inputs and
outputs keep their names. --list prints the names and writes nothing. Names that would fall together stop it.
"""
import collections
import glob
import re
import sys

WORD = r"[^\s(){}.;,@\"«»]+"
HEAD = re.compile(rf"(?m)^ *(?:(?:abbrev|unfoldable|pub|data|record|mutual|module) +)*({WORD})(?: +{WORD})*(?: *\{{[^}}\n]*\}})* :(?= |$)")
LET = re.compile(rf"\blet +({WORD})(?: +:| +=)")
GENERATED = re.compile(rf"(?m)^({WORD}) : (?:tie|goal)\.")
LIBRARY = {
    "le", "lt", "eq", "ne", "add", "sub", "mul", "div", "mod", "min", "max", "length", "append", "take", "drop", "set", "get_or", "and", "or", "not",
    "true", "false", "zero", "one", "suc", "cond", "map", "ones", "ltb", "leb", "eqb", "cons",
}
# Lemmas that are spelled as a definition will be: each, and the files that declare or cite it.
FIRST = {
    "place_at": "crates/*/specs/*.antt",
    "goes_on": "crates/player/specs/*.antt",
    "set_after": "crates/plain/specs/*.antt",
    "first_says": "crates/*/specs/*.antt",
}


def code_of(text):
    return re.sub(r"--[^\n]*|\{-.*?-\}", lambda m: " " * len(m[0]), text, flags=re.S)


def snake(word):
    out = re.sub(r"(?<=[a-z0-9])([A-Z]+)(?=$|[^A-Za-z]|[A-Z][a-z]|[a-z])", lambda m: "_" + m[1].lower(), word)
    return re.sub(r"(?<=[a-z0-9])([A-Z])", lambda m: "_" + m[1].lower(), out)


def main():
    antt = sorted(glob.glob("crates/*/specs/*.antt") + glob.glob("crates/*/proofs/**/*.antt", recursive=True))
    rust = sorted(glob.glob("crates/*/src/**/*.rt", recursive=True))
    texts = {p: open(p, encoding="utf-8").read() for p in antt + rust}
    before = dict(texts)
    for name, files in FIRST.items():
        for p in glob.glob(files):
            texts[p] = re.sub(rf"(?<![\w'.-]){name}(?![\w'-])", name + "_lem", texts[p])
    foreign, declared, simple = set(), set(), set(LIBRARY)
    for p in antt:
        code = code_of(texts[p])
        for path, names in re.findall(r"(?m)^use ([^\s{]+?)\.?(?:\{([^}]*)\})?(?: as \S+)?$", code):
            own = re.match(r"Rattle\.(\w+)\.", path + ".")
            if not (own and glob.glob(f"crates/{own[1]}")):
                foreign.update(n.split(" as ")[0].strip() for n in (names or "").split(","))
        if not p.endswith("/Proof.antt"):
            declared |= set(HEAD.findall(code)) - set(GENERATED.findall(code))
        if "/specs/" in p:
            simple |= {n for n in re.findall(rf"(?m)^(?:(?:abbrev|unfoldable|pub|data|record) +)+({WORD})", code) if "-" not in n}
    simple = {snake(n) for n in simple}
    names = {}
    for n in declared:
        if n in foreign or not re.match(r"[a-z]", n) or n.startswith("gather-"):
            continue
        parts = [snake(x) for x in n.split("-")]
        new = parts[0]
        for a, b in zip(parts, parts[1:]):
            new += ("-" if a in simple and b in simple else "_") + b
        if new != n:
            names[n] = new
    for p in antt + rust:
        code = code_of(texts[p]) if p.endswith("antt") else re.sub(r"//[^\n]*", "", texts[p])
        for n in re.findall(r"(?<![\w.'-])[a-z][\w'-]*[A-Z][\w'-]*", code):
            if n not in foreign and n not in names and "-" not in n:
                if snake(n) != n:
                    names[n] = snake(n)
    # a lemma that would have its function's name
    taken = {new for old, new in names.items() if "-" not in old} | simple
    for old in names:
        if "-" in old and names[old] in taken:
            names[old] += "_lem"
    # names that fall together
    bad = False
    by_new = collections.defaultdict(set)
    for old, new in names.items():
        by_new[new].add(old)
    for new, olds in sorted(by_new.items()):
        if len(olds) > 1:
            print(f"fall together: {', '.join(sorted(olds))} -> {new}")
            bad = True
    for p in antt + rust:
        words = set(re.findall(rf"(?<![.\w]){WORD}(?!\.)", code_of(texts[p]) if p.endswith("antt") else re.sub(r"\bfn \w+|\w+\(", "", texts[p])))
        for old in words & set(names):
            if names[old] in words:
                print(f"{p}: {old} -> {names[old]}, which the file has already")
                bad = True
    if "--list" in sys.argv:
        for old, new in sorted(names.items()):
            print(f"{old}\t{new}")
        print(f"{len(names)} names")
        return 0
    if bad:
        return 1

    def turn(text, words):
        def one(m):
            behind = text[max(0, m.start() - 5):m.start()]
            return m[0] if behind.endswith(("tie.", "goal.")) or m[0] not in words else words[m[0]]
        return re.sub(WORD, one, text)

    camel = {o: n for o, n in names.items() if re.search("[A-Z]", o) and "-" not in o}
    for p, text in texts.items():
        if p.endswith(".antt"):
            out = []
            for line in text.split("\n"):
                at = re.search(r"(^|\s)--(\s|$)", line)
                cut = at.start() if at else len(line)
                made = set(GENERATED.findall(text)) if "/proofs/" in p else set()
                words = {o: n for o, n in names.items() if o not in made}
                comment = re.sub(r"[A-Za-z][\w'-]*", lambda m: camel.get(m[0], m[0]), line[cut:])
                out.append(turn(line[:cut], words) + comment)
            new = "\n".join(out)
        else:
            new = re.sub(r"\"(?:[^\"\\\n]|\\.)*\"|(?<![\w'-])[a-z][\w'-]*", lambda m: names.get(m[0], m[0]) if re.search("[A-Z-]", m[0]) else m[0], text)
        if new != before[p]:
            open(p, "w", encoding="utf-8").write(new)
    return 0


if __name__ == "__main__":
    sys.exit(main())
