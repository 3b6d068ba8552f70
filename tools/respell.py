#!/usr/bin/env python3
"""tools/respell.py: brings the names of definitions, fields and laws in crates/ to one spelling, once.

Words are in snake case, types in camel case. What the kit's own script respells is respelled already where this runs.
A definition keeps its name, respelled; where a law beside it would fall together with it, the law gets the ending `_law`.
Names of functions, parameters and files, of the kit's own words and of what the kit makes for a proof stay as they are.
It says what it renamed, and refuses to run where two names would become one.
"""
import collections
import os
import re
import sys

ROOT = sys.argv[1] if len(sys.argv) > 1 else "crates"
APART = r'\s(){}.;,@"«»\[\]\\'
WORD = re.compile(f"[^{APART}]+")
DECLARED = re.compile(f"^(\\s*)((?:pub |abbrev |unfoldable )*)(?:(record|data|ruleset) )?([^{APART}:=λ→]+)\\s+(?::|=|\\(|\\{{|where)")
NO_NAMES = set("module let elim in infixr infixl infix unfolding with where mod do case of rw search use pub".split())
OWN = re.compile(r"(?:pub )?use (Rattle\.\w+)\.[^;{]*?\.\{([^}]*)\}")
FOREIGN = re.compile(r"use ((?!Rattle\.(?:%s)\.)[\w.]+)\.\{([^}]*)\}")
# Words of the papers and of plain English, which stay in comments.
PLAIN = set("all-zero big-endian exclusive-ored half-gate half-gates i-Nk look-ups re-keyed well-formed".split())
BY_HAND = {"getD-wide": "get_or_wide", "Walks-over": "WalksOver", "Sets-out": "SetsOut", "P12": "p12", "P13": "p13", "P14": "p14"}
# Fields of definitions that would fall together with a definition.
BY_HAND |= {"last-wires": "by_last_wires", "is-charged": "is_charged_kind", "same-sizes": "same_sizes_kept", "output-tokens": "output_tokens_kept"}
# Laws that the kit's script gave the name of a definition, each in the files that it is for.
IN_FILES = {
    "model/proofs/AesBytes.antt": {"sub_word": "sub_word_law"},
    "planes/proofs/Lanes.antt": {"from_bits": "from_bits_law"},
    "planes/proofs/Halves.antt": {"from_bits": "from_bits_law"},
}


def below(ending):
    for folder, folders, names in os.walk(ROOT):
        folders[:] = sorted(it for it in folders if it != "out")
        for name in sorted(names):
            if name.endswith(ending):
                yield os.path.join(folder, name)


def read(path):
    with open(path, encoding="utf-8") as f:
        return f.read()


def by_hand(path):
    """A proof that walks the code: most of its names are the kit's."""
    return path.endswith("/Proof.antt")


def snake(name):
    if name in BY_HAND:
        return BY_HAND[name]
    name = name.replace("-", "_")
    if re.match(r"[A-Z]\d+_|[A-Z]_", name):
        name = name[0].lower() + name[1:]
    return re.sub(r"(?<=[A-Za-z0-9])([A-Z])", lambda m: "_" + m[1].lower(), name) if name[0].islower() else name


def declared(text):
    for line in text.splitlines():
        if line.lstrip().startswith(("--", "use ", "pub use ")):
            continue
        m = DECLARED.match(line)
        if m and m[4] not in NO_NAMES:
            yield m[4]


def to_respell(name):
    if name in BY_HAND:
        return True
    if re.match(r"[A-Z][a-z]*\d*-\d", name) or re.match(r"κs-\d", name):
        return False  # parts of a walk by hand
    return "-" in name or re.match(r"[a-z]+[a-z0-9]*[A-Z]", name)


def main():
    texts = {p: read(p) for ending in (".antt", ".rt") for p in below(ending)}
    for p in texts:
        for end, names in IN_FILES.items():
            if p.endswith("/" + end):
                for old, new in names.items():
                    texts[p] = re.sub(rf"(?<![^{APART}]){old}(?![^{APART}])", new, texts[p])
    known = collections.Counter()
    for p, t in texts.items():
        if p.endswith(".antt"):
            known.update(declared(t))
    old_names = sorted((it for it in known if to_respell(it)), key=lambda it: ("-" in it, it))
    words = {p: set(WORD.findall(t)) for p, t in texts.items()}
    new_names, taken = {}, {it for it in known if not to_respell(it)}
    for old in old_names:
        new = snake(old)
        if new in taken or any(old in w and new in w and "-" in old and p.endswith(".antt") and not by_hand(p) for p, w in words.items()):
            new += "_law"
        if new in taken:
            sys.exit(f"respell: {old} would fall together with another {new}")
        taken.add(new)
        new_names[old] = new
    crates = "|".join(os.listdir(ROOT))
    foreign = re.compile(FOREIGN.pattern % crates)
    for p, t in sorted(texts.items()):
        names = dict(new_names)
        if p.endswith(".antt"):
            theirs = {w for m in foreign.finditer(t) for it in m[2].split(",") for w in it.split()}
            for it in theirs:
                names.pop(it, None)
            if not by_hand(p):  # variables too
                for w in words[p]:
                    if re.fullmatch(r"[a-z][A-Za-z0-9]*(-[A-Za-z0-9]+)+'*", w) and w not in names and w not in theirs and "." + w not in t and snake(w) not in words[p] | taken:
                        names[w] = snake(w)

        def turned(m):
            before = m.string[max(0, m.start() - 4) : m.start()]
            return m[0] if before == "tie." else names.get(m[0], m[0])

        def in_comment(m):
            return m[0] if m[0] in PLAIN or m[0] not in new_names else names.get(m[0], m[0])

        code = re.compile(r'"(?:[^"\\\n]|\\.)*"|' + WORD.pattern)
        mark = re.compile("//" if p.endswith(".rt") else r"(?:^|(?<=\s))--(?=\s)")
        lines = []
        for line in t.split("\n"):
            m = mark.search(line)
            head, tail = (line[: m.start()], line[m.start() :]) if m else (line, "")
            if p.endswith(".rt"):
                head = code.sub(lambda m: m[0] if m[0].startswith('"') else turned(m), head)
            else:
                head = WORD.sub(turned, head)
            lines.append(head + re.sub(f"[^`{APART}]+", in_comment, tail))
        t2 = "\n".join(lines)
        if t2 != read(p):
            with open(p, "w", encoding="utf-8") as f:
                f.write(t2)
    for old, new in new_names.items():
        print(f"{old}\t{new}")


main()
