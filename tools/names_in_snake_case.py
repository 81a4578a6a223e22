#!/usr/bin/env python3
"""Spells this repository's own names as Rattle's library does: words in snake case, `'` for `′`.

usage: names_in_snake_case.py [--list] FOLDER

FOLDER is the top of a checkout that the kit's port.py has been through. Each lower-case name with a capital or a dash that a file of specs/ or proofs/ declares
(a definition, a lemma, a record's field, a variant, a binder) is spelled anew, in those files, in the clauses and ghost items of src/ and in the texts of must-fail edits.
What a file imports from a library, and what Rattle itself names (behind `tie.`), stays. OTHER has the names for which the plain new spelling is taken.
--list writes nothing: it prints the names, and those that would fall together.
"""

import collections
import os
import re
import sys

WORD = r"""[^\s(){}.;,@"«»]+"""
TOKEN = re.compile(WORD)
DECLARED = re.compile(r"(?m)^[ ]*(?:abbrev |unfoldable )?(?:pub )?(?:abbrev |unfoldable )?(" + WORD + r")(?: \{[^{}\n]*\})* :(?=\s)")
BOUND = re.compile(r"[({]((?:" + WORD + r" )+):(?=\s)|λ ([^.\n]+)\.|\blet (" + WORD + r")(?: :| =)|\bwhere (" + WORD + r") :| as (" + WORD + r")$|^ *(?:pub )?(?:data|record) (" + WORD + ")", re.M)
CLAUSES = re.compile(r"(?:requires|ensures)\s*\*?\s*(?:\w+\s*)?\{|ghost\s*(?:\w+\s*(?::\s*(?:(?:owns|lends)\s*)?|=\s*))?\{")
GHOST_USE = re.compile(r"ghost\s+use\b[^;]*;")
USE = re.compile(r"\buse ([^\s;{]+)\.\{([^}]*)\}")
LIBRARY = re.compile(r"^(?:Prim|mathlib|lib|native|borrow|denote|contract|types|mir|prog|seplogic|Rattle\.std)\b")
# The names whose new spelling means something else already, and what they are called instead.
OTHER = {
    "keyLen": "key_length",
    "keyStart": "key_offset",
    "capital-n": "as_capital_n",
    "small_n": "as_small_n",
    "too_long": "when_too_long",
    "no_room": "when_no_room",
    "no-text-room": "when_no_text_room",
    "value-of": "value_of_place",
}
# The laws that would be called as the definition that they speak of.
HOLDS = """
across-the-cut any-case-or-order as-repository at-the-cut bad-numbers begin-line broken-components broken-parents broken-properties broken-rows by-table-rule
by-writing-rule by_key by_length char-front component-fits end_line first-child fit-parameter front_of has-break ill-formed in_order just_enough lines_after
neighbours-refused neighbours-with-properties no-parent one-parameter one-pass opens-after other-multiset other-shape own-parameters own-property own-text
parameter-fits parameter-rows parent-fits plain_lines property-fits property-line property-lines property-of put-rows refused-as-repository refused-strictly
same-parameters stray-byte to-break too_short unwritable-names unwritable-values value_len with-accents
""".split()
OTHER.update((n, n.replace("-", "_") + "_holds") for n in HOLDS)
# Two of them are called as a function or a field is, so that they turn only where they are declared.
ONLY = {
    "in_order": ("demands/proofs/InOrder.antt", "walking/proofs/Examples.antt"),
    "value_len": ("parameters/proofs/Laws.antt",),
}
QUIET = re.compile(r'"(?:[^"\\\n]|\\.)*"|(?<![^\s(){}.;,@"«»])--[^\n]*')
SPAN = re.compile(r"`[^`\n]*`")


def snake(name):
    """A word in snake case, a type in camel case."""
    if name in OTHER:
        return OTHER[name]
    if name[0].isupper():
        return re.sub(r"-(\w)", lambda m: m[1].upper(), name)
    return re.sub(r"(?<=[a-z0-9])[A-Z]", lambda m: "_" + m[0].lower(), name).replace("-", "_").replace("′", "'")


def ours(name):
    return name in OTHER or bool(re.fullmatch(r"[a-z][\w'₀-₉-]*[A-Z-][\w'₀-₉-]*|[A-Z]\w*-[\w'₀-₉-]*", name))


def files(top, *endings):
    for folder, dirs, names in os.walk(os.path.join(top, "crates")):
        dirs[:] = sorted(d for d in dirs if d != "out")
        for n in sorted(names):
            if n.endswith(endings):
                yield os.path.join(folder, n)


def text(path):
    with open(path, encoding="utf-8", newline="") as f:
        return f.read()


def bare(t):
    return re.sub(r"(?m)--.*$", "", t)


def declared(top):
    names = collections.defaultdict(set)
    for p in files(top, ".antt"):
        t = bare(text(p))
        for m in DECLARED.finditer(t):
            names[m[1]].add(p)
        for m in BOUND.finditer(t):
            for n in TOKEN.findall(" ".join(g for g in m.groups() if g)):
                names[n].add(p)
    return {n: ps for n, ps in names.items() if ours(n)}


def lent(t):
    """What a file has from a library, which keeps its spelling."""
    return {n for m in USE.finditer(t) if LIBRARY.match(m[1]) for n in TOKEN.findall(m[2].replace(" as ", " "))}


def turned(t, names, keep):
    def one(m):
        n = m[0]
        before = t[: m.start()][-5:]
        if n not in names or n in keep or before.endswith(("tie.", "goal.")):
            return n
        if n in HOLDS and before.endswith("."):
            return n.replace("-", "_")
        return snake(n)

    def plain(a, b):
        parts, at = [], a
        for m in TOKEN.finditer(t, a, b):
            parts += [t[at : m.start()], one(m)]
            at = m.end()
        return "".join(parts) + t[at:b]

    out, at = [], 0
    for q in QUIET.finditer(t):
        out.append(plain(at, q.start()))
        out.append(q[0] if q[0].startswith('"') else SPAN.sub(lambda m: turned_span(m[0], names, keep), q[0]))
        at = q.end()
    out.append(plain(at, len(t)))
    return "".join(out)


def turned_span(t, names, keep):
    return TOKEN.sub(lambda m: re.sub(r"^(`?)(.*?)(`?)$", lambda k: k[1] + (snake(k[2]) if k[2] in names and k[2] not in keep else k[2]) + k[3], m[0]), t)


def closing(t, i):
    depth = 0
    for j in range(i, len(t)):
        depth += (t[j] == "{") - (t[j] == "}")
        if depth == 0:
            return j + 1
    return len(t)


def turned_source(t, names, keep):
    out, at = [], 0
    while True:
        found = [m for m in (CLAUSES.search(t, at), GHOST_USE.search(t, at)) if m]
        if not found:
            return "".join(out) + t[at:]
        m = min(found, key=lambda m: m.start())
        end = m.end() if m.re is GHOST_USE else closing(t, m.end() - 1)
        begin = m.start() if m.re is GHOST_USE else m.end() - 1
        out += [t[at:begin], turned(t[begin:end], names, keep)]
        at = end


def main(args):
    top = args[-1]
    names = declared(top)
    if "--list" in args:
        return listed(top, names)
    for p in files(top, ".antt", ".rt", ".edit"):
        old = text(p)
        keep = lent(old) | {n for n, at in ONLY.items() if not p.endswith(at)}
        new = (turned_source if p.endswith(".rt") else turned_edit if p.endswith(".edit") else turned)(old, names, keep)
        if new != old:
            with open(p, "w", encoding="utf-8", newline="") as f:
                f.write(new)
    return 0


def turned_edit(t, names, keep):
    """An edit of a .rt file holds clauses or code, and one of an .antt file antt; its first lines say which."""
    if re.search(r"(?m)^file: .*\.antt$", t):
        return turned(t, names, keep)
    camel = {n: s for n, s in names.items() if re.search(r"[a-z0-9][A-Z]", n)}
    return turned(t, camel, keep)


def listed(top, names):
    taken = collections.defaultdict(set)
    for p in files(top, ".antt"):
        for n in set(TOKEN.findall(bare(text(p)))):
            taken[n].add(p)
    source = collections.defaultdict(set)
    for p in files(top, ".rt"):
        for n in set(re.findall(r"\w+", text(p))):
            source[n].add(p)
    news = collections.defaultdict(set)
    for n in names:
        news[snake(n)].add(n)
    for new, olds in sorted(news.items()):
        both = set.union(*(taken[o] for o in olds)) & taken.get(new, set())
        if len(olds) > 1 or both:
            print("together:", new, sorted(olds), [p.split("crates/")[1] for p in sorted(both)][:4])
        used = {p for o in olds for p in source.get(o, set())}
        if used & source.get(new, set()):
            print("source:", new, sorted(olds), [p.split("crates/")[1] for p in used & source[new]])
    print(len(names), "names")
    return 0


if __name__ == "__main__":
    sys.exit(main(sys.argv[1:]))
