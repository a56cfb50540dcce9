#!/usr/bin/env python3
"""Brings the repository's own definitions and lemmas to today's spelling: words in snake case, a prime as an apostrophe.

usage: python3 tools/spell.py            at the top, once, after port.py of the kit
       python3 tools/spell.py --check    prints the names that would fall together, and writes nothing

    tripleCountOf, no-further, write′  ->  triple_count_of, no_further, write'

A name is turned that a file of specs/ or proofs/ declares, wherever it stands as a whole name: in specs/, proofs/, in the clauses
of src/, in must-fail/ and between backticks in the pages. Types and facts, which begin with a capital, stay, and so do names that
Rattle makes (KEPT).
"""

import collections
import glob
import re
import sys

CHARS = r"[^\s(){}\[\].;,@\"«»◌`]"
TOKEN = re.compile(r"--[^\n]*|\"(?:[^\"\\]|\\.)*\"|" + CHARS + "+")
MODIFIERS = r"(?:(?:abbrev|unfoldable|pub|ruleset)\s+)*(?:(?:data|record)\s+)?"
DECLARED = re.compile(r"\s*" + MODIFIERS + r"((?:" + CHARS + r"+[ ]+)*" + CHARS + r"+)\s*(?:\{[^}]*\}\s*|\([^)]*\)\s*)*:(?:\s|$)")
# What Rattle makes in proofs/F, under an older spelling too.
KEPT = re.compile(r"(returns|loop|invariant|decreases|Need|After|At|In|Then|Else|Start|overflow|add|sub|mul|cast|part|bounds|element|array|slice)(-.*)?$|.*-(spec|requires|requires-\d+|init|preserved|smaller)$|goal|tie")
# A lemma that the first script already spelled as a definition that it names.
IN_FILES = {
    ("file_calls/proofs", "all_pass"): "all_pass_lem",
    ("formula_text/proofs", "found_in"): "found_in_lem",
    ("search_fanout/proofs/Letters", "letter_at"): "letter_at_lem",
}


def turned(name):
    s = name.replace("′", "'").replace("-", "_")
    s = re.sub(r"(?<=[a-z0-9])([A-Z])", lambda m: "_" + m.group(1).lower(), s)
    return s


def old_spelling(name):
    return not name[0].isupper() and ("-" in name[1:-1] or "′" in name or re.search(r"[a-z0-9][A-Z]", name)) and re.search(r"[a-z]", name) and re.fullmatch(r"[\w'′-]+", name)


def antt():
    return sorted(glob.glob("crates/*/specs/**/*.antt", recursive=True) + glob.glob("crates/*/proofs/**/*.antt", recursive=True))


def declared():
    out = collections.defaultdict(set)
    for f in antt():
        for line in open(f, encoding="utf-8"):
            if line.startswith("--") or line.lstrip().startswith("use "):
                continue
            m = DECLARED.match(line)
            for w in m.group(1).split() if m else ():
                out[w].add(f)
    return out


def read(path):
    with open(path, encoding="utf-8") as it:
        return it.read()


def main():
    names = declared()
    table = {n: turned(n) for n, files in names.items() if old_spelling(n) and not (KEPT.fullmatch(n) and all(re.search(r"/proofs/.*/", f) for f in files))}
    table = {a: b for a, b in table.items() if a != b}
    by_new = collections.defaultdict(set)
    for a, b in table.items():
        by_new[b].add(a)
    words = collections.Counter()
    where = collections.defaultdict(set)
    for f in antt():
        for w in TOKEN.findall(read(f)):
            if w not in table:
                where[w].add(f)
    # A lemma that would have its definition's name gets _lem.
    for b, olds in by_new.items():
        for a in olds:
            if "-" in a and (len(olds) > 1 or b in names or where[b] & antt_of(a)):
                table[a] = b + "_lem"
    by_new = collections.defaultdict(set)
    for a, b in table.items():
        by_new[b].add(a)
    clash = 0
    for b, olds in sorted(by_new.items()):
        if len(olds) > 1:
            print("together:", b, sorted(olds))
            clash += 1
        if b in names or b in where:
            both = where[b] & set().union(*({f for f in antt_of(a)} for a in olds))
            if b in names or both:
                print("taken:", b, sorted(olds), "declared in", sorted(names.get(b, []))[:2], "both in", sorted(both)[:3])
                clash += 1
    print(len(table), "names,", clash, "clashes", file=sys.stderr)
    if "--check" in sys.argv:
        return
    def name(m):
        new = table.get(m.group(), m.group())
        # A step of a proof that is named after a function, and no lemma.
        if new.endswith("_lem") and m.string[m.start() - 1 : m.start()] == ".":
            new = new[:-4]
        return new

    turn = lambda text: TOKEN.sub(name, text)
    comment = lambda text: re.sub(r"`[^`\n]+`", lambda m: turn(m.group()), text)
    for f in antt():
        text = read(f)
        for (place, a), b in IN_FILES.items():
            if place in f and "proofs/" + a not in f:
                text = re.sub(r"(?<![\w'.-])" + a + r"(?![\w'-])", b, text)
        new = TOKEN.sub(lambda m: comment(m.group()) if m.group().startswith("--") else name(m), text)
        if new != read(f):
            open(f, "w", encoding="utf-8").write(new)
    for f in sorted(glob.glob("crates/*/src/**/*.rt", recursive=True) + glob.glob("crates/*/must-fail/*.edit")):
        out = []
        for line in read(f).split("\n"):
            # a clause or an import, never code
            if re.search(r"\bghost use\b|\b(requires|ensures)\b.*\{|^\s*[^/]*(⌜|≡|→|×|λ|◌)", line) or (f.endswith(".edit") and "specs/" in read(f)):
                line = turn(line)
            else:
                line = comment(line)
            out.append(line)
        if "\n".join(out) != read(f):
            open(f, "w", encoding="utf-8").write("\n".join(out))
    # In the pages, and in comments, also a name that the first script turned.
    known = declared()
    page = lambda text: re.sub(r"`[^`\n]+`", lambda m: TOKEN.sub(lambda w: table.get(w.group()) or (turned(w.group()) if old_spelling(w.group()) and turned(w.group()) in known else w.group()), m.group()), text)
    for f in ["README.md", *sorted(glob.glob("docs/**/*.md", recursive=True))]:
        text = read(f)
        if page(text) != text:
            open(f, "w", encoding="utf-8").write(page(text))


_seen = {}


def antt_of(name):
    if not _seen:
        for f in antt():
            for w in TOKEN.findall(read(f)):
                _seen.setdefault(w, set()).add(f)
    return _seen.get(name, set())


if __name__ == "__main__":
    main()
