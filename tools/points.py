# Counts the places of docs/DESIGN-PASS.md in the code of all crates: run at the top of a checkout, it prints each point with its places.
#   python3 tools/points.py          the counts
#   python3 tools/points.py list     and each place
import collections
import pathlib
import re
import sys

NOT_SO = {"Refused", "No", "Bad", "None", "Nothing", "Stops", "Wrong", "Not", "Other"}


def code():
    """Each source file without its comments, clauses of contracts and character literals."""
    for path in sorted(pathlib.Path("crates").glob("*/src/**/*.rt")):
        text = re.sub(r"//[^\n]*", "", path.read_text())
        text = re.sub(r"^ghost use[^;]*;", "", text, flags=re.M)
        yield path, re.sub(r"^\s*(requires|ensures)\b[^\n]*\n(\s+[×→≡][^\n]*\n)*", "", text, flags=re.M)


def functions(text):
    """The name, parameters and body of each function."""
    for m in re.finditer(r"\bfn (\w+)(?:<[^>]*>)?\(", text):
        at, depth = m.end(), 1
        while depth:
            depth += {"(": 1, ")": -1}.get(text[at], 0)
            at += 1
        start = text.find("{", at)
        end, depth = start + 1, 1
        while depth and end < len(text):
            depth += {"{": 1, "}": -1}.get(text[end], 0)
            end += 1
        parameters = [p.strip() for p in re.split(r",(?![^<\[(]*[>\])])", text[m.end() : at - 1]) if p.strip()]
        yield m.group(1), parameters, text[start:end]


def shape(parameters, body):
    """A function's tokens, names and numbers alike."""
    words = re.findall(r"\w+|[^\w\s]", body)
    keep = {"if", "else", "for", "while", "match", "return", "let", "mut", "in"}
    return len(words), " ".join(w if w in keep or not w[0].isalnum() else "_" for w in words) + str(len(parameters))


def main():
    found = collections.defaultdict(list)
    shapes = collections.defaultdict(list)
    for path, text in code():
        def add(point, what):
            found[point].append(f"{path}: {what}")
        for kind, name, inner in re.findall(r"\b(enum|struct) (\w+)(?:<[^>]*>)? \{(.*?)\n\}", text, re.S):
            variants = set(re.findall(r"^\s*(\w+)\b(?=[,({ ])", inner, re.M))
            if kind == "enum" and variants & NOT_SO:
                add("1 own enums, one variant of which says no or nothing", name)
            if kind == "struct" and re.search(r": (bool|Reply),", inner):
                add("1 structs with a flag beside a value", name)
        for m in re.findall(r"if let \w+::(?:No|Refused|Bad)\(|if \w\.clash|let \w+::\w+\(\w+\) = \w+ else", text):
            add("1 answers handed on by hand", m)
        for name in re.findall(r"^pub const ([A-Z_]+): (?:u8|u32|usize) = \d+;", text, re.M):
            add("1 constants with a number", name)
        for m in re.findall(r"\bfor \w+ in [^{]*\.\.[^{]*\{|\bwhile [^{]*\{|\bloop \{", text):
            add("3 loops that count or go on by hand", m.strip("{ "))
        for m in re.findall(r"\bas (?:u8|u16|u32|u64|usize)\b", text):
            add("4 conversions by `as`", m)
        for name, parameters, body in functions(text):
            if len(parameters) > 7:
                add("5 functions of more than seven parameters", f"{name} {len(parameters)}")
            if any(re.match(r"variables: &(mut )?\[", p) for p in parameters) and any(p.startswith("marks:") for p in parameters):
                add("6 functions that take variables and marks as two arrays", name)
            for p in parameters:
                if p.endswith(": bool"):
                    add("7 parameters that choose what is done", f"{name} {p}")
            long, key = shape(parameters, body)
            if long > 25:
                shapes[key].append(f"{path}: {name}")
    for group in shapes.values():
        if len(group) > 1:
            found["2 functions of one shape"].append(" = ".join(group))
    for point in sorted(found):
        print(len(found[point]), point)
        if sys.argv[1:] == ["list"]:
            print(*("    " + place for place in found[point]), sep="\n")


main()
