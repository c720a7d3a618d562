#!/usr/bin/env python3
"""Lists the places in src/ that an older form of the language may have left, by the points of docs/DESIGN-PASS.md.

    python3 tools/places.py [COMMIT]

Without a commit it reads the checkout. A pattern finds lines, and not all of them are places: the page says which are.
"""
import re
import subprocess
import sys

PATTERNS = [
    (1, "an enum's case that refuses", r"^\s+Refused\("),
    (1, "a refusal as an Option", r"-> Option<(Refusal|SinkFault)>"),
    (1, "done or not as a bool", r"fn .*&mut .*\).* -> bool"),
    (1, "a flag in a struct or a variant", r"^\s+(pub )?\w+: bool,$"),
    (1, "a flag as a parameter", r"\bfn .*\(.*\w+: bool"),
    (1, "a number that says nothing", r"-> u8$"),
    (1, "0 for no node", r"^\s+pub (first_child|last_child|next_sibling|parent): NodeId,"),
    (1, "an Option or a Result taken apart case by case", r"^\s+(None|Err\(\w+\)) => "),
    (3, "a counted range", r"\bfor \w+ in .*\.\."),
    (3, "an index beside an item", r"\.enumerate\(\)"),
    (3, "a count kept by hand", r"(\+= 1;|saturating_add\(1\))"),
    (3, "a loop with a condition", r"^\s*(while|loop)\b"),
    (4, "a default by a function of its own", r"\bfn (default|blank)\(\)"),
    (4, "a conversion by a function of its own", r"\bfn (index|refusal|bits_of|float_of|as_\w+|(un)?pack\w*|\w+_(of|told|text|words))\("),
    (4, "equality case by case", r"(matches!\(|=> true,|_ => false,|\bfn same_)"),
    (4, "a text by a function of its own", r"-> &'static str"),
    (4, "digits one by one", r"last_digit\(n"),
    (6, "a Vec, an array or a count in a struct", r"^\s+(pub )?\w+: (Vec<|\[|usize,)"),
    (7, "a switch on how to write", r"match \(?(self\.)?style"),
    (7, "a table of functions", r"(\bdyn |\bfn\(\w)"),
]

WORDS = {
    "fn", "let", "mut", "if", "else", "match", "for", "in", "while", "return", "self", "Self", "true", "false", "pub", "crate",
    "Some", "None", "Ok", "Err", "bool", "as", "impl", "where",
}


def read(commit):
    """The files of src/ and their texts."""
    if commit is None:
        names = subprocess.run(["git", "ls-files", "-co", "--exclude-standard", "crates"], capture_output=True, text=True, check=True).stdout.split("\n")
    else:
        names = subprocess.run(["git", "ls-tree", "-r", "--name-only", commit, "crates"], capture_output=True, text=True, check=True).stdout.split("\n")
    for name in sorted(names):
        if not re.match(r"crates/\w+/src/.*\.rt$", name):
            continue
        if commit is None:
            yield name, open(name, encoding="utf-8").read()
        else:
            yield name, subprocess.run(["git", "show", f"{commit}:{name}"], capture_output=True, text=True, check=True).stdout


def functions(text):
    """Each function: the number of its line, its head, its clauses and its body."""
    for found in re.finditer(r"^[ \t]*(pub(\(crate\))? )?fn (\w+)", text, re.M):
        start = found.start()
        rest = text[start:]
        brace = re.search(r"^[ \t]*\{[ \t]*\n|\{\n", rest, re.M)
        semicolon = re.search(r"\}?;\n", rest)
        if brace is None or (semicolon is not None and semicolon.start() < brace.start() and "\n{" not in rest[: semicolon.start()]):
            continue
        depth, end = 0, len(rest)
        for at in range(brace.end() - 2, len(rest)):
            depth += {"{": 1, "}": -1}.get(rest[at], 0)
            if depth == 0 and at >= brace.end() - 1:
                end = at
                break
        before = rest[: brace.start()]
        clauses = re.findall(r"^\s*(?:requires|ensures)\b.*$", before, re.M)
        head = re.split(r"\n\s*(?:requires|ensures)\b", before)[0]
        yield text.count("\n", 0, start) + 1, found.group(3), head, clauses, rest[brace.end(): end]


def shape(head, body):
    """The words of a function without its names, types and constants."""
    out = []
    for word in re.findall(r"\"[^\"]*\"|[A-Za-z_]\w*|\d[\w.]*|\S", head + " { " + body):
        if re.match(r"[A-Za-z_]", word) and word not in WORDS:
            out.append("T" if word[0].isupper() or word in ("f32", "u8", "u16", "u32", "usize") else "v")
        elif word[0].isdigit():
            out.append("0")
        elif word[0] == '"':
            out.append("s")
        else:
            out.append(word)
    return " ".join(out)


def main():
    commit = sys.argv[1] if len(sys.argv) > 1 else None
    files = [(name, text) for name, text in read(commit) if "_tests/" not in name]
    files = [(name, text.split("#[cfg(test)]\nmod tests {")[0]) for name, text in files]

    def show(point, what, places):
        print(f"{point}  {len(places):3}  {what}")
        for place in places:
            print(f"          {place}")

    for point, what, pattern in [p for p in PATTERNS if p[0] == 1]:
        show(point, what, [f"{n}:{i}: {l.strip()}" for n, t in files for i, l in enumerate(t.split("\n"), 1) if re.search(pattern, l)])

    twins, parameters, facts = {}, {}, {}
    for name, text in files:
        for line, function, head, clauses, body in functions(text):
            if len(body.split()) > 3:
                twins.setdefault(shape(head, body), []).append(f"{name}:{line}: {function}")
            told = re.findall(r"\b(\w+): (&?(?:mut )?[\w<>, \[\]()]+?)(?=,\s|\)|,$)", head.replace("\n", " "))
            told = sorted(set(told))
            for i, a in enumerate(told):
                for b in told[i + 1:]:
                    parameters.setdefault((a, b), []).append(f"{name}:{line}: {function}")
            for clause in clauses:
                fact = re.sub(r"^\s*(requires|ensures)\s*\w*\s*", "", clause)
                fact = re.sub(r"\b(self|result|[a-z]\w*)(\.(now|old|new|entry|self|rest))*\b(?=[ )}])", "x", fact)
                facts.setdefault(fact, []).append(f"{name}:{line}: {function}")
    show(2, "functions of one shape", [" = ".join(p) for p in twins.values() if len(p) > 1])
    for point, what, pattern in [p for p in PATTERNS if p[0] in (3, 4)]:
        show(point, what, [f"{n}:{i}: {l.strip()}" for n, t in files for i, l in enumerate(t.split("\n"), 1) if re.search(pattern, l)])
    show(5, "parameters together in three functions or more", [f"{a[0]}: {a[1]}, {b[0]}: {b[1]}  ({len(p)})" for (a, b), p in sorted(parameters.items()) if len(p) > 2])
    show(5, "a clause of one shape in three functions or more", [f"{fact}  ({len(p)})" for fact, p in sorted(facts.items()) if len(p) > 2 and "≡ x x" not in fact and not re.match(r"^\{ x ≡ x[ x]* \}$", fact)])
    for point, what, pattern in [p for p in PATTERNS if p[0] in (6, 7)]:
        show(point, what, [f"{n}:{i}: {l.strip()}" for n, t in files for i, l in enumerate(t.split("\n"), 1) if re.search(pattern, l)])


main()
