#!/usr/bin/env python3
"""Turns the names that this repository gives to definitions and lemmas to today's spelling.

usage: tools/respell.py [--map]      at the top, once, right after the toolchain's port.py; nothing has to be proved

Words are in snake case and types in camel case: `convert-svg` becomes `convert_svg`, `Svg-clips` becomes `SvgClips`.
First the toolchain says which labels it makes for proofs (`rt names`), and its own script spells those as the source does.
Then each name that is declared in specs/ or proofs/ (definitions, lemmas, fields, variants, locals) is turned wherever it stands:
there, in the clauses and ghost lines of src/, and in the edits that must fail. Names of functions, of labels and of the
library stay. A name whose new spelling is taken, so that two names would fall together, is printed and left.
"""
import collections
import glob
import json
import os
import re
import subprocess
import sys
import tempfile

KEEP_NAMES = "notes/2026-11-18-source-names-keep-their-spelling/keep_names.py"
WORD = r"[^\s(){}.;,@\"«»\[\]\\:|]+"
TOKEN = re.compile(r"--[^\n]*|\"(?:[^\"\\]|\\.)*\"|//[^\n]*|'[^'\n]'|[^\s(){}.;,@\"«»\[\]\\|]+|.", re.S)
HEADS = [  # what stands before or around a name where it is declared
    r"(?m)^[ ]*(?:abbrev |unfoldable )?(?:pub )?(?:abbrev |unfoldable )?(?:record |data )?(%s)(?= (?:\{[^}]*\} |\([^)]*\) )*: )",
    r"(?m)^[ ]*(?:abbrev |unfoldable )?(?:pub )?(?:record|data) (%s)",
    r"(?:let|,|λ|\() *(%s)(?= (?:=|:) )",
    r"module (%s)",
]
GHOST = r"(?m)^[^\n]*\b(?:ensures|requires|ghost)\b[^\n]*(?:\n[^\n]*)*?\}"
CAMEL = {  # capitals within a word
    "getD-mapped": "get_or_mapped",
    **{stem + end: f"{stem}_{end.lower()}" for stem in ("par", "lev", "first", "last", "next") for end in "SNPL"},
}
OF_A_PROOF = ("c", "l", "goal", "given", "w")  # what labels are read from


def read(path):
    with open(path, encoding="utf-8") as it:
        return it.read()


def snake(name):
    return "".join(it[:1].upper() + it[1:] for it in name.split("-")) if name[0].isupper() else name.replace("-", "_")


def texts(of):
    if isinstance(of, str):
        return [of]
    parts = [*of, *of.values()] if isinstance(of, dict) else of if isinstance(of, list) else []
    return [it for part in parts for it in texts(part)]


def kit():
    start = subprocess.run(["rt", "doc"], capture_output=True, text=True, check=True).stdout.split()[0]
    return os.path.dirname(start)


def spell_labels(names):
    """Asks the toolchain for the labels that it makes of each crate, and has them written as the source spells them."""
    subprocess.run(["rt", "names", names], check=True, stdout=subprocess.DEVNULL)
    labels = {}
    for path in glob.glob(names + "/crates/*/names.json"):
        crate = path.split("/")[-2]
        labels[crate] = {word for text in texts(json.load(open(path))) for word in re.findall(WORD, text)}
        keep = os.path.join(kit(), "port", KEEP_NAMES)
        subprocess.run([sys.executable, keep, path, "crates/" + crate], check=True, stdout=subprocess.DEVNULL)
    return labels


def declared(files):
    """Returns the crates of each name with a dash, those of each name without one, and the fields of records."""
    dashed, others, fields = collections.defaultdict(set), collections.defaultdict(set), set()
    for path in files:
        crate, text = path.split("/")[1], re.sub(r"--[^\n]*", "", read(path))
        heads = [name for head in HEADS for name in re.findall(head % WORD, text)]
        heads += [name for names in re.findall(r"λ ([^.]*)\.", text) for name in re.findall(WORD, names)]
        heads += [name for names in re.findall(r"[({]([^(){}:]*) : ", text) for name in re.findall(WORD, names)]
        for name in heads:
            of = dashed if "-" in name and re.fullmatch(r"[A-Za-z][\w'-]*", name) else others
            of[name].add(crate)
        for block in re.findall(r"record [^\n]*where\n((?:[ ]+[^\n]*\n)+)|record \{([^{}]*)\}", text):
            for name in re.findall(r"(?:pub )?(%s) : " % WORD, block[0] + block[1]):
                if "-" in name:
                    fields.add(name)
                    dashed[name].add(crate)
    for path in files:  # an answer is declared under the name of its goal, which is no name of ours
        text = read(path)
        for name in re.findall(r"(?m)^(?:abbrev )?(?:pub )?(%s) : (?:goal|given)\." % WORD, text) + re.findall(r"\bgoal\.(%s)" % WORD, text):
            dashed.pop(name, None)
    return dashed, others, fields


def from_libraries(paths):
    """Returns the names that some file takes from a library of the toolchain."""
    crates, names = {path.split("/")[1] for path in paths}, set()
    for path in paths:
        for module, listed in re.findall(r"(?m)^(?:pub )?(?:ghost )?use (\S+?)\.\{([^}]*)\}", read(path)):
            parts = module.split(".")
            if not (parts[0] == "Rattle" and len(parts) > 1 and parts[1] in crates):
                names.update(it.split(" as ")[0].strip() for it in listed.split(","))
    return names


def turns(dashed, others, taken):
    """Returns the new spelling of each name, and why a name stays."""
    turn, left, alike = {}, {}, collections.defaultdict(set)
    for name in dashed:
        alike[snake(name)].add(name)
    of_std = set()
    for part in ("specs/Prelude.antt", "proofs/Common.antt"):
        of_std |= set(re.findall(WORD, read(f"{kit()}/rattle/std/{part}")))
    for name in dashed:
        new = snake(name)
        if name in taken:
            left[name] = "a library has it too"
        elif len(alike[new]) > 1:
            left[name] = "falls together with " + ", ".join(sorted(alike[new] - {name}))
        elif new in others:
            left[name] = "taken in " + ", ".join(sorted(others[new]))
        elif new in of_std:
            left[name] = "a word of std"
        else:
            turn[name] = new
    return turn, left


def turned(text, labels, turn, fields):
    out, tokens = [], TOKEN.findall(text)
    for at, token in enumerate(tokens):
        if token.startswith(("--", "//")):
            token = re.sub(r"`(%s)`" % WORD, lambda it: "`" + turn.get(it[1], it[1]) + "`", token)
        elif token in turn:
            chain = re.search(r"(?:[\w'-]+\.)+\Z", "".join(tokens[max(0, at - 12) : at]))
            is_a_label = chain and token not in fields and (chain[0].split(".")[0] in OF_A_PROOF or token in labels)
            token = token if is_a_label else turn[token]
        out.append(token)
    return "".join(out)


def main():
    below = lambda part, end: glob.glob(f"crates/*/{part}/**/*{end}", recursive=True)
    with tempfile.TemporaryDirectory() as names:
        labels = spell_labels(names)
    files = sorted(below("specs", ".antt") + below("proofs", ".antt"))
    sources, edits = sorted(below("src", ".rt")), sorted(below("must-fail", ".edit"))
    dashed, others, fields = declared(files)
    turn, left = turns(dashed, others, from_libraries(files + sources))
    turn.update(CAMEL)
    count = 0
    for path in files + sources + edits:
        old, crate = read(path), labels[path.split("/")[1]]
        one = lambda text: turned(text, crate, turn, fields)
        if path.endswith(".rt"):
            new = re.sub(GHOST, lambda it: one(it[0]), old)
        elif path.endswith(".edit"):
            new = "\n".join(one(it) if it.startswith(("old:", "new:")) else it for it in old.split("\n"))
        else:
            new = one(old)
        if new != old:
            count += 1
            with open(path, "w", encoding="utf-8") as it:
                it.write(new)
    print(f"{len(turn)} names turned in {count} files, {len(left)} left")
    for name in sorted(left):
        print(f"left: {name}, {left[name]}")
    if "--map" in sys.argv:
        for name in sorted(turn):
            print(f"{name} -> {turn[name]}")


if __name__ == "__main__":
    main()
