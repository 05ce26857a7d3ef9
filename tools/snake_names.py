#!/usr/bin/env python3
"""Spells the names of this repository's definitions and lemmas as Rattle does: words in snake case, types in camel case.

Run once at the top of the repository, after port.py. Names that the check makes (steps and goals in proofs/F/) and names of the
library keep their hyphens; text in quotes and comments is left alone. Functions of src/ have no hyphens and are not touched.
"""
import glob
import re

NAME = re.compile(r"[A-Za-z][\w']*(?:-[\w']+)+")
IMPORT = re.compile(r"use ([\w.+-]+)\.\{([^}]*)\}")
# a name whose plain spelling is that of a variant beside it
APART = {"Holds-none": "HoldsNothing"}
QUOTED = re.compile(r'"(?:[^"\\]|\\.)*"')


def spelled(name):
    if name in APART:
        return APART[name]
    parts = name.split("-")
    if name[0].isupper():
        return "".join(p[0].upper() + p[1:] for p in parts)
    return "_".join(parts)


def code_and_comment(line, mark):
    found = re.search(r"(^|\s)" + re.escape(mark) + r"(\s|$)", line)
    return (line[: found.start()], line[found.start() :]) if found else (line, "")


def in_code(line, mark, change):
    code, comment = code_and_comment(line, mark)
    out, at = "", 0
    for quoted in QUOTED.finditer(code):
        out += change(code[at : quoted.start()]) + quoted.group(0)
        at = quoted.end()
    return out + change(code[at:]) + comment


def main():
    crates = [l.split(":")[0].split()[0] for l in open("crates.txt") if ":" in l and not l.startswith("#")]
    specs = glob.glob("crates/*/specs/**/*.antt", recursive=True)
    proofs = glob.glob("crates/*/proofs/**/*.antt", recursive=True)
    lemmas = [p for p in proofs if p.count("/") == 3]
    answers = [p for p in proofs if p.count("/") > 3]
    library, own = set(), set()
    for path in specs + proofs:
        for found in IMPORT.finditer(open(path).read()):
            root = found.group(1).split(".")
            if root[0] == "Rattle" and root[1] in crates:
                continue
            library |= {n.split(" as ")[0].strip() for n in found.group(2).split(",")}
    for path in specs + lemmas:
        for line in open(path):
            in_code(line, "--", lambda code: own.update(NAME.findall(code)) or code)
    own -= library

    def change(code, made=False):
        def one(found):
            before = code[: found.start()]
            if found.group(0) not in own or made and re.search(r"\b(c|l|w|g|goal)\.$", before):
                return found.group(0)
            return spelled(found.group(0))

        return NAME.sub(one, code)

    def rewrite(path, mark, made=False):
        text = open(path, newline="").read()
        new = "\n".join(in_code(l, mark, lambda code: change(code, made)) for l in text.split("\n"))
        if new != text:
            open(path, "w", newline="").write(new)

    for path in specs + lemmas:
        rewrite(path, "--")
    for path in answers:
        rewrite(path, "--", made=True)
    for path in glob.glob("crates/*/src/**/*.rt", recursive=True) + glob.glob("crates/*/must-fail/*.edit"):
        rewrite(path, "//")
    for path in ["README.md"] + glob.glob("docs/*.md"):
        text = open(path).read()
        new = re.sub(r"`[^`\n]*`", lambda found: change(found.group(0)), text)
        if new != text:
            open(path, "w").write(new)


main()
