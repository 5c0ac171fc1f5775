#!/usr/bin/env python3
"""Brings the repository's own names in antt to today's spelling, once, right after port.py.

usage: tools/respell.py [--dry]     at the top of the repository

- A definition, lemma, field, constructor or variable written as `someName` becomes `some_name`.
- A definition, lemma or field that a file of specs/ or of proofs/ declares as `some-name` becomes `some_name`. Where another name of the
  repository is spelled so already, the lemma gets `_lem` behind it. A name that the kit's library has too keeps its dash.
Functions and types of src/, exported names, strings, inputs and outputs keep theirs. Names in backticks of README.md and docs/ go along.
"""
import glob
import os
import re
import subprocess
import sys

# the kit's library: beside the page that `rt doc` names
LIB = os.path.join(os.path.dirname(subprocess.run(["rt", "doc"], capture_output=True, text=True, check=True).stdout.strip()), "rattle")
WORD = r"[A-Za-z_\u2115\u2124][A-Za-z0-9_'\-\u2115\u2124\u2080-\u2089]*"
TOKEN = re.compile(r"(?<![A-Za-z0-9_'\u2115-])" + WORD)
DECLARED = re.compile(r"^ *(?:(?:abbrev|unfoldable|pub|private|data|record|ruleset|lem)\s+)*(" + WORD + r")(?:\s+" + WORD + r")*\s*(?:[:({]|$)")


def read(path):
    with open(path, encoding="utf-8") as f:
        return f.read()


def snake(part):
    if not re.match(r"[a-z]", part):
        return part
    part = re.sub(r"([a-z0-9])([A-Z]+)(?=[A-Z][a-z])", lambda m: m.group(1) + "_" + m.group(2).lower(), part)
    return re.sub(r"(?<=[a-z0-9])([A-Z]+)", lambda m: "_" + m.group(1).lower(), part).lower() if re.search(r"[A-Z]", part) else part


def unhumped(token):
    parts = token.split("-")
    return "-".join(snake(p) if re.search(r"[a-z0-9][A-Z]", p) else p for p in parts)


def antt_files():
    return sorted(glob.glob("crates/*/specs/**/*.antt", recursive=True) + glob.glob("crates/*/proofs/**/*.antt", recursive=True))


def code_lines(text):
    for line in text.split("\n"):
        yield line if not line.lstrip().startswith("--") else ""


def declared_names():
    """Names that lemma files and specs declare, with the lines where they do."""
    out = {}
    for path in antt_files():
        if "/proofs/" in path and not re.search(r"/proofs/[A-Z][A-Za-z0-9]*\.antt$", path):
            continue
        for line in code_lines(read(path)):
            m = DECLARED.match(line)
            if m and re.search(r":(?: |$)", line):
                for name in re.match(r"^ *(.*?)\s*(?:[({]|:(?: |$))", line).group(1).split():
                    if re.fullmatch(WORD, name) and name not in ("abbrev", "unfoldable", "pub", "data", "record", "use", "mod", "private", "ruleset"):
                        out.setdefault(name, []).append((path, line))
    return out


def library_names():
    text = []
    for root in ("core", "std", "std_alloc", "std_collections", "std_heap", "std_io", "logic", "antt"):
        for path in glob.glob(os.path.join(LIB, root, "**", "*.antt"), recursive=True):
            text.append(read(path))
    return set(re.findall(r"^ *(?:(?:abbrev|unfoldable|pub|data|record|ruleset)\s+)*(" + WORD + r")", "\n".join(text), re.M))


def mapping():
    tokens = set()
    for path in antt_files():
        for line in code_lines(read(path)):
            tokens.update(TOKEN.findall(line))
    for path in glob.glob("crates/*/src/**/*.rt", recursive=True):
        tokens.update(TOKEN.findall(re.sub(r"//.*", "", read(path))))
    library = library_names()
    declared = declared_names()
    out, clashes = {}, []
    humped = sorted(t for t in tokens if unhumped(t) != t and t not in library)
    for t in humped:
        if "-" in t and t in declared:
            continue
        out[t] = unhumped(t)
        if out[t] in tokens:
            clashes.append((t, out[t]))
    taken = (tokens | set(out.values())) - set(out)
    for t in sorted(declared):
        if "-" not in t or t in library or not re.match(r"[a-z]", t):
            continue
        new = CHOSEN.get(t) or unhumped(t).replace("-", "_")
        if new in taken:
            clashes.append((t, new + "_lem"))
            new += "_lem"
        taken.add(new)
        out[t] = new
    return out, clashes, tokens, library, declared


TERMS = ("svID", "svId", "stNum", "sqNum", "smpCnt", "datSet", "refrTm", "goCBRef", "goCbRef", "smpRate", "confRev", "timeAllowedToLive")
# A field and a local value that would have a definition's name, and are no lemmas.
CHOSEN = {"second-answer": "whole_answer", "with-alert": "noted_verdict"}
# Lemmas and variables that are spelled as a definition will be
LEMMAS = ("numbers_after", "none_found", "place_at", "read_at", "position_from")


def set_apart(text):
    return re.sub(r"(?<![A-Za-z0-9_'.\-\u00ab])(" + "|".join(LEMMAS) + r")(?![A-Za-z0-9_'\-.\u00bb])", r"\1_lem", text)


def turned(text, names):
    return TOKEN.sub(lambda m: names.get(m.group(0), m.group(0)), text)


def turned_note(note, names):
    """A comment: only whole names with a hump, and no term of the standards; in backticks names with a dash too."""
    note = re.sub(r"`[^`\n]+`", lambda m: turned(m.group(0), names), note)
    return TOKEN.sub(lambda m: names.get(m.group(0), m.group(0)) if "-" not in m.group(0) and m.group(0) not in TERMS else m.group(0), note)


def turned_antt(text, names):
    out = []
    for line in text.split("\n"):
        code, mark, note = re.match(r"^(.*?)((?:(?<=\s)|^)--(?=\s|$)|$)(.*)$", line).groups()
        out.append(turned(set_apart(code), names) + mark + turned_note(note, names))
    return "\n".join(out)


def turned_rt(text, names):
    """The text of a .rt file outside strings."""
    out = []
    for line in text.split("\n"):
        code, mark, note = line.partition("//")
        pieces = re.split(r'(b?"(?:[^"\\]|\\.)*")', code)
        code = "".join(p if i % 2 else turned(p, names) for i, p in enumerate(pieces))
        out.append(code + mark + turned_note(note, names))
    return "\n".join(out)


def turned_page(text, names):
    return re.sub(r"`[^`\n]+`", lambda m: turned(m.group(0), names), text)


def main():
    names, clashes, tokens, library, declared = mapping()
    if "--dry" in sys.argv:
        for a, b in sorted(names.items()):
            print(a, b)
        print("clashes:", *("%s -> %s" % c for c in clashes), sep="\n  ")
        return
    def put(path, text):
        old = read(path)
        if old != text:
            with open(path, "w", encoding="utf-8") as f:
                f.write(text)
    for path in antt_files():
        put(path, turned_antt(read(path), names))
    for path in glob.glob("crates/*/src/**/*.rt", recursive=True):
        put(path, turned_rt(read(path), names))
    for path in glob.glob("crates/*/must-fail/*.edit"):
        lines = read(path).split("\n")
        put(path, "\n".join(turned(l, names) if l.startswith(("old:", "new:")) else turned_note(l, names) for l in lines))
    for path in ["README.md"] + glob.glob("docs/**/*.md", recursive=True) + glob.glob("tests/**/*.md", recursive=True):
        put(path, turned_page(read(path), names))
    print("respelled:", len(names), "names;", len(clashes), "would have fallen together")


main()
