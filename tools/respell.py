#!/usr/bin/env python3
"""Brings the names of the crates' own definitions, facts, fields and lemmas to today's spelling: words in snake case, types and facts in upper camel case.

usage: python3 tools/respell.py [--dry]   at the top of the repository, once, after /opt/rattle/port/port.py

A name is turned wherever it stands as a whole word in code: in .antt and .rt files, outside comments and strings, and in comments and pages between backticks. The
functions of src/ keep their names. Two names that would fall together are told apart: a lemma gets `_lem` behind it.
"""
import os
import re
import sys

ROOT = os.path.join(os.path.dirname(os.path.dirname(os.path.realpath(__file__))), "crates")
WORD = r"[A-Za-z0-9_'\-→↔≤≥<>∷∙↦₀-₉#α-ωΑ-Ω]+"
SIGNATURE = re.compile(r"(?m)^( *)(?:(abbrev|unfoldable|opaque) )?(?:pub )?(?:(data|record) )?(" + WORD + r"+)((?: [({][^:\n]*)?)(?: :(?: .*)?$|\n +: )")

# Facts that an older spelling begins with a small letter, and other names that need a choice.
CHOSEN = {"pairs-getD": "pairs_get_or"}

# Lemmas and fields that port.py already spelled as a definition is to be spelled, with the files that have them.
TOLD_APART = {
    "end_line": ["listing_text/specs/Examples.antt", "listing_text/proofs/Examples.antt"],
    "kind_at": ["image/proofs/Encoding.antt"],
    "no_code": ["claims/specs/Refused.antt", "claims/proofs/Refused.antt"],
    "reads_none": ["listing/proofs/Listings.antt", "listing/proofs/listing/list/Proof.antt"],
    "settled_at": ["settling/proofs/Gatewise.antt", "settling/proofs/settling/settle_unknown/Proof.antt", "settling/proofs/settling/settle_plain/Proof.antt"],
    "goes_on": [
        "listing/proofs/listing/take_input/Proof.antt",
        "listing_rows/proofs/Running.antt",
        "listing_rows/proofs/Taking.antt",
        "listing_rows/proofs/rows/take_rows/Proof.antt",
        "pages/proofs/AllTurns.antt",
        "pages/proofs/printing/take_input/Proof.antt",
    ],
}


def texts():
    for folder, dirs, files in os.walk(ROOT):
        dirs[:] = sorted(d for d in dirs if d != "out")
        for f in sorted(files):
            if f.endswith((".antt", ".rt", ".edit")):
                yield os.path.join(folder, f)


def pages():
    top = os.path.dirname(ROOT)
    yield os.path.join(top, "README.md")
    for folder, dirs, files in os.walk(os.path.join(top, "docs")):
        for f in sorted(files):
            if f.endswith(".md") and not f.startswith("PORT"):
                yield os.path.join(folder, f)


def of_function(path):
    """Whether a file is the proof of one function."""
    parts = os.path.relpath(path, ROOT).split(os.sep)
    return parts[1] == "proofs" and len(parts) > 3


def in_code(path, text, turn):
    """The text with `turn` applied to each word of code and to each word between backticks in a comment."""
    mark = {".antt": "--", ".rt": "//", ".edit": "#", ".md": ""}[os.path.splitext(path)[1]]
    out = []
    for line in text.split("\n"):
        at = len(line)
        if path.endswith(".edit"):
            at = 0 if line.startswith("#") else len(line)
        elif path.endswith(".md"):
            at = 0
        else:
            m = re.search(r"(^|\s)" + re.escape(mark), line)
            if m:
                at = m.start()
        code, comment = line[:at], line[at:]
        pieces = re.split(r'(b?"(?:[^"\\]|\\.)*")', code)
        code = "".join(p if i % 2 else re.sub(WORD, lambda m: turn(m.group(0)), p) for i, p in enumerate(pieces))
        comment = re.sub(r"`([^`]*)`", lambda m: "`" + re.sub(WORD, lambda n: turn(n.group(0)), m.group(1)) + "`", comment)
        out.append(code + comment)
    return "\n".join(out)


def snake(name):
    """A name in snake case; a part in capitals alone stays as it is."""
    if name in CHOSEN:
        return CHOSEN[name]
    name = name.replace("-", "_")
    if not re.search(r"[a-z]", name) or re.match(r"[A-Z]", name):
        return name
    return re.sub(r"(?<=[a-z0-9'₀-₉])([A-Z])(?![A-Z])", lambda m: "_" + m.group(1).lower(), name)


def declared():
    """Each own name and whether it is a definition (as opposed to a lemma, a field or a constructor); the library's; and the words of each file."""
    names, library, words = {}, set(), []
    own = set(os.listdir(ROOT))
    for path in texts():
        with open(path) as f:
            text = f.read()
        words.append(set(re.findall(WORD, text)))
        if path.endswith(".antt"):
            for m in re.finditer(r"use ([^\s{]+)\.\{([^}]*)\}", text):
                parts = m.group(1).split(".")
                if not (parts[0] == "Rattle" and parts[1] in own):
                    library |= {n.strip().split(" as ")[0] for n in m.group(2).split(",")}
            if of_function(path):
                continue
            for m in SIGNATURE.finditer(text):
                name = m.group(4)
                is_definition = bool(m.group(2) or m.group(3))
                names[name] = names.get(name, False) or is_definition
    return names, library, words


def together(one, other, words):
    """Whether a file has both names."""
    return any(one in w and other in w for w in words)


def choose():
    names, library, words = declared()
    turned, taken, fall = {}, {}, []
    for name in sorted(names):
        if snake(name) == name:
            taken.setdefault(name, []).append(name)
    for definitions in (True, False):
        for name in sorted(n for n in names if names[n] == definitions):
            new = snake(name)
            if new == name or name in library:
                continue
            others = [o for o in taken.get(new, []) if together(name, o, words)]
            if others or new in library:
                fall.append(f"{name} -> {new}, beside {others or 'the library'}")
                new += "_lem"
            taken.setdefault(new, []).append(name)
            turned[name] = new
    return turned, fall


def main(argv):
    for name, files in TOLD_APART.items():
        for f in files:
            path = os.path.join(ROOT, f)
            with open(path) as it:
                text = it.read()
            if "--dry" not in argv:
                with open(path, "w") as it:
                    it.write(in_code(path, text, lambda w: w + "_lem" if w == name else w))
    turned, fall = choose()
    for line in fall:
        print("together:", line)
    print(len(turned), "names")
    if "--dry" in argv:
        return
    for path in [*texts(), *pages()]:
        with open(path) as f:
            text = f.read()
        new = in_code(path, text, lambda w: turned.get(w, w))
        if new != text:
            with open(path, "w") as f:
                f.write(new)


if __name__ == "__main__":
    main(sys.argv[1:])
