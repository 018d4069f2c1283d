#!/usr/bin/env python3
"""Spells the repository's own definitions and lemmas as today's Rattle spells its library: words in snake case, types and modules in camel case.

usage: python3 tools/respell.py [FOLDER]

Run once, right behind port.py, at the top of the checkout (or on FOLDER). It turns each name in camel case that begins with a small letter, and each such
part of a name with dashes, in the text of specs/, proofs/, must-fail/ and lent-edits/, and in the sources, whose Rust names are in snake case already.
`wrappingAdd1` becomes `wrapping_add1`. Where a new name would be one that stands in the repository already, it is told, and nothing is written.
"""

import os
import re
import sys

# A name of antt; its parts are joined by dashes. A `.rt` file's names have no dashes of their own but in clauses.
TOKEN = re.compile(r"[^\s(){}.;,@\"«»|:=λ`'<>&\[\]/]+")
PART = re.compile(r"[a-z][a-z0-9]*(?:[A-Z][a-z0-9]*)+")
DECLARED = re.compile(r"^ {0,4}(?:(?:pub|abbrev|unfoldable) )*([^\s:(){}.;,|=]+)(?: \{[^{}]*\})* : ")
# A lemma that would have its function's name gets `_lem`, in the files that cite it.
LEMMAS = {
    "model/proofs/Lists.antt": ["all_live"],
    "model/proofs/Topic.antt": ["in_bounds", "left_over", "left_by"],
    "select/specs/ChoiceLaws.antt": ["in_scope"],
    "select/proofs/is_chosen/Proof.antt": ["in_scope"],
    "replies/specs/StepLaws.antt": ["add_done", "list_done"],
    "replies/proofs/add_done/Proof.antt": ["add_done"],
    "replies/proofs/list_done/Proof.antt": ["list_done"],
    "changes/specs/ResultLaws.antt": ["entries_from"],
    "datasample_access/specs/FewLaws.antt": ["free_of"],
}
# Here the model's call and the Rust's function of the same name meet: the Rust's is named by its module.
BOTH = {
    "rust_model/specs/Equal.antt": [
        (", next_key}", "}\nuse Rattle.rust_model.specs.DataSampleCache as rust"),
        ("(next_key c n)", "(rust.next_key c n)"),
    ],
}
# These names stand twice after all, but never in one scope: a field, or a lemma of another crate.
APART = {"add_done", "list_done", "in_bounds", "in_scope", "is_live", "next_key", "not_listed", "not_live", "owner_at"}
FOLDERS = ("specs", "proofs", "src", "must-fail", "lent-edits")


def files(top):
    for folder, names, found in os.walk(os.path.join(top, "crates")):
        names[:] = sorted(n for n in names if n != "out")
        steps = os.path.relpath(folder, os.path.join(top, "crates")).split(os.sep)
        if len(steps) > 1 and steps[1] in FOLDERS:
            for name in sorted(found):
                if name.endswith((".rt", ".antt", ".edit")):
                    yield os.path.join(folder, name)


def snake(word):
    return re.sub(r"(?<=[a-z0-9])[A-Z]", lambda m: "_" + m[0].lower(), word)


def turned(token):
    return "-".join(snake(p) if PART.fullmatch(p) else p for p in token.split("-"))


def declared(text):
    return {m[1] for line in text.split("\n") for m in [DECLARED.match(line)] if m}


def main():
    top = sys.argv[1] if len(sys.argv) > 1 else "."
    texts, new_texts = {}, {}
    for path in files(top):
        with open(path, encoding="utf-8") as f:
            texts[path] = f.read()
    for path, text in texts.items():
        step = os.path.relpath(path, os.path.join(top, "crates"))
        for name in LEMMAS.get(step, []):
            text = re.sub(rf"(?<![.\w-]){name}(?![\w-])", name + "_lem", text)
        for old, new in BOTH.get(step, []):
            if text.count(old) != 1:
                print(f"respell: {step} has not one {old!r}", file=sys.stderr)
                return 1
            text = text.replace(old, new)
        new_texts[path] = text
    names = set().union(*(declared(t) for p, t in new_texts.items() if p.endswith(".antt")))
    met = sorted(n for n in names if turned(n) != n and turned(n) in names - APART)
    if met:
        print("respell: two names would fall together: " + ", ".join(f"{n} and {turned(n)}" for n in met), file=sys.stderr)
        return 1
    count = 0
    for path, text in texts.items():
        new = TOKEN.sub(lambda m: turned(m[0]), new_texts[path])
        if new != text:
            count += 1
            with open(path, "w", encoding="utf-8") as f:
                f.write(new)
    print(f"respell: {sum(turned(n) != n for n in names)} names, {count} files")
    return 0


if __name__ == "__main__":
    sys.exit(main())
