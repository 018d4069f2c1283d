#!/usr/bin/env python3
"""Tries edits of the code of lent functions: each must be refused at the fact that its contract states.

    python3 tools/lent/edits.py [--control] [CRATE | CRATE/NAME ..]

Run from anywhere in the repository, once `rt check` or `rt ci` has proved every crate; about half a minute an edit. The gate runs one edit of each
crate (tests/lent.sh names them), and all of them are run by hand. They are no must-fail edits: `rt must-fail` would refuse any edit of a lent
function, since the machine-made derivation follows the code line by line, and such a refusal says nothing of the contract. Here the derivation is
made again for the edited code, and what is left to fail is the hand-written proofs/F/Proof.antt, at a need that states the contract.

An edit is a file crates/CRATE/lent-edits/NAME.edit; `\\n` in old and new stands for a new line:
  fn: F              the lent function that is edited
  at: NEED           the need that must be refused: returns, loop-again, or one of these with a number behind it
  file: src/lib.rt   then old: and new:, as in a must-fail edit; old must stand in the file once
More groups of file, old and new may follow, in proofs/F/Proof.antt alone: they bring the hand-written proof to the edited code, where that has
other needs, another order of them or another invariant, so that nothing but the fact is in its way.

In a copy of the repository, for each edit, the crate is edited and derived again (lent.py CRATE F), and `rt dev CRATE` is run; then the crate is as
it was, for the crates above it that are tried next. The edit counts if every refusal stands at NEED in F's Proof.antt, follow-ups (`.. was
not admitted`) left out. With --control the same is done first with no edit, for every function that has one, and must end proved.

Exit status: 0 each edit is refused at its need (and each control is proved); 1 not; 2 bad usage, an unknown edit, an edit file that cannot be read,
or a repository that is not proved yet.
"""
import contextlib
import os
import pathlib
import re
import shutil
import subprocess
import sys
import tempfile
import time

ROOT = pathlib.Path(__file__).resolve().parents[2]
FACT = re.compile(r"(returns|loop-again)(-\d+)?")
REFUSAL = re.compile(r"^(\S+\.\w+):(\d+:\d+): error: (?:`([^`]*)`: )?(.*)", re.M)


def stop(words):
    print("edits.py: " + words, file=sys.stderr)
    sys.exit(2)


def read_edit(path):
    """An edit file as its function, its need and its groups (file, old, new)."""
    lines = [line.partition(":") for line in path.read_text(encoding="utf-8").splitlines()]
    words = [(key, value[1:].replace("\\n", "\n")) for key, _, value in lines]
    keys = [key for key, _ in words]
    if keys[:2] != ["fn", "at"] or len(keys) < 5 or keys[2:] != ["file", "old", "new"] * ((len(keys) - 2) // 3):
        stop(f"{path}: not the lines fn, at, and file, old, new once or more")
    values = [value for _, value in words]
    function, need = values[:2]
    groups = [tuple(values[at:at + 3]) for at in range(2, len(values), 3)]
    if not FACT.fullmatch(need):
        stop(f"{path}: at: {need} is no need that states the contract")
    if not groups[0][0].startswith("src/") or any(name != proof_of(function) for name, _, _ in groups[1:]):
        stop(f"{path}: the first group is of a file below src/, the others of {proof_of(function)}")
    return function, need, groups


def proof_of(function):
    return f"proofs/{function.replace('::', '/')}/Proof.antt"


def all_edits(wanted):
    """The edits by crate and name: all, or those of the crates and names that are wanted."""
    found = {}
    used = set()
    for path in sorted(ROOT.glob("crates/*/lent-edits/*.edit")):
        crate = path.parts[-3]
        asked = {word for word in wanted if word in (crate, f"{crate}/{path.stem}")}
        used |= asked
        if asked or not wanted:
            found[crate, path.stem] = read_edit(path)
    # a name that no edit has would else be a test less, and nobody would see it
    if set(wanted) - used or not found:
        stop("no such edit: " + " ".join(sorted(set(wanted) - used)))
    return found


def copy_repository(folder):
    """What lent.py and rt need: the sources, and what is proved and built already."""
    if not (ROOT / "target" / "stamp").is_dir():
        stop("nothing is proved yet: rt check comes first")
    shutil.copy(ROOT / "crates.txt", folder)
    for name in ("crates", "tools"):
        shutil.copytree(ROOT / name, folder / name)
    shutil.copytree(ROOT / "target", folder / "target", ignore=shutil.ignore_patterns("must-fail"))


@contextlib.contextmanager
def edited(folder, crate):
    """The crate of the copy, to be edited; afterwards, whatever happened, it is the repository's again."""
    here = folder / "crates" / crate
    try:
        yield here
    finally:
        shutil.rmtree(here)
        shutil.copytree(ROOT / "crates" / crate, here)


def apply_group(here, group):
    """Whether old stood in the file once and is now new."""
    name, old, new = group
    path = here / name
    text = path.read_text(encoding="utf-8")
    path.write_text(text.replace(old, new), encoding="utf-8")
    return text.count(old) == 1


def run(folder, *words):
    """A command in the copy: its exit status and what it said."""
    done = subprocess.run(words, cwd=folder, stdout=subprocess.PIPE, stderr=subprocess.STDOUT, text=True, check=False,
                          env={**os.environ, "RT_CUT": "400"})
    return done.returncode, done.stdout


def derive_and_check(folder, crate, functions):
    """The derivation made again, then `rt dev`: the exit status and what was said, or None and what lent.py said."""
    status, said = run(folder, sys.executable, "tools/lent/lent.py", crate, *functions)
    return (None, said) if status else run(folder, "rt", "dev", crate)


def refusals(folder, crate, said):
    """The refusals that do not follow from others: file, line and column, need, words."""
    above = f"{folder}/crates/{crate}/"
    return [(name.replace(above, ""), place, need, words) for name, place, need, words in REFUSAL.findall(said) if "was not admitted" not in words]


def last_lines(said):
    return "\n".join("    " + line[:300] for line in said.splitlines()[-12:])


def try_edit(folder, crate, edit):
    """Whether the edit is refused at its need, and a line on it."""
    function, need, groups = edit
    with edited(folder, crate) as here:
        for group in groups:
            if not apply_group(here, group):
                return False, f"old does not stand in {group[0]} once: {group[1]!r}"
        status, said = derive_and_check(folder, crate, [function])
    if status is None:
        return False, "the derivation was not made:\n" + last_lines(said)
    if status == 0:
        return False, "PROVED: the edit was not refused"
    found = refusals(folder, crate, said)
    if status != 1 or not found:
        return False, f"rt dev ended with exit status {status} and {len(found)} refusals:\n" + last_lines(said)
    if any((name, at) != (proof_of(function), need) for name, _, at, _ in found):
        others = "".join(f"\n    {name}:{place} {at}: {words[:200]}" for name, place, at, words in found)
        return False, f"refused, but not at {need} of {function} alone:{others}"
    _, place, _, words = found[0]
    return True, f"refused at {need} of {function}, {proof_of(function)}:{place}: {words[:60]} .."


def try_control(folder, crate, functions):
    """Whether the crate is proved with the derivations made again and no edit, and a line on it."""
    with edited(folder, crate):
        status, said = derive_and_check(folder, crate, functions)
    return status == 0, "proved" if status == 0 else "NOT proved with no edit:\n" + last_lines(said)


def report(name, attempt, *given):
    begun = time.monotonic()
    good, words = attempt(*given)
    print(f"{name}: {words} ({time.monotonic() - begun:.0f} s)", flush=True)
    return good


def main(control, wanted):
    edits = all_edits(wanted)
    good = 0
    with tempfile.TemporaryDirectory(prefix="lent-edits-") as name:
        folder = pathlib.Path(name).resolve()
        copy_repository(folder)
        for crate in sorted({crate for crate, _ in edits}) if control else []:
            functions = sorted({edit[0] for (other, _), edit in edits.items() if other == crate})
            if not report(f"{crate}, no edit, {' '.join(functions)} derived again", try_control, folder, crate, functions):
                return 1
        for (crate, stem), edit in edits.items():
            good += report(f"{crate}/{stem}", try_edit, folder, crate, edit)
    print(f"{good} of {len(edits)} edits refused at their needs")
    return 0 if good == len(edits) else 1


if __name__ == "__main__":
    words = sys.argv[1:]
    if any(word.startswith("-") and word != "--control" for word in words):
        sys.exit(__doc__)
    sys.exit(main("--control" in words, [word for word in words if word != "--control"]))
