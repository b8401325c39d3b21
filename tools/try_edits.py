#!/usr/bin/env python3
"""Sees where each must-fail edit is refused, by what `rt must-fail` says of it.

Each edit of crates/NAME/must-fail says on a line `refused at:` the function whose contract it breaks, or the law. An edit passes when the prover
refuses the edited crate and that function, or that law, is the first that it refuses for a reason of its own; what only calls or cites another that
was refused does not count. Edits of programs are left to `rt ci`. rt tries them in a copy of the crates, over what its checks kept on this machine,
and none again while nothing that it stands on has changed; with --said nothing is tried, and what `rt ci` said is read. Nothing in the tree is
changed, but with --note.
"""
import pathlib
import re
import shutil
import subprocess
import sys
import tempfile

sys.dont_write_bytecode = True
import command
import prover

# (a refusal by a limit of the prover alone says that there was no verdict, and is no refusal here)
SAID = re.compile(r"^rt: must-fail (\w+)/(\S+)\.edit: (refused, as it must be(?: \((?!only by a limit).*?\))?(?:: |$)|)(.*)", re.M)


def crate_of(edit):
    """The crate's folder that an edit belongs to."""
    return next((above.parent for above in edit.parents if above.name == "must-fail"), None)


def function_at(crate, file, number, edit):
    """The function of a file of src/ that a line of the edited text belongs to, by its path."""
    with tempfile.TemporaryDirectory() as work:
        folder = pathlib.Path(work) / crate.name
        shutil.copytree(crate / "src", folder / "src")
        for part in prover.PARTS[1:]:
            if (crate / part).is_dir():
                shutil.copytree(crate / part, folder / part)
        prover.edited(edit, folder)
        text = command.text(folder / file).splitlines()
    at = number - 1
    while at + 1 < len(text) and re.match(r"\s*(#|//)", text[at]):
        at += 1
    head = next((line for line in reversed(text[: at + 1]) if re.search(r"\bfn \w+", line)), "")
    name = re.search(r"\bfn (\w+)|$", head)[1] or ""
    owner = []
    if head.startswith(" "):
        above = next((line for line in reversed(text[:at]) if re.match(r"(unsafe )?impl\b", line)), "")
        owner = re.findall(r"(\w+)(?:<[^{]*>)? *\{", above)
    module = [part for part in pathlib.PurePath(file).with_suffix("").parts[1:] if part not in ("lib", "main", "mod")]
    return "::".join([crate.name, *module, *owner, name])


def refused_at(said, crate, edit):
    """The function, or the law, that the prover's message names."""
    at = re.match(r"(?:note: )?(?:\./)?((src|specs|proofs)/(\S+?)):(\d+):\d+: (?:\w+: )?(?:`([^`]+)`)?", said)
    if not at:
        return ""
    if at[2] == "src":
        return function_at(crate, at[1], int(at[4]), edit)
    of = re.fullmatch(r"(.+)/(?:Proof|Answers|Invariants)\.antt", at[3])
    if of:
        return "::".join([crate.name, *of[1].split("/")])
    return at[5] or ""


def tried(edits):
    """What `rt must-fail` says of edits, in a copy of their crates and those below."""
    with tempfile.TemporaryDirectory(prefix="edits-") as work:
        work = pathlib.Path(work)
        names = sorted({crate_of(edit).name for edit in edits})
        prover.copied(names, work)
        for edit in edits:
            folder = work / "crates" / crate_of(edit).name / "must-fail"
            folder.mkdir(exist_ok=True)
            shutil.copy(edit, folder)
        ran = subprocess.run(["rt", "must-fail", *names], cwd=work, stdin=subprocess.DEVNULL, stdout=subprocess.PIPE, stderr=subprocess.STDOUT, text=True, errors="replace")
    if not SAID.search(ran.stdout):
        command.fail(f"`rt must-fail` tried nothing: {ran.stdout[-1500:].strip()}")
    return ran.stdout


def same(named, at):
    """Whether a line `refused at:` names this place. Functions that call each other have one proof, `+f_g`, of which an edit names one."""
    owner, _, group = at.rpartition("::+")
    return named == at or bool(group) and named.startswith(f"{owner}::") and f"_{named[len(owner) + 2:]}_" in f"_{group}_"


def noted(edit, at):
    """Writes into an edit where it is refused."""
    text = "".join(line for line in command.text(edit).splitlines(True) if not line.startswith("refused at: "))
    edit.write_text(re.sub(r"^file: ", f"refused at: {at}\nfile: ", text, count=1, flags=re.M), encoding="utf-8")


def main():
    words = command.parser(__doc__)
    words.add_argument("edits", metavar="EDIT", nargs="*", type=pathlib.Path, help="crates/NAME/must-fail/EDIT.edit; none: those of every library")
    words.add_argument("--said", metavar="LOG", help="what `rt ci` or `rt must-fail` printed")
    words.add_argument("--errors", action="store_true", help="print the first error of each too")
    words.add_argument("--note", action="store_true", help="write each edit's line `refused at:` from what was seen, to be read then")
    given = words.parse_args()
    edits = [edit.resolve() for edit in given.edits] or list(prover.TOP.glob("crates/*/must-fail/*.edit"))
    for edit in edits:
        command.text(edit)
        if not crate_of(edit) or crate_of(edit).parent != prover.TOP / "crates":
            command.fail(f"{edit}: is no must-fail edit of a crate here")
    if not given.said:
        command.need("rt")
    libraries = sorted((edit for edit in edits if (crate_of(edit) / "src" / "lib.rt").is_file()), key=lambda edit: (crate_of(edit).name, edit.stem))
    said = command.text(given.said) if given.said else tried(libraries) if libraries else ""
    found, faults = {(crate, edit): (first, refused) for crate, edit, refused, first in SAID.findall(said)}, 0
    for edit in libraries:
        first, refused = found.get((crate_of(edit).name, edit.stem), ("rt said nothing of it", ""))
        at = refused_at(first, crate_of(edit), edit) if refused else ""
        if given.note and at:
            noted(edit, at)
        named = re.search(r"^refused at: (\S+)$", command.text(edit), re.M)
        right = bool(at and named and same(named[1], at))
        faults += not right
        wrong = "" if right else f"FAULT, {f'it names {named[1]}' if named else 'it does not say where'}; "
        print(f"{crate_of(edit).name}/{edit.stem}: {wrong}{f'refused at {at}' if at else refused + first}", flush=True)
        if given.errors and at:
            print("   ", first[:400])
    print(f"{len(libraries) - faults} refused where they say, {faults} faults")
    return 1 if faults or not edits else 0


if __name__ == "__main__":
    command.run(main)
