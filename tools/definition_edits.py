#!/usr/bin/env python3
"""Edits of the definition (crate megaco) that the theorems about it must refuse: laws, or the grammar, on which demand 2 rests.

A must-fail edit of rt changes its own crate only, and megaco by itself is proved with any definition but those of its methods. So each edit of
tools/definition-edits, in the form of rt's must-fail edits with a line `refused by: laws` or `refused by: grammar` before it, is made in a copy of
megaco without the fourteen examples: nothing of megaco may be refused then, and the crate named must refuse it. Only what the edit reaches is
checked, over what rt's checks kept on this machine. The gate runs it (.ci/run).
"""
import concurrent.futures
import os
import pathlib
import re
import shutil
import sys
import tempfile

sys.dont_write_bytecode = True
import command
import prover

EDITS = prover.TOP / "tools" / "definition-edits"
REFUSERS = ("laws", "grammar")


def refuser(edit):
    """The crate that must refuse an edit."""
    named = re.search(r"^refused by: (\w+)$", command.text(edit), re.M)
    if not named or named[1] not in REFUSERS:
        command.fail(f"{edit}: names no crate that must refuse it")
    return named[1]


def without_examples(megaco):
    """The examples refuse most of these edits by themselves: here it is the theorems that must."""
    (megaco / "proofs" / "Examples.antt").unlink()
    library = megaco / "proofs" / "Lib.antt"
    library.write_text("".join(line for line in command.text(library).splitlines(True) if line.split()[-1:] != ["Examples"]), encoding="utf-8")


def laid(one, other):
    """Another name for a checked module, which rt replaces and never changes; a copy of any other file."""
    if one.endswith(".oantt"):
        os.link(one, other)
    else:
        shutil.copy2(one, other)


def refusal(said):
    """The first error that rt tells."""
    return next((line for line in said.splitlines() if ": error" in line), said[-300:].strip())


def begun(work, crates):
    """A copy of these crates and those below, checked with no edit: what each edit begins with."""
    prover.copied(crates, work)
    without_examples(work / "crates" / "megaco")
    for crate in crates:
        ran = prover.rt(work / "crates" / crate, "check")
        if ran.returncode:
            command.fail(f"crate {crate} is not proved without an edit: {refusal(ran.stdout + ran.stderr)}")


def tried(edit, start):
    """Whether the crate named refuses an edit and those below it do not, and the first error."""
    crate = refuser(edit)
    with tempfile.TemporaryDirectory(dir=start.parent) as work:
        crates = pathlib.Path(work) / "crates"
        shutil.copytree(start, work, dirs_exist_ok=True, copy_function=laid)
        prover.edited(edit, crates / "megaco")
        for below in ["megaco", *prover.rests_on(crate)]:
            ran = prover.rt(crates / below, "lib", "--jobs", "1")
            if ran.returncode:
                return False, f"{below} refuses it: {refusal(ran.stdout + ran.stderr)}"
        ran = prover.rt(crates / crate, "check", "--jobs", "1")
    said = ran.stdout + ran.stderr
    first = re.search(r"^(?:\./)?((?:specs|proofs)/\S+): error: `(\S+)`", said, re.M)
    if ran.returncode != 1 or not first or not re.search("^logic=not-proved", said, re.M):
        return False, "still proved" if not ran.returncode else f"did not reach the prover: {refusal(said)}"
    return True, f"{crate}/{first[1]}, `{first[2]}`"


def main():
    words = command.parser(__doc__)
    words.add_argument("names", metavar="NAME", nargs="*", help="an edit of tools/definition-edits, without its ending; none: all of them")
    names = words.parse_args().names
    command.need("rt")
    edits = {path.stem: path for path in sorted(EDITS.glob("*.edit"))}
    for name in names:
        if name not in edits:
            command.fail(f"there is no edit {name} in tools/definition-edits")
    chosen = names or list(edits)
    kept = 0
    with tempfile.TemporaryDirectory(prefix="definition-") as work:
        start = pathlib.Path(work) / "start"
        begun(start, sorted({refuser(edits[name]) for name in chosen}))
        with concurrent.futures.ThreadPoolExecutor(prover.jobs()) as pool:
            for name, (refused, said) in zip(chosen, pool.map(lambda name: tried(edits[name], start), chosen)):
                kept += not refused
                print(f"{name}: {'refused, first at' if refused else 'NOT REFUSED:'} {said}", flush=True)
    print(f"{len(chosen) - kept} refused, {kept} not")
    return 1 if kept or not chosen else 0


if __name__ == "__main__":
    command.run(main)
