"""Copies of crates in which rt tries edits: what try_edits.py and definition_edits.py share.

rt begins in a copy with what its checks kept in any checkout on this machine, so that only what an edit reaches is checked. A refusal is a refusal,
whatever was taken from there; that a crate is proved is `rt ci`'s to say.
"""
import os
import pathlib
import shutil
import subprocess

import command

TOP = pathlib.Path(command.TOP)
PARTS = ("src", "specs", "proofs")


def jobs():
    return int(os.environ.get("RT_JOBS") or min(os.cpu_count() or 1, 4))


def lines():
    """The line of each crate in crates.txt, and the crates that it names behind the crate."""
    found = {}
    for line in command.text(TOP / "crates.txt").splitlines():
        head, colon, below = line.split("#")[0].partition(":")
        if colon:
            found[head.split()[0]] = line, below.split()
    return found


def rests_on(crate):
    """The crates that crates.txt names behind a crate."""
    return lines()[crate][1]


def copied(crates, work):
    """Lays copies of crates, and of all below them, into the folder `work`, with their lines of crates.txt."""
    listed, wanted = lines(), list(crates)
    for crate in wanted:
        wanted += [below for below in listed[crate][1] if below in listed and below not in wanted]
        for part in PARTS:
            if (TOP / "crates" / crate / part).is_dir():
                shutil.copytree(TOP / "crates" / crate / part, work / "crates" / crate / part)
    (work / "crates.txt").write_text("".join(f"{listed[crate][0]}\n" for crate in dict.fromkeys(wanted)), encoding="utf-8")


def edited(edit, crate):
    """Makes an edit's replacements in a copy of its crate."""
    file = old = None
    for line in command.text(edit).splitlines():
        word, _, rest = line.partition(":")
        rest = rest.removeprefix(" ")
        if word == "file":
            file = crate / rest
        elif word == "old":
            old = rest
        elif word == "new" and file and old:
            text = command.text(file)
            if text.count(old) != 1:
                command.fail(f"{edit}: stands {text.count(old)} times: {old}")
            file.write_text(text.replace(old, rest), encoding="utf-8")


def rt(folder, *words):
    """Runs rt in a crate's folder."""
    return subprocess.run(["rt", *words], cwd=folder, stdin=subprocess.DEVNULL, capture_output=True, text=True, errors="replace")
