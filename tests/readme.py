#!/usr/bin/env python3
"""Runs every command that README.md shows, as it is written there, and holds what it prints to what README.md says.

    python3 tests/readme.py

A command is a line of a fenced block other than `quick`, or stands in backquotes: words that begin with a program's name or with `(cd`, a
script, a program of a crate. Each must be run here or named in NOT_RUN with the reason, and each that is run or named must stand in README.md.

The commands are run one after the other in a copy of the tree's files, without what was proved and without the archive: as in a clone, the
first ones do without it, until `rt lib` makes it. rt begins there with what its checks kept in any checkout on this machine. A command may leave
files under crates/*/out/ and rust/target/ and the one that it names itself behind `-o`, which is removed; nothing else in the copy, and nothing in
the folder for temporary files.
"""
import os
import pathlib
import re
import shutil
import subprocess
import sys
import tempfile
import time

TOP = pathlib.Path(__file__).resolve().parent.parent
BUILT = re.compile(r"\.git|crates/\w+/out|rust/target")
NOT_RUN = {
    "bash .ci/run": "is the gate, which runs this",
    "tests/run.sh": "is what runs this",
    "rt ci": "is what the gate runs first",
    "rt try": "is what tools/quick_start.py runs, not a whole command",
}


def commands(readme):
    """The commands of README.md, and all that stands in backquotes."""
    blocks = r"^```(\w*)\n(.*?)^```$"
    lines = {line for kind, block in re.findall(blocks, readme, re.M | re.S) if kind != "quick" for line in block.splitlines() if line}
    spans = {" ".join(span.split()) for span in re.findall(r"`([^`]+)`", re.sub(blocks, "", readme, flags=re.M | re.S))}
    return lines | {span for span in spans if is_command(span)}, lines | spans


def is_command(span):
    first, *rest = span.split()
    return bool(rest and shutil.which(first)) or bool(re.search(r"^\(cd$|^crates/\w+/out/\w+$|\.(sh|py)$", first))


def expected(readme):
    """Each command to run: what it reads, and whether what it prints (as lines; on standard error) is what README.md says."""
    quick = [re.split(r" {2,}", line) for line in re.search(r"^```quick\n(.*?)^```$", readme, re.M | re.S)[1].splitlines()]
    asked, replies = "".join(message + "\n" for message, _ in quick), [reply for _, reply in quick]
    listed = (TOP / "crates/listing/stdout").read_text(encoding="latin-1").splitlines()
    called = (TOP / "examples/expected.txt").read_text().splitlines()
    manifest = "--manifest-path rust/Cargo.toml"

    def started(last):
        return lambda out, _: [line.split() for line in out[:3]] == [" ".join(pair).split() for pair in quick] and out[-1].startswith(last)

    def examples(out, _):
        languages = ("C", "C++", "Rust") if shutil.which("c++") else ("C", "Rust")
        return all(f"examples: {language} prints what is expected" in out for language in languages)

    return [
        ("python3 tools/quick_start.py", "", started("(NOT PROVED")),
        ("rt version", "", lambda out, _: len(out) == 1),
        ("bash tools/kit.sh", "", lambda out, _: out[0].startswith("kit: ")),
        ("(cd crates/listing && rt run < stdin)", "", lambda out, _: out[-len(listed):] == listed),
        ("python3 tools/quick_start.py --proved", "", started("(by crates/listing/out/listing")),
        ("crates/listing/out/listing", asked, lambda out, _: out[:3] == replies),
        (f"cargo doc {manifest}", "", lambda _, err: "no archive" in err),
        (f"cargo check {manifest}", "", lambda _, err: "no archive" in err),
        ("(cd crates/cordafina && rt lib)", "", lambda out, _: out[-1].startswith("logic=proved ")),
        ("cc -I include examples/c/call.c crates/cordafina/out/libcordafina.a -o call && ./call", "", lambda out, _: out == called),
        (f"cargo run {manifest} -p call", "", lambda out, _: out == called),
        ("bash examples/run.sh", "", examples),
    ]


def files(top):
    """The files of a tree by name, but for what is built."""
    for folder, below, names in os.walk(top):
        here = pathlib.Path(folder).relative_to(top)
        below[:] = [name for name in below if not BUILT.fullmatch(str(here / name))]
        yield from (here / name for name in names)


def tree():
    """The files that git tracks; where it tracks none, all but what is built."""
    if shutil.which("git"):
        listed = subprocess.run(["git", "ls-files", "-z"], cwd=TOP, capture_output=True, text=True).stdout.split("\0")
        if listed[:-1]:
            return [pathlib.Path(name) for name in listed if (TOP / name).is_file()]
    return list(files(TOP))


def copied(copy):
    for name in tree():
        (copy / name).parent.mkdir(parents=True, exist_ok=True)
        shutil.copy2(TOP / name, copy / name)


def state(copy):
    return {str(name): (copy / name).read_bytes() for name in files(copy)}


def tried(command, text, says, copy, room):
    """What is wrong with a command, or nothing."""
    before = state(copy)
    unset = ("CORDAFINA_LIB", "CARGO_TARGET_DIR", "PYTHONDONTWRITEBYTECODE")
    env = {**{name: value for name, value in os.environ.items() if name not in unset}, "TMPDIR": str(room), "CARGO_NET_OFFLINE": "true"}
    ran = subprocess.run(["bash", "-c", command], cwd=copy, env=env, input=text, capture_output=True, text=True, errors="replace")
    for name in re.findall(r" -o (\S+)", command):
        (copy / name).unlink(missing_ok=True)
    after = state(copy)
    left = sorted(name for name in {*before, *after} if before.get(name) != after.get(name)) + sorted(map(str, room.iterdir()))
    if ran.returncode:
        return f"ended with status {ran.returncode}:\n{(ran.stdout + ran.stderr)[-2000:]}"
    if not says(ran.stdout.splitlines() or [""], ran.stderr):
        return f"does not print what README.md says:\n{(ran.stdout + ran.stderr)[-2000:]}"
    return f"left behind or changed {', '.join(left)}" if left else None


def main():
    if sys.argv[1:]:
        sys.exit(__doc__)
    readme = (TOP / "README.md").read_text(encoding="utf-8")
    shown, spans = commands(readme)
    runs = expected(readme)
    known = {command for command, _, _ in runs} | set(NOT_RUN)
    wrong = [f"README.md shows `{command}`, which is neither run here nor named as not run" for command in sorted(shown - known)]
    wrong += [f"`{command}` is named here, and README.md does not show it" for command in sorted(known - spans)]
    if (TOP / "kit.txt").read_text().strip() not in spans:
        wrong.append("README.md names another kit than kit.txt")
    if not wrong:
        with tempfile.TemporaryDirectory() as folder:
            copy, room = pathlib.Path(folder, "copy"), pathlib.Path(folder, "room")
            room.mkdir()
            copied(copy)
            for command, text, says in runs:
                start = time.time()
                fault = tried(command, text, says, copy, room)
                print(f"readme: {command}: {'FAILED' if fault else 'as README.md says'}, {time.time() - start:.0f} s", flush=True)
                wrong += [f"`{command}` {fault}"] if fault else []
    for fault in wrong:
        print(f"readme: {fault}")
    for command, why in NOT_RUN.items():
        print(f"readme: not run: `{command}` {why}")
    print(f"readme: {len(runs)} commands of README.md, {len(wrong)} faults")
    sys.exit(1 if wrong else 0)


if __name__ == "__main__":
    main()
