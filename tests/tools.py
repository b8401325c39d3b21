#!/usr/bin/env python3
"""Each tool of tools/ tells its usage, and tells what a user can put right without a traceback.

    python3 tests/tools.py

Every file of tools/ but command.py and prover.py, which tools share, is a tool. With `--help` it prints its usage on standard output and ends with status 0. With an option that
it does not have, a file that is not there, a file of bytes that are no text (a word too many, where it takes no file), and without rt where it runs
rt, it ends with status 2 and prints on standard error the usage or one line that says what is wrong. crates.py and names.py find what they look for.
"""
import os
import pathlib
import re
import shutil
import subprocess
import sys
import tempfile

TOP = pathlib.Path(__file__).resolve().parent.parent
SHARED = ("command.py", "prover.py")
# the tools that need rt, each with words with which it does
NEED_RT = {"axioms.py": [], "definition_edits.py": [], "evaluate.py": ["calls"], "kit.sh": [], "quick_start.py": [], "try_edits.py": []}


def ran(tool, words, **env):
    command = [sys.executable if tool.suffix == ".py" else shutil.which("bash"), str(tool), *words]
    return subprocess.run(command, cwd=TOP, env={**os.environ, **env}, stdin=subprocess.DEVNULL, capture_output=True, text=True, timeout=60)


def helps(tool):
    done = ran(tool, ["--help"])
    return done.returncode == 0 and done.stdout.startswith("usage: ") and not done.stderr


def refuses(tool, words, says="", **env):
    done = ran(tool, words, **env)
    lines = done.stderr.splitlines() or [""]
    told = lines[0].startswith("usage: ") or len(lines) == 1
    return done.returncode == 2 and told and says in done.stderr and "Traceback" not in done.stdout + done.stderr


def main():
    tools = sorted(path for path in (TOP / "tools").iterdir() if path.is_file() and path.name not in SHARED)
    failed = tried = 0

    def hold(name, what, held):
        nonlocal failed, tried
        tried, failed = tried + 1, failed + (not held)
        if not held:
            print(f"tools: {name}: {what}")

    with tempfile.TemporaryDirectory() as folder:
        folder = pathlib.Path(folder)
        (folder / "bytes").write_bytes(b"T=1\xff\xfe\x00\n")
        # a path with what kit.sh needs and no rt
        (folder / "path").mkdir()
        for program in ("cat", "dirname", "sed"):
            (folder / "path" / program).symlink_to(shutil.which(program))
        for tool in tools:
            hold(tool.name, "--help does not print its usage with status 0", helps(tool))
            hold(tool.name, "an option that it does not have", refuses(tool, ["--no-such-option"]))
            hold(tool.name, "a file that is not there", refuses(tool, [str(folder / "no-such-file")]))
            hold(tool.name, "a file of bytes that are no text", refuses(tool, [str(folder / "bytes")]))
            needs_rt = bool(re.search(r"\[['\"]rt['\"],|\$\(rt |need\(['\"]rt['\"]\)", tool.read_text(encoding="utf-8")))
            hold(tool.name, "needs rt, or does not, otherwise than NEED_RT says", needs_rt == (tool.name in NEED_RT))
            if needs_rt:
                hold(tool.name, "without rt on the path", refuses(tool, NEED_RT.get(tool.name, []), "there is no rt", PATH=str(folder / "path")))
        # a kit with a library that is called as a crate here; and none
        (folder / "kit/bin").mkdir(parents=True)
        (folder / "kit/rlibs/base.rlib").mkdir(parents=True)
        (folder / "kit/bin/rt").touch(0o755)
        crates = TOP / "tools/crates.py"
        named = ran(crates, [], PATH=str(folder / "kit/bin"))
        hold("crates.py", "a crate that is called as a library of the kit", named.returncode == 1 and "base: the kit has a library" in named.stdout)
        hold("crates.py", "the kit is not found", ran(crates, [], PATH=str(folder / "path")).returncode == 0)
        # a document with a name of each form, and below it each once more with a letter behind it
        there = ["crates/gateway/src/lib.rt", "specs/Places", "Reading.item_r", "gateway::answer", "read_derives", "word_at", "judge_attempt"]
        lines = [" ".join(f"`{name}`" for name in there + ["T=7{C=$}"])] + [f"`{name}X`" for name in there]
        (folder / "names.md").write_text("\n".join(lines) + "\n", encoding="utf-8")
        found = ran(TOP / "tools/names.py", [str(folder / "names.md")])
        told = [line.split("names.md:")[1] for line in found.stdout.splitlines()[:-1]]
        hold("names.py", "names that are not there, and only those", found.returncode == 1 and told == [f"{at}: {line}" for at, line in enumerate(lines, 1) if at > 1])
    for name in sorted(set(NEED_RT) - {tool.name for tool in tools}):
        hold(name, "NEED_RT names it, and it is not there", False)
    print(f"tools: {len(tools)} tools, {tried} things tried, {failed} failed")
    sys.exit(1 if failed or not tools else 0)


if __name__ == "__main__":
    main()
