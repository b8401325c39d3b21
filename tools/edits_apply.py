#!/usr/bin/env python3
"""Whether each edit still fits: every `old:` text of crates/*/must-fail and tools/definition-edits must stand exactly once in the file that
the edit names. A file there with another ending than `.edit`, or in a folder of its own, is a fault too: nothing would try it.

It takes a moment; the gate finds the first only after it has proved every crate, and the second never.
"""
import glob
import os
import re
import sys

sys.dont_write_bytecode = True
import command


def main():
    command.parser(__doc__).parse_args()
    os.chdir(command.TOP)
    edits = olds = bad = 0
    for path in sorted(glob.glob("crates/*/must-fail/**", recursive=True) + glob.glob("tools/definition-edits/**", recursive=True)):
        folder = os.path.isdir(path)
        if folder and re.fullmatch("crates/[^/]*/must-fail|tools/definition-edits", path.rstrip("/")):
            continue
        if folder or not re.fullmatch("crates/[^/]*/must-fail/[^/]*[.]edit|tools/definition-edits/[^/]*[.]edit", path):
            bad += 1
            print(f"{path}: is no edit, and nothing tries it")
            continue
        edits += 1
        crate, text, here = path.split("/")[1] if path.startswith("crates/") else "megaco", "", 0
        for line in command.text(path).splitlines():
            if line.startswith("file: "):
                text = command.text(f"crates/{crate}/{line[6:]}")
            if line.startswith("old: "):
                here += 1
                times = text.count(line[5:])
                if times != 1:
                    bad += 1
                    print(f"{path}: stands {times} times: {line[5:]}")
        if not here:
            bad += 1
            print(f"{path}: changes nothing")
        olds += here
    print(f"{edits} edits, {olds} texts, {bad} faults")
    return 1 if bad or not edits else 0


if __name__ == "__main__":
    command.run(main)
