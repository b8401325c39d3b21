#!/usr/bin/env python3
"""crates.txt names, for each crate, the crates that its own files name: no more, so that it is the picture, and no fewer.

No crate may bear the name of a library of the kit: rt refuses it. Says what differs and fails.
"""
import pathlib
import re
import shutil
import sys

sys.dont_write_bytecode = True
import command

ROOT = pathlib.Path(command.TOP)
LIST = ROOT / "crates.txt"


def named_by(crate, names):
    """The crates that a crate's files name: `x::` in code, `Rattle.x` in statements and proofs."""
    found = set()
    for path in (path for part in ("src", "specs", "proofs") for path in (ROOT / "crates" / crate / part).rglob("*")):
        if path.suffix == ".rt":
            text = command.text(path)
            code = "\n".join(line.split("//", 1)[0] for line in text.splitlines())
            found |= set(re.findall(r"(?<!:)\b([a-z_0-9]+)::", code)) | set(re.findall(r"\bRattle\.([a-z_0-9]+)", text))
        elif path.suffix == ".antt":
            found |= set(re.findall(r"\bRattle\.([a-z_0-9]+)", command.text(path)))
    return (found & names) - {crate}


def kit_libraries():
    """The names of the kit's libraries; none where the kit's folder is not found beside rt."""
    return {path.stem for path in (pathlib.Path(shutil.which("rt") or "/").resolve().parent.parent / "rlibs").glob("*.rlib")}


def main():
    words = command.parser(__doc__)
    words.add_argument("--write", action="store_true", help="write the lines anew, each in the order in which crates.txt has its crates")
    write = words.parse_args().write
    lines = command.text(LIST).splitlines()
    listed, heads = {}, {}
    for line in lines:
        if ":" in line and not line.startswith("#"):
            head, rest = line.split(":", 1)
            name = head.split()[0]
            listed[name], heads[name] = rest.split(), head
    libraries = kit_libraries()
    # std is there always, and never listed
    kit = libraries - {"std"}
    order = list(reversed(list(listed)))
    wanted = {}
    for crate, before in listed.items():
        used = named_by(crate, set(listed) | kit)
        wanted[crate] = [n for n in order if n in used] + [k for k in before if k in used & kit]
    wrong = [c for c in listed if set(listed[c]) != set(wanted[c])]
    taken = sorted(set(listed) & libraries)
    for crate in taken:
        print(f"crates.txt: {crate}: the kit has a library of that name")
    if write:
        out = []
        for line in lines:
            name = (line.split(":", 1)[0].split() or [""])[0]
            out.append(f"{heads[name]}: {' '.join(wanted[name])}".rstrip() if name in listed and not line.startswith("#") else line)
        LIST.write_text("\n".join(out) + "\n")
    elif wrong:
        for c in wrong:
            extra = sorted(set(listed[c]) - set(wanted[c]))
            missing = sorted(set(wanted[c]) - set(listed[c]))
            print(f"crates.txt: {c}: named and not used {extra}, used and not named {missing}")
    if taken or (wrong and not write):
        return 1
    apart = f"no name of the kit's {len(libraries)} libraries" if libraries else "the kit's libraries are not found, and no name was compared with theirs"
    print(f"crates.txt: {len(listed)} crates, {sum(map(len, wanted.values()))} direct dependencies, {apart}")


if __name__ == "__main__":
    command.run(main)
