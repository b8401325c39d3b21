#!/usr/bin/env python3
"""Whether any library rests on an axiom, by the report on axioms in the checks of the programs and of the static library.

The prover counts axioms behind `axioms=` on the last line of the check of a program or a static library, names them above it, and names C functions
that a crate declares behind `foreign=`. Programs have the three on which std's input and output rest, libc's `read` and `write` and os's `errno`, and
no others; the static library has none, so nothing that the archive reaches has one. A library's check counts none, so libraries are judged by
their text too: none may read, print or declare a C function or an axiom, or name the kit's crates over C functions, but a library for programs
alone, which may read and print, and which no library may name. What a check says is taken from LOG, if it stands there, else `rt check` runs.
"""
import re
import sys

sys.dont_write_bytecode = True
import command
import prover

KIT = {"io", "libc", "os"}                              # the kit's crates over C functions
FOR_PROGRAMS = {"program_io"}                           # the libraries for programs alone
THREE = {"libc::read", "libc::write", "os::c::rattle_errno"}
# what only a program's main is given, or reaches input and output otherwise; and what would be an axiom of our own
PRINTS = re.compile(r"(?<!:)\bstd::(?:io|fs|env|net|process|thread|rt)\b|\b(?:HostRuntime|Print)\b|\bprint(?:ln)?!|\beprint(?:ln)?!")
DECLARES = {".rt": re.compile(r"\bextern\b(?!\s+\"C\"\s+fn\b)[^\n]*"), ".antt": re.compile(r"^\s*(?:pub\s+)?axiom\b.*", re.M)}


def code(path):
    """A file without its comments."""
    mark = "//" if path.suffix == ".rt" else "--"
    return "\n".join(re.split(rf"(?:^|(?<=\s)){mark}", line, maxsplit=1)[0] for line in command.text(path).splitlines())


def said_of(crate, log):
    """What the check of a crate says."""
    section = re.search(rf"^== {crate}\n(.*?)^rt: {crate} proved$", log, re.M | re.S)
    if section:
        return section[1].splitlines()
    command.need("rt")
    return prover.rt(prover.TOP / "crates" / crate, "check").stdout.splitlines()


def main():
    words = command.parser(__doc__)
    words.add_argument("log", metavar="LOG", nargs="?", help="what `rt ci` printed")
    words.add_argument("--archive", metavar="LOG", help="what `rt lib` printed in crates/cordafina")
    given = words.parse_args()
    log = command.text(given.log) if given.log else ""
    bad = libraries = programs = archives = 0
    for name, (line, below) in prover.lines().items():
        folder, below, wrong, last, assumed = prover.TOP / "crates" / name, set(below), [], [], []
        is_program, is_static = (folder / "src" / "main.rt").exists(), "staticlib" in line.split(":")[0].split()
        if is_program or is_static:
            said = command.text(given.archive).splitlines() if is_static and given.archive else said_of(name, log)
            last = [s for s in said if s.startswith("logic=")][-1:]
            assumed = [s for s in said if s.startswith("axioms ")]
            if not last or not last[0].startswith("logic=proved "):
                wrong.append("is not proved")
            elif "foreign=" in last[0]:
                wrong.append("declares C functions")
            elif not assumed:
                wrong.append("has no report on axioms")
            named = set(re.findall(r"\w+(?:::\w+)+", " ".join(assumed)))
            count = sum(map(int, re.findall(r"\baxioms=(\d+)", "".join(last))))
            if count != len(named) or count != sum(map(int, re.findall(r"\((\d+) of the ", " ".join(assumed)))):
                wrong.append("has axioms that are not named")
            if named != (THREE if is_program else set()):
                wrong.append("has other axioms than the three of std's input and output" if is_program else "rests on an axiom")
            programs, archives = programs + is_program, archives + is_static
        if KIT & below:
            wrong.append("names the kit's crates over C functions")
        for path in sorted(path for part in prover.PARTS for path in (folder / part).rglob("*")):
            if path.suffix in DECLARES and DECLARES[path.suffix].search(code(path)):
                wrong.append(f"declares what is not proved, in {path.relative_to(folder)}")
            if path.suffix == ".rt" and not is_program and name not in FOR_PROGRAMS and PRINTS.search(code(path)):
                wrong.append(f"reads or prints, in {path.relative_to(folder)}")
        if not is_program:
            libraries += 1
            if FOR_PROGRAMS & below:
                wrong.append("rests on a library for programs alone")
        for w in wrong:
            print(f"axioms: {name} {w}: {' '.join(last + assumed)}")
        bad += len(wrong)
    for name in sorted(FOR_PROGRAMS - set(prover.lines())):
        print(f"axioms: crates.txt has no {name}")
        bad += 1
    alone = f"of {libraries} libraries only {', '.join(sorted(FOR_PROGRAMS))}, for programs alone, reads or prints"
    print(f"axioms: {alone}; the archive has none, and {programs} programs have std's three" if not bad else f"axioms: {bad} found")
    return 1 if bad or not libraries or not programs or archives != 1 else 0


if __name__ == "__main__":
    command.run(main)
