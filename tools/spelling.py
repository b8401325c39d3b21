#!/usr/bin/env python3
"""Spells the names that this repository's own definitions, lemmas, fields and constructors declare in snake case, from camel case or with dashes.

Run once, after the kit's port.py (docs/PORT.md). Types, facts and modules keep their capital; names of src/, strings, and names of the libraries stay.
It prints a line for each name that would fall together with another, and fails then. Without --write it writes nothing.
"""
import pathlib
import re
import sys

sys.dont_write_bytecode = True
import command

TOP = pathlib.Path(command.TOP)
CUT = r"""[^\s(){}.;,@"«»λ\\]+"""
DECLARED = re.compile(r"^(\s*)((?:(?:pub|abbrev|unfoldable)\s+)*)([^\s(){}:.;,@\"«»]+)((?:\s+\{[^{}]*\})*)\s+:\s")
HEAD = re.compile(r"^(\s*)((?:(?:pub|abbrev|unfoldable)\s+)*)(data|record)\s+(\S+)")
# Names that the kit makes of code, which a proof file defines.
MADE = re.compile(r"(?:invariant|decreases|ghost|loop|returns|overflow\w*|nonzero\w*|bounds|slice_bounds|offset_bounds|prove|invariant_of)-.*")
# Names that would fall together with another, and what they are called instead.
OTHERWISE = {
    "no_span": "no_span_lem",
    "some_of": "some_of_lem",
    "bit-or": "bit_or_lem",
    "value-of": "value_of_lem",
    "letter_at": "letter_at_lem",
    "top_left": "top_left_lem",
    "items-in": "items_in_lem",
    "drop_all": "drop_all_lem",
    "no_target": "to_no_target",
    "slot-of": "slot_of_lem",
    "of-bits": "of_bits_lem",
    "is-number": "is_number_lem",
    "item-at": "item_at_lem",
    "items_at": "items_at_lem",
    "same_item": "same_item_lem",
    "part_end": "part_end_lem",
    "is_digit": "is_digit_lem",
    "row_from": "row_from_lem",
}


def snake(name):
    words = re.sub(r"(?<=[a-z0-9?])([A-Z]+)", lambda m: "_" + m[1].lower(), name)
    return words.replace("-", "_")


def own(module, crates):
    steps = module.split(".")
    return steps[0] in ("Rattle", "package") and (len(steps) < 2 or steps[0] == "package" or steps[1] in crates)


def imports(text):
    """Each `use` line's module and names."""
    for m in re.finditer(r"\buse\s+([^\s;{]+?)\.\{([^}]*)\}", text):
        names = [n.strip().split(" as ") for n in m[2].split(",") if n.strip()]
        yield m[1], [n[0].strip() for n in names] + [n[1].strip() for n in names if len(n) > 1]


def declarations(text):
    """Names that a file declares: (name, is a field)."""
    inside = None
    for line in text.splitlines():
        if line.lstrip().startswith("--") or not line.strip():
            continue
        head = HEAD.match(line)
        if head:
            inside = (head[3], len(head[1]))
            yield head[4], False
            continue
        it = DECLARED.match(line)
        if it and it[3] not in ("use", "module", "open"):
            field = bool(inside and inside[0] == "record" and len(it[1]) > inside[1])
            if not field and not (inside and len(it[1]) > inside[1]):
                inside = None
            yield it[3], field
        elif inside and len(line) - len(line.lstrip()) <= inside[1]:
            inside = None


def main():
    words = command.parser(__doc__)
    words.add_argument("--write", action="store_true", help="write the files")
    write = words.parse_args().write
    crates = {p.name for p in (TOP / "crates").iterdir() if (p / "src").is_dir()}
    antt = sorted(p for p in (TOP / "crates").rglob("*.antt") if "out" not in p.parts)
    rt = sorted(p for p in (TOP / "crates").rglob("*.rt") if "out" not in p.parts)
    texts = {p: p.read_text(encoding="utf-8") for p in antt + rt}
    names, fields = set(), set()
    for p in antt:
        for name, field in declarations(texts[p]):
            names.add(name)
            if field:
                fields.add(name)
    new = {n: OTHERWISE.get(n, snake(n)) for n in names if re.match(r"^\+?[a-z]", n) and not MADE.fullmatch(n) and (n in OTHERWISE or re.search(r"[A-Z]|-", n))}
    targets = {}
    for a, b in new.items():
        targets.setdefault(b, []).append(a)
    # A lemma that is called as the definition that it is about.
    for b, both in targets.items():
        if len(both) == 2 and sum("-" in a for a in both) == 1:
            new[next(a for a in both if "-" in a)] = b + "_lem"
    new = {a: b for a, b in new.items() if a != b}
    targets = {}
    for a, b in new.items():
        targets.setdefault(b, []).append(a)
    faults = 0
    for b, a in sorted(targets.items()):
        if len(a) > 1:
            files = [p for p in antt + rt if sum(bool(re.search(rf"(?<![^\s(){{}}.;,@]){re.escape(x)}(?![^\s(){{}}.;,@])", texts[p])) for x in a) > 1]
            faults += bool(files)
            print(f"{'FAULT' if files else 'apart'}: {' and '.join(a)} become {b}", *[f.relative_to(TOP) for f in files[:3]])
    changed = 0
    for p in antt + rt:
        text = texts[p]
        foreign = set()
        for module, listed in imports(text):
            if not own(module, crates):
                foreign |= set(listed)
        tokens = set(re.findall(CUT, text))
        here = {a: b for a, b in new.items() if a in tokens and a not in foreign}
        if p.suffix == ".rt":
            here = {a: b for a, b in here.items() if a not in OTHERWISE or "-" in a}
        for a, b in here.items():
            if b in tokens and b not in here:
                plain = re.search(rf"(?<![\w.:]){re.escape(b)}\s*:(?!:)" if p.suffix == ".rt" else rf"(?<![^\s(){{}};,@«λ]){re.escape(b)}(?![^\s(){{}}.;,@»])", text)
                if plain or b in foreign:
                    faults += 1
                    line = text[: plain.start()].count("\n") + 1 if plain else 0
                    print(f"FAULT: {p.relative_to(TOP)}:{line}: {a} becomes {b}, which stands there: {text.splitlines()[line - 1][:110] if line else 'imported'}")

        def one(m):
            word = m[0]
            at = m.start()
            if word not in here:
                return word
            before = text[text.rfind("\n", 0, at) + 1 : at]
            comment = re.search(r"(?:^|\s)(?://|--)(?=\s)(.*)$", before)
            # in a comment's prose `well-formed` is a word, and `digitMap` a rule of Annex B
            if comment and comment[1].count("`") % 2 == 0:
                return word
            if at and text[at - 1] == "." and word not in fields and not re.search(r"(?<![^\s(){};,@.])[A-Z]\w*\.$", text[max(0, at - 60) : at]):
                return word
            if p.suffix == ".rt" and re.search(r'"[^"\n]*$', text[text.rfind("\n", 0, at) + 1 : at]):
                return word
            return here[word]

        turned = re.sub(CUT, one, text)
        if turned != text:
            changed += 1
            if write:
                p.write_text(turned, encoding="utf-8")
    print(f"{len(new)} names, {changed} files, {faults} faults")
    return 1 if faults else 0


if __name__ == "__main__":
    command.run(main)
