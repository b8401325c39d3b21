#!/usr/bin/env python3
"""Whether what the documents name is there: each name in backquotes in docs/*.md and README.md (docs/changes, docs/PORT.md and docs/DESIGN-PASS.md are history, and left out) that has the
form of a file, a definition, a theorem or a function of the tree.

    crates/gateway/src/lib.rt     a path from a top folder, with or without backquotes: a file or folder; NAME, f and `*` stand for any name
    specs/Places, Theorems.antt   a path from a crate or a folder of one, a file's name: some file has it as its path's end
    Reading.item_r                a file Reading.antt, or one that declares a type Reading, declares item_r
    gateway::answer               crate, module or type gateway has a function, type, constant or case answer
    read_derives, SameSet, a-file a word of the proofs, the code, the headers, the tools or the tests, comments aside, or the name of an edit, a
                                  file, a folder

All else is passed over: texts of the protocol, numbers, commands, single plain words.
"""
import glob
import os
import re
import sys

sys.dont_write_bytecode = True
import command

TOPS = ("crates", "docs", "examples", "include", "rust", "tests", "tools", ".ci")
PARTS = ("specs", "proofs", "src", "must-fail", "definition-edits")         # folders of a crate or of tools
COMMENTS = {".antt": r"(?m)(?:^|(?<=\s))--(?:\s.*|$)", ".py": r"(?m)^\s*#.*$", ".sh": r"(?m)^\s*#.*$"}
SLASHES = r"(?s)/\*.*?\*/|//[^\n]*"
DECLARED = re.compile(r"(?m)^[ ]*(?:pub )?(?:data|record) (\S+)|^[ ]*((?:[^\s(){}:;,.=]+ )+):(?=\s)")          # a type; a definition, a field or a case
CODE = (".rt", ".rs")
ITEM = r"\b(?:fn|struct|enum|const|static|mod|type|trait)\s+{0}\b|(?m:^\s*{0}\s*[,({{=]|^\s*{0}$)"


class Tree:
    def __init__(self):
        self.paths, self.texts, self.words, self.proofs = set(), {}, set(), set()
        for top in TOPS:
            for folder, folders, files in os.walk(top):
                folders[:] = [name for name in folders if not re.fullmatch(r"rust/target|crates/\w+/out", os.path.join(folder, name))]
                self.paths.update(os.path.join(folder, name) for name in folders + files)
        self.paths.update(TOPS, (name for name in os.listdir(".") if os.path.isfile(name)))
        self.all = "\n".join(sorted(self.paths))
        self.stems = {os.path.splitext(os.path.basename(path))[0] for path in self.paths}
        self.declared = {}
        for path in sorted(self.paths):
            ending = os.path.splitext(path)[1]
            if ending not in (".antt", ".py", ".sh", ".h", ".c", ".cpp") + CODE or not os.path.isfile(path) or path.startswith("docs"):
                continue
            text = re.sub(COMMENTS.get(ending, SLASHES), "", command.text(path))
            if ending == ".antt":
                self.proofs.update(re.split(r"[\s(){};,.«»]+", text))
                self.declared[path] = {word for found in DECLARED.findall(text) for words in found for word in words.split()}
            else:
                self.words.update(re.findall(r"\w+", text))
                if ending in CODE:
                    self.texts[path] = text

    def has_path(self, name):
        """From a top folder the whole path; else parts of one in their order, the last with or without its ending."""
        parts = []
        for part in name.rstrip("/").split("/"):
            if re.fullmatch("[A-Z]+", part) and part not in self.stems or re.fullmatch("[a-z]", part):
                part = "*"
            parts.append(re.sub(r"\\\+[a-z]\b", "[+][^/\n+]+", re.escape(part).replace(r"\*", "[^/\n]+")))
        whole = name.split("/")[0] in TOPS
        return bool(re.search("(?m)^" + "/".join(parts) + "$" if whole else "(?m)(?:^|/)" + "/(?:.*/)?".join(parts) + r"(?:\.\w+)?$", self.all))

    def has_definition(self, module, name):
        if any(name in names and (os.path.basename(path) == module + ".antt" or module in names) for path, names in self.declared.items()):
            return True
        return any(re.search(rf"\b(?:struct|enum) {module}\b", text) and re.search(rf"\b{re.escape(name)}\b", text) for text in self.texts.values())

    def has_item(self, owner, name):
        for path, text in self.texts.items():
            if owner in path.replace(".", "/").split("/") or re.search(rf"\b(?:struct|enum|impl|trait) {owner}\b", text):
                if re.search(ITEM.format(re.escape(name)), text):
                    return True
        return False

    def has(self, name):
        """Whether the tree has what a text in backquotes names; None for a text that is no name by its form."""
        if re.match(r"(?:rust/target|crates/\w+/out)/", name):
            return None
        if re.fullmatch(r"[A-Z]\w*\.[^\s.]+( \w+)*", name):
            module, of = name.split(" ")[0].split(".")
            return module in self.stems and of in ("antt", "md") or self.has_definition(module, of)
        name = re.sub(r"\(.*", "", name) if re.match(r"[\w:]+\(", name) else name
        if " " in name:
            return None
        if re.fullmatch(r"[\w.+*-]+(/[\w.+*-]+)*/?", name) and "/" in name:
            head = name.split("/")[0]
            return self.has_path(name) if head in TOPS + PARTS or f"crates/{head}" in self.paths else None
        if re.fullmatch(r"\w+\.(antt|rt|rs|py|sh|md|txt|c|h)", name):
            return self.has_path(name)
        if re.fullmatch(r"\w+(::\w+)+", name):
            owner, of = name.split("::")[-2:]
            return name.startswith("std::") or self.has_item(owner, of)
        if re.fullmatch(r"[a-z]\w*(-[\w?′]+)+|[A-Z]?[a-z]+[A-Z]\w*|[A-Za-z]\w*_[\w?′]+", name):
            return name in self.proofs or name in self.words or name in self.stems
        return None


def names(text):
    """Each name with the line that it begins on: paths anywhere, all else in backquotes. Fenced blocks are left out."""
    text = re.sub(r"(?ms)^```.*?^```[ ]*$", lambda block: "\n" * block[0].count("\n"), text)
    for found in re.finditer(r"(?s)(?<!`)(`+)(?!`)((?:(?!\n\n).)+?)(?<!`)\1(?!`)", text):
        yield text.count("\n", 0, found.start()) + 1, found[2].strip()
    plain = re.sub(r"(?s)(?<!`)`[^`]+`", lambda span: " " * len(span[0]), text)
    for found in re.finditer(rf"(?<![\w/.-])(?:{'|'.join(map(re.escape, TOPS))})/[\w+/*-]+(?:\.\w+)*", plain):
        yield text.count("\n", 0, found.start()) + 1, found[0]


def main():
    words = command.parser(__doc__)
    words.add_argument("files", metavar="FILE", nargs="*", help="documents; none: docs/*.md and README.md")
    files = [os.path.abspath(path) for path in words.parse_args().files]
    os.chdir(command.TOP)
    texts = {path: command.text(path) for path in files or sorted({*glob.glob("docs/*.md")} - {"docs/PORT.md", "docs/DESIGN-PASS.md"}) + ["README.md"]}
    tree = Tree()
    looked = bad = 0
    for path, text in texts.items():
        for line, name in sorted(names(text)):
            there = tree.has(name)
            looked += there is not None
            if there is False:
                bad += 1
                print(f"{path}:{line}: `{name}`")
    print(f"{looked} names in {len(texts)} documents, {bad} not found")
    return 1 if bad or not looked else 0


if __name__ == "__main__":
    command.run(main)
