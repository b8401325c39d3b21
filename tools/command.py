"""What the tools share: a tool's docstring is its help, and what a user can put right is told in one line, with status 2.

A tool sets sys.dont_write_bytecode before it imports this file, so that nothing is left beside it.
"""
import argparse
import json
import os
import shutil
import sys

TOP = os.path.dirname(os.path.dirname(os.path.realpath(__file__)))
HEX, PLAIN = ("message", "own", "reply"), ("kind", "table_len", "table", "buf", "refusal", "after")    # what a recorded call has


def parser(doc):
    """What a tool takes. `--help` prints usage and docstring; words that it does not take print the usage and end with status 2."""
    return argparse.ArgumentParser(description=doc, formatter_class=argparse.RawDescriptionHelpFormatter, allow_abbrev=False)


def fail(what):
    print(f"{os.path.basename(sys.argv[0])}: {what}", file=sys.stderr)
    sys.exit(2)


def need(program):
    if not shutil.which(program):
        fail(f"there is no {program} on the path (README.md, Quick start, says what is needed)")


def text(path):
    """The text of a file; `-` is standard input."""
    try:
        if path == "-":
            return sys.stdin.buffer.read().decode()
        with open(path, "rb") as f:
            return f.read().decode()
    except UnicodeDecodeError as error:
        fail(f"{path}: is no text, byte {error.start} is not UTF-8")


def calls(path):
    """The recorded calls of a file, one a line."""
    rows = []
    for number, line in enumerate(text(path).rstrip("\n").split("\n"), 1):
        try:
            row = json.loads(line)
            for key in HEX:
                bytes.fromhex(row[key])
            for key in PLAIN:
                row[key]
        except (ValueError, TypeError, LookupError):
            fail(f"{path}: line {number} is no recorded call")
        rows.append(row)
    return rows


def run(main):
    """Runs a tool's main; files that cannot be read or written end it with one line."""
    try:
        sys.exit(main())
    except OSError as error:
        fail(f"{error.filename}: {error.strerror}" if error.filename else error)
