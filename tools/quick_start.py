#!/usr/bin/env python3
"""Answers messages by the listing program: README.md's Quick start, or those of a file, one a line.

In seconds, with no proof: the sources as they are, run by `rt try`. It prints each message with its reply on a line, then the contexts.
"""
import os
import re
import subprocess
import sys

sys.dont_write_bytecode = True
import command

TOP = command.TOP


def of_readme():
    text = command.text(os.path.join(TOP, 'README.md'))
    block = re.search(r'^```quick\n(.*?)^```$', text, re.M | re.S)
    return [re.split(r' {2,}', line)[0] for line in block[1].splitlines()]


def run(command, messages):
    """What a command prints in the listing program's folder, with messages as its input."""
    done = subprocess.run(command, cwd=os.path.join(TOP, 'crates/listing'), input=messages.encode(), capture_output=True)
    return done.returncode, done.stdout.decode('latin-1'), done.stderr.decode(errors='replace')


def proved(messages):
    """By crates/listing/out/listing, which `rt run` proves and makes if it is not up to date; what that prints is no reply."""
    status, output, told = run(['rt', 'run'], '')
    if status:
        raise SystemExit(f'{output[-2000:]}{told}quick start: FAILED, the listing program is not proved')
    status, output, told = run([os.path.join(TOP, 'crates/listing/out/listing')], messages)
    if status:
        raise SystemExit(f'{told}quick start: FAILED, the listing program ended with status {status}')
    return output


def tried(messages):
    """By `rt try`: the sources compiled with checks, and nothing proved."""
    status, output, told = run(['rt', 'try'], messages)
    if status or not re.search(r'^run=ended status=0 .*proved=no$', told, re.M):
        raise SystemExit(f'{output}{told}quick start: FAILED, `rt try` did not run the listing program to its end')
    return output


def main():
    words = command.parser(__doc__)
    words.add_argument('--proved', action='store_true', help='by the proved program; the first time `rt run` proves it, which takes minutes')
    words.add_argument('file', metavar='FILE', nargs='?', help='messages, one a line; `-` is standard input; none: those of README.md')
    words = words.parse_args()
    command.need('rt')
    messages = command.text(words.file).splitlines() if words.file else of_readme()
    output = (proved if words.proved else tried)(''.join(message + '\n' for message in messages)).splitlines()
    width = max((len(message) for message in messages if len(message) < 80), default=0)
    for message, reply in zip(messages, output):
        print(f'{message:{width}}  {reply}')
    print('\n'.join(output[len(messages):]))
    if words.proved:
        print('(by crates/listing/out/listing, which `rt run` proved)')
    else:
        print('(NOT PROVED: the sources were run without their proofs; with --proved they are proved first)')


if __name__ == '__main__':
    command.run(main)
