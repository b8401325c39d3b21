#!/usr/bin/env python3
"""Runs every example of docs/REFERENCE.md, and README.md's Quick start, and compares what is answered.

An example is a fenced block. What is answered stands indented by four spaces under what was asked.

    session    requests and replies without their headers, from a fresh table of eight lines, through the listing program;
               the contexts may follow, as that program prints them
    messages   the same with whole messages; `refused 1` is an answer too
    dial       a digit map, the start timer and what zero does, then dialled strings, through the dial program; `""` is no symbol
    c          a whole program, compiled and linked with the archive; the next block, `output`, is what it prints
    quick      README.md's Quick start: a message and its reply on a line

In messages and strings <CR> and <TAB> are those bytes and <N*TEXT> is N times TEXT. Blocks of other kinds are not run, and only
`sh`, `text` and `output` may be such. That a wrong example is found is tried on every block: one byte of an answer is changed,
and the block must then fail. Needed: what `rt ci` made of these two, or
`rt run < stdin` in the folders of both, and for `c` the archive (`(cd crates/cordafina && rt lib)`).
"""
import os
import re
import subprocess
import sys
import tempfile

sys.dont_write_bytecode = True
import command

TOP = command.TOP
SENDER, OWN = '!/1 [10.0.0.1] ', '!/1 [10.0.0.9] '
NOT_RUN = ('sh', 'text')


class Block:
    def __init__(self, path, line, kind):
        self.where = f'{os.path.relpath(path, TOP)}:{line}'
        self.kind, self.lines = kind, []


def blocks_of(path):
    found, open_block = [], None
    for number, line in enumerate(command.text(path).split('\n'), 1):
        if not line.startswith('```'):
            if open_block:
                open_block.lines.append(line)
        elif open_block:
            found.append(open_block)
            open_block = None
        else:
            open_block = Block(path, number, line[3:])
    if open_block:
        raise SystemExit(f'{open_block.where}: the block has no end')
    return found


def unfolded(text):
    text = re.sub(r'<(\d+)\*(.+?)>', lambda m: int(m[1]) * m[2], text)
    return text.replace('<CR>', '\r').replace('<TAB>', '\t')


def asked_and_answered(lines):
    """Pairs of what is asked and its answer; then the lines that stand for themselves at the end."""
    pairs, place = [], 0
    while place + 1 < len(lines) and lines[place + 1].startswith('    '):
        pairs.append((unfolded(lines[place]), unfolded(lines[place + 1][4:])))
        place += 2
    return pairs, lines[place:]


def run(command, text):
    done = subprocess.run(command, input=text.encode('latin-1'), capture_output=True)
    if done.returncode or done.stderr:
        return f'{os.path.basename(command[0])} ended with {done.returncode}: {done.stderr.decode("latin-1")}'.split('\n')
    return done.stdout.decode('latin-1').split('\n')[:-1]


def program(name):
    path = os.path.join(TOP, 'crates', name, 'out', name)
    if not os.path.exists(path):
        command.fail(f'there is no {path}; make it with `(cd crates/{name} && rt run < stdin)`')
    return path


def session(lines, header):
    pairs, rest = asked_and_answered(lines)
    ask, answer = (SENDER, OWN) if header else ('', '')
    expected = [answer + reply for _, reply in pairs] + rest
    got = run([program('listing')], ''.join(ask + message + '\n' for message, _ in pairs))
    if not rest:
        got = [line for line in got[:len(pairs)]]
    return expected, got


def dial(lines):
    pairs, rest = asked_and_answered(lines[2:])
    strings = ['' if dialled == '""' else dialled for dialled, _ in pairs]
    return [reply for _, reply in pairs] + rest, run([program('dial')], '\n'.join(lines[:2] + strings) + '\n')


def quick(lines):
    pairs = [re.split(r' {2,}', line) for line in lines]
    return [pair[1] for pair in pairs], run([program('listing')], ''.join(pair[0] + '\n' for pair in pairs))[:len(pairs)]


def c_program(lines, output):
    archive = os.path.join(TOP, os.environ.get('CORDAFINA_LIB', 'crates/cordafina/out/libcordafina.a'))
    if not os.path.exists(archive):
        command.fail(f'there is no archive at {archive}; make it with `(cd crates/cordafina && rt lib)`')
    with tempfile.TemporaryDirectory() as folder:
        source, binary = os.path.join(folder, 'example.c'), os.path.join(folder, 'example')
        open(source, 'w').write('\n'.join(lines) + '\n')
        words = '-std=c99 -O2 -Wall -Wextra -pedantic -Werror'.split()
        built = subprocess.run(['cc', *words, '-I', os.path.join(TOP, 'include'), source, archive, '-o', binary], capture_output=True, text=True)
        return output, built.stderr.split('\n') if built.returncode else run([binary], '')


def result_of(block, output):
    """What the block says, and what is answered."""
    if block.kind in ('session', 'messages'):
        return session(block.lines, block.kind == 'session')
    if block.kind == 'dial':
        return dial(block.lines)
    if block.kind == 'quick':
        return quick(block.lines)
    return c_program(block.lines, output)


def altered(lines, place):
    """The lines with one byte of a line changed."""
    line = lines[place]
    last = '!' if line[-1] != '!' else '?'
    return lines[:place] + [line[:-1] + last] + lines[place + 1:]


def main():
    words = command.parser(__doc__)
    words.add_argument('files', metavar='FILE.md', nargs='*', help='none: docs/REFERENCE.md and README.md')
    paths = words.parse_args().files or [os.path.join(TOP, 'docs/REFERENCE.md'), os.path.join(TOP, 'README.md')]
    failed = found = count = answers = 0
    for path in paths:
        blocks = blocks_of(path)
        for place, block in enumerate(blocks):
            if block.kind in NOT_RUN or (block.kind == 'output' and place and blocks[place - 1].kind == 'c'):
                continue
            if block.kind not in ('session', 'messages', 'dial', 'quick', 'c'):
                print(f'{block.where}: a block of no kind that is run: {block.kind!r}')
                failed += 1
                continue
            follows = blocks[place + 1] if place + 1 < len(blocks) else None
            if block.kind == 'c' and (follows is None or follows.kind != 'output'):
                print(f'{block.where}: no block `output` follows the program')
                failed += 1
                continue
            expected, got = result_of(block, follows.lines if follows else [])
            count, answers = count + 1, answers + len(expected)
            if not expected:
                print(f'{block.where}: an example without an answer')
                failed += 1
            elif expected != got:
                first = next((i for i, pair in enumerate(zip(expected, got)) if pair[0] != pair[1]), min(len(expected), len(got)))
                print(f'{block.where}: answer {first + 1} of {len(expected)}')
                for name, lines in (('says', expected), ('is', got)):
                    print(f'  {name:5}{lines[first] if first < len(lines) else "(nothing)"}')
                failed += 1
            else:
                # a wrong example is found
                wrong = block.lines if block.kind != 'c' else follows.lines
                last = max(i for i, line in enumerate(wrong) if line)
                changed = altered(wrong, last)
                again = result_of(block if block.kind == 'c' else with_lines(block, changed), changed)
                if again[0] == again[1]:
                    print(f'{block.where}: a changed answer was not found')
                    failed += 1
                found += 1
    print(f'reference: {count} examples with {answers} answers, {failed} wrong; each of {found} with a changed answer is found')
    if failed or not count:
        raise SystemExit(1)


def with_lines(block, lines):
    other = Block(os.path.join(TOP, block.where), 0, block.kind)
    other.lines = lines
    return other


if __name__ == '__main__':
    command.run(main)
