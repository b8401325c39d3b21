#!/usr/bin/env python3
"""The listing program on input that its reads cut: a session of over 128 KiB, and sessions that come in small pieces.

usage: tests/pieces.py PROGRAM FOLDER

A piece is written once the program has read the one before, so that each read gives one piece. The long session is made here, its replies
by document 01's rules: each line has its own identifier, so that a line that is not answered or answered twice shows. Its last line has no line end.
Nothing may be written to standard error.
"""
import fcntl
import glob
import os
import struct
import subprocess
import sys
import termios
import threading
import time


def printed(program, pieces):
    """What the program prints for pieces of input, each given to one read."""
    run = subprocess.Popen([program], stdin=subprocess.PIPE, stdout=subprocess.PIPE, stderr=subprocess.PIPE)
    output = {}
    readers = [threading.Thread(target=lambda name=name: output.update({name: getattr(run, name).read()})) for name in ("stdout", "stderr")]
    for r in readers:
        r.start()
    pipe = run.stdin.fileno()
    try:
        for piece in pieces:
            os.write(pipe, piece)
            late = time.monotonic() + 60
            while struct.unpack("i", fcntl.ioctl(pipe, termios.FIONREAD, b"\0" * 4))[0]:
                if run.poll() is not None or time.monotonic() > late:
                    raise BrokenPipeError
    except BrokenPipeError:
        print("pieces: the program stopped reading")
    try:
        run.stdin.close()
    except BrokenPipeError:
        pass
    for r in readers:
        r.join()
    if output["stderr"] or run.wait():
        print(f"pieces: status {run.returncode}, standard error {output['stderr'][:200]!r}")
        return b""
    return output["stdout"]


def cut(data, size):
    return [data[i:i + size] for i in range(0, len(data), size)]


def long_session():
    """6,000 lines that each change nothing, and one that makes a context."""
    head, own = b"!/1 [10.0.0.1] ", b"!/1 [10.0.0.9] "
    sent = b"".join(head + b"T=%d{C=-{MF=L/1/1}}\n" % i for i in range(1, 6001))
    replies = b"".join(own + b"P=%d{C=-{MF=L/1/1}}\n" % i for i in range(1, 6001))
    sent += head + b"T=6001{C=${PR=3,A=L/1/5,A=$}}"
    replies += own + b"P=6001{C=1{A=L/1/5,A=R/1}}\ncontexts 1\n1 3 0 L/1/5 R/1\n"
    return sent, replies


def main():
    program, folder = sys.argv[1:]
    sent, replies = long_session()
    assert len(sent) > 128 * 1024
    first = sorted(glob.glob(os.path.join(folder, "*.in")))[0]
    short, answers = open(first, "rb").read(), open(first[:-3] + ".out", "rb").read()
    # 65,536 bytes are the program's own buffer, and the most that a pipe holds
    cases = [(f"a session of {len(sent)} bytes in reads of {n}", cut(sent, n), replies) for n in (65536, 1000)]
    cases += [(f"{os.path.basename(first)} in pieces of {n}", cut(short, n), answers) for n in (1, 7, 4097)]
    for name, pieces, want in cases:
        if printed(program, pieces) != want:
            print(f"pieces: {name} is answered otherwise")
            return 1
    print(f"pieces: {len(cases)} inputs printed as expected, the longest of {len(sent)} bytes")
    return 0


sys.exit(main())
