#!/usr/bin/env python3
"""How the program meets its surroundings: input that fails, comes in pieces, or never ends; output that is closed or full.

    tests/ends.py PROGRAM

The program must end by itself with status 0 and write nothing on standard error. What a large answer must be comes from the second implementation. The last line is
'N passed, M failed'.
"""
import os
import pathlib
import subprocess
import sys
import time

ROOT = pathlib.Path(__file__).resolve().parent.parent
sys.path.insert(0, str(ROOT / 'reference'))

import toppaths  # noqa: E402
from results import told  # noqa: E402

SHEET = (ROOT / 'crates/toppaths/stdin').read_bytes()
PRINTED = (ROOT / 'crates/toppaths/stdout').read_bytes()
LARGE = (ROOT / 'bench/designs/ladder-hold.in').read_bytes()


def longest():
    """A design of the most pins with the longest paths, 254 arcs, and more than 16 of them: a chain with some arcs twice."""
    arcs = [(0, 1)] + [(pin, pin + 1) for pin in range(1, 255)] + [(pin, pin + 1) for pin in range(1, 6)]
    lines = [f'design\t256\t{len(arcs)}\t1\t1000000', 'pin\tR\t0\t7', 'pin\tK'] + ['pin\tD'] * 254
    lines += [f'arc\t{low}\t{high}\t{place}\t{1000 * place}' for place, (low, high) in enumerate(arcs)]
    lines += ['test\t1\t255\t3\t4', 'ask\tsetup\t16']
    return ''.join(line + '\n' for line in lines).encode()


def run(program, **named):
    """What the program printed, if it ended well."""
    done = subprocess.run([program], stderr=subprocess.PIPE, timeout=60, check=False, **named)
    return done.stdout if done.returncode == 0 and done.stderr == b'' else None


def from_path(program, path):
    """The program with a path as standard input; from a folder every read fails."""
    source = os.open(path, os.O_RDONLY)
    try:
        return run(program, stdin=source, stdout=subprocess.PIPE)
    finally:
        os.close(source)


def in_pieces(program, text, size):
    """The text, a piece at a time."""
    with subprocess.Popen([program], stdin=subprocess.PIPE, stdout=subprocess.PIPE) as child:
        for at in range(0, len(text), size):
            child.stdin.write(text[at:at + size])
            child.stdin.flush()
            time.sleep(0.01)
        child.stdin.close()
        return child.stdout.read()


def closed(program, text, which):
    """The program with standard input or output closed: nothing of it can be seen but that it ends well."""
    shell = f'exec "$0" {which}'
    done = subprocess.run(['sh', '-c', shell, program], input=text, stdout=subprocess.PIPE, stderr=subprocess.PIPE, timeout=60, check=False)
    return done.stdout if done.returncode == 0 and done.stderr == b'' else None


def left_early(program, text):
    """A reader of the output that goes away at once: the program ends, by the pipe's signal or by itself."""
    with subprocess.Popen([program], stdin=subprocess.PIPE, stdout=subprocess.PIPE, stderr=subprocess.PIPE) as child:
        child.stdout.close()
        child.stdin.write(text)
        child.stdin.close()
        return child.wait(60) in (0, -13) and child.stderr.read() == b''


def main():
    program = os.path.abspath(sys.argv[1])
    results = [
        ('a read that fails: nothing is printed', from_path(program, '/') == b''),
        ('standard input is closed: nothing is printed', closed(program, b'', '<&-') == b''),
        ('standard output is closed', closed(program, SHEET, '>&-') == b''),
        ('standard output is full', closed(program, SHEET, '>/dev/full') == b''),
        ('the reader of a large answer goes away', left_early(program, LARGE)),
        ('input in pieces of 100 bytes', in_pieces(program, SHEET, 100) == PRINTED),
        ('input byte by byte', in_pieces(program, SHEET, 1) == PRINTED),
        ('16 rows of 254 arcs', run(program, input=longest(), stdout=subprocess.PIPE) == toppaths.printed(longest())),
        ('an empty input', run(program, input=b'', stdout=subprocess.PIPE) == b'refused\t2\t1\n'),
        ('input without an end', from_path(program, '/dev/zero') == b'refused\t1\t0\n'),
        ('65,537 bytes', run(program, input=b'x' * 65537, stdout=subprocess.PIPE) == b'refused\t1\t0\n'),
        ('65,536 bytes', run(program, input=b'x' * 65536, stdout=subprocess.PIPE) == b'refused\t2\t1\n'),
    ]
    return told(results)


if __name__ == '__main__':
    sys.exit(main())
