#!/usr/bin/env python3
"""Fails if a line of a crate's src, specs or proofs is longer than LIMIT characters, and names each."""
import glob
import os
import sys

LIMIT = 160
TOP = os.path.join(os.path.dirname(os.path.abspath(__file__)), '..')


def main():
    os.chdir(TOP)
    over = 0
    for part in ('src', 'specs', 'proofs'):
        for path in sorted(glob.glob(f'crates/*/{part}/**', recursive=True)):
            if path.endswith(('.rt', '.antt')):
                with open(path, encoding='utf-8') as lines:
                    for number, line in enumerate(lines, 1):
                        if len(line.rstrip('\n')) > LIMIT:
                            over += 1
                            print(f'{path}:{number}: {len(line) - 1} characters')
    print(f'{over} lines of more than {LIMIT} characters')
    sys.exit(1 if over else 0)


main()
