#!/usr/bin/env python3
"""function_times.py CRATE [COUNT]

Where the seconds of a crate's check go: proves the crate from nothing and prints how long it took from the end of one function's proof to the end of the next,
the dearest first (COUNT of them, or 25). The check works at several functions side by side, so that a line is a hint where to look. What the crate rests on must
be proved.
"""
import argparse
import pathlib
import shutil
import subprocess
import sys
import time

ROOT = pathlib.Path(__file__).resolve().parent.parent


def run(folder):
    """Each function with the seconds since the one before it, and the exit status of the check."""
    found, before = [], time.monotonic()
    child = subprocess.Popen(['rt', 'check', '--progress'], cwd=folder, stdout=subprocess.PIPE, stderr=subprocess.STDOUT, text=True)
    for line in child.stdout:
        if line.startswith('checked '):
            now = time.monotonic()
            found.append((now - before, line.split()[1].rstrip(',')))
            before = now
    return found, child.wait()


def main():
    parser = argparse.ArgumentParser(description=__doc__, formatter_class=argparse.RawDescriptionHelpFormatter)
    parser.add_argument('crate')
    parser.add_argument('count', nargs='?', type=int, default=25)
    args = parser.parse_args()
    folder = ROOT / 'crates' / args.crate
    if not (folder / 'src').is_dir():
        parser.error(f'there is no crates/{args.crate}')
    shutil.rmtree(folder / 'out' / 'incremental', ignore_errors=True)
    found, status = run(folder)
    for seconds, name in sorted(found, reverse=True)[:args.count]:
        print(f'{seconds:7.2f}  {name}')
    sys.exit(status)


main()
