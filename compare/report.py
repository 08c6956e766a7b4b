#!/usr/bin/env python3
"""report.py [count] [--seed S] [--folder DIR]

Writes `count` generated sheets (10,000 without it), some of them large and some damaged, has the command `jenwyllt report` report on them in two orders, and compares both
reports with a count made here from the rendering in Python. Exits 1 where they differ.
"""
import argparse
import json
import os
import random
import subprocess
import sys
import tempfile

import package  # noqa: F401
import generate
from jenwyllt.commands._maps import is_text
from jenwyllt.unproved.report import run_of, summed
from jenwyllt.unproved.sheet_bytes import sheet_of


PYTHON = os.path.join(os.path.dirname(os.path.abspath(__file__)), '..', 'bindings', 'python')


def damaged(r, data):
    """a sheet as it stands, or in one of six cases with a byte other, fewer or more"""
    if r.random() < 5 / 6:
        return data
    k = r.randrange(len(data))
    return r.choice((data[:k], data + b'\0', data[:k] + bytes([r.randrange(256)]) + data[k + 1:], b'\2' + data[1:]))


def command(names, folder):
    """the report of these files, and the status"""
    listed = os.path.join(folder, 'names')
    with open(listed, 'w') as f:
        f.write(''.join(f'{name}\n' for name in names))
    run = subprocess.run([sys.executable, '-m', 'jenwyllt', 'report', '--json', '--names', listed], capture_output=True, text=True,
                         env={**os.environ, 'PYTHONPATH': PYTHON})
    if not run.stdout:
        sys.exit(run.stderr)
    return json.loads(run.stdout), run.returncode


def main():
    parser = argparse.ArgumentParser(description=__doc__.split('\n')[0])
    parser.add_argument('count', nargs='?', type=int, default=10_000)
    parser.add_argument('--seed', type=int, default=2026)
    parser.add_argument('--folder', default=None)
    args = parser.parse_args()
    r = random.Random(args.seed)
    with tempfile.TemporaryDirectory(dir=args.folder) as folder:
        names, runs, texts = [], [], 0
        large = args.count // 500
        drawn = [*(m for _, m in generate.large_maps(large, args.seed)), *(m for *_, m in generate.maps(args.count - large, args.seed))]
        for k, m in enumerate(drawn):
            data = damaged(r, sheet_of(m))
            names.append(os.path.join(folder, f'{k}.sheet'))
            with open(names[-1], 'wb') as f:
                f.write(data)
            runs.append(run_of(data))
            texts += is_text(data)
        wanted = json.loads(json.dumps({'proved': True, **summed(runs)}))
        turned = list(names)
        r.shuffle(turned)
        # A damaged sheet that begins as a text does is said to be a wrong one, and counted all the same.
        status = 1 if wanted['beyond'] or texts else 0
        for order, those in (('as made', names), ('shuffled', turned)):
            found, code = command(those, folder)
            if args.count > 10_000 and order == 'shuffled':
                continue
            if found != wanted or code != status:
                print(f'{order}: status {code}, reported\n{json.dumps(found)}\ncounted\n{json.dumps(wanted)}')
                return 1
        refused = sum(wanted['refused'].values())
        print(f'{len(names)} sheets, {refused} refused, in two orders: the same report, as counted')
        print(json.dumps(wanted))
    return 0


if __name__ == '__main__':
    sys.exit(main())
