"""Replays the stored answers of vectors/ on the rendering in Python: shows that the files say what README.md there says.

    python3 replay.py [FOLDER]
"""
import argparse
import os

import package  # noqa: F401
import compare
from jenwyllt.unproved import sheet_bytes
from jenwyllt.unproved.hypotenuse import answer, double
from jenwyllt.unproved.reference import groups


def words(line, word):
    first, *rest = line.split(' ')
    assert first == word, line
    return rest


def maps(lines):
    count = 0
    while lines:
        block, lines = lines[:8], lines[8:]
        name, = words(block[0], 'map')
        size, text = words(block[1], 'sheet')
        sheet = bytes.fromhex(text)
        assert len(sheet) == int(size), name
        full = compare.full_answer(sheet_bytes.read(sheet))
        assert [full['number'], full['value']] == list(map(int, words(block[2], 'answer'))), name
        full['labels'] = [[n] for n in full['labels']]
        full['records'] = [[r[0], *(double(b) for b in r[1:5]), *r[5:]] for r in full['records']]
        for line, word, width in zip(block[3:], ('labels', 'tallies', 'pairs', 'records', 'rows'), (1, 2, 3, 11, 5)):
            n, *numbers = map(int, words(line, word))
            assert len(numbers) == n * width and groups(numbers, width) == [tuple(r) for r in full[word]], (name, word)
        count += 1
    return count


def sheets(lines):
    count = 0
    while lines:
        size, text = words(lines[0], 'sheet')
        n, = words(lines[1], 'prints')
        expected, lines = lines[2:2 + int(n)], lines[2 + int(n):]
        data = bytes.fromhex(text)
        assert len(data) == int(size) and sheet_bytes.keptlist(data) == '\n'.join(expected) + '\n', text
        count += 1
    return count


def roots(lines):
    for line in lines:
        x, y, code, root = line.split(' ')
        assert answer(int(x, 16), int(y, 16)) == (int(code), int(root, 16)), line
    return len(lines)


def main():
    a = argparse.ArgumentParser(description=__doc__, formatter_class=argparse.RawDescriptionHelpFormatter)
    a.add_argument('folder', nargs='?', default=os.path.join(os.path.dirname(os.path.abspath(__file__)), '../vectors'))
    folder = a.parse_args().folder
    for name, check in (('maps.txt', maps), ('sheets.txt', sheets), ('hypotenuse.txt', roots)):
        with open(os.path.join(folder, name)) as f:
            print(name, check(f.read().splitlines()), 'agree')


if __name__ == '__main__':
    main()
