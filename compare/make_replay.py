"""Makes what the programs that replay stored answers read and must write, from vectors/: crates/areas_replay, topology_replay and keptlist_replay.

    python3 make_replay.py [--check] [--oracle PROGRAM]

What stands in the lists is the Rust's answer, as it is stored; which case is refused, and with what, is said by the table of refusals (reference.py), and a
case that is not refused must have the stored answer of its map. With --check nothing is written, and the files must be as this makes them. With --oracle the
Rust's harness must refuse alike what a sheet can say. README.md of vectors/ says what the files hold.
"""
import argparse
import os
import struct
from collections import Counter
from dataclasses import replace

import package  # noqa: F401
import compare
import stored
from replay_cases import RECORD, case_of, short_of_room, variants
from jenwyllt.unproved import reference, sheet_bytes
from jenwyllt.unproved.reference import Lent

CRATES = os.path.join(os.path.dirname(os.path.abspath(__file__)), '../crates')
VARIED = ('case-J', 'mouth-outer-anchored', 'interior', 'triangle-meets-occupied')
LENT = ('labels', 'masks', 'queue', 'tallies', 'pairs', 'records', 'output')
WRITTEN_RECORDS = 4096                           # numbers for records that the program writes at most


# ---- what is written

def as_lent(case):
    """the map as it is passed on"""
    def part(numbers, length):
        return (list(numbers) + [0] * length)[:length]
    m = case.sheet
    return replace(m, pass_number=case.pass_number, width=case.width, height=case.height, cells=part(m.cells, case.cells), spans=part(m.spans, case.spans),
                   boundaries=part(m.boundaries, case.boundaries), anchors=part(m.anchors, case.anchors))


def answer_of(case, whole):
    """number and value: the first cause of a refusal that applies, or what is stored"""
    m = as_lent(case)
    refusal = reference.early_refusal(m, Lent(*([None] * getattr(case, name) for name in LENT)), whole)
    if refusal:
        return refusal
    assert case.stored is not None and m.spans == case.sheet.spans
    if whole and max(case.stored['labels']) > case.records:
        return 11, 0
    if len(case.stored['pairs']) // 3 > case.pairs // 3:
        return 12, 0
    return 0, len(case.stored['rows']) // 5 if whole else max(case.stored['labels'])


def at_exit(case, number):
    """of each list the entries up to the last one that changed"""
    lists = {name: [] for name in LENT}
    if number in (0, 11, 12):
        lists.update(labels=case.stored['labels'], masks=[0] * case.cells, queue=[0] * case.cells, tallies=case.stored['tallies'])
    if number == 11:
        lists['tallies'] = [0] * len(case.stored['tallies'])
    if number == 12:
        lists['pairs'] = [0] * case.pairs
    if number == 0:
        lists.update(pairs=case.stored['pairs'], records=case.stored['records'], output=case.stored['rows'])
    return lists


def in_bits(records):
    """the edges, numbers 1 to 4 of a record, as the bits of their doubles"""
    return [int.from_bytes(struct.pack('<d', n), 'little') if 1 <= i % RECORD <= 4 else n for i, n in enumerate(records)]


def expected(case, whole):
    number, value = answer_of(case, whole)
    lists = at_exit(case, number)

    def numbers(name, list_, length):
        return ' '.join(str(word) for word in (name, len(list_), *list_, 'kept', length - len(list_)))

    lines = [f'answer {number} {value}']
    lines += [numbers(name, lists[name], getattr(case, name)) for name in ('labels', 'tallies', 'pairs')]
    lines += [f'{name} {len(lists[name])} zeros {len(lists[name])} kept {getattr(case, name) - len(lists[name])}' for name in ('masks', 'queue')]
    if whole:
        records = in_bits(lists['records']) + [0] * (RECORD * case.records - len(lists['records']))
        lines += [numbers('records', records, WRITTEN_RECORDS), numbers('output', lists['output'], case.output)]
    return number, ''.join(line + '\n' for line in lines)


# ---- what is read

def case_bytes(case):
    sheet = sheet_bytes.sheet_of(case.sheet)
    numbers = [case.pass_number, case.width, case.height, case.cells, case.spans, case.boundaries, case.anchors]
    numbers += [getattr(case, name) for name in LENT] + [len(sheet)]
    return b''.join(n.to_bytes(2, 'little') for n in numbers) + sheet


def cases(whole):
    for k, (name, m, answer) in enumerate(stored.maps()):
        case = case_of(m, answer, whole)
        yield case
        if k % 10 == 0:
            yield from short_of_room(case, whole)
        if name in VARIED:
            yield from variants(case, whole)


# ---- the files

class Files:
    def __init__(self, check):
        self.check = check

    def put(self, crate, **files):
        for name, data in files.items():
            path = os.path.join(CRATES, crate, name)
            if self.check:
                with open(path, 'rb') as f:
                    assert f.read() == data, path
            else:
                with open(path, 'wb') as f:
                    f.write(data)
            print(f'{crate}/{name}: {len(data)} bytes')


def put_cases(files, crate, whole, judge):
    all_cases = list(cases(whole))
    answers = [expected(case, whole) for case in all_cases]
    counts = Counter(number for number, _ in answers)
    assert set(counts) == set(range(13) if whole else (0, 1, 2, 3, 5, 6, 10, 12))
    if judge and whole:
        asked = [(case, number) for case, (number, _) in zip(all_cases, answers) if as_lent(case) == case.sheet and number in range(10)]
        for case, number in asked:
            theirs = judge.ask(sheet_bytes.sheet_of(case.sheet))
            assert (theirs['number'], theirs['value']) == answer_of(case, whole), case
        print(f'{len(asked)} asked of the Rust, {sum(number > 0 for _, number in asked)} of them refused')
    files.put(crate, stdin=b''.join(map(case_bytes, all_cases)), stdout=''.join(text for _, text in answers).encode())
    print(f'{len(all_cases)} cases:', ', '.join(f'{number} {counts[number]} times' for number in sorted(counts)))


def longest_sheets():
    """as many bytes as `keptlist` takes, and one more"""
    _, m, _ = next(stored.maps())
    sheet = sheet_bytes.sheet_of(m)
    for size in (sheet_bytes.KEPTLIST_BYTES, sheet_bytes.KEPTLIST_BYTES + 1):
        padded = sheet + bytes(size - len(sheet))
        yield padded, sheet_bytes.keptlist(padded).splitlines()


def put_sheets(files):
    sheets = list(stored.sheets()) + list(longest_sheets())
    files.put('keptlist_replay', stdin=b''.join(len(sheet).to_bytes(3, 'little') + sheet for sheet, _ in sheets),
              stdout=''.join(line + '\n' for _, lines in sheets for line in lines).encode())
    print(f'{len(sheets)} sheets')


def main():
    a = argparse.ArgumentParser()
    a.add_argument('--check', action='store_true')
    a.add_argument('--oracle')
    options = a.parse_args()
    files = Files(options.check)
    judge = compare.Oracle(options.oracle, 'full') if options.oracle else None
    put_cases(files, 'areas_replay', False, judge)
    put_cases(files, 'topology_replay', True, judge)
    put_sheets(files)
    if judge:
        judge.close()


if __name__ == '__main__':
    main()
