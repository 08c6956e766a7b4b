"""That the library writes and reads result sheets as the rendering from the papers alone does (compare/results_reference.py), and refuses the same."""
from __future__ import annotations

import importlib.util
import random
import unittest

import jenwyllt
from jenwyllt._library import U8, U64, lent
from jenwyllt.results import READ_RESULT, WRITE_RESULT

from .files import ROOT

SPEC = importlib.util.spec_from_file_location('results_reference', ROOT / 'compare' / 'results_reference.py')
reference = importlib.util.module_from_spec(SPEC)
SPEC.loader.exec_module(reference)

SMALL = 2, [1, 1, 0, 2, 1], [3, 2, 1, 0], [0, 1, 2, 1, 1, 2], [1, 8, 8, 8, 16, 0, 300, 8, 16, 16]
SMALL_BYTES = bytes([2, 2, 5, 1, 1, 0, 2, 1, 2, 3, 2, 1, 0, 2, 0, 1, 2, 1, 1, 2, 2, 1, 8, 8, 8, 16, 0, 172, 2, 8, 16, 16])
FILL = 0xa5


def called(result: tuple, room: int) -> tuple:
    """what the library answers, with the whole of a lent list at exit"""
    regions, *lists = result
    out = lent(U8, bytes([FILL]) * room)
    answer = WRITE_RESULT(regions, *(lent(U64, each) for each in lists), out)
    return answer.number, answer.value, bytes(out)


def expected(result: tuple, room: int) -> tuple:
    said = reference.write(*result, room)
    if said[0] == 'refused':
        return said[1], 0, bytes([FILL]) * room
    return 0, len(said[1]), said[1] + bytes([FILL]) * (room - len(said[1]))


def some(r: random.Random) -> tuple:
    """a result that keeps the rules in most cases, with small and with 64-bit numbers"""
    most = r.choice([2, 3, 2 ** 64 - 1])
    started, labels = 0, []
    for _ in range(r.randrange(6)):
        label = r.randrange(started + 2) if r.random() < 0.95 else r.randrange(4)
        started = max(started, label)
        labels.append(label)
    pairs = sorted([r.randint(0, most) for _ in range(3)] for _ in range(r.randrange(4)))
    rows = sorted(([r.randint(0, most) for _ in range(5)] for _ in range(r.randrange(4))), key=lambda e: e[1:] + e[:1])
    flat = [[n for each in listed for n in each] for listed in (pairs, rows)]
    for each in flat:
        if each and r.random() < 0.1:
            each.pop()
    tallies = [r.randint(0, 2 ** 64 - 1) for _ in range(r.choice([0, 2, 4, 4, 3]))]
    return started if r.random() < 0.9 else r.randrange(4), labels, tallies, *flat


class Written(unittest.TestCase):
    def test_small(self) -> None:
        self.assertEqual(jenwyllt.write_result(*SMALL), SMALL_BYTES)
        self.assertEqual(reference.read(SMALL_BYTES), ('read', SMALL))
        for room in range(len(SMALL_BYTES) + 2):
            self.assertEqual(called(SMALL, room), expected(SMALL, room))

    def test_refusals(self) -> None:
        """each rule alone, and the order 15, 3, 10"""
        for number, result, room in (
                (15, (2, [1], [], [], []), 99), (15, (1, [2], [], [], []), 99), (15, (1, [1, 2], [], [], []), 99), (15, (2, [1, 3, 2], [], [], []), 99),
                (15, (0, [], [], [0, 1, 2, 0, 1, 2], []), 99), (15, (0, [], [], [1, 0, 0, 0, 9, 9], []), 99),
                (15, (0, [], [], [], [1, 2, 0, 0, 0, 2, 1, 0, 0, 0]), 99), (15, (0, [], [], [], [5, 1, 1, 1, 1, 5, 1, 1, 1, 1]), 99),
                (15, (1, [], [7], [1], [1]), 0), (3, (0, [], [7], [], []), 0), (3, (0, [], [], [1], []), 0), (3, (0, [], [], [], [1, 2, 3, 4]), 0),
                (10, (0, [], [], [], []), 5), (0, (0, [], [], [], []), 6), (0, (0, [], [], [], [9, 1, 0, 0, 0, 2, 1, 0, 0, 1]), 99)):
            self.assertEqual(called(result, room)[0], number, result)
            self.assertEqual(called(result, room), expected(result, room))

    def test_random(self) -> None:
        r = random.Random(1)
        seen = set()
        for _ in range(3000):
            result = some(r)
            size = len(reference.write(*result, 2 ** 20)[1]) if reference.write(*result, 2 ** 20)[0] == 'written' else 50
            room = r.choice([size, max(size - 1, 0), size + 3, 0])
            answer = called(result, room)
            self.assertEqual(answer, expected(result, room), result)
            if answer[0] == 0:
                self.assertEqual(reference.read(answer[2][:answer[1]]), ('read', result))
            seen.add(answer[0])
        self.assertEqual(seen, {0, 3, 10, 15})


SIZES = 1, 2, 3, 5
KEPT = 7777                         # what a lent list holds at entry


def read(data: bytes, rooms: tuple[int, ...]) -> tuple:
    """the answer's seven numbers, and the whole of each lent list at exit"""
    lists = [lent(U64, [KEPT] * room) for room in rooms]
    answer = READ_RESULT(lent(U8, data), *lists)
    return [getattr(answer, name) for name, _ in answer._fields_], [list(each) for each in lists]


def expected_read(data: bytes, rooms: tuple[int, ...]) -> tuple:
    said = reference.read(data)
    lists = [[KEPT] * room for room in rooms]
    if said[0] == 'refused':
        return [*said[1:], 0, 0, 0, 0, 0], lists
    regions, *found = said[1]
    if any(len(each) > room for each, room in zip(found, rooms)):
        return [10, 0, 0, 0, 0, 0, 0], lists
    return [0, 0, regions, *(len(each) // size for each, size in zip(found, SIZES))], [each + own[len(each):] for each, own in zip(found, lists)]


def damaged(r: random.Random, data: bytes) -> bytes:
    at = r.randrange(len(data) + 1)
    most = bytes([255] * 9 + [1])
    return r.choice([
        data, data[:at], data[:at] + bytes([r.choice([0, 1, 2, 127, 128, 255])]) + data[at + 1:], data + bytes([r.randrange(256)]),
        data[:at] + most + data[at + 1:], data[:at] + bytes([255] * 9 + [2]) + data[at:]])


class ReadBack(unittest.TestCase):
    def check(self, data: bytes, rooms: tuple[int, ...] = (12, 12, 12, 25)) -> int:
        answer = read(data, rooms)
        self.assertEqual(answer, expected_read(data, rooms), data)
        return answer[0][0]

    def test_small(self) -> None:
        self.assertEqual(jenwyllt.read_result(SMALL_BYTES), SMALL)
        with self.assertRaises(jenwyllt.Refusal) as refused:
            jenwyllt.read_result(SMALL_BYTES[:-1])
        self.assertEqual((refused.exception.number, refused.exception.place), (14, len(SMALL_BYTES) - 1))
        for at in range(len(SMALL_BYTES)):
            self.check(SMALL_BYTES[:at])
            for byte in range(256):
                self.check(SMALL_BYTES[:at] + bytes([byte]) + SMALL_BYTES[at + 1:])
        for short in range(4):
            rooms = [len(each) for each in SMALL[1:]]
            self.assertEqual(self.check(SMALL_BYTES, tuple(rooms)), 0)
            rooms[short] -= 1
            self.assertEqual(self.check(SMALL_BYTES, tuple(rooms)), 10)

    def test_refusals(self) -> None:
        """each rule alone, a 14 behind a 15, the order of two breaches, and counts of 2 ** 63 and 2 ** 64 - 1"""
        for number, place, data in (
                (14, 0, [1, 0, 0, 0, 0, 0]), (14, 6, [2, 0, 0, 0, 0, 0, 0]), (14, 5, [2, 0, 0, 0, 0]), (0, 0, [2, 0, 0, 0, 0, 0]),
                (15, 1, [2, 1, 0, 0, 0, 0]), (15, 3, [2, 0, 1, 1, 0, 0, 0]), (15, 4, [2, 2, 2, 1, 3, 0, 0, 0]), (15, 3, [2, 2, 1, 2, 0, 0, 0]),
                (15, 8, [2, 0, 0, 0, 2, 0, 1, 2, 0, 1, 2, 0]), (15, 11, [2, 0, 0, 0, 0, 2, 1, 2, 0, 0, 0, 2, 1, 0, 0, 0]),
                (15, 11, [2, 0, 0, 0, 0, 2, 5, 1, 1, 1, 1, 5, 1, 1, 1, 1]), (0, 0, [2, 0, 0, 0, 0, 2, 9, 1, 1, 1, 1, 5, 1, 1, 1, 2]),
                (14, 8, [2, 1, 1, 2, 0, 0, 1, 1]), (14, 7, [2, 1, 1, 2, 0, 0, 0, 0]), (15, 3, [2, 1, 1, 2, 0, 2, 1, 1, 1, 1, 1, 1, 0])):
            said, _ = read(bytes(data), (9, 9, 9, 15))
            self.assertEqual(said[:2], [number, place], data)
            self.check(bytes(data), (9, 9, 9, 15))
        for count in (2 ** 63, 2 ** 64 - 1):
            for at in range(2, 6):
                data = b''.join(reference.group_bytes(count if k == at else 2 if k == 0 else 0) for k in range(6))
                self.assertEqual(self.check(data), 14)

    def test_random(self) -> None:
        r = random.Random(2)
        seen = set()
        for _ in range(5000):
            regions, *lists = some(r)
            data = reference.group_bytes(2) + reference.group_bytes(regions)
            for each, size in zip(lists, SIZES):
                data += reference.group_bytes(len(each) // size) + b''.join(map(reference.group_bytes, each[:len(each) // size * size]))
            seen.add(self.check(damaged(r, data), tuple(r.choice([30, 30, 30, 30, r.randrange(8)]) for _ in SIZES)))
        self.assertEqual(seen, {0, 10, 14, 15})


if __name__ == '__main__':
    unittest.main()
