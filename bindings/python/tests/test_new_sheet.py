"""Sheets of kind 3: written, read back and converted, beside the rendering in Python, over stored and made-up sheets and damaged ones."""
import random
import unittest

from jenwyllt import Refusal, convert_sheet, kept_boundaries, read_sheet, sheet_bytes, write_sheet
from jenwyllt._library import U8, U64, Function, lent
from jenwyllt.new_sheet import CONVERT_SHEET, WRITE_SHEET
from jenwyllt.sheet import Sheet
from jenwyllt.unproved import sheet_bytes as rendering

from .files import ROOT, stored_maps
from .test_command import run
from .test_sheet_text import made_up


def same_lists(sheet: Sheet) -> Sheet:
    """with its boundaries as spans"""
    return Sheet(sheet.pass_number, sheet.width, sheet.height, sheet.cells, tuple(each.span for each in sheet.boundaries), sheet.boundaries, sheet.anchors)


def converted(data: bytes) -> bytes | tuple[int, int]:
    try:
        return convert_sheet(data)
    except Refusal as refusal:
        return refusal.number, refusal.place


def rendered(data: bytes) -> bytes | tuple[int, int]:
    answer, made = rendering.convert_sheet(data, len(data))
    return answer if made is None else made


class Written(unittest.TestCase):
    def test_reads_as_itself(self) -> None:
        r = random.Random(12)
        for _ in range(300):
            sheet = same_lists(made_up(r))
            made = write_sheet(sheet)
            self.assertEqual((made[0], read_sheet(made)), (3, sheet))
            self.assertEqual(made, rendering.sheet_of(rendering.read(made), 3))

    def test_refused(self) -> None:
        for sheet, number in ((Sheet(1, 0, 1, b''), 1), (Sheet(1, 1 << 32, 1 << 32, b''), 1), (Sheet(1, 2, 1, b'\1'), 2)):
            with self.assertRaises(Refusal) as caught:
                write_sheet(sheet)
            self.assertEqual((caught.exception.number, caught.exception.place), (number, 0))


def stored(what: str) -> list[list[str]]:
    """the words behind this one, of the lines of vectors/kinds.txt that begin with it"""
    return [words[1:] for words in map(str.split, (ROOT / 'vectors' / 'kinds.txt').read_text().splitlines()) if words[0] == what]


def of_hex(word: str) -> bytes:
    return b'' if word == '-' else bytes.fromhex(word)


def into(function: Function, *arguments: object, room: int) -> tuple[int, int, str]:
    """number, value, and what was written into a list of so many nines, or - where it stayed as it was"""
    out = lent(U8, b'\x09' * room)
    answer = function(*arguments, out)
    made = bytes(out)[:answer.value] if answer.number == 0 else b''
    assert bytes(out)[len(made):] == b'\x09' * (room - len(made))
    return answer.number, answer.value, made.hex() if answer.number == 0 else '-'


class Stored(unittest.TestCase):
    def test_convert(self) -> None:
        for data, room, number, value, made in stored('convert'):
            self.assertEqual(into(CONVERT_SHEET, lent(U8, of_hex(data)), room=int(room)), (int(number), int(value), made), data)

    def test_write(self) -> None:
        def numbers(word: str) -> list[int]:
            return [] if word == '-' else list(map(int, word.split(',')))
        for *sides, cells, boundaries, anchors, room, number, value, made in stored('write'):
            lists = lent(U8, of_hex(cells)), lent(U64, numbers(boundaries)), lent(U64, numbers(anchors))
            self.assertEqual(into(WRITE_SHEET, *map(int, sides), *lists, room=int(room)), (int(number), int(value), made))

    def test_prints(self) -> None:
        for data, *printed in stored('prints'):
            done = run('keptlist', '-', data=of_hex(data))
            expected = ' '.join(printed).replace('/', '\n')
            said = done.stdout.decode() if done.returncode == 0 else done.stderr.decode().split('standard input: ')[1].split(':')[0] + '\n'
            self.assertEqual(said, expected, data)


class Converted(unittest.TestCase):
    def test_stored(self) -> None:
        several = 0
        for stored in list(stored_maps())[::3]:
            made = converted(stored.sheet)
            self.assertEqual(made, rendered(stored.sheet), stored.name)
            if isinstance(made, bytes):
                several += 1
                self.assertEqual(read_sheet(made), read_sheet(stored.sheet), stored.name)
                self.assertEqual(kept_boundaries(read_sheet(made)), kept_boundaries(read_sheet(stored.sheet)), stored.name)
        self.assertGreater(several, 10)

    def test_made_up(self) -> None:
        """any numbers, unequal counts, other endpoints, and a byte changed, cut off or added"""
        r = random.Random(22)
        for _ in range(600):
            sheet = made_up(r)
            data = bytearray(sheet_bytes(r.choice((sheet, same_lists(sheet)))))
            damage = r.randrange(4)
            if damage == 1:
                data[r.randrange(len(data))] = r.randrange(256)
            elif damage == 2:
                del data[r.randrange(len(data)):]
            elif damage == 3:
                data.insert(r.randrange(len(data) + 1), r.randrange(256))
            self.assertEqual(converted(bytes(data)), rendered(bytes(data)), bytes(data).hex())


if __name__ == '__main__':
    unittest.main()
