"""The command `jenwyllt`, tried as a technician would: good and bad input, one clear line and the right status each."""
from __future__ import annotations

import json
import os
import pty
import subprocess
import sys
import tempfile
import unittest
from pathlib import Path

from jenwyllt import commands

from .files import EXAMPLES, NAMES, PICTURES, ROOT

COMMAND = str(ROOT / 'tools' / 'jenwyllt')
BAD = 'pass 1\nmap 4 3\n#0##\n0000\n##0#\nboundary 8 8 8 16 8.0\nboundary 1 2 300 4 8.0\nspan 1 2 30 4\n'


def run(*words: object, data: bytes = b'', **more: object) -> subprocess.CompletedProcess[bytes]:
    return subprocess.run([sys.executable, COMMAND, *map(str, words)], input=data, capture_output=True, timeout=60, **more)


class Trial(unittest.TestCase):
    def setUp(self) -> None:
        folder = tempfile.TemporaryDirectory()
        self.addCleanup(folder.cleanup)
        self.folder = Path(folder.name)

    def file(self, name: str, content: bytes | str) -> Path:
        path = self.folder / name
        path.write_bytes(content.encode() if isinstance(content, str) else content)
        return path

    def answers(self, printed: str, *words: object, data: bytes = b'') -> None:
        done = run(*words, data=data)
        self.assertEqual((done.returncode, done.stderr.decode()), (0, ''))
        self.assertEqual(done.stdout.decode(), printed)

    def fails(self, status: int, said: str, *words: object, data: bytes = b'') -> None:
        """in one line, and prints nothing"""
        done = run(*words, data=data)
        self.assertEqual((done.returncode, done.stdout, done.stderr.decode()), (status, b'', f'{said}\n'))


class Answers(Trial):
    def test_examples(self) -> None:
        for name in NAMES:
            kept = (EXAMPLES / f'{name}.kept').read_text()
            for kind in ('txt', 'sheet'):
                picture = self.folder / f'{name}.{kind}.svg'
                self.answers(kept, 'keptlist', EXAMPLES / f'{name}.{kind}', '--draw', picture)
                self.assertEqual(picture.read_text(), (PICTURES / f'{name}.svg').read_text())
            self.answers(kept, 'keptlist', data=(EXAMPLES / f'{name}.txt').read_bytes())
            self.answers(kept, 'keptlist', '-', data=(EXAMPLES / f'{name}.sheet').read_bytes())

    def test_several(self) -> None:
        files = [EXAMPLES / f'{name}.sheet' for name in NAMES]
        self.answers(''.join(f'{file}:\n{file.with_suffix(".kept").read_text()}' for file in files), 'keptlist', *files)

    def test_json(self) -> None:
        bad, wrong = self.file('bad.txt', BAD), self.file('wrong.txt', 'pass 1\nmap 1 1\nx\n')
        done = run('keptlist', '--json', EXAMPLES / 'case_j.sheet', bad, wrong)
        self.assertEqual((done.returncode, done.stderr), (1, b''))
        good, refused, wrong_text = map(json.loads, done.stdout.splitlines())
        self.assertEqual((good['proved'], good['boundaries'], good['kept'][0]), (True, 5, {'number': 1, 'from': [8, 8], 'to': [8, 16]}))
        self.assertEqual((refused['file'], refused['refused']['number'], refused['refused']['place']), (str(bad), 7, 1))
        self.assertEqual(wrong_text['wrong']['line'], 3)
        for words in (('regions', '--json', wrong), ('sheet', 'print', '--json', wrong)):
            done = run(*words)
            self.assertEqual((done.returncode, done.stderr, len(done.stdout.splitlines())), (1, b'', 1))
            self.assertIn(words[0] == 'sheet' and 'refused' or 'wrong', json.loads(done.stdout))

    def test_sheets(self) -> None:
        made = self.folder / 'made.sheet'
        self.answers('', 'sheet', 'write', EXAMPLES / 'mouths.txt', '-o', made)
        self.assertEqual(made.read_bytes(), (EXAMPLES / 'mouths.sheet').read_bytes())
        text = run('sheet', 'print', made).stdout
        self.assertEqual(run('sheet', 'write', data=text).stdout, made.read_bytes())
        printed = json.loads(run('sheet', 'print', '--json', made).stdout)
        self.assertEqual((printed['pass'], printed['width'], len(printed['boundaries']), printed['boundaries'][0]['kind']), (1, 24, 8, 2))

    def test_convert(self) -> None:
        old, made = EXAMPLES / 'case_j.sheet', self.folder / 'new.sheet'
        self.answers('', 'sheet', 'convert', old, '-o', made)
        self.assertEqual((old.read_bytes()[0], made.read_bytes()[0], len(made.read_bytes())), (1, 3, 103))
        self.assertEqual(run('sheet', 'write', EXAMPLES / 'case_j.txt').stdout, made.read_bytes())
        self.answers((EXAMPLES / 'case_j.kept').read_text(), 'keptlist', made)
        self.assertEqual(run('sheet', 'print', made).stdout, run('sheet', 'print', old).stdout)
        self.fails(1, f'jenwyllt: {made}: refused 14 at 0: the sheet is of kind 3, and only kind 1 is converted', 'sheet', 'convert', made)
        turned = bytes([1, 3, 1, 1, 1, 1, 8, 8, 0, 0, 1, 0, 0, 8, 8, 0, 0, 0, 0, 0, 0])
        said = 'the spans are not the endpoints of the boundaries as written, so that the sheet cannot be converted'
        self.fails(1, f'jenwyllt: standard input: refused 22 at 0: {said}: span 0 goes from 8 8 to 0 0, and boundary 0 from 0 0 to 8 8',
                   'sheet', 'convert', data=turned)
        self.fails(1, 'jenwyllt: standard input: refused 4 at 0: the pass is 9, not 1, 2 or 3', 'sheet', 'convert', data=turned[:1] + b'\x09' + turned[2:])

    def test_other_spans(self) -> None:
        """a text whose spans are not the lines of its boundaries is run and drawn, and not written"""
        said = 'a sheet of kind 3 holds no spans but the lines of its boundaries'
        text = (EXAMPLES / 'case_j.txt').read_text()
        other = self.file('other.txt', text + 'span 16 16 24 15\n')
        self.fails(1, f'jenwyllt: {other}: {said}: span 4 goes from 16 16 to 24 15, and boundary 4 from 16 16 to 24 16', 'sheet', 'write', other)
        none = self.file('none.txt', text + 'spans\n')
        self.fails(1, f'jenwyllt: {none}: {said}: there are 0 spans and 5 boundaries', 'sheet', 'write', none)
        same = self.file('same.txt', text + 'span 16 16 24 16\n')
        self.assertEqual(run('sheet', 'write', same).stdout, run('sheet', 'write', EXAMPLES / 'case_j.txt').stdout)

    def test_draw(self) -> None:
        picture = (PICTURES / 'mouths.svg').read_text()
        self.answers(picture, 'draw', EXAMPLES / 'mouths.txt')
        self.answers(picture, 'draw', EXAMPLES / 'mouths.sheet', EXAMPLES / 'mouths.kept')

    def test_regions(self) -> None:
        done = run('regions', EXAMPLES / 'case_j.txt', '--labels')
        lines = done.stdout.decode().splitlines()
        self.assertEqual((done.returncode, lines[0], lines[3], lines[7]), (
            0, '6 regions', 'region 3 from 8 8 to 16 16: 1 cell, 1 of elevation 0; elevation 0 has 100 percent, remainder 0',
            'span 0 from 16 8 to 16 16: 1 step removed, 1 between regions 3 and 4'))
        self.assertEqual(lines[-3:], ['0 1 0 0', '2 3 4 5', '0 0 6 0'])
        found = json.loads(run('regions', '--json', EXAMPLES / 'case_j.txt').stdout)
        self.assertEqual((len(found['regions']), found['pairs'][0]), (6, {'span': 0, 'smaller': 3, 'larger': 4}))

    def test_shares(self) -> None:
        """of seven cells three have elevation 1 and three elevation 2: the lower is chosen, with 300 = 42 * 7 + 6"""
        text = 'pass 3\nmap 7 1\n1112220\n'.encode()
        counts = '1 of elevation 0, 3 of elevation 1, 3 of elevation 2'
        self.answers(f'1 region\nregion 1 from 0 0 to 56 8: 7 cells, {counts}; elevation 1 has 42 percent, remainder 6\n', 'regions', data=text)
        found = json.loads(run('regions', '--json', data=text).stdout)
        self.assertEqual([region['dominance'] for region in found['regions']], [{'elevation': 1, 'share': {'percent': 42, 'remainder': 6}}])

    def test_ramps(self) -> None:
        """two regions parted by a ramp cell that is not walkable, which counts in neither"""
        text = 'pass 3\nmap 6 1\na0a?b0 2\n'.encode()
        self.answers('2 regions\n'
                     'region 1 from 0 0 to 24 8: 3 cells, 3 of elevation 0, 2 ramp cells; elevation 0 has 100 percent, remainder 0\n'
                     'region 2 from 32 0 to 48 8: 2 cells, 1 of elevation 0, 1 of elevation 1, 1 ramp cell; elevation 0 has 50 percent, remainder 0\n',
                     'regions', data=text)
        found = json.loads(run('regions', '--json', data=text).stdout)
        self.assertEqual([region['ramp_cells'] for region in found['regions']], [2, 1])

    def test_large(self) -> None:
        text = f'pass 1\nmap 65 64\n{("0" * 65 + chr(10)) * 64}'
        self.fails(1, 'jenwyllt: standard input: refused 1 at 0: 65 by 64 cells are over the 4,096 of keptlist; --large takes more', 'keptlist', data=text.encode())
        self.answers('kept 0 of 0\n', 'keptlist', '--large', data=text.encode())

    def test_unproved(self) -> None:
        done = subprocess.run([sys.executable, COMMAND, 'keptlist', '--unproved', EXAMPLES / 'case_j.txt'], capture_output=True,
                              env={**os.environ, 'JENWYLLT_LIBRARY': '/nowhere/libjenwyllt.so'})
        kept = (EXAMPLES / 'case_j.kept').read_text()
        self.assertEqual((done.returncode, done.stdout.decode()), (0, f'{kept}unproved: by the rendering in Python, which is tested and not proved\n'))
        self.assertIs(json.loads(run('keptlist', '--unproved', '--json', EXAMPLES / 'case_j.txt').stdout)['proved'], False)
        self.assertIn(b'(unproved)<', run('draw', '--unproved', EXAMPLES / 'case_j.txt').stdout)
        self.assertIn(b'\nunproved: ', run('regions', '--unproved', EXAMPLES / 'case_j.txt').stdout)
        self.assertIn(b'; unproved: ', run('sheet', 'print', '--unproved', EXAMPLES / 'case_j.sheet').stdout)
        self.assertIn(b'(unproved)<', run('draw', EXAMPLES / 'case_j.txt', self.file('list', done.stdout)).stdout)


class Refusals(Trial):
    def test_words(self) -> None:
        file = self.file('bad.txt', BAD)
        self.fails(1, f'jenwyllt: {file}: refused 7 at 1: boundary 1 from 1 2 to 300 4: an endpoint lies off the map of 32 by 24 pixels', 'keptlist', file)
        for change, said in (
                (('pass 1', 'pass 4'), 'refused 4 at 0: the pass is 4, not 1, 2 or 3'),
                (('span 1 2 30 4', 'span 1 2 33 4'), 'refused 5 at 1: span 1 from 1 2 to 33 4: an endpoint lies off the map of 32 by 24 pixels'),
                (('span 1 2 30 4', 'span 1 2 1 2'), 'refused 6 at 1: span 1 from 1 2 to 1 2: its endpoints are equal'),
                (('300 4 8.0', '30 4 -1'), 'refused 7 at 1: boundary 1 from 1 2 to 30 4: its width -1.0 is not from 0 to 65,536'),
                (('300 4 8.0', '30 4 8 kind 3 1 0 8'),
                 'refused 7 at 1: boundary 1 from 1 2 to 30 4: its kind 3 is not 0, 1 or 2; its elevations 0 and 8 are not from 0 to 7'),
                (('300 4 8.0', '30 4 8.0\nanchor 4 0'), 'refused 8 at 0: anchor 0 at cell 4 0 lies off the map of 4 by 3 cells'),
                (('#0##\n0000\n##0#\nboundary 8 8 8 16 8.0\nboundary 1 2 300', '#0##\n00?0 17\n##0#\nboundary 8 8 8 16 8.0\nboundary 1 2 30'),
                 'refused 9 at 6: cell 6, column 2 of row 1, is walkable and of elevation 4, over 3')):
            self.fails(1, f'jenwyllt: standard input: {said}', 'keptlist', data=BAD.replace(*change).encode())

    def test_sheets(self) -> None:
        for data, said in (
                (b'', '14 at 0: there are no bytes'), (b'\2\1\1', '14 at 0: the sheet is of kind 2, not 1 or 3'),
                (b'\x89PNG\r\n', '14 at 0: this is neither a sheet of kind 1 or 3 nor a text'), (b'\1\1\1\1', '14 at 4: the sheet ends early, behind 4 bytes'),
                (b'\1' + b'\xff' * 10, '14 at 1: the number at byte 1 is over 64 bits'), (b'\1\1\1\1\xac\2\0\0\0', '14 at 4: cell 0 is 300, over 255'),
                (b'\1\1\1\1\1\0\0\0\0\0', '14 at 8: the sheet is over at byte 8, and 2 bytes are left'),
                (b'\3\1\1\1\1\0\0\0', '14 at 7: the sheet is over at byte 7, and 1 bytes are left'),
                (b'\1\1\1\1\1\0\0\0\x80\x80', '14 at 8: the sheet is over at byte 8, and 2 bytes are left'),
                (b'\1\1\1\1\1\0\0\0\x80\0', '14 at 8: the sheet is over at byte 8, and 2 bytes are left'),
                (b'\1\1\x81\0\1\1\0\0\0', '14 at 2: the number at byte 2 is padded: it ends in a group of zero'),
                (b'\1\1\xc1\0\x40', '14 at 2: the number at byte 2 is padded: it ends in a group of zero'),
                (b'\1\1\x41\xc0\0', '14 at 3: the number at byte 3 is padded: it ends in a group of zero'),
                (b'\1\1\0\1', '1 at 0: 0 by 1 cells: a side is 0 or over 1,024'),
                (b'\1\1\1\1\1\x81\2', '3 at 0: over 256 spans, boundaries or anchors, or the last one is unfinished'),
                (b'\1\1\1\1' + b'\0' * 65536, '14 at 65536: the sheet has 65,540 bytes, and keptlist takes 65,536; --large takes more')):
            self.fails(1, f'jenwyllt: standard input: refused {said}', 'keptlist', data=data)

    def test_texts(self) -> None:
        wrong = self.file('line7.txt', BAD.replace('boundary 1', 'bounday 1'))
        entries = 'an entry begins with pass, map, boundary, span, spans, anchor'
        self.fails(1, f"jenwyllt: {wrong}: line 7: {entries}, not with 'bounday'", 'keptlist', wrong)
        self.fails(1, f"jenwyllt: {ROOT / 'README.md'}: line 1: {entries}, not with '#'", 'keptlist', ROOT / 'README.md')
        latin = self.file('latin.txt', b'pass 1\n; caf\xe9\n')
        self.fails(1, f'jenwyllt: {latin}: line 2: byte 0xe9 is no text in UTF-8', 'sheet', 'write', latin)
        other = EXAMPLES / 'mouths.kept'
        self.fails(1, f'jenwyllt: {other}: line 1: the list is of 8 boundaries, and the map has 5', 'draw', EXAMPLES / 'case_j.txt', other)
        marked = self.file('marked.txt', b'\xef\xbb\xbf' + (EXAMPLES / 'case_j.txt').read_bytes())
        self.answers((EXAMPLES / 'case_j.kept').read_text(), 'keptlist', marked)

    def test_one_of_several(self) -> None:
        good, bad = EXAMPLES / 'case_j.sheet', self.file('bad.txt', BAD)
        done = run('keptlist', bad, 'nowhere', good)
        self.assertEqual(done.returncode, 2)
        self.assertEqual(done.stdout.decode(), f'{good}:\n{(EXAMPLES / "case_j.kept").read_text()}')
        self.assertEqual([line.split(': ')[1] for line in done.stderr.decode().splitlines()], [str(bad), 'nowhere'])
        self.assertEqual(run('keptlist', bad, good).returncode, 1)


class Failures(Trial):
    def test_files(self) -> None:
        self.fails(2, 'jenwyllt: nowhere: No such file or directory', 'keptlist', 'nowhere')
        self.fails(2, f'jenwyllt: {EXAMPLES}: Is a directory', 'keptlist', EXAMPLES)
        self.fails(2, 'jenwyllt: /nowhere/x.sheet: No such file or directory', 'sheet', 'write', EXAMPLES / 'case_j.txt', '-o', '/nowhere/x.sheet')

    def test_words(self) -> None:
        self.fails(2, 'jenwyllt: --draw takes one map', 'keptlist', '--draw', 'x.svg', EXAMPLES / 'case_j.txt', EXAMPLES / 'mouths.txt')
        for words in ((), ('lists',), ('sheet',), ('keptlist', '--jsn'), ('draw', 'a', 'b', 'c')):
            done = run(*words)
            self.assertEqual((done.returncode, done.stdout, done.stderr.count(b'\n')), (2, b'', 1), words)
            self.assertIn(b'--help says more', done.stderr)

    def test_full_disk(self) -> None:
        example = EXAMPLES / 'case_j.txt'
        with open('/dev/full', 'wb') as full:
            for words in (('keptlist', example), ('keptlist', '--json', example), ('draw', example), ('regions', example), ('--help',), ('--version',)):
                for unbuffered in ('', '1'):
                    done = subprocess.run([sys.executable, COMMAND, *words], stdout=full, stderr=subprocess.PIPE, env={**os.environ, 'PYTHONUNBUFFERED': unbuffered})
                    self.assertEqual((done.returncode, done.stderr), (2, b'jenwyllt: standard output: No space left on device\n'), words)
        done = run('keptlist', EXAMPLES / 'case_j.txt', '--draw', '/dev/full')
        self.assertEqual((done.returncode, done.stderr), (2, b'jenwyllt: /dev/full: No space left on device\n'))

    def test_closed(self) -> None:
        for unbuffered in ('', '1'):
            read, write = os.pipe()
            os.close(read)
            done = subprocess.run([sys.executable, COMMAND, 'keptlist', EXAMPLES / 'case_j.txt'], stdout=write, stderr=subprocess.PIPE,
                                  env={**os.environ, 'PYTHONUNBUFFERED': unbuffered})
            os.close(write)
            self.assertEqual((done.returncode, done.stderr), (2, b'jenwyllt: standard output: Broken pipe\n'))
        for closing, said in (('>&-', 'standard output is closed'), ('<&-', 'standard input is closed')):
            name = EXAMPLES / 'case_j.txt' if closing == '>&-' else '-'
            done = subprocess.run(['sh', '-c', f'"$0" "$1" keptlist "$2" {closing}', sys.executable, COMMAND, str(name)], capture_output=True)
            self.assertEqual((done.returncode, done.stderr.decode()), (2, f'jenwyllt: {said}\n'))

    def test_terminal(self) -> None:
        ours, theirs = pty.openpty()
        with subprocess.Popen([sys.executable, COMMAND, 'keptlist'], stdin=theirs, stdout=subprocess.PIPE, stderr=subprocess.PIPE) as running:
            os.close(theirs)
            self.assertEqual(running.stderr.readline(), b'jenwyllt: waiting for a sheet or its text on standard input; Control-D ends it\n')
            os.write(ours, (EXAMPLES / 'case_j.txt').read_bytes() + b'\4')
            self.assertEqual(running.stdout.read().decode(), (EXAMPLES / 'case_j.kept').read_text())
            self.assertEqual(running.wait(), 0)
        os.close(ours)

    def test_nothing_built(self) -> None:
        done = subprocess.run([sys.executable, COMMAND, 'keptlist', EXAMPLES / 'case_j.txt'], capture_output=True,
                              env={**os.environ, 'JENWYLLT_LIBRARY': '/nowhere/libjenwyllt.so'})
        said = 'jenwyllt: /nowhere/libjenwyllt.so is missing: tools/build_library.sh builds it; --unproved does without it\n'
        self.assertEqual((done.returncode, done.stdout, done.stderr.decode()), (2, b'', said))


class Help(Trial):
    def test_each(self) -> None:
        names = [command.NAME for command in commands.found()]
        self.assertLessEqual({'keptlist', 'sheet', 'draw', 'regions'}, set(names))
        manual = (ROOT / 'docs' / 'jenwyllt.1').read_text()
        for name in names:
            done = run(name, '--help')
            self.assertEqual((done.returncode, done.stderr), (0, b''))
            self.assertIn(f'Example:\n  jenwyllt {name} ', done.stdout.decode())
            self.assertIn(f'.SS {name}\n', manual)
        self.assertEqual(run('--help').returncode, 0)

    def test_python_m(self) -> None:
        """as a module, from the folder of the package"""
        done = subprocess.run([sys.executable, '-m', 'jenwyllt', 'keptlist', EXAMPLES / 'case_j.txt'], capture_output=True, cwd=ROOT / 'bindings' / 'python')
        self.assertEqual((done.returncode, done.stdout.decode()), (0, (EXAMPLES / 'case_j.kept').read_text()))
