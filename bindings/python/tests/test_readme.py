"""That the README's commands print what stands there."""
import doctest
import os
import re
import subprocess
import tempfile
import unittest
from pathlib import Path

from .files import EXAMPLES, PICTURES, ROOT
from .test_command import BAD

README = (ROOT / 'README.md').read_text()
BLOCKS = re.findall(r'(?:^    .*\n)+', README, re.M)


class Readme(unittest.TestCase):
    def shell(self, line: str, folder: Path = ROOT) -> subprocess.CompletedProcess[str]:
        return subprocess.run(['sh', '-c', line], cwd=folder, capture_output=True, text=True, stdin=subprocess.DEVNULL)

    def test_first_command(self) -> None:
        """the library is built already when the tests run: what stands behind it"""
        build, asked = BLOCKS[0].strip().split(' && ')
        self.assertEqual((build, BLOCKS[3].strip()), ('tools/build_library.sh', './test.sh'))
        done = self.shell(asked)
        self.assertEqual((done.returncode, done.stdout), (0, (EXAMPLES / 'case_j.kept').read_text()))
        self.assertEqual(done.stdout, re.sub('^    ', '', BLOCKS[1], flags=re.M))

    def test_page(self) -> None:
        line = BLOCKS[2].strip()
        self.assertIn(' page examples/case_j.sheet -o target/case_j.html', line)
        with tempfile.TemporaryDirectory() as folder:
            made = Path(folder) / 'case_j.html'
            self.assertEqual(self.shell(line.replace('target/case_j.html', str(made))).returncode, 0)
            self.assertIn('<!DOCTYPE html>', made.read_text())

    def test_picture(self) -> None:
        line = BLOCKS[4].strip()
        self.assertIn(' --draw target/mouths.svg', line)
        with tempfile.TemporaryDirectory() as folder:
            picture = Path(folder) / 'mouths.svg'
            self.assertEqual(self.shell(line.replace('target/mouths.svg', str(picture))).returncode, 0)
            self.assertEqual(picture.read_text(), (PICTURES / 'mouths.svg').read_text())

    def test_refusal(self) -> None:
        asked, said = (line.strip() for line in BLOCKS[5].strip().split('\n'))
        with tempfile.TemporaryDirectory() as folder:
            (Path(folder) / 'bad.txt').write_text(BAD)
            done = self.shell(asked.removeprefix('$ ').replace('tools/', f'{ROOT}/tools/'), Path(folder))
        self.assertEqual((done.returncode, done.stdout, done.stderr), (1, '', f'{said}\n'))

    def test_c(self) -> None:
        compile_it, run_it = next(block for block in BLOCKS if block.strip().startswith('cc ')).strip().split('\n')
        self.assertEqual(self.shell(compile_it).stderr, '')
        self.assertEqual(self.shell(run_it).stdout, (EXAMPLES / 'case_j.kept').read_text())

    def test_package(self) -> None:
        """the example of bindings/python/README.md"""
        folder = ROOT / 'bindings' / 'python'
        before = os.getcwd()
        os.chdir(folder)
        self.addCleanup(os.chdir, before)
        results = doctest.testfile(str(folder / 'README.md'), module_relative=False)
        self.assertEqual((results.failed, results.attempted > 3), (0, True))
