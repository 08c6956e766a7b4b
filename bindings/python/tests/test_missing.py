"""That a missing tool is a failure which names its package: of the build, of the tests, of the gate."""
from __future__ import annotations

import os
import subprocess
import sys
import tempfile
import unittest
from pathlib import Path

from .files import ROOT


class Missing(unittest.TestCase):
    @classmethod
    def setUpClass(cls) -> None:
        """a folder with a link to every program"""
        folder = tempfile.TemporaryDirectory()
        cls.addClassCleanup(folder.cleanup)
        cls.programs = Path(folder.name)
        for place in filter(None, os.environ['PATH'].split(':')):
            for program in Path(place).glob('*'):
                link = cls.programs / program.name
                if not link.is_symlink():
                    link.symlink_to(program)

    def without(self, tool: str, *words: object) -> subprocess.CompletedProcess[str]:
        """runs a command where every program is found but this one"""
        link = self.programs / tool
        program = os.readlink(link)
        link.unlink()
        done = subprocess.run(list(map(str, words)), env={**os.environ, 'PATH': str(self.programs)}, cwd=ROOT, stdin=subprocess.DEVNULL, capture_output=True,
                              text=True)
        link.symlink_to(program)
        return done

    def test_build(self) -> None:
        for tool, package in (('rt', 'rattle-kit'), ('cc', 'gcc'), ('ld', 'binutils'), ('nm', 'binutils'), ('ar', 'binutils'), ('objcopy', 'binutils')):
            done = self.without(tool, ROOT / 'tools' / 'build_library.sh')
            self.assertEqual((done.returncode, done.stdout), (2, ''))
            self.assertRegex(done.stderr, f'^build_library: {tool} is missing: it comes with the package {package}[^\n]*\n$')

    def test_tests(self) -> None:
        for tool, part, package in (('cc', 'c', 'gcc'), ('cargo', 'rust', 'cargo')):
            done = self.without(tool, sys.executable, ROOT / 'bindings' / 'test.py', part)
            self.assertEqual(done.returncode, 1)
            self.assertIn(f'{tool} is missing: it comes with the package {package}', done.stdout)
            self.assertRegex(done.stdout, r'\n0 passed, [1-9]\d* failed\n$')

    def test_gate(self) -> None:
        for tool, package in (('rt', 'rattle-kit'), ('python3', 'python3')):
            done = self.without(tool, ROOT / 'test.sh')
            self.assertEqual((done.returncode, done.stdout.splitlines()[-1]), (1, '0 passed, 1 failed'))
            self.assertIn(f'{tool} is missing: it comes with the package {package}', done.stdout)
