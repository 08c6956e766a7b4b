"""What tools/install.sh installs, used from elsewhere: command, program, library by its pkg-config file, manual."""
from __future__ import annotations

import os
import re
import shutil
import subprocess
import tempfile
import unittest
from pathlib import Path

from .files import EXAMPLES, ROOT


class Installed(unittest.TestCase):
    @classmethod
    def setUpClass(cls) -> None:
        folder = tempfile.TemporaryDirectory()
        cls.addClassCleanup(folder.cleanup)
        cls.prefix = Path(folder.name).resolve() / 'prefix'
        cls.done = subprocess.run([ROOT / 'tools' / 'install.sh', cls.prefix], capture_output=True, text=True, stdin=subprocess.DEVNULL)

    def test_installed(self) -> None:
        self.assertEqual((self.done.returncode, self.done.stderr), (0, ''), self.done.stdout)
        for name in ('lib/libjenwyllt.a', 'lib/libjenwyllt.so', 'lib/libjenwyllt.so.0', 'include/jenwyllt.h', 'lib/pkgconfig/jenwyllt.pc', 'bin/keptlist', 'bin/jenwyllt',
                     'share/man/man1/jenwyllt.1', 'share/doc/jenwyllt/LICENSE', 'share/doc/jenwyllt/NOTICE'):
            self.assertTrue((self.prefix / name).is_file(), name)

    def test_command(self) -> None:
        kept = (EXAMPLES / 'mouths.kept').read_text()
        done = subprocess.run([self.prefix / 'bin' / 'jenwyllt', 'keptlist', EXAMPLES / 'mouths.txt'], capture_output=True, text=True, cwd='/', env={'PATH': os.environ['PATH']})
        self.assertEqual((done.returncode, done.stdout, done.stderr), (0, kept, ''))
        with (EXAMPLES / 'mouths.sheet').open('rb') as sheet:
            self.assertEqual(subprocess.run([self.prefix / 'bin' / 'keptlist'], stdin=sheet, capture_output=True, text=True).stdout, kept)

    def flags(self) -> list[str]:
        """what pkg-config would give, read here where it is not installed"""
        if shutil.which('pkg-config'):
            folder = {'PKG_CONFIG_PATH': str(self.prefix / 'lib' / 'pkgconfig'), 'PATH': os.environ['PATH']}
            return subprocess.run(['pkg-config', '--cflags', '--libs', 'jenwyllt'], env=folder, capture_output=True, text=True, check=True).stdout.split()
        text = (self.prefix / 'lib' / 'pkgconfig' / 'jenwyllt.pc').read_text()
        for name, value in re.findall(r'^(\w+)=(.*)$', text, re.M):
            text = text.replace(f'${{{name}}}', value)
        return [word for flags in re.findall(r'^(?:Cflags|Libs): (.*)$', text, re.M) for word in flags.split()]

    def test_library(self) -> None:
        program = self.prefix / 'kept'
        subprocess.run(['cc', EXAMPLES / 'kept.c', '-o', program, *self.flags(), f'-Wl,-rpath,{self.prefix / "lib"}'], check=True)
        done = subprocess.run([program, EXAMPLES / 'case_j.sheet'], capture_output=True, text=True)
        self.assertEqual(done.stdout, (EXAMPLES / 'case_j.kept').read_text())

    def test_usage(self) -> None:
        done = subprocess.run([ROOT / 'tools' / 'install.sh'], capture_output=True, text=True)
        self.assertEqual((done.returncode, done.stderr), (2, 'usage: tools/install.sh PREFIX\n'))
