"""The tests of what stands around the proved crates: examples in C, bindings for Rust and Python, the command, pictures.

    python3 bindings/test.py [c] [rust] [python]

Needs target/lib, which tools/build_library.sh writes. Prints a line for each group of tests, what failed in full, and at the end `N passed, M failed`; the
exit status is 1 where something failed. What is found is run: examples/NAME.c with the words of NAME.args, whose output must be NAME.stdout; the tests of
bindings/rust; bindings/python/tests/test_*.py.
"""
from __future__ import annotations

import os
import re
import shutil
import subprocess
import sys
from collections.abc import Callable
from concurrent.futures import ThreadPoolExecutor
from dataclasses import dataclass
from pathlib import Path

ROOT = Path(__file__).resolve().parents[1]
LIB = ROOT / 'target' / 'lib'
BUILT = ROOT / 'target' / 'examples'
WARNINGS = ['-std=c11', '-Wall', '-Wextra', '-Wpedantic', '-Werror']
PACKAGES = {'cc': 'gcc (or another C compiler)', 'cargo': 'cargo, of Rust'}


@dataclass
class Group:
    """what a group of tests came to, and what is to be read where one failed"""
    name: str
    passed: int
    failed: int
    said: str = ''

    def show(self) -> None:
        print(f'{"ok    " if not self.failed else "FAILED"} {self.name}: {self.passed} passed, {self.failed} failed', flush=True)
        if self.failed:
            print(''.join(f'       | {line}\n' for line in self.said.splitlines()[-60:]), end='', flush=True)


def run(words: list[str | Path], folder: Path = ROOT, **more: str) -> subprocess.CompletedProcess[str]:
    return subprocess.run(words, cwd=folder, env={**os.environ, **more}, stdin=subprocess.DEVNULL, stdout=subprocess.PIPE, stderr=subprocess.STDOUT,
                          text=True, errors='replace')


def missing(tool: str) -> str | None:
    return None if shutil.which(tool) else f'{tool} is missing: it comes with the package {PACKAGES[tool]}'


def c_example(source: Path, shared: bool) -> Group:
    """compiled, linked with the archive or the shared library, run, and its output compared"""
    group = Group(f'C {source.name}, {"shared" if shared else "static"} library', 0, 1)
    lacking = missing('cc')
    if lacking:
        group.said = lacking
        return group
    BUILT.mkdir(parents=True, exist_ok=True)
    program = BUILT / (source.stem + ('.shared' if shared else ''))
    linked = ['-L', LIB, '-ljenwyllt', f'-Wl,-rpath,{LIB}'] if shared else [LIB / 'libjenwyllt.a']
    made = run(['cc', *WARNINGS, '-I', 'include', source, *linked, '-o', program])
    words = source.with_suffix('.args')
    done = made if made.returncode else run([program, *(words.read_text().split('\n')[:-1] if words.exists() else [])])
    expected = source.with_suffix('.stdout').read_text()
    if done.returncode == 0 and done.stdout == expected:
        group.passed, group.failed = 1, 0
    group.said = done.stdout
    return group


def c_tests() -> list[Group]:
    return [c_example(source, shared) for source in sorted((ROOT / 'examples').glob('*.c')) for shared in (False, True)]


def rust_tests() -> list[Group]:
    group = Group('Rust', 0, 1)
    lacking = missing('cargo')
    if lacking:
        group.said = lacking
        return [group]
    done = run(['cargo', 'test', '--offline', '--no-fail-fast'], ROOT / 'bindings' / 'rust')
    counts = re.findall(r'^test result: .*?(\d+) passed; (\d+) failed', done.stdout, re.M)
    passed, failed = (sum(int(count[k]) for count in counts) for k in (0, 1))
    return [Group('Rust', passed, failed if counts and (failed or done.returncode == 0) else failed + 1, done.stdout)]


def python_tests() -> list[Group]:
    groups = []
    for file in sorted((ROOT / 'bindings' / 'python' / 'tests').glob('test_*.py')):
        done = run([sys.executable, '-m', 'unittest', '-v', f'tests.{file.stem}'], ROOT / 'bindings' / 'python')
        ran = re.search(r'^Ran (\d+) test', done.stdout, re.M)
        bad = re.search(r'^FAILED \((.*)\)', done.stdout, re.M)
        failed = sum(map(int, re.findall(r'(?:failures|errors|unexpected successes)=(\d+)', bad[1]))) if bad else 0
        skipped = sum(map(int, re.findall(r'skipped=(\d+)', done.stdout)))
        count = int(ran[1]) if ran else 0
        failed = max(failed, int(done.returncode != 0 or count == 0)) + skipped
        groups.append(Group(f'Python {file.stem}', max(count - failed, 0), failed, done.stdout))
    return groups


def main(words: list[str]) -> int:
    parts: dict[str, Callable[[], list[Group]]] = {'c': c_tests, 'rust': rust_tests, 'python': python_tests}
    if words == ['--help']:
        print(__doc__.strip())
        return 0
    if not set(words) <= set(parts):
        print(f'usage: test.py [{"] [".join(parts)}]', file=sys.stderr)
        return 2
    with ThreadPoolExecutor(2) as pool:
        running = [pool.submit(parts[name]) for name in words or ['rust', 'c', 'python']]
        groups = []
        for each in running:
            for group in each.result():
                group.show()
                groups.append(group)
    passed, failed = sum(group.passed for group in groups), sum(group.failed for group in groups)
    print(f'{passed} passed, {failed} failed')
    return 1 if failed or not passed else 0


if __name__ == '__main__':
    sys.exit(main(sys.argv[1:]))
