"""That the Rattle source, the header and the bindings declare the same functions, structs, refusals, sizes and version, and that the library has them."""
from __future__ import annotations

import ctypes
import re
import shutil
import subprocess
import tempfile
import unittest
from collections.abc import Iterator
from pathlib import Path
from typing import Any

import jenwyllt
from jenwyllt import sheet
from jenwyllt._library import DECLARED, ListOf
from jenwyllt.kept import ROW_NUMBERS
from jenwyllt.partition import PAIR_NUMBERS, TALLY_NUMBERS
from jenwyllt.refusal import WORDS, Cause

from . import declarations
from .files import ROOT


def numbers_in_definitions() -> set[int]:
    """of refusals, where a definition gives one; 0 stands for success there"""
    gives = re.compile(r'\b(?:refusal|failed) (\d+)\b|\bnumber = (\d+); (?:place|value)|\bcheck \([^\n]*?\) (\d+) |\w+_number [^\n=]*= cond \([^\n]*\) 0 (\d+)')
    found = set()
    for path in (ROOT / 'crates').glob('*/specs/**/*.antt'):
        if 'Examples' not in path.name and 'Case' not in path.name:
            code = '\n'.join(line for line in path.read_text().split('\n') if not line.lstrip().startswith('--'))
            found |= {int(number) for match in gives.finditer(code) for number in match.groups() if number}
    return found - {0}


def with_inner(kind: type) -> Iterator[type]:
    """a struct and those that are fields of it; nothing for any other kind"""
    if issubclass(kind, ctypes.Structure):
        yield kind
        for _, field in kind._fields_:
            yield from with_inner(field)


class Declared(unittest.TestCase):
    maxDiff = None

    def test_functions(self) -> None:
        """parameters and results, structs field by field"""
        rattle, header = declarations.in_rattle(), declarations.in_header()
        self.assertLessEqual({'jenwyllt_partition', 'jenwyllt_kept_boundaries', 'jenwyllt_read_sheet', 'jenwyllt_hypotenuse', 'jenwyllt_hypot'}, set(rattle))
        self.assertIn(('records', ('fills', declarations.header_structs()['jenwyllt_region'])), rattle['jenwyllt_kept_boundaries'][0])
        for name, text in (('include/jenwyllt.h', header), ('bindings/rust', declarations.in_rust()), ('bindings/python', declarations.in_python(header))):
            self.assertEqual(set(rattle), set(text), f'the functions of the Rattle source and of {name}')
            for function, signature in rattle.items():
                self.assertEqual(signature, text[function], f'{function} in the Rattle source and in {name}')

    def test_library(self) -> None:
        """the shared object shows these functions and nothing else"""
        self.assertIsNotNone(shutil.which('nm'), 'nm is missing: it comes with the package binutils')
        done = subprocess.run(['nm', '-D', '--defined-only', ROOT / 'target' / 'lib' / 'libjenwyllt.so'], capture_output=True, text=True, check=True)
        self.assertEqual({line.split()[2] for line in done.stdout.splitlines()}, set(declarations.in_header()))

    def test_layout(self) -> None:
        """sizes and offsets as the C compiler has them, against those of ctypes"""
        self.assertIsNotNone(shutil.which('cc'), 'cc is missing: it comes with the package gcc (or another C compiler)')
        structs = declarations.header_structs()
        lines = [f'printf("{name} {field} %zu %zu\\n", offsetof(struct {name}, {field}), sizeof(struct {name}));' for name, fields in structs.items() for field, _ in fields]
        with tempfile.TemporaryDirectory() as folder:
            source = Path(folder) / 'layout.c'
            source.write_text('#include <stdio.h>\n#include "jenwyllt.h"\nint main(void) {\n' + '\n'.join(lines) + '\nreturn 0;\n}\n')
            subprocess.run(['cc', '-Wall', '-Werror', '-I', ROOT / 'include', source, '-o', source.with_suffix('')], check=True)
            printed = subprocess.run([source.with_suffix('')], capture_output=True, text=True, check=True).stdout
        in_c = {}
        for line in printed.splitlines():
            name, field, offset, size = line.split()
            in_c.setdefault(name, (int(size), {}))[1][field] = int(offset)
        declarations.in_python(declarations.in_header())
        used = [kind for function in DECLARED.values() for kind in (function.result, *(each.kind for each in function.parameters.values() if isinstance(each, ListOf)))]
        ours = [shape(each) for kind in used for each in with_inner(kind)]
        for name, laid in in_c.items():
            self.assertIn(laid, ours, name)
        for laid in ours:
            self.assertIn(laid, in_c.values())

    def test_refusals(self) -> None:
        """the numbers of the definitions, the header and the bindings, their names, and their words in both bindings"""
        header = declarations.header_enum('jenwyllt_refusal')
        self.assertEqual(header.pop('ACCEPTED'), 0)
        self.assertEqual(numbers_in_definitions(), set(header.values()))
        self.assertEqual({cause.name: cause.value for cause in Cause}, header)
        rust = re.findall(r'^    (\w+) = (\d+), "(.*)";$', (declarations.RUST / 'refusal.rs').read_text(), re.M)
        self.assertEqual({re.sub(r'(?<!^)([A-Z])', r'_\1', name).upper(): int(number) for name, number, _ in rust}, header)
        self.assertEqual({int(number): words for _, number, words in rust}, {int(number): words for number, words in WORDS.items()})

    def test_sizes(self) -> None:
        """how many numbers an entry has, and the limits: the definitions, the header and Python"""
        limits = dict(re.findall(r'^(\w+) = (\d+)$', (ROOT / 'crates' / 'definitions' / 'specs' / 'Limits.antt').read_text(), re.M))
        header = declarations.header_enum('jenwyllt_size')
        for name, limit, ours in (('SPAN_NUMBERS', 'numbers_per_span', sheet.SPAN_NUMBERS), ('BOUNDARY_NUMBERS', 'numbers_per_boundary', sheet.BOUNDARY_NUMBERS),
                                  ('ANCHOR_NUMBERS', 'numbers_per_anchor', sheet.ANCHOR_NUMBERS), ('TALLY_NUMBERS', 'tallies_per_span', TALLY_NUMBERS),
                                  ('PAIR_NUMBERS', 'numbers_per_pair', PAIR_NUMBERS), ('ROW_NUMBERS', 'numbers_per_row', ROW_NUMBERS),
                                  ('MOST_SIDE', 'max_side', sheet.MOST_SIDE), ('MOST_ENTRIES', 'max_entries', sheet.MOST_ENTRIES)):
            self.assertEqual((header[name], int(limits[limit])), (ours, ours), name)
        self.assertEqual(header['PIXELS_PER_CELL'], sheet.PIXELS_PER_CELL)
        rust = dict(re.findall(r'^    (\w+): (\d+) of u(?:32|64);$', (declarations.RUST / 'entries.rs').read_text(), re.M))
        for entry, ours in (('Span', sheet.SPAN_NUMBERS), ('Boundary', sheet.BOUNDARY_NUMBERS), ('Point', sheet.ANCHOR_NUMBERS), ('Tally', TALLY_NUMBERS),
                            ('Pair', PAIR_NUMBERS), ('Row', ROW_NUMBERS)):
            self.assertEqual(int(rust[entry]), ours, entry)

    def test_version(self) -> None:
        header = declarations.header()
        parts = [re.search(rf'JENWYLLT_VERSION_{part} (\d+)', header)[1] for part in ('MAJOR', 'MINOR', 'PATCH')]
        version = '.'.join(parts)
        self.assertEqual(re.search(r'JENWYLLT_VERSION "(.*)"', header)[1], version)
        self.assertEqual(jenwyllt.__version__, version)
        self.assertEqual(re.search(r'^version = "(.*)"', (ROOT / 'bindings' / 'rust' / 'Cargo.toml').read_text(), re.M)[1], version)
        self.assertIn(f'## {version}', (ROOT / 'CHANGELOG.md').read_text())
        self.assertIn(f'"jenwyllt {version}"', (ROOT / 'docs' / 'jenwyllt.1').read_text())


def shape(kind: Any) -> tuple[int, dict[str, int]]:
    return ctypes.sizeof(kind), {name: getattr(kind, name).offset for name, *_ in kind._fields_}
