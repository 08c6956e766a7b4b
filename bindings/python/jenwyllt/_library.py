"""The shared library: where it is found, and its functions as Python calls them.

A topic declares each function of include/jenwyllt.h that it uses, once, as a `Function`, and each struct as a `ctypes.Structure`; tests/test_layout.py
compares both with the header. A list is lent as an array of ctypes, made by `lent`.
"""
from __future__ import annotations

import ctypes
import functools
import os
from collections.abc import Iterable
from pathlib import Path
from typing import Any

U8, U16, U32, U64, SIZE, DOUBLE, BOOL = (
    ctypes.c_uint8, ctypes.c_uint16, ctypes.c_uint32, ctypes.c_uint64, ctypes.c_size_t, ctypes.c_double, ctypes.c_bool)


class NotBuilt(Exception):
    """There is no library to load."""


def folders() -> list[Path]:
    """where the library is looked for: target/lib of a checkout, then lib of the prefix that the package is installed under"""
    package = Path(__file__).resolve().parent
    return [package.parents[2] / 'target' / 'lib', package.parents[1]]


@functools.cache
def library() -> ctypes.CDLL:
    """the library that JENWYLLT_LIBRARY names, or that of the checkout or prefix; raises NotBuilt"""
    named = os.environ.get('JENWYLLT_LIBRARY')
    paths = [Path(named)] if named else [folder / 'libjenwyllt.so' for folder in folders()]
    for path in paths:
        if path.is_file():
            try:
                return ctypes.CDLL(str(path))
            except OSError as wrong:
                raise NotBuilt(f'{path}: {wrong}') from wrong
    raise NotBuilt(f'{paths[0]} is missing: tools/build_library.sh builds it')


MOST = {kind: 256 ** ctypes.sizeof(kind) - 1 for kind in (U8, U16, U32, U64)}


def fitting(kind: type, number: Any) -> Any:
    """the number itself; ctypes would cut one that is too large, or negative, without a word"""
    if kind in MOST and not 0 <= number <= MOST[kind]:
        raise ValueError(f'{number} is not from 0 to {MOST[kind]}')
    return number


def lent(kind: type, entries: int | Iterable[Any]) -> ctypes.Array[Any]:
    """an array of these entries, or of so many zero ones"""
    if isinstance(entries, int):
        return (kind * entries)()
    if isinstance(entries, bytes) and kind is U8:
        return (kind * len(entries)).from_buffer_copy(entries)
    those = [fitting(kind, entry) for entry in entries]
    return (kind * len(those))(*those)


class ListOf:
    """a parameter that is a list: a pointer to its first entry and its length"""

    def __init__(self, kind: type, filled: bool = False):
        self.kind, self.filled = kind, filled


DECLARED: dict[str, Function] = {}


class Function:
    """a function of the library, by its name there, what it returns, and its parameters in order"""

    def __init__(self, name: str, result: type, /, **parameters: type | ListOf):
        self.name, self.result, self.parameters = name, result, parameters
        DECLARED[name] = self

    @functools.cached_property
    def _loaded(self) -> Any:
        try:
            function = getattr(library(), self.name)
        except AttributeError as wrong:
            raise NotBuilt(f'the library has no {self.name}: tools/build_library.sh builds it anew') from wrong
        function.restype = self.result
        function.argtypes = [each for kind in self.parameters.values()
                             for each in ((ctypes.POINTER(kind.kind), SIZE) if isinstance(kind, ListOf) else (kind,))]
        return function

    def __call__(self, *arguments: Any) -> Any:
        """lists as arrays of their kind; an array of no entries goes as a pointer to one, which is never read"""
        words: list[Any] = []
        for (name, kind), given in zip(self.parameters.items(), arguments, strict=True):
            if not isinstance(kind, ListOf):
                words.append(fitting(kind, given))
                continue
            if not isinstance(given, ctypes.Array) or given._type_ is not kind.kind:
                raise TypeError(f'{self.name}: {name} must be an array of {kind.kind.__name__}')
            words += [given if len(given) else (kind.kind * 1)(), len(given)]
        return self._loaded(*words)
