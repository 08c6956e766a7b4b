"""What is exported, as four texts declare it: the Rattle source, the header, the bindings for Rust and for Python.

A number is u8 .. u64, size, double or bool; a struct is its fields in order, so that its name does not count; a list is (of, what an entry is) where it is
read and (fills, what an entry is) where it is filled. Each text gives for every function its parameters in order and its result in these terms.
"""
from __future__ import annotations

import ctypes
import importlib
import pkgutil
import re
from collections.abc import Iterator
from pathlib import Path
from typing import Any

import jenwyllt
from jenwyllt._library import DECLARED, ListOf

from .files import ROOT

Signature = tuple[tuple[tuple[str, Any], ...], Any]
HEADER = ROOT / 'include' / 'jenwyllt.h'
RUST = ROOT / 'bindings' / 'rust' / 'src'
RUST_KINDS = {'u8': 'u8', 'u16': 'u16', 'u32': 'u32', 'u64': 'u64', 'usize': 'size', 'f64': 'double', 'bool': 'bool'}
C_KINDS = {'uint8_t': 'u8', 'uint16_t': 'u16', 'uint32_t': 'u32', 'uint64_t': 'u64', 'size_t': 'size', 'double': 'double', 'bool': 'bool'}


def without_comments(text: str) -> str:
    return re.sub(r'/\*.*?\*/|//[^\n]*', '', text, flags=re.S)


# ---- Rattle and Rust

def rust_structs(texts: Iterator[str]) -> dict[str, str]:
    return {name: fields for text in texts for name, fields in re.findall(r'#\[repr\(C\)\]\s*(?:#\[[^\n]*\]\s*)*pub struct (\w+) \{(.*?)\}', text, re.S)}


def rust_kind(word: str, structs: dict[str, str]) -> Any:
    word = word.strip()
    array = re.fullmatch(r'\[(.*); (\d+)\]', word)
    if array:
        return (rust_kind(array[1], structs), int(array[2]))
    if word in RUST_KINDS:
        return RUST_KINDS[word]
    fields = re.findall(r'pub (\w+): ([^,]+),', structs[word])
    return tuple((name, rust_kind(kind, structs)) for name, kind in fields)


def exporting() -> str:
    """the crate that tools/build_library.sh takes"""
    return re.search(r'^CRATE=(\w+)$', (ROOT / 'tools' / 'build_library.sh').read_text(), re.M)[1]


def sources(crate: str) -> Iterator[str]:
    """the files of a crate; a length that has a name is put as a number"""
    texts = [without_comments(path.read_text()) for path in sorted((ROOT / 'crates' / crate / 'src').rglob('*.rt'))]
    named = dict(re.findall(r'\bconst (\w+): usize = ([\d_]+);', '\n'.join(texts)))
    return (re.sub(r'(?<=; )(\w+)(?=\])', lambda length: named.get(length[1], length[1]).replace('_', ''), text) for text in texts)


def in_rattle() -> dict[str, Signature]:
    by_crate = {folder.name: rust_structs(sources(folder.name)) for folder in sorted((ROOT / 'crates').iterdir())}
    everywhere = {name: fields for structs in by_crate.values() for name, fields in structs.items()}
    found = {}
    for text in sources(exporting()):
        # a name that several crates give a struct is that of the crate that the file imports it from
        structs = dict(everywhere)
        for crate, names in re.findall(r'^use (\w+)(?:::\w+)*::(\{[^}]*\}|[A-Z]\w*);', text, re.M):
            structs.update({name: by_crate[crate][name] for name in re.findall(r'\w+', names) if name in by_crate.get(crate, {})})
        for name, parameters, result in re.findall(r'#\[unsafe\(no_mangle\)\]\s*pub extern "C" fn (jenwyllt_\w+)\((.*?)\)\s*->\s*(\w+)', text, re.S):
            read = []
            for parameter, kind in re.findall(r'(\w+): ([^,]+)', parameters):
                entry = re.fullmatch(r'&(mut )?\[(.*)\]', kind.strip())
                read.append((parameter, ('fills' if entry[1] else 'of', rust_kind(entry[2], structs)) if entry else rust_kind(kind, structs)))
            found[name] = (tuple(read), rust_kind(result, structs))
    return found


def joined(parameters: list[tuple[str, Any, bool | None]]) -> Iterator[tuple[str, Any]]:
    """a pointer (not None: whether it is filled) and the length behind it as one list"""
    rest = iter(parameters)
    for name, kind, filled in rest:
        if filled is None:
            yield name, kind
            continue
        following = next(rest, None)
        if following != (f'{name}_length', 'size', None):
            raise AssertionError(f'{name} is a pointer, and {following} stands behind it')
        yield name, ('fills' if filled else 'of', kind)


def in_rust() -> dict[str, Signature]:
    structs = rust_structs(without_comments(path.read_text()) for path in sorted(RUST.glob('*.rs')))
    found = {}
    for name, parameters, result in re.findall(r'pub (?:safe )?fn (jenwyllt_\w+)\((.*?)\)\s*->\s*(\w+);', without_comments((RUST / 'exported.rs').read_text()), re.S):
        read: list[tuple[str, Any, bool | None]] = []
        for parameter, kind in re.findall(r'(\w+): ([^,]+)', parameters):
            pointer = re.fullmatch(r'\*(const|mut) (.*)', kind.strip())
            read.append((parameter, rust_kind(pointer[2] if pointer else kind, structs), pointer[1] == 'mut' if pointer else None))
        found[name] = (tuple(joined(read)), rust_kind(result, structs))
    return found


# ---- C

def header() -> str:
    return without_comments(HEADER.read_text())


def header_structs() -> dict[str, tuple[tuple[str, Any], ...]]:
    found: dict[str, tuple[tuple[str, Any], ...]] = {}
    for name, body in re.findall(r'struct (\w+) \{(.*?)\};', header(), re.S):
        fields = []
        for inner, word, declared in re.findall(r'(struct )?(\w+) ([^;]+);', body):
            kind = found[word] if inner else C_KINDS[word]
            for each in declared.split(','):
                array = re.fullmatch(r'(\w+)\[(\d+)\]', each.strip())
                fields.append((array[1], (kind, int(array[2]))) if array else (each.strip(), kind))
        found[name] = tuple(fields)
    return found


def c_kind(word: str) -> Any:
    word = word.removeprefix('const ').strip()
    return header_structs()[word.removeprefix('struct ')] if word.startswith('struct ') else C_KINDS[word]


def in_header() -> dict[str, Signature]:
    found = {}
    for result, name, parameters in re.findall(r'((?:struct )?\w+) (jenwyllt_\w+)\(([^)]*)\);', header()):
        read: list[tuple[str, Any, bool | None]] = []
        for each in parameters.split(',') if parameters.strip() != 'void' else ():
            kind, star, parameter = re.fullmatch(r'\s*(.*?) (\*?)(\w+)\s*', each.replace('\n', ' ')).groups()
            read.append((parameter, c_kind(kind), not kind.strip().startswith('const ') if star else None))
        found[name] = (tuple(joined(read)), c_kind(result))
    return found


def header_enum(name: str) -> dict[str, int]:
    body = re.search(rf'enum {name} \{{(.*?)\}};', header(), re.S)[1]
    return {word: int(number) for word, number in re.findall(r'JENWYLLT_(\w+) = (\d+)', body)}


# ---- Python

PYTHON_KINDS = {ctypes.c_uint8: 'u8', ctypes.c_uint16: 'u16', ctypes.c_uint32: 'u32', ctypes.c_uint64: 'u64', ctypes.c_double: 'double', ctypes.c_bool: 'bool'}


def python_kind(kind: type, of_c: Any) -> Any:
    """on x86-64 `size_t` and `uint64_t` are one type of ctypes: it counts as the one that the header has there"""
    if issubclass(kind, ctypes.Structure):
        in_c = dict(of_c) if isinstance(of_c, tuple) else {}
        return tuple((name, python_kind(field, in_c.get(name))) for name, field in kind._fields_)
    if issubclass(kind, ctypes.Array):
        return (python_kind(kind._type_, of_c[0] if isinstance(of_c, tuple) else None), kind._length_)
    return 'size' if kind is ctypes.c_size_t and of_c == 'size' else PYTHON_KINDS[kind]


def in_python(c: dict[str, Signature]) -> dict[str, Signature]:
    for module in pkgutil.iter_modules([str(Path(jenwyllt.__file__).parent)]):
        if not module.name.startswith('_'):
            importlib.import_module(f'jenwyllt.{module.name}')
    found = {}
    for name, function in DECLARED.items():
        parameters, result = c.get(name, ((), None))
        in_c = dict(parameters)
        read = []
        for parameter, kind in function.parameters.items():
            of_c = in_c.get(parameter)
            if isinstance(kind, ListOf):
                read.append((parameter, ('fills' if kind.filled else 'of', python_kind(kind.kind, of_c[1] if isinstance(of_c, tuple) else None))))
            else:
                read.append((parameter, python_kind(kind, of_c)))
        found[name] = (tuple(read), python_kind(function.result, result))
    return found
