"""The subcommands of `jenwyllt`, one a module.

A module here has NAME, HELP (a line), EXAMPLE (lines as typed), add_arguments(parser) and run(args) -> exit status: 0, 1 where an input was refused, 2 for
wrong use or a failure of the system. Modules whose names begin with an underscore are no subcommands.
"""
from __future__ import annotations

import argparse
import importlib
import pkgutil
from collections.abc import Iterator
from typing import Protocol, cast


class Command(Protocol):
    NAME: str
    HELP: str
    EXAMPLE: str

    def add_arguments(self, parser: argparse.ArgumentParser) -> None: ...

    def run(self, args: argparse.Namespace) -> int: ...


def found() -> Iterator[Command]:
    """every subcommand, by name"""
    for module in sorted(pkgutil.iter_modules(__path__), key=lambda m: m.name):
        if not module.name.startswith('_'):
            yield cast(Command, importlib.import_module(f'{__name__}.{module.name}'))
