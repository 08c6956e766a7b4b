"""The command `jenwyllt`: reads the words and runs the subcommand."""
from __future__ import annotations

import argparse
import contextlib
import os
import sys
from typing import IO, NoReturn

from . import __version__, commands
from ._library import NotBuilt
from .commands._streams import Failed, Refused, said, write
from .refusal import Refusal

END = 'Exit status: 0 answered, 1 refused, 2 wrong use or a failure of the system.'


class Parser(argparse.ArgumentParser):
    """says in one line what is wrong with the words"""

    def error(self, message: str) -> NoReturn:
        self.exit(2, f'{self.prog}: {message}; {self.prog} --help says more\n')

    def _print_message(self, message: str, file: IO[str] | None = None) -> None:
        """that of argparse passes over a full disk"""
        if file is sys.stdout:
            write('-', message)
        else:
            sys.stderr.write(message)


def parser() -> argparse.ArgumentParser:
    top = Parser(prog='jenwyllt', epilog=END, description='The kept boundaries of a map, and what else the archive of maps asks, by the proved library.')
    top.add_argument('--version', action='version', version=f'jenwyllt {__version__}')
    subcommands = top.add_subparsers(metavar='COMMAND', required=True, dest='command')
    for command in commands.found():
        example = 'Example:\n' + ''.join(f'  {line}\n' for line in command.EXAMPLE.strip().split('\n'))
        each = subcommands.add_parser(command.NAME, help=command.HELP, description=command.HELP[:1].upper() + command.HELP[1:] + '.',
                                      epilog=f'{example}\n{END}', formatter_class=argparse.RawDescriptionHelpFormatter)
        command.add_arguments(each)
        each.set_defaults(run=command.run)
    return top


def flushed(status: int) -> int:
    """the status, or 2 where standard output cannot take what was printed; then nothing more is written at the end of Python"""
    if sys.stdout is None:
        return status
    if status != 2:
        try:
            sys.stdout.flush()
        except OSError as wrong:
            said(f'standard output: {wrong.strerror}')
            status = 2
    if status == 2:
        with contextlib.suppress(OSError, ValueError):
            os.dup2(os.open(os.devnull, os.O_WRONLY), sys.stdout.fileno())
    return status


def answered(words: list[str] | None) -> int:
    try:
        args = parser().parse_args(words)
        return args.run(args)
    except SystemExit as left:                                         # after --help, or wrong words
        return left.code if isinstance(left.code, int) else 0
    except (Refused, Refusal) as wrong:
        said(wrong)
        return 1
    except (Failed, NotBuilt) as wrong:
        said(wrong)
    except KeyboardInterrupt:
        said('interrupted')
    return 2


def main(words: list[str] | None = None) -> int:
    return flushed(answered(words))


if __name__ == '__main__':
    sys.exit(main())
