"""The commands of the package: ``python -m speedex fills | explain | report STATE BLOCK``."""

from __future__ import annotations

import argparse
import json
import os
import pathlib
import sys
from typing import List, Optional, Tuple

from . import records as it
from .errors import DecodeError, RefusedError, SpeedexError
from .explanation import MOST_LINES, explain
from .fills import as_csv, as_json, as_text, execution_report
from .reading import record_at

ABOUT = """Looks at a block on the state before it, by the arithmetic of this package and not by the program's.

STATE is a file with the record of a state, and BLOCK one with the record of a block, as `speedex seal` writes it: the
outcomes of its candidates may stand behind it. `-` is standard input."""


def main(words: Optional[List[str]] = None) -> int:
    """Runs a command: 0 if it is done, 2 for wrong words, 3 and 4 for files, 5 and 6 as the program has them."""
    given = _parser().parse_args(words)
    try:
        state, block, outcomes = read_market(given.state, given.block)
        text, code = _COMMANDS[given.command](given, state, block, outcomes)
    except SpeedexError as error:
        return _fail(str(error), error.code or 1)
    except OSError as error:
        return _fail(f"{error.filename}: {error.strerror}", 3)
    try:
        if getattr(given, "output", None) in (None, "-"):
            sys.stdout.write(text)
            sys.stdout.flush()
        else:
            pathlib.Path(given.output).write_text(text, encoding="utf-8")
    except BrokenPipeError:
        os.dup2(os.open(os.devnull, os.O_WRONLY), sys.stdout.fileno())
        return 4
    except OSError as error:
        return _fail(f"{getattr(given, 'output', None) or 'standard output'}: {error.strerror}", 4)
    return code


def _fail(line: str, code: int) -> int:
    print(line, file=sys.stderr)
    return code


def _parser() -> argparse.ArgumentParser:
    form = argparse.RawDescriptionHelpFormatter
    parser = argparse.ArgumentParser(prog="python -m speedex", description=ABOUT, formatter_class=form)
    commands = parser.add_subparsers(dest="command", required=True, metavar="COMMAND")
    for name, about in (
        ("fills", "who traded how much at which price, and what stays on offer"),
        ("explain", "the rules of validity one by one with their sums, and why a block is refused"),
        ("report", "a page with prices, trades, order books, the circulation and totals"),
    ):
        command = commands.add_parser(name, help=about, description=about[0].upper() + about[1:] + ".")
        command.add_argument("state", metavar="STATE", help="the file of the state before the block")
        command.add_argument("block", metavar="BLOCK", help="the file of the block, or of what was sealed")
        if name == "fills":
            how = command.add_mutually_exclusive_group()
            how.add_argument("--csv", action="store_true", help="a line for each fill, with a line of names first")
            how.add_argument("--json", action="store_true", help="fills, offers that trade nothing, and totals")
        elif name == "explain":
            command.add_argument("--all", action="store_true", help=f"all sums, and not {MOST_LINES} of each rule")
        else:
            command.add_argument("-o", "--output", metavar="FILE", help="where the page goes, else standard output")
            command.add_argument("--title", default="", help="what the page is called")
    return parser


def _data(name: str) -> bytes:
    return sys.stdin.buffer.read() if name == "-" else pathlib.Path(name).read_bytes()


def read_market(state_file: str, block_file: str) -> Tuple[it.State, it.Block, Optional[it.Outcomes]]:
    """The state, the block, and the outcomes of its candidates if they stand behind it. Offsets of faults count from
    the first byte of the state and go on in the block, as if both were one input."""
    state_data = _data(state_file)
    data = state_data + (b"" if block_file == "-" == state_file else _data(block_file))
    state, at = record_at(data, 0, (1,))
    block, at = record_at(data, at, (3,))
    outcomes: Optional[it.Record] = None
    if at < len(data) and data[at] == 4:
        outcomes, at = record_at(data, at, (4,))
    if at < len(data):
        raise DecodeError(10, at)
    assert isinstance(state, it.State) and isinstance(block, it.Block)
    assert outcomes is None or isinstance(outcomes, it.Outcomes)
    return state, block, outcomes


def _fills(given: argparse.Namespace, state: it.State, block: it.Block, _: object) -> Tuple[str, int]:
    report = execution_report(state, block)
    if given.csv:
        return as_csv(report), 0
    if given.json:
        return json.dumps(as_json(report), indent=1) + "\n", 0
    return as_text(report), 0


def _explain(given: argparse.Namespace, state: it.State, block: it.Block, _: object) -> Tuple[str, int]:
    explanation = explain(state, block, None if given.all else MOST_LINES)
    return str(explanation), 0 if explanation.refusal is None else RefusedError.code


def _report(
    given: argparse.Namespace, state: it.State, block: it.Block, outcomes: Optional[it.Outcomes]
) -> Tuple[str, int]:
    from .report import page

    return page(state, block, outcomes, given.title), 0


_COMMANDS = {"fills": _fills, "explain": _explain, "report": _report}

if __name__ == "__main__":
    sys.exit(main())
