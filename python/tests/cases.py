"""The stored cases of the repository, and the program that the tests run."""

from __future__ import annotations

import pathlib
from typing import Dict, Iterator, List, NamedTuple

import speedex

TOP = pathlib.Path(__file__).resolve().parents[2]
FOLDER = TOP / "examples" / "cases"


class Case(NamedTuple):
    """A stored case: words, input, and what the program has to answer to them."""

    name: str
    words: List[str]
    input: bytes
    code: int
    output: bytes
    line: str
    sealed: str
    after: bytes


def _file(folder: pathlib.Path, name: str) -> bytes:
    path = folder / name
    return path.read_bytes() if path.is_file() else b""


def stored(*commands: str) -> Iterator[Case]:
    """The cases of these commands, or all of them."""
    for folder in sorted(FOLDER.iterdir()):
        if not folder.is_dir():
            continue
        words = _file(folder, "words").decode().splitlines()
        if commands and (not words or words[0] not in commands):
            continue
        code, line = int(_file(folder, "code")), _file(folder, "text").decode().rstrip("\n")
        output, sealed, after = (_file(folder, name) for name in ("output", "sealed", "after"))
        yield Case(folder.name, words, _file(folder, "input"), code, output, line, sealed.decode(), after)


def records_in_cases() -> Dict[bytes, speedex.Record]:
    """Each record of the stored inputs and outputs that can be decoded, by its bytes."""
    found: Dict[bytes, speedex.Record] = {}
    for case in stored():
        for data in (case.input, case.output, case.after):
            try:
                for record in speedex.records_of(data):
                    found[speedex.encode(record)] = record
            except speedex.DecodeError:
                continue
    return found
