"""What goes wrong: one class for each kind of answer, all of them a ``SpeedexError``.

The line of an error that the program can give is the one that the program gives: ``str(error)`` is that line, and
``error_of`` makes the error of the line. ``docs/ERRORS.md`` says what to do at each.
"""

from __future__ import annotations

import re
from typing import Dict, List, Mapping, Optional, Tuple, Union

Figure = Union[int, str]

#: The decode errors: what ``DecodeError.number`` and ``DecodeError.name`` are.
FAULTS: Dict[int, str] = {
    1: "Short",
    2: "Tag",
    3: "AmountRange",
    4: "LimitRange",
    5: "SeqRange",
    6: "AssetRange",
    7: "Order",
    8: "Total",
    9: "TooMany",
    10: "Rest",
    11: "PriceRange",
    12: "TradeOrder",
    13: "TooLong",
    14: "Version",
    15: "HeightRange",
    16: "AssetCount",
    17: "Owner",
    18: "MuRange",
    19: "ValueRange",
    20: "CutRange",
    21: "Actor",
    22: "UsedRange",
    23: "PlaceRange",
}

#: The refusals of a block: number, name, the rule of validity that is broken, and the names of the figures.
REASONS: Dict[int, Tuple[str, str, str]] = {
    1: ("Ended", "BelowLast", ""),
    2: ("WrongHeight", "NextHeight", "have said"),
    3: ("WrongParent", "Parent", "said real"),
    4: ("WrongBody", "Body", "said real"),
    5: ("WrongAssets", "Assets", "have said"),
    6: ("Tx", "Passes", "index static"),
    7: ("TwoCancels", "CancelsOnce", "index"),
    8: ("TwoNames", "CreatesOnce", "index"),
    9: ("Crowded", "Room", "have more limit"),
    10: ("Overdrawn", "Covered", "account asset opening debits"),
    11: ("Outside", "Within", "sell buy low high y"),
    12: ("Unbalanced", "Balanced", "asset out into"),
    13: ("Slack", "Tight", "sell buy gain y"),
    14: ("NoCut", "Cut", "cut"),
    15: ("Rounding", "Rounded", "asset said real"),
    16: ("WrongAfter", "After", "said real"),
    17: ("Overspent", "Covered", "account asset opening credits debits"),
}

#: Why a ledger refuses a transaction by itself.
STATIC_REASONS: Dict[int, str] = {
    1: "UnknownAccount",
    2: "SeqBehind",
    3: "SeqBeyond",
    10: "SeqUsed",
    4: "UnknownAsset",
    5: "SamePair",
    6: "UnknownPayee",
    7: "AccountExists",
    8: "NoSuchOffer",
    9: "Dust",
}

# refusals whose figures are digests, of 64 hexadecimal digits
_WITH_DIGESTS = (3, 4, 16)


class SpeedexError(Exception):
    """Any error of this package. ``code`` is the exit code of the program that stands for it, if there is one."""

    code: Optional[int] = None


class DecodeError(SpeedexError, ValueError):
    """Bytes that are not in the format: ``number`` and ``name`` of the fault, and ``offset`` from the first byte."""

    code = 5

    def __init__(self, number: int, offset: int) -> None:
        super().__init__(number, offset)
        self.number = number
        self.name = FAULTS[number]
        self.offset = offset

    def __str__(self) -> str:
        return f"malformed at {self.offset}: {self.number} {self.name}"


class RefusedError(SpeedexError):
    """A block that breaks a rule, or candidates for which a state has no room.

    ``number`` and ``name`` are those of the reason, ``rule`` is the rule of validity that is broken, ``block`` counts
    the blocks of the input from 0, and ``figures`` has what the line names: whole numbers, values in units of
    ``2^-24``, digests as 64 hexadecimal digits, and a cut as the number whose bit *i* stands for asset *i*.
    """

    code = 6

    def __init__(self, block: int, number: int, figures: Optional[Mapping[str, Figure]] = None) -> None:
        super().__init__(block, number, figures)
        self.block = block
        self.number = number
        self.name, self.rule, _ = REASONS[number]
        self.figures: Dict[str, Figure] = dict(figures or {})

    def __str__(self) -> str:
        words = [f"refused block {self.block}: {self.number} {self.name}"]
        for name, figure in self.figures.items():
            words.append(f"{name} {figure:08x}" if name == "cut" else f"{name} {figure}")
        return " ".join(words)


class _LineError(SpeedexError):
    """An answer whose line says all that there is to say."""

    line = ""

    def __init__(self, line: Optional[str] = None) -> None:
        super().__init__(line)
        self.line = self.line if line is None else line

    def __str__(self) -> str:
        return self.line


class UsageError(_LineError, ValueError):
    """The program does not know these words. Nothing was read."""

    code = 2


class ReadFaultError(_LineError):
    """The program could not read its input."""

    code = 3
    line = "read fault"


class WriteFaultError(_LineError):
    """The program could not write its output, of which a part may be written."""

    code = 4
    line = "write fault"


class OutOfMemoryError(_LineError):
    """The program ran out of memory. Nothing is said of the input."""

    code = 7
    line = "out of memory"


class EngineError(SpeedexError):
    """The program did not run, a signal ended it, or it said what no document has. ``code`` is its exit code."""

    def __init__(self, code: int, line: str) -> None:
        super().__init__(code, line)
        self.code = code
        self.line = line

    def __str__(self) -> str:
        return f"exit code {self.code}: {self.line or 'nothing on standard error'}"


class EngineNotFoundError(SpeedexError):
    """No program was found, or the file that was named cannot be run."""


class TextError(SpeedexError, ValueError):
    """A line of a text or of a table that is not understood. ``line`` counts from 1, and ``reason`` names it too."""

    def __init__(self, line: int, reason: str) -> None:
        super().__init__(line, reason)
        self.line = line
        self.reason = reason

    def __str__(self) -> str:
        return self.reason


class NumberError(SpeedexError, ValueError):
    """A text that is no number, or a number that has no place where it is to go, as a limit price of 0."""


_MALFORMED = re.compile(r"malformed at (\d+): (\d+) (\w+)")
_REFUSED = re.compile(r"refused block (\d+): (\d+) (\w+)((?: \w+ -?\w+)*)")
_OTHERS = {error.code: error for error in (UsageError, ReadFaultError, WriteFaultError, OutOfMemoryError)}


def error_of(code: int, line: str) -> SpeedexError:
    """The error of a run of the program that ended with this exit code, which is not 0, and this line."""
    line = line.strip()
    if code == 5:
        found = _MALFORMED.fullmatch(line)
        if found and FAULTS.get(int(found[2])) == found[3]:
            return DecodeError(int(found[2]), int(found[1]))
    elif code == 6:
        found = _REFUSED.fullmatch(line)
        if found and int(found[2]) in REASONS and REASONS[int(found[2])][0] == found[3]:
            figures = _figures(int(found[2]), found[4].split())
            if figures is not None:
                return RefusedError(int(found[1]), int(found[2]), figures)
    elif code in _OTHERS:
        return _OTHERS[code](line)
    return EngineError(code, line)


def _figures(number: int, words: List[str]) -> Optional[Dict[str, Figure]]:
    """The figures of a refusal, by name; None if they are not those of the reason."""
    if words[::2] != REASONS[number][2].split():
        return None
    figures: Dict[str, Figure] = {}
    for name, word in zip(words[::2], words[1::2]):
        if number in _WITH_DIGESTS:
            figures[name] = word
        else:
            figures[name] = int(word, 16 if name == "cut" else 10)
    return figures
