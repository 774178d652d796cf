"""Transactions as columns: an array for each field, which takes a second for a million of them.

``transaction_columns`` reads the record of candidates or of a block. Its columns are arrays of numbers, which ``numpy``
and ``pandas`` take as they are: ``pandas.DataFrame(columns.payments)``.
"""

from __future__ import annotations

import sys
from array import array
from dataclasses import dataclass
from itertools import compress, islice
from operator import lt
from typing import TYPE_CHECKING, Dict, List, Sequence, Tuple

from . import records as it

if TYPE_CHECKING:
    Column = array[int]
    Columns = Dict[str, array[int]]

HEAD = 17
#: Of each kind of transaction its length, and where its fields stand behind the kind, with their widths.
LAYOUT: Dict[int, Tuple[int, Sequence[Tuple[str, int, int]]]] = {
    1: (34, (("payee", 17, 8), ("asset", 25, 1), ("amount", 26, 8))),
    2: (25, (("id", 17, 8),)),
    3: (35, (("sell", 17, 1), ("buy", 18, 1), ("limit", 19, 8), ("amount", 27, 8))),
    4: (35, (("sell", 17, 1), ("buy", 18, 1), ("limit", 19, 8), ("offer_seq", 27, 8))),
}
_LENGTHS = [LAYOUT[kind][0] if kind in LAYOUT else 0 for kind in range(256)]
_RANGES = {
    "seq": (1, it.MOST_SEQ),
    "asset": (0, it.MOST_ASSETS - 1),
    "sell": (0, it.MOST_ASSETS - 1),
    "buy": (0, it.MOST_ASSETS - 1),
    "limit": (1, it.MOST_LIMIT),
    "amount": (1, it.MOST_AMOUNT),
    "offer_seq": (1, it.MOST_SEQ),
}


class Unreadable(Exception):
    """The bytes have another structure than the format: they end at ``end`` inside a field, or a ``kind`` is none."""

    def __init__(self, end: int, kind: int = -1, place: int = 0) -> None:
        super().__init__(end, kind, place)
        self.kind, self.at = kind, end if kind < 0 else place


@dataclass(frozen=True)
class TransactionColumns:
    """Transactions by kind. Each kind has the columns ``index`` (the place in the list, from 0), ``account`` and
    ``seq``, and its fields by the names that the dataclasses have: amounts in units, limits in units of ``2^-24``."""

    count: int
    payments: Columns
    creations: Columns
    offers: Columns
    cancellations: Columns

    def by_kind(self) -> Tuple[Tuple[int, Columns], ...]:
        return (1, self.payments), (2, self.creations), (3, self.offers), (4, self.cancellations)


def column(joined: bytes, stride: int, offset: int, width: int) -> Column:
    """The numbers that stand at an offset of each entry, if all entries have the length ``stride``."""
    if width == 1:
        return array("B", joined[offset::stride])
    spread = bytearray(width * (len(joined) // stride))
    for byte in range(width):
        spread[byte::width] = joined[offset + byte :: stride]
    numbers = array("Q" if width == 8 else "I")
    numbers.frombytes(bytes(spread))
    if sys.byteorder == "little":
        numbers.byteswap()
    return numbers


def read_columns(data: bytes, at: int, end: int, count: int) -> Tuple[TransactionColumns, int]:
    """The columns of so many transactions from ``at`` on, and where they end."""
    kind_at, kinds, lengths = at + HEAD - 1, bytearray(count), _LENGTHS
    places = [0] * count
    try:
        for index in range(count):
            kinds[index] = kind = data[kind_at]
            places[index] = kind_at
            kind_at += lengths[kind]
    except IndexError:
        raise Unreadable(end, *_unknown(kinds, places)) from None
    if kinds.translate(None, b"\1\2\3\4"):
        raise Unreadable(end, *_unknown(kinds, places))
    if kind_at - HEAD + 1 > end:
        raise Unreadable(end)
    found = [_kind_columns(data, kind, places, kinds) for kind in LAYOUT]
    return TransactionColumns(count, *found), kind_at - HEAD + 1


def _kind_columns(data: bytes, kind: int, places: List[int], kinds: bytearray) -> Columns:
    length, fields = LAYOUT[kind]
    chosen = kinds.translate(bytes(byte == kind for byte in range(256)))
    before, behind = HEAD - 1, length - HEAD + 1
    joined = b"".join([data[place - before : place + behind] for place in compress(places, chosen)])
    columns = {
        "index": array("I", compress(range(len(kinds)), chosen)),
        "account": column(joined, length, 0, 8),
        "seq": column(joined, length, 8, 8),
    }
    columns.update((name, column(joined, length, offset, width)) for name, offset, width in fields)
    return columns


def _unknown(kinds: bytearray, places: List[int]) -> Tuple[int, ...]:
    """The first kind that is none, and where it stands; nothing if all are kinds."""
    return next(((kind, place) for kind, place in zip(kinds, places) if place and not 1 <= kind <= 4), ())


def are_in_range(columns: TransactionColumns) -> bool:
    """Whether all numbers keep the ranges of docs/FORMATS.md."""
    for _, kind in columns.by_kind():
        for name, numbers in kind.items():
            if name in _RANGES and numbers:
                least, most = _RANGES[name]
                if min(numbers) < least or max(numbers) > most:
                    return False
    return True


def are_in_order(columns: TransactionColumns) -> bool:
    """Whether the transactions stand strictly by account and then by sequence number."""
    keys: List[Tuple[int, int]] = [(0, 0)] * columns.count
    for _, kind in columns.by_kind():
        for index, key in zip(kind["index"], zip(kind["account"], kind["seq"])):
            keys[index] = key
    return all(map(lt, keys, islice(keys, 1, None)))


def objects(columns: TransactionColumns) -> Tuple[it.Transaction, ...]:
    """The same transactions as dataclasses, in their order."""
    found: List[it.Transaction] = [None] * columns.count  # type: ignore[list-item]
    for kind, numbers in columns.by_kind():
        index, *fields = numbers.values()
        for place, made in zip(index, map(it.KINDS[kind], *fields)):
            found[place] = made
    return tuple(found)
