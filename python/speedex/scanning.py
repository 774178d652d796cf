"""The formats, field by field: finds the first fault of a payload, as ``docs/FORMATS.md`` has it.

A field is read whole and then tested, from left to right, and the first fault is the answer. This is the one place that
says which fault comes and at which offset. ``reading`` takes whole payloads at once, and calls this if something in
them is out of order.
"""

from __future__ import annotations

from typing import Callable, Dict, List, NoReturn, Optional, Tuple

from . import records as it
from .errors import DecodeError

SHORT, TAG, AMOUNT_RANGE, LIMIT_RANGE, SEQ_RANGE, ASSET_RANGE, ORDER, TOTAL = 1, 2, 3, 4, 5, 6, 7, 8
TOO_MANY, REST, PRICE_RANGE, TRADE_ORDER, TOO_LONG, VERSION, HEIGHT_RANGE, ASSET_COUNT = 9, 10, 11, 12, 13, 14, 15, 16
OWNER, MU_RANGE, VALUE_RANGE, CUT_RANGE, ACTOR, USED_RANGE, PLACE_RANGE = 17, 18, 19, 20, 21, 22, 23


class Cursor:
    """A place in some bytes, which moves on with each field. Offsets count from the first of the bytes."""

    __slots__ = ("data", "at", "end")

    def __init__(self, data: bytes, at: int, end: int) -> None:
        self.data, self.at, self.end = data, at, end

    def take(self, count: int) -> bytes:
        begin = self.at
        if count > self.end - begin:
            raise DecodeError(SHORT, self.end)
        self.at = begin + count
        return self.data[begin : self.at]

    def number(self, width: int) -> int:
        return int.from_bytes(self.take(width), "big")

    def tested(self, width: int, least: int, most: int, fault: int) -> int:
        """A number of so many bytes, which has to be in a range."""
        begin = self.at
        number = self.number(width)
        if not least <= number <= most:
            raise DecodeError(fault, begin)
        return number

    def each(self, count: int, width: int, least: int, most: int, fault: int) -> List[int]:
        return [self.tested(width, least, most, fault) for _ in range(count)]


def _pair(at: Cursor, assets: int) -> Tuple[int, int]:
    """Two different assets of so many."""
    sell = at.tested(1, 0, assets - 1, ASSET_RANGE)
    begin = at.at
    buy = at.tested(1, 0, assets - 1, ASSET_RANGE)
    if buy == sell:
        raise DecodeError(ASSET_RANGE, begin)
    return sell, buy


def account(at: Cursor, version: int, assets: int) -> it.Account:
    """An account, whatever its place among others."""
    id = at.number(8)
    last = at.tested(8, 0, it.MOST_SEQ, SEQ_RANGE)
    used, begin = 0, at.at
    if version != 1:
        used = at.number(8)
        if used & 1 or (used and last + used.bit_length() > it.MOST_SEQ):
            raise DecodeError(USED_RANGE, begin)
    return it.Account(id, last, used, tuple(at.each(assets, 8, 0, it.MOST_AMOUNT, AMOUNT_RANGE)))


def state(at: Cursor) -> None:
    payload = at.at
    version = at.tested(1, 1, 2, VERSION)
    at.tested(8, 0, it.MOST_HEIGHT, HEIGHT_RANGE)
    assets = at.tested(1, 1, it.MOST_ASSETS, ASSET_COUNT)
    at.each(assets, 8, it.LEAST_PRICE, it.MOST_PRICE, PRICE_RANGE)
    totals = at.each(assets, 8, 0, it.MOST_AMOUNT, AMOUNT_RANGE)
    owners: Dict[int, it.Account] = {}
    before: Optional[int] = None
    for _ in range(at.tested(4, 0, it.MOST_ACCOUNTS, TOO_MANY)):
        begin = at.at
        one = account(at, version, assets)
        if before is not None and one.id <= before:
            raise DecodeError(ORDER, begin)
        before, owners[one.id] = one.id, one
        totals = [total + balance for total, balance in zip(totals, one.balances)]
    key: Optional[Tuple[int, ...]] = None
    for _ in range(at.tested(4, 0, it.MOST_OFFERS, TOO_MANY)):
        begin = at.at
        sell, buy = _pair(at, assets)
        limit = at.tested(8, 1, it.MOST_LIMIT, LIMIT_RANGE)
        owner = at.number(8)
        seq = at.tested(8, 1, it.MOST_SEQ, SEQ_RANGE)
        amount = at.tested(8, 1, it.MOST_AMOUNT, AMOUNT_RANGE)
        if key is not None and (sell, buy, limit, owner, seq) <= key:
            raise DecodeError(ORDER, begin)
        if owner not in owners or not owners[owner].has_used(seq):
            raise DecodeError(OWNER, begin)
        key = (sell, buy, limit, owner, seq)
        totals[sell] += amount
    if max(totals) > it.MOST_AMOUNT:
        raise DecodeError(TOTAL, payload)


def transaction(at: Cursor) -> Tuple[int, int]:
    """A transaction; what it is ordered by."""
    owner = at.number(8)
    seq = at.tested(8, 1, it.MOST_SEQ, SEQ_RANGE)
    kind = at.tested(1, 1, 4, TAG)
    if kind == 1:
        at.number(8)
        at.tested(1, 0, it.MOST_ASSETS - 1, ASSET_RANGE)
        at.tested(8, 1, it.MOST_AMOUNT, AMOUNT_RANGE)
    elif kind == 2:
        at.number(8)
    else:
        at.each(2, 1, 0, it.MOST_ASSETS - 1, ASSET_RANGE)
        at.tested(8, 1, it.MOST_LIMIT, LIMIT_RANGE)
        if kind == 3:
            at.tested(8, 1, it.MOST_AMOUNT, AMOUNT_RANGE)
        else:
            at.tested(8, 1, it.MOST_SEQ, SEQ_RANGE)
    return owner, seq


def transactions(at: Cursor, in_order: bool) -> None:
    before: Optional[Tuple[int, int]] = None
    for _ in range(at.tested(4, 0, it.MOST_TRANSACTIONS, TOO_MANY)):
        begin = at.at
        key = transaction(at)
        if in_order and before is not None and key <= before:
            raise DecodeError(ORDER, begin)
        before = key


def candidates(at: Cursor) -> None:
    transactions(at, in_order=False)


def block(at: Cursor) -> None:
    at.tested(1, 1, 2, VERSION)
    at.tested(8, 0, it.MOST_HEIGHT, HEIGHT_RANGE)
    at.take(32)
    at.take(32)
    at.tested(1, 1, it.MOST_MU, MU_RANGE)
    assets = at.tested(1, 1, it.MOST_ASSETS, ASSET_COUNT)
    at.each(assets, 8, it.LEAST_PRICE, it.MOST_PRICE, PRICE_RANGE)
    before: Optional[Tuple[int, int]] = None
    for _ in range(at.tested(2, 0, assets * (assets - 1), TOO_MANY)):
        begin = at.at
        pair = _pair(at, assets)
        at.tested(16, 1, it.MOST_VALUE, VALUE_RANGE)
        if before is not None and pair <= before:
            raise DecodeError(TRADE_ORDER, begin)
        before = pair
    if at.tested(1, 0, 1, TAG):
        at.tested(4, 0, (1 << assets) - 1, CUT_RANGE)
    at.take(4 * assets)
    at.each(assets, 8, 0, it.MOST_AMOUNT, AMOUNT_RANGE)
    at.take(32)
    transactions(at, in_order=True)


def outcomes(at: Cursor) -> None:
    for _ in range(at.tested(4, 0, it.MOST_TRANSACTIONS, TOO_MANY)):
        result = at.tested(1, 0, 5, TAG)
        if result == 1:
            at.tested(1, 1, 10, TAG)
        elif result == 5:
            seen = at.tested(8, 0, it.MOST_AMOUNT, AMOUNT_RANGE)
            at.tested(8, seen + 1, it.MOST_AMOUNT, AMOUNT_RANGE)


def script(at: Cursor) -> None:
    actors = at.tested(1, 1, it.MOST_ACTORS, ACTOR)
    at.each(at.tested(4, 0, it.MOST_TURNS, TOO_MANY), 1, 0, actors - 1, ACTOR)


def proof(at: Cursor) -> None:
    at.take(32)
    version = at.tested(1, 1, 2, VERSION)
    assets = at.tested(1, 1, it.MOST_ASSETS, ASSET_COUNT)
    at.tested(4, 0, it.MOST_PLACES - 1, PLACE_RANGE)
    account(at, version, assets)
    at.take(32 * it.LEVELS)


SCANS: Dict[int, Callable[[Cursor], None]] = {1: state, 2: candidates, 3: block, 4: outcomes, 5: script, 6: proof}


def fault_of(tag: int, data: bytes, at: int, end: int) -> Optional[DecodeError]:
    """The first fault of the payload that stands in ``data`` from ``at`` to ``end``; None if there is none."""
    cursor = Cursor(data, at, end)
    try:
        SCANS[tag](cursor)
        if cursor.at < end:
            raise DecodeError(REST, cursor.at)
    except DecodeError as fault:
        return fault
    return None


def refuse(tag: int, data: bytes, at: int, end: int) -> NoReturn:
    """Raises the first fault of a payload that has one."""
    fault = fault_of(tag, data, at, end)
    if fault is None:
        raise AssertionError("a payload that was found wrong has no fault")
    raise fault
