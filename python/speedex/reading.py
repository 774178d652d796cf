"""Bytes to records, strictly: what ``docs/FORMATS.md`` does not allow raises the ``DecodeError`` of the program."""

from __future__ import annotations

import struct
from itertools import islice, starmap
from operator import lt
from typing import Callable, Dict, Iterator, List, Optional, Tuple, Type, TypeVar, Union, cast, overload

from . import records as it
from .columns import TransactionColumns, Unreadable, are_in_order, are_in_range, objects, read_columns
from .errors import DecodeError
from .scanning import REST, SHORT, TAG, TOO_LONG, refuse

#: The bytes of a record before its payload: tag and length.
FRAME = 5
RecordType = TypeVar("RecordType", bound=it.Record)


def frame_at(data: bytes, at: int, tags: Tuple[int, ...] = tuple(it.TAGS)) -> Tuple[int, int]:
    """The tag of the record that begins at ``at``, which has to be one of ``tags``, and where the record ends."""
    if at >= len(data):
        raise DecodeError(SHORT, len(data))
    if data[at] not in tags:
        raise DecodeError(TAG, at)
    if at + FRAME > len(data):
        raise DecodeError(SHORT, len(data))
    length = int.from_bytes(data[at + 1 : at + FRAME], "big")
    if length > it.MOST_BYTES:
        raise DecodeError(TOO_LONG, at + 1)
    if at + FRAME + length > len(data):
        raise DecodeError(SHORT, len(data))
    return data[at], at + FRAME + length


def record_at(data: bytes, at: int = 0, tags: Tuple[int, ...] = tuple(it.TAGS)) -> Tuple[it.Record, int]:
    """The record that begins at ``at``, and where it ends. Offsets of faults count from the first byte of ``data``."""
    tag, end = frame_at(data, at, tags)
    reader = _Reader(data, at + FRAME, end)
    try:
        record = _BUILDERS[tag](reader)
        if reader.at == end and reader.fine and is_fine(record):
            return record, end
    except Unreadable:
        pass
    refuse(tag, data, at + FRAME, end)


def records_of(data: bytes, strict: bool = True) -> Iterator[it.Record]:
    """The records of some bytes, one after the other. A fault is raised when its record comes.

    With ``strict=False`` only the structure is looked at, and no range, order or total: so wrong records can be seen.
    A record that goes on after its last field comes too, before this fault is raised.
    """
    at = 0
    while at < len(data):
        if strict:
            record, at = record_at(data, at)
            yield record
            continue
        tag, end = frame_at(data, at)
        reader = _Reader(data, at + FRAME, end)
        try:
            record = _BUILDERS[tag](reader)
        except Unreadable as fault:
            raise DecodeError(SHORT if fault.kind < 0 else TAG, fault.at) from None
        yield record
        if reader.at < end:
            raise DecodeError(REST, reader.at)
        at = end


def decode_all(data: bytes) -> List[it.Record]:
    """All records of some bytes."""
    return list(records_of(data))


@overload
def decode(data: bytes) -> it.Record: ...
@overload
def decode(data: bytes, kind: Type[RecordType]) -> RecordType: ...
def decode(data: bytes, kind: Optional[Type[RecordType]] = None) -> Union[it.Record, RecordType]:
    """The one record that the bytes are, of a kind if one is named: ``decode(data, State)``."""
    tags = tuple(it.TAGS) if kind is None else (it.TAG_OF[kind],)
    record, end = record_at(data, 0, tags)
    if end < len(data):
        raise DecodeError(REST, end)
    return record


def transaction_columns(data: bytes) -> TransactionColumns:
    """The transactions of a record of candidates or of a block as columns, tested as ``decode`` tests them."""
    tag, end = frame_at(data, 0, (2, 3))
    if end < len(data):
        raise DecodeError(REST, end)
    reader = _Reader(data, FRAME, end)
    try:
        reader.only_columns = True
        if tag == 3:
            fits = is_fine(_block(reader))
        else:
            reader.transactions()
            fits = True
        fits = fits and reader.fine and reader.at == end and (tag == 2 or are_in_order(reader.columns))
    except Unreadable:
        fits = False
    if not fits:
        refuse(tag, data, FRAME, end)
    return reader.columns


class _Reader:
    """Reads fields in bulk and tests nothing but that they are there; ``fine`` falls if a transaction is wrong."""

    def __init__(self, data: bytes, at: int, end: int) -> None:
        self.data, self.at, self.end = data, at, end
        self.fine, self.only_columns = True, False
        self.columns: TransactionColumns

    def take(self, count: int) -> bytes:
        begin = self.at
        if count > self.end - begin:
            raise Unreadable(self.end)
        self.at = begin + count
        return self.data[begin : self.at]

    def fields(self, form: str) -> Tuple[int, ...]:
        return struct.unpack(">" + form, self.take(struct.calcsize(">" + form)))

    def number(self, form: str) -> int:
        return self.fields(form)[0]

    def entries(self, form: str) -> Iterator[Tuple[int, ...]]:
        """A count, and so many entries of a form."""
        return struct.iter_unpack(">" + form, self.take(self.number("I") * struct.calcsize(">" + form)))

    def transactions(self) -> Tuple[it.Transaction, ...]:
        count = self.number("I")
        if count > it.MOST_TRANSACTIONS or count * 25 > self.end - self.at:
            raise Unreadable(self.end)
        self.columns, self.at = read_columns(self.data, self.at, self.end, count)
        self.fine = are_in_range(self.columns)
        return () if self.only_columns else objects(self.columns)


def _state(at: _Reader) -> it.State:
    version, height, assets = at.fields("BQB")
    prices, roundings = at.fields(f"{assets}Q"), at.fields(f"{assets}Q")
    if version == 1:
        accounts = [it.Account(row[0], row[1], 0, row[2:]) for row in at.entries(f"QQ{assets}Q")]
    else:
        accounts = [it.Account(row[0], row[1], row[2], row[3:]) for row in at.entries(f"QQQ{assets}Q")]
    offers = tuple(starmap(it.Offer, at.entries("BBQQQQ")))
    return it.State(version, height, prices, roundings, tuple(accounts), offers)


def _block(at: _Reader) -> it.Block:
    version, height = at.fields("BQ")
    parent, body = at.take(32), at.take(32)
    mu, assets = at.fields("BB")
    prices = at.fields(f"{assets}Q")
    count = at.number("H")
    rows = struct.iter_unpack(">BBQQ", at.take(18 * count))
    trades = [it.Trade(sell, buy, high << 64 | low) for sell, buy, high, low in rows]
    flag = at.number("B")
    at.fine = at.fine and flag < 2
    cut = at.number("I") if flag else None
    potentials, roundings = at.fields(f"{assets}I"), at.fields(f"{assets}Q")
    after = at.take(32)
    was_fine = at.fine
    made = at.transactions()
    at.fine = at.fine and was_fine
    return it.Block(
        version, height, parent, body, mu, prices, tuple(trades), cut, potentials, roundings, after, made
    )


def _outcomes(at: _Reader) -> it.Outcomes:
    data, place, end = at.data, at.at + 4, at.end
    found: List[it.Outcome] = []
    fixed: Dict[int, it.Outcome] = {0: it.Accepted(), 2: it.SeqTaken(), 3: it.OfferTaken(), 4: it.NameTaken()}
    for _ in range(min(at.number("I"), it.MOST_TRANSACTIONS + 1)):
        if place >= end:
            raise Unreadable(end)
        kind = data[place]
        width = 2 if kind == 1 else 17 if kind == 5 else 1
        if kind > 5 or place + width > end:
            raise Unreadable(end) if kind <= 5 else Unreadable(end, kind, place)
        if kind == 1:
            found.append(it.Static(data[place + 1]))
        elif kind == 5:
            found.append(it.Overdraft(*struct.unpack_from(">QQ", data, place + 1)))
        else:
            found.append(fixed[kind])
        place += width
    at.at = place
    return it.Outcomes(tuple(found))


def _script(at: _Reader) -> it.Script:
    actors, count = at.fields("BI")
    return it.Script(actors, at.take(count))


def _proof(at: _Reader) -> it.AccountProof:
    root = at.take(32)
    version, assets, place = at.fields("BBI")
    head = at.fields("QQ")
    used = 0 if version == 1 else at.number("Q")
    account = it.Account(head[0], head[1], used, at.fields(f"{assets}Q"))
    return it.AccountProof(root, version, place, account, tuple(at.take(32) for _ in range(it.LEVELS)))


_BUILDERS: Dict[int, Callable[[_Reader], it.Record]] = {
    1: _state,
    2: lambda at: it.Candidates(at.transactions()),
    3: _block,
    4: _outcomes,
    5: _script,
    6: _proof,
}


def _within(numbers: Tuple[int, ...], least: int, most: int) -> bool:
    return not numbers or (min(numbers) >= least and max(numbers) <= most)


def _window_fits(account: it.Account, version: int) -> bool:
    used = account.used
    if account.last > it.MOST_SEQ or used & 1 or (version == 1 and used):
        return False
    return not used or account.last + used.bit_length() <= it.MOST_SEQ


def is_fine(record: it.Record) -> bool:
    """Whether a record that has the structure of one keeps all ranges, orders and totals. If it does not,
    ``scanning`` says which is the first that is broken; if it does, no fault is there. Of transactions nothing but
    the order in a block is looked at: their reader looks at the rest."""
    return _FINE[type(record)](record)


def _state_fits(state: it.State) -> bool:
    assets = len(state.prices)
    if state.version not in (1, 2) or state.height > it.MOST_HEIGHT or not 1 <= assets <= it.MOST_ASSETS:
        return False
    if not _within(state.prices, it.LEAST_PRICE, it.MOST_PRICE):
        return False
    if len(state.accounts) > it.MOST_ACCOUNTS or len(state.offers) > it.MOST_OFFERS:
        return False
    ids = [account.id for account in state.accounts]
    if not all(map(lt, ids, islice(ids, 1, None))):
        return False
    columns = [*zip(state.roundings, *(account.balances for account in state.accounts))]
    if not all(_within(column, 0, it.MOST_AMOUNT) for column in columns):
        return False
    if not all(_window_fits(account, state.version) for account in state.accounts):
        return False
    return _offers_fit(state, [sum(column) for column in columns])


def _offers_fit(state: it.State, totals: List[int]) -> bool:
    assets = len(state.prices)
    owners = {account.id: account for account in state.accounts}
    before: Tuple[int, ...] = (-1,)
    for offer in state.offers:
        key = offer.key
        owner = owners.get(offer.account)
        if (
            key <= before
            or offer.sell == offer.buy
            or offer.sell >= assets
            or offer.buy >= assets
            or not 1 <= offer.limit <= it.MOST_LIMIT
            or not 1 <= offer.seq <= it.MOST_SEQ
            or not 1 <= offer.amount <= it.MOST_AMOUNT
            or owner is None
            or not owner.has_used(offer.seq)
        ):
            return False
        totals[offer.sell] += offer.amount
        before = key
    return max(totals) <= it.MOST_AMOUNT


def _block_fits(block: it.Block) -> bool:
    assets = len(block.prices)
    if block.version not in (1, 2) or block.height > it.MOST_HEIGHT or not 1 <= assets <= it.MOST_ASSETS:
        return False
    if not 1 <= block.mu <= it.MOST_MU or not _within(block.prices, it.LEAST_PRICE, it.MOST_PRICE):
        return False
    if not _within(block.roundings, 0, it.MOST_AMOUNT) or (block.cut or 0) >= 1 << assets:
        return False
    pairs = [(trade.sell, trade.buy) for trade in block.trades]
    if not all(sell != buy and max(sell, buy) < assets for sell, buy in pairs):
        return False
    if not all(1 <= trade.value <= it.MOST_VALUE for trade in block.trades):
        return False
    keys = [(made.account, made.seq) for made in block.transactions]
    return all(map(lt, pairs, islice(pairs, 1, None))) and all(map(lt, keys, islice(keys, 1, None)))


def _outcomes_fit(outcomes: it.Outcomes) -> bool:
    if len(outcomes.outcomes) > it.MOST_TRANSACTIONS:
        return False
    for one in outcomes.outcomes:
        if isinstance(one, it.Static) and not 1 <= one.number <= 10:
            return False
        if isinstance(one, it.Overdraft) and not one.seen < one.need <= it.MOST_AMOUNT:
            return False
    return True


def _script_fits(script: it.Script) -> bool:
    if not 1 <= script.actors <= it.MOST_ACTORS or len(script.turns) > it.MOST_TURNS:
        return False
    return max(script.turns, default=0) < script.actors


def _proof_fits(proof: it.AccountProof) -> bool:
    assets = len(proof.account.balances)
    return (
        proof.version in (1, 2)
        and 1 <= assets <= it.MOST_ASSETS
        and proof.place < it.MOST_PLACES
        and _window_fits(proof.account, proof.version)
        and _within(proof.account.balances, 0, it.MOST_AMOUNT)
    )


_FINE: Dict[Type[it.Record], Callable[..., bool]] = {
    it.State: _state_fits,
    it.Candidates: lambda record: True,
    it.Block: _block_fits,
    it.Outcomes: _outcomes_fit,
    it.Script: _script_fits,
    it.AccountProof: _proof_fits,
}
