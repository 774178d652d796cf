"""Records to bytes, and the digests over them, as ``docs/FORMATS.md`` says.

Nothing is tested but that each number fits its width, so wrong records can be written on purpose; ``validate`` tests a
record as ``decode`` would.
"""

from __future__ import annotations

import hashlib
import struct
from typing import Callable, Dict, Iterable, Sequence, Type

from . import records as it
from .scanning import fault_of


def framed(tag: int, payload: bytes) -> bytes:
    """The record of a payload."""
    return struct.pack(">BI", tag, len(payload)) + payload


def encode(record: it.Record) -> bytes:
    """The bytes of a record, with its tag and its length. A number that does not fit its width is a ValueError."""
    try:
        return framed(it.TAG_OF[type(record)], _PAYLOADS[type(record)](record))
    except (struct.error, OverflowError) as error:
        raise ValueError(f"a number of the record does not fit its field: {error}") from None


def encode_all(records: Iterable[it.Record]) -> bytes:
    """The bytes of records, one after the other."""
    return b"".join(map(encode, records))


def validate(record: it.Record) -> None:
    """Raises the first fault of a record, with its offset in the record's bytes, as if they were decoded."""
    data = encode(record)
    fault = fault_of(data[0], data, 5, len(data))
    if fault is not None:
        raise fault


def digest(data: bytes) -> bytes:
    """SHA-256."""
    return hashlib.sha256(data).digest()


def state_digest(state: it.State) -> bytes:
    """The digest of a ledger: SHA-256 of its whole record."""
    return digest(encode(state))


def body_digest(transactions: Sequence[it.Transaction]) -> bytes:
    """The digest of the body of a block: SHA-256 of the list's bytes, which begin with their number."""
    return digest(transactions_bytes(transactions))


def numbers(form: str, items: Sequence[int]) -> bytes:
    return struct.pack(f">{len(items)}{form}", *items)


def account_bytes(version: int, account: it.Account) -> bytes:
    """An account as the state of a version has it."""
    used = () if version == 1 else (account.used,)
    return numbers("Q", (account.id, account.last, *used, *account.balances))


def transactions_bytes(transactions: Sequence[it.Transaction]) -> bytes:
    """A list of transactions, with their number before it."""
    return struct.pack(">I", len(transactions)) + b"".join(map(_transaction, transactions))


_payment = struct.Struct(">QQBQBQ").pack
_creation = struct.Struct(">QQBQ").pack
_offer = struct.Struct(">QQBBBQQ").pack
_standing = struct.Struct(">BBQQQQ").pack


def _transaction(made: it.Transaction) -> bytes:
    if isinstance(made, it.Payment):
        return _payment(made.account, made.seq, 1, made.payee, made.asset, made.amount)
    if isinstance(made, it.Creation):
        return _creation(made.account, made.seq, 2, made.id)
    if isinstance(made, it.NewOffer):
        return _offer(made.account, made.seq, 3, made.sell, made.buy, made.limit, made.amount)
    return _offer(made.account, made.seq, 4, made.sell, made.buy, made.limit, made.offer_seq)


def _state(state: it.State) -> bytes:
    parts = [
        struct.pack(">BQB", state.version, state.height, len(state.prices)),
        numbers("Q", state.prices),
        numbers("Q", state.roundings),
        struct.pack(">I", len(state.accounts)),
    ]
    parts += [account_bytes(state.version, account) for account in state.accounts]
    parts.append(struct.pack(">I", len(state.offers)))
    parts += [_standing(*offer.key, offer.amount) for offer in state.offers]
    return b"".join(parts)


def _block(block: it.Block) -> bytes:
    parts = [
        struct.pack(">BQ32s32s", block.version, block.height, block.parent, block.body),
        struct.pack(">BB", block.mu, len(block.prices)),
        numbers("Q", block.prices),
        struct.pack(">H", len(block.trades)),
    ]
    parts += [bytes((trade.sell, trade.buy)) + trade.value.to_bytes(16, "big") for trade in block.trades]
    parts.append(b"\0" if block.cut is None else struct.pack(">BI", 1, block.cut))
    parts += [numbers("I", block.potentials), numbers("Q", block.roundings), struct.pack(">32s", block.after)]
    return b"".join(parts) + transactions_bytes(block.transactions)


def _outcomes(outcomes: it.Outcomes) -> bytes:
    return struct.pack(">I", len(outcomes.outcomes)) + b"".join(map(_outcome, outcomes.outcomes))


_RESULT_OF = {kind: bytes((number,)) for number, kind in it.RESULTS.items()}


def _outcome(one: it.Outcome) -> bytes:
    head = _RESULT_OF[type(one)]
    if isinstance(one, it.Static):
        return head + struct.pack(">B", one.number)
    if isinstance(one, it.Overdraft):
        return head + struct.pack(">QQ", one.seen, one.need)
    return head


def _script(script: it.Script) -> bytes:
    return struct.pack(">BI", script.actors, len(script.turns)) + script.turns


def _proof(proof: it.AccountProof) -> bytes:
    head = struct.pack(">32sBBI", proof.root, proof.version, len(proof.account.balances), proof.place)
    return head + account_bytes(proof.version, proof.account) + b"".join(proof.siblings)


_PAYLOADS: Dict[Type[it.Record], Callable[..., bytes]] = {
    it.State: _state,
    it.Candidates: lambda record: transactions_bytes(record.transactions),
    it.Block: _block,
    it.Outcomes: _outcomes,
    it.Script: _script,
    it.AccountProof: _proof,
}
