"""Records as plain text, both ways: what ``show`` prints, and what people write by hand.

The text has one entry a line. Words are parted by spaces, numbers are decimal, and ``#`` starts a comment.
A line ``state``, ``block``, ``candidates``, ``outcomes``, ``script`` or ``proof`` begins a record, and the lines after
it, up to the next such line, belong to it.

    state version V height H assets N                        a ledger at height H, with N assets
    asset A price P rounding R                               for each asset; a price of 1 is 16777216
    account ID last L balances B0 B1 ..                      all sequence numbers up to L are used, 0 if none is
    account ID last L used U balances B0 B1 ..               in version 2; bit i of U is for the number L + 1 + i
    offer SELL BUY limit M account ID seq S amount E         an offer that stands in the ledger

    block version V height H mu J assets N                   a block, where μ is 2 to the power -J
    asset A price P potential Q rounding R
    trade SELL BUY VALUE
    dropped none                                             or `dropped CUT`, 8 hexadecimal digits
    parent DIGEST                                            64 hexadecimal digits
    body DIGEST
    after DIGEST
    transactions COUNT
    tx ACCOUNT SEQ pay TO ASSET AMOUNT
    tx ACCOUNT SEQ create ID
    tx ACCOUNT SEQ offer SELL BUY limit M amount E
    tx ACCOUNT SEQ cancel SELL BUY limit M seq S

    candidates COUNT                                         transactions that a block may take
    tx ..                                                    as in a block

    script actors A turns T                                  who makes the next step
    turn K                                                   an actor, from 0; or several, as `turn 0 1 0 1`

    outcomes COUNT                                           what became of candidates
    I accepted                                               or `seq-taken`, `offer-taken`, `name-taken`
    I static NUMBER
    I overdraft seen S need D

    proof version V place P assets N                         what shows one account of a ledger
    root DIGEST
    account ID last L balances B0 B1 ..                      in version 2 with `used U`, as in a state
    sibling DIGEST                                           sixteen of these, the lowest level's first

Lines of one kind stand in the order in which they are to be written: accounts by id, offers and the transactions of a
block as ``docs/FORMATS.md`` says. Neither order nor ranges are tested, so wrong records can be made on purpose. Every
word is, though: a line with a word or a number too many, too few or at another place is a ``TextError``, which names
it.

In a line that begins a record each word after the first may be left out, with its number: a version is then 1, a count
is that of the lines, and a block has the next height and μ = 2^-10. In a block everything but the lines ``tx`` may be
left out, and so may the ends of a line ``asset``. The prices are then those of the ledger before the block, and
digests, roundings and potentials are right ones: each block is applied to the ledger before it. If that fails, as
with an overdraft, roundings, potentials and the digest ``after`` are 0. Of a proof a line ``account ID`` is enough: the
rest is what the ledger before it has. ``show`` writes every line.
"""

from __future__ import annotations

import re
from typing import Callable, Dict, Iterable, Iterator, List, Optional, Tuple, Type

from . import records as it
from .drafts import DRAFTS, OUTCOME_NAMES, WRONG, Draft
from .errors import TextError
from .writing import encode

_POINT = re.compile(r"[0-9][.,/][0-9]")


def show(*records: it.Record) -> str:
    """Records as text, every line of them."""
    return "".join(f"{line}\n" for record in records for line in lines_of(record))


def parse(text: str) -> List[it.Record]:
    """The records that a text says, with what it left out. A wrong line is a ``TextError`` with its number."""
    return [record for record, _ in _drafted(text.splitlines())]


def write(lines: Iterable[str]) -> bytes:
    """The bytes of the records that the lines of a text say."""
    parts = []
    for record, begin in _drafted(lines):
        try:
            parts.append(encode(record))
        except WRONG:
            raise _wrong_record(begin) from None
    return b"".join(parts)


def _wrong_record(begin: int) -> TextError:
    return TextError(begin, f"the record that begins in line {begin} is not understood")


def _drafted(lines: Iterable[str]) -> Iterator[Tuple[it.Record, int]]:
    """The records of a text one after the other, each with the line in which it begins."""
    draft: Optional[Draft] = None
    state: Optional[it.State] = None
    begin = 0
    for number, line in enumerate(lines, 1):
        words = line.split("#")[0].split()
        if not words:
            continue
        if words[0] in DRAFTS and draft is not None:
            record, state = _completed(draft, state, begin)
            yield record, begin
        try:
            if words[0] in DRAFTS:
                draft, begin = DRAFTS[words[0]](words), number
            elif draft is None:
                raise ValueError
            else:
                draft.add(words)
        except WRONG:
            why = "its numbers have to be whole: " if any(map(_POINT.search, words)) else ""
            raise TextError(number, f"line {number} is not understood: {why}{line.strip()}") from None
    if draft is not None:
        yield _completed(draft, state, begin)[0], begin


def _completed(draft: Draft, state: Optional[it.State], begin: int) -> Tuple[it.Record, Optional[it.State]]:
    try:
        return draft.completed(state)
    except WRONG:
        raise _wrong_record(begin) from None


def lines_of(record: it.Record) -> Iterator[str]:
    """The lines of a record, as ``show`` of the program prints them; those of a proof too."""
    return _LINES[type(record)](record)


def account_line(version: int, account: it.Account) -> str:
    window = f"last {account.last}" if version == 1 else f"last {account.last} used {account.used}"
    return f"account {account.id} {window} balances {' '.join(map(str, account.balances))}"


def transaction_line(made: it.Transaction) -> str:
    """The line of a transaction."""
    head = f"tx {made.account} {made.seq}"
    if isinstance(made, it.Payment):
        return f"{head} pay {made.payee} {made.asset} {made.amount}"
    if isinstance(made, it.Creation):
        return f"{head} create {made.id}"
    if isinstance(made, it.NewOffer):
        return f"{head} offer {made.sell} {made.buy} limit {made.limit} amount {made.amount}"
    return f"{head} cancel {made.sell} {made.buy} limit {made.limit} seq {made.offer_seq}"


def outcome_words(outcome: it.Outcome) -> str:
    """An outcome in words, as ``overdraft seen 0 need 100``."""
    name = OUTCOME_NAMES[type(outcome)]
    if isinstance(outcome, it.Static):
        return f"{name} {outcome.number}"
    if isinstance(outcome, it.Overdraft):
        return f"{name} seen {outcome.seen} need {outcome.need}"
    return name


def _state(state: it.State) -> Iterator[str]:
    yield f"state version {state.version} height {state.height} assets {len(state.prices)}"
    for asset, (price, rounding) in enumerate(zip(state.prices, state.roundings)):
        yield f"asset {asset} price {price} rounding {rounding}"
    for account in state.accounts:
        yield account_line(state.version, account)
    for at in state.offers:
        yield f"offer {at.sell} {at.buy} limit {at.limit} account {at.account} seq {at.seq} amount {at.amount}"


def _block(block: it.Block) -> Iterator[str]:
    yield f"block version {block.version} height {block.height} mu {block.mu} assets {len(block.prices)}"
    yield f"parent {block.parent.hex()}"
    yield f"body {block.body.hex()}"
    for asset, row in enumerate(zip(block.prices, block.potentials, block.roundings)):
        yield "asset {} price {} potential {} rounding {}".format(asset, *row)
    for trade in block.trades:
        yield f"trade {trade.sell} {trade.buy} {trade.value}"
    yield "dropped none" if block.cut is None else f"dropped {block.cut:08x}"
    yield f"after {block.after.hex()}"
    yield f"transactions {len(block.transactions)}"
    yield from map(transaction_line, block.transactions)


def _candidates(candidates: it.Candidates) -> Iterator[str]:
    yield f"candidates {len(candidates.transactions)}"
    yield from map(transaction_line, candidates.transactions)


def _outcomes(outcomes: it.Outcomes) -> Iterator[str]:
    yield f"outcomes {len(outcomes.outcomes)}"
    for place, outcome in enumerate(outcomes.outcomes):
        yield f"{place} {outcome_words(outcome)}"


def _script(script: it.Script) -> Iterator[str]:
    yield f"script actors {script.actors} turns {len(script.turns)}"
    yield from (f"turn {actor}" for actor in script.turns)


def _proof(proof: it.AccountProof) -> Iterator[str]:
    yield f"proof version {proof.version} place {proof.place} assets {len(proof.account.balances)}"
    yield f"root {proof.root.hex()}"
    yield account_line(proof.version, proof.account)
    yield from (f"sibling {sibling.hex()}" for sibling in proof.siblings)


_LINES: Dict[Type[it.Record], Callable[..., Iterator[str]]] = {
    it.State: _state,
    it.Candidates: _candidates,
    it.Block: _block,
    it.Outcomes: _outcomes,
    it.Script: _script,
    it.AccountProof: _proof,
}
