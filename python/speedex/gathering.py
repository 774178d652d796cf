"""What becomes of candidates: kept ones, and a script of steps, as ``docs/RULES.md`` says; and account proofs.

Apart from the program, as ``rules``.
"""

from __future__ import annotations

from collections import Counter, defaultdict
from dataclasses import dataclass
from itertools import zip_longest
from typing import Dict, Iterator, List, Optional, Sequence, Set, Tuple

from . import records as it
from .errors import RefusedError
from .ledger import Pair
from .rules import Index, room_for
from .writing import account_bytes, digest


def refuse_crowd(state: it.State, transactions: Sequence[it.Transaction]) -> None:
    """Raises the refusal if a ledger has no room for candidates."""
    if state.height >= it.MOST_HEIGHT:
        raise RefusedError(0, 1)
    refusal = room_for(state, transactions)
    if refusal is not None:
        raise refusal


def _debit(made: it.Transaction) -> Tuple[int, int]:
    """The asset and the units that a transaction takes from its account."""
    if isinstance(made, it.Payment):
        return made.asset, made.amount
    if isinstance(made, it.NewOffer):
        return made.sell, made.amount
    return 0, 0


def _claim(made: it.Transaction) -> Optional[Tuple[int, ...]]:
    """The offer or the id that no other transaction may name too."""
    if isinstance(made, it.Creation):
        return (made.id,)
    if isinstance(made, it.Cancellation):
        return made.sell, made.buy, made.limit, made.account, made.offer_seq
    return None


def kept(state: it.State, candidates: it.Candidates) -> it.Candidates:
    """The candidates that may all stand in one block, by account and sequence number: of candidates that exclude each
    other none is kept."""
    refuse_crowd(state, candidates.transactions)
    index = Index(state)
    passing = [made for made in candidates.transactions if index.static_of(made) == 0]
    numbers = Counter((made.account, made.seq) for made in passing)
    claims = Counter(map(_claim, passing))
    debits: Dict[Pair, int] = defaultdict(int)
    for made in passing:
        asset, units = _debit(made)
        debits[made.account, asset] += units
    short = {
        account
        for (account, asset), units in debits.items()
        if units > index.accounts[account].balances[asset]
    }
    chosen = [
        made
        for made in passing
        if numbers[made.account, made.seq] == 1
        and made.account not in short
        and (_claim(made) is None or claims[_claim(made)] == 1)
    ]
    return it.Candidates(tuple(sorted(chosen, key=lambda made: (made.account, made.seq))))


@dataclass
class _Actor:
    """Who gathers a part of the candidates: its place, where its part ends, and what it did for the one it is at."""

    at: int
    end: int
    step: int = 0
    seen: int = 0


class _Run:
    """Actors that gather candidates step by step."""

    def __init__(self, state: it.State, candidates: Sequence[it.Transaction], actors: int) -> None:
        self.candidates = candidates
        index = Index(state)
        self.outcomes: List[Optional[it.Outcome]] = [None] * len(candidates)
        for place, made in enumerate(candidates):
            static = index.static_of(made)
            self.outcomes[place] = it.Static(static) if static else None
        self.purses = {account.id: list(account.balances) for account in state.accounts}
        self.numbers: Set[Pair] = set()
        self.claims: Set[Tuple[int, ...]] = set()
        count = max(1, min(actors, len(candidates)))
        ends = [len(candidates) * actor // count for actor in range(count + 1)]
        self.actors = [_Actor(begin, end) for begin, end in zip(ends, ends[1:])]

    def turn(self, number: int) -> bool:
        """One step of an actor; False if there is none, or it has nothing left to do."""
        if number >= len(self.actors):
            return False
        actor = self.actors[number]
        while actor.at < actor.end and self.outcomes[actor.at] is not None:
            actor.at, actor.step = actor.at + 1, 0
        if actor.at >= actor.end:
            return False
        self.outcomes[actor.at] = self.step(actor, self.candidates[actor.at])
        return True

    def step(self, actor: _Actor, made: it.Transaction) -> Optional[it.Outcome]:
        """What a step decides of a candidate; None while it is open."""
        actor.step += 1
        if actor.step == 1:
            key = (made.account, made.seq)
            if key in self.numbers:
                return it.SeqTaken()
            self.numbers.add(key)
            return None
        claim = _claim(made)
        if claim is not None:
            if claim in self.claims:
                return it.NameTaken() if isinstance(made, it.Creation) else it.OfferTaken()
            self.claims.add(claim)
            return it.Accepted()
        asset, need = _debit(made)
        purse = self.purses[made.account]
        if actor.step > 2 and purse[asset] == actor.seen:
            purse[asset] -= need
            return it.Accepted()
        actor.seen = purse[asset]
        return it.Overdraft(actor.seen, need) if actor.seen < need else None

    def finish(self) -> it.Outcomes:
        for number in range(len(self.actors)):
            while self.turn(number):
                pass
        return it.Outcomes(tuple(outcome for outcome in self.outcomes if outcome is not None))


def interleave(state: it.State, candidates: it.Candidates, script: it.Script) -> it.Outcomes:
    """What becomes of candidates if a script says who makes the next step."""
    refuse_crowd(state, candidates.transactions)
    run = _Run(state, candidates.transactions, script.actors)
    for actor in script.turns:
        run.turn(actor)
    return run.finish()


def migrate(state: it.State) -> it.State:
    """The same ledger in version 2."""
    return it.State(2, state.height, state.prices, state.roundings, state.accounts, state.offers)


NO_ACCOUNT = digest(b"\2")


def leaf(version: int, account: it.Account) -> bytes:
    """The digest of an account."""
    return digest(bytes((0, version)) + account_bytes(version, account))


def _node(left: bytes, right: bytes) -> bytes:
    return digest(b"\1" + left + right)


def _levels(state: it.State) -> Iterator[Tuple[List[bytes], bytes]]:
    """From the accounts up, the digests of each level that stand over an account, and the one that stands over none."""
    row, none = [leaf(state.version, account) for account in state.accounts], NO_ACCOUNT
    for _ in range(it.LEVELS):
        yield row, none
        row = [_node(left, right) for left, right in zip_longest(row[::2], row[1::2], fillvalue=none)]
        none = _node(none, none)
    yield row or [none], none


def root_of(state: it.State) -> bytes:
    """The digest over all accounts of a ledger."""
    return [row for row, _ in _levels(state)][-1][0]


def siblings_of(state: it.State, place: int) -> Tuple[bytes, ...]:
    """The digests beside the way from a place to the root, the lowest level's first."""
    beside = [(row, (place >> level) ^ 1, none) for level, (row, none) in enumerate(_levels(state))][: it.LEVELS]
    return tuple(row[at] if at < len(row) else none for row, at, none in beside)


def prove(state: it.State, id: int) -> Optional[it.AccountProof]:
    """The proof of the account with this number; None if there is none."""
    for place, account in enumerate(state.accounts):
        if account.id == id:
            return it.AccountProof(root_of(state), state.version, place, account, siblings_of(state, place))
    return None


def is_good(proof: it.AccountProof) -> bool:
    """Whether a proof leads from its account to its root."""
    folded = leaf(proof.version, proof.account)
    for level, sibling in enumerate(proof.siblings):
        folded = _node(sibling, folded) if proof.place >> level & 1 else _node(folded, sibling)
    return folded == proof.root
