"""What a block does to a ledger, in whole numbers alone: effects, bounds, fills and the ledger after it.

It is written from ``docs/RULES.md`` and shares nothing with the program. Nothing here refuses a block: ``rules`` does.
A block that is not valid gets figures too, as far as there are any.
"""

from __future__ import annotations

from collections import defaultdict
from dataclasses import dataclass
from typing import Dict, Iterable, List, Mapping, NamedTuple, Sequence, Set, Tuple

from . import records as it

Pair = Tuple[int, int]
Key = Tuple[int, int, int, int, int]


def may_trade(sell_price: int, buy_price: int, limit: int) -> bool:
    """Whether the batch rate reaches the limit price."""
    return sell_price << 24 >= limit * buy_price


def must_trade(sell_price: int, buy_price: int, limit: int, mu: int) -> bool:
    """Whether the batch rate less its part ``2^-mu`` reaches the limit price."""
    return (sell_price << 24) * ((1 << mu) - 1) >= limit * buy_price << mu


def is_dust(limit: int, amount: int) -> bool:
    """Whether an offer would buy less than one unit."""
    return amount * limit < it.ONE


class Settled(NamedTuple):
    """What the transactions of a block leave before anything trades: balances by account, amounts of offers by their
    key, and the sequence numbers that each account used in the block."""

    balances: Dict[int, List[int]]
    offers: Dict[Key, int]
    numbers: Dict[int, Set[int]]


def settled(state: it.State, transactions: Iterable[it.Transaction]) -> Settled:
    """The effects of transactions on a ledger."""
    assets = len(state.prices)
    balances = {account.id: list(account.balances) for account in state.accounts}
    offers: Dict[Key, int] = {offer.key: offer.amount for offer in state.offers}
    numbers: Dict[int, Set[int]] = {}
    for made in transactions:
        mine = balances.setdefault(made.account, [0] * assets)
        numbers.setdefault(made.account, set()).add(made.seq)
        if isinstance(made, it.Payment):
            mine[made.asset] -= made.amount
            balances.setdefault(made.payee, [0] * assets)[made.asset] += made.amount
        elif isinstance(made, it.Creation):
            balances.setdefault(made.id, [0] * assets)
        elif isinstance(made, it.NewOffer):
            mine[made.sell] -= made.amount
            offers[made.sell, made.buy, made.limit, made.account, made.seq] = made.amount
        else:
            mine[made.sell] += offers.pop((made.sell, made.buy, made.limit, made.account, made.offer_seq), 0)
    return Settled(balances, offers, numbers)


class Posting(NamedTuple):
    """The sums of what a body takes from accounts and gives to them, by account and asset, in units."""

    debits: Dict[Pair, int]
    credits: Dict[Pair, int]


def postings(state: it.State, transactions: Iterable[it.Transaction]) -> Posting:
    """Debits and credits of a body. A cancellation gives back what its offer had in the ledger before the block."""
    there = {offer.key: offer.amount for offer in state.offers}
    debits: Dict[Pair, int] = defaultdict(int)
    credits: Dict[Pair, int] = defaultdict(int)
    for made in transactions:
        if isinstance(made, it.Payment):
            debits[made.account, made.asset] += made.amount
            credits[made.payee, made.asset] += made.amount
        elif isinstance(made, it.NewOffer):
            debits[made.account, made.sell] += made.amount
        elif isinstance(made, it.Cancellation):
            key = (made.sell, made.buy, made.limit, made.account, made.offer_seq)
            credits[made.account, made.sell] += there.get(key, 0)
    return Posting(debits, credits)


class Bounds(NamedTuple):
    """The least and the greatest value that a pair may trade, in units of ``2^-24``, with lower bounds in place."""

    low: int
    high: int


NO_BOUNDS = Bounds(0, 0)


def bounds_of(offers: Mapping[Key, int], prices: Sequence[int], mu: int) -> Dict[Pair, Bounds]:
    """The bounds of each pair that has offers, over the offers after the body."""
    low: Dict[Pair, int] = defaultdict(int)
    high: Dict[Pair, int] = {}
    for (sell, buy, limit, _, _), amount in offers.items():
        pair = (sell, buy)
        high.setdefault(pair, 0)
        if may_trade(prices[sell], prices[buy], limit):
            high[pair] += amount
            if must_trade(prices[sell], prices[buy], limit, mu):
                low[pair] += amount
    return {pair: Bounds(low[pair] * prices[pair[0]], units * prices[pair[0]]) for pair, units in high.items()}


@dataclass(frozen=True)
class Fill:
    """What an offer trades: ``value`` in units of ``2^-24``, of which it ``gives`` so many units of the sold asset and
    ``gets`` so many of the bought one. ``amount`` is what it offered before; ``is_new`` if the block made it."""

    __slots__ = ("account", "seq", "sell", "buy", "limit", "amount", "value", "gives", "gets", "is_new")
    account: int
    seq: int
    sell: int
    buy: int
    limit: int
    amount: int
    value: int
    gives: int
    gets: int
    is_new: bool

    @property
    def stays(self) -> int:
        """How many units stay on offer."""
        return self.amount - self.gives


def fills_of(state: it.State, block: it.Block, offers: Mapping[Key, int]) -> List[Fill]:
    """The fills of a block, over the offers after its body: by pair, and there from the lowest limit price up."""
    there = {offer.key for offer in state.offers}
    by_pair: Dict[Pair, List[Key]] = defaultdict(list)
    for key in offers:
        by_pair[key[:2]].append(key)
    found = []
    for trade in block.trades:
        left = trade.value
        for key in sorted(by_pair.get((trade.sell, trade.buy), ())):
            if left <= 0:
                break
            sell_price, buy_price = block.prices[trade.sell], block.prices[trade.buy]
            value = min(left, sell_price * offers[key])
            left -= value
            gives, gets = -(-value // sell_price), value // buy_price
            sell, buy, limit, account, seq = key
            amount = offers[key]
            found.append(Fill(account, seq, sell, buy, limit, amount, value, gives, gets, key not in there))
    return found


def roundings_of(fills: Iterable[Fill], assets: int) -> List[int]:
    """What is kept of each asset: what its offers give of it, less what offers get of it, in units."""
    kept = [0] * assets
    for fill in fills:
        kept[fill.sell] += fill.gives
        kept[fill.buy] -= fill.gets
    return kept


def window_after(version: int, last: int, used: int, numbers: Set[int]) -> Tuple[int, int]:
    """The last sequence number and the map of an account that also used these numbers."""
    if version == 1:
        return max({last, *numbers}), 0
    marked = {last + 1 + bit for bit in range(it.WINDOW) if used >> bit & 1} | numbers
    end = last
    while end + 1 in marked:
        end += 1
    return end, sum(1 << (number - end - 1) for number in marked if number > end)


def ledger_after(state: it.State, block: it.Block, effects: Settled, fills: Iterable[Fill]) -> it.State:
    """The ledger after a block, whose transactions have these effects and whose offers these fills."""
    balances = {id: list(units) for id, units in effects.balances.items()}
    offers = dict(effects.offers)
    kept = [0] * len(block.prices)
    for fill in fills:
        key = (fill.sell, fill.buy, fill.limit, fill.account, fill.seq)
        if fill.stays:
            offers[key] = fill.stays
        else:
            del offers[key]
        balances[fill.account][fill.buy] += fill.gets
        kept[fill.sell] += fill.gives
        kept[fill.buy] -= fill.gets
    windows = {account.id: (account.last, account.used) for account in state.accounts}
    accounts = []
    for id in sorted(balances):
        last, used = windows.get(id, (0, 0))
        if used or id in effects.numbers:
            last, used = window_after(state.version, last, used, effects.numbers.get(id, set()))
        accounts.append(it.Account(id, last, used, tuple(balances[id])))
    return it.State(
        version=state.version,
        height=state.height + 1,
        prices=block.prices,
        roundings=tuple(there + more for there, more in zip(state.roundings, kept)),
        accounts=tuple(accounts),
        offers=tuple(it.Offer(*key, offers[key]) for key in sorted(offers)),
    )


def potentials_of(block: it.Block, bounds: Mapping[Pair, Bounds]) -> List[int]:
    """Potentials that fit the trades of a block, if there are any: the least, by rounds over all pairs."""
    values = block.values
    potentials = [0 for _ in block.prices]
    for _ in block.prices:
        for (sell, buy), (low, high) in bounds.items():
            value = values.get((sell, buy), 0)
            if value < high:
                potentials[buy] = max(potentials[buy], potentials[sell] + 1)
            if value > (low if block.cut is None else 0):
                potentials[sell] = max(potentials[sell], potentials[buy] - 1)
    return potentials


def totals_of(state: it.State) -> List[int]:
    """Of each asset all balances, all offers that sell it and its rounding, in units."""
    totals = list(state.roundings)
    for account in state.accounts:
        totals = [total + units for total, units in zip(totals, account.balances)]
    for offer in state.offers:
        totals[offer.sell] += offer.amount
    return totals
