"""Whether a block is valid, rule by rule, by whole numbers alone and apart from the program.

``check`` answers as ``speedex check`` does, written from ``docs/RULES.md``: so it can answer for what the program
says. The rules stand in their order, and the first that is broken is the refusal.
"""

from __future__ import annotations

from functools import cached_property
from typing import Callable, Dict, Iterator, List, NamedTuple, Optional, Sequence, Set, Tuple

from . import ledger
from . import records as it
from .errors import RefusedError
from .writing import body_digest, state_digest

Refusal = Optional[RefusedError]


class Verdict(NamedTuple):
    """What ``check`` says of a valid block. ``value`` is what all pairs trade, in units of ``2^-24``."""

    height: int
    value: int
    bounds_dropped: bool

    def __str__(self) -> str:
        return f"valid height {self.height} value {self.value} bounds {'dropped' if self.bounds_dropped else 'kept'}"


class Index:
    """A ledger with its accounts by number and the keys of its offers, for the tests of single transactions."""

    def __init__(self, state: it.State) -> None:
        self.assets = len(state.prices)
        self.accounts = {account.id: account for account in state.accounts}
        self.offers = {offer.key: offer.amount for offer in state.offers}

    def static_of(self, made: it.Transaction) -> int:
        """Why the ledger refuses a transaction by itself, as in ``errors.STATIC_REASONS``; 0 if it passes."""
        account = self.accounts.get(made.account)
        if account is None:
            return 1
        if made.seq <= account.last:
            return 2
        if made.seq > account.last + it.WINDOW:
            return 3
        if account.has_used(made.seq):
            return 10
        if isinstance(made, it.Creation):
            return 7 if made.id in self.accounts else 0
        if isinstance(made, it.Payment):
            if made.asset >= self.assets:
                return 4
            return 0 if made.payee in self.accounts else 6
        if max(made.sell, made.buy) >= self.assets:
            return 4
        if made.sell == made.buy:
            return 5
        if isinstance(made, it.Cancellation):
            return 0 if _named(made) in self.offers else 8
        return 9 if ledger.is_dust(made.limit, made.amount) else 0


def _named(made: it.Cancellation) -> ledger.Key:
    return made.sell, made.buy, made.limit, made.account, made.offer_seq


def room_for(state: it.State, transactions: Sequence[it.Transaction]) -> Refusal:
    """Why a ledger has no room for what transactions create and offer; None if there is."""
    for have, kind, limit in (
        (len(state.accounts), it.Creation, it.MOST_ACCOUNTS),
        (len(state.offers), it.NewOffer, it.MOST_OFFERS),
    ):
        more = sum(isinstance(made, kind) for made in transactions)
        if have + more > limit:
            return RefusedError(0, 9, {"have": have, "more": more, "limit": limit})
    return None


class Survey:
    """A ledger and a block, with all sums that the rules look at. Each is made when it is first asked for."""

    def __init__(self, state: it.State, block: it.Block, number: int = 0) -> None:
        self.state, self.block, self.number = state, block, number

    @cached_property
    def index(self) -> Index:
        return Index(self.state)

    @cached_property
    def parent(self) -> bytes:
        return state_digest(self.state)

    @cached_property
    def body(self) -> bytes:
        return body_digest(self.block.transactions)

    @cached_property
    def postings(self) -> ledger.Posting:
        return ledger.postings(self.state, self.block.transactions)

    @cached_property
    def settled(self) -> ledger.Settled:
        return ledger.settled(self.state, self.block.transactions)

    @cached_property
    def bounds(self) -> Dict[ledger.Pair, ledger.Bounds]:
        return ledger.bounds_of(self.settled.offers, self.block.prices, self.block.mu)

    @cached_property
    def fills(self) -> List[ledger.Fill]:
        return ledger.fills_of(self.state, self.block, self.settled.offers)

    @cached_property
    def roundings(self) -> List[int]:
        return ledger.roundings_of(self.fills, len(self.block.prices))

    @cached_property
    def after(self) -> it.State:
        return ledger.ledger_after(self.state, self.block, self.settled, self.fills)

    @cached_property
    def after_digest(self) -> bytes:
        return state_digest(self.after)

    def pairs(self) -> Iterator[Tuple[ledger.Pair, int, int, int]]:
        """Each pair with its bounds as the block has them and with what it trades."""
        values, assets = self.block.values, range(len(self.block.prices))
        for sell in assets:
            for buy in assets:
                if sell != buy:
                    low, high = self.bounds.get((sell, buy), ledger.NO_BOUNDS)
                    yield (sell, buy), low if self.block.cut is None else 0, high, values.get((sell, buy), 0)

    def sold_and_bought(self, asset: int) -> Tuple[int, int]:
        """The value that all pairs sell of an asset, and the value that they buy of it."""
        sold = sum(trade.value for trade in self.block.trades if trade.sell == asset)
        return sold, sum(trade.value for trade in self.block.trades if trade.buy == asset)

    def gain(self, sell: int, buy: int) -> int:
        return 1 + self.block.potentials[sell] - self.block.potentials[buy]

    def through_cut(self) -> Tuple[int, int]:
        """What must go into the block's cut, and what may go out of it, in units of ``2^-24``."""
        must = may = 0
        for (sell, buy), (low, high) in self.bounds.items():
            sells, buys = (self.block.cut or 0) >> sell & 1, (self.block.cut or 0) >> buy & 1
            must += low if buys and not sells else 0
            may += high if sells and not buys else 0
        return must, may

    def refusal(self, reason: int, **figures: int) -> RefusedError:
        return RefusedError(self.number, reason, figures)

    def digests(self, reason: int, said: bytes, real: bytes) -> Refusal:
        if said == real:
            return None
        return RefusedError(self.number, reason, {"said": said.hex(), "real": real.hex()})


def _below_last(on: Survey) -> Refusal:
    return None if on.state.height < it.MOST_HEIGHT else on.refusal(1)


def _next_height(on: Survey) -> Refusal:
    have, said = on.state.height, on.block.height
    return None if said == have + 1 else on.refusal(2, have=have, said=said)


def _parent(on: Survey) -> Refusal:
    return on.digests(3, on.block.parent, on.parent)


def _body(on: Survey) -> Refusal:
    return on.digests(4, on.block.body, on.body)


def _assets(on: Survey) -> Refusal:
    have, said = len(on.state.prices), len(on.block.prices)
    return None if have == said else on.refusal(5, have=have, said=said)


def _passes(on: Survey) -> Refusal:
    for index, made in enumerate(on.block.transactions):
        static = on.index.static_of(made)
        if static:
            return on.refusal(6, index=index, static=static)
    return None


def _cancels_once(on: Survey) -> Refusal:
    seen: Set[ledger.Key] = set()
    for index, made in enumerate(on.block.transactions):
        if isinstance(made, it.Cancellation):
            if _named(made) in seen:
                return on.refusal(7, index=index)
            seen.add(_named(made))
    return None


def _creates_once(on: Survey) -> Refusal:
    seen: Set[int] = set()
    for index, made in enumerate(on.block.transactions):
        if isinstance(made, it.Creation):
            if made.id in seen:
                return on.refusal(8, index=index)
            seen.add(made.id)
    return None


def _room(on: Survey) -> Refusal:
    refusal = room_for(on.state, on.block.transactions)
    return refusal and RefusedError(on.number, refusal.number, refusal.figures)


def _covered(on: Survey) -> Refusal:
    debits, credits = on.postings
    for (account, asset), taken in sorted(debits.items()):
        opening, given = on.index.accounts[account].balances[asset], credits.get((account, asset), 0)
        if on.block.version == 1 and taken > opening:
            return on.refusal(10, account=account, asset=asset, opening=opening, debits=taken)
        if on.block.version != 1 and taken > opening + given:
            return on.refusal(17, account=account, asset=asset, opening=opening, credits=given, debits=taken)
    return None


def _within(on: Survey) -> Refusal:
    for (sell, buy), low, high, value in on.pairs():
        if not low <= value <= high:
            return on.refusal(11, sell=sell, buy=buy, low=low, high=high, y=value)
    return None


def _balanced(on: Survey) -> Refusal:
    for asset in range(len(on.block.prices)):
        sold, bought = on.sold_and_bought(asset)
        if sold != bought:
            return on.refusal(12, asset=asset, out=sold, into=bought)
    return None


def _tight(on: Survey) -> Refusal:
    for (sell, buy), low, high, value in on.pairs():
        gain = on.gain(sell, buy)
        if (gain > 0 and value < high) or (gain < 0 and value > low):
            return on.refusal(13, sell=sell, buy=buy, gain=gain, y=value)
    return None


def _cut(on: Survey) -> Refusal:
    if on.block.cut is None:
        return None
    must, may = on.through_cut()
    return None if must > may else on.refusal(14, cut=on.block.cut)


def _rounded(on: Survey) -> Refusal:
    for asset, (said, real) in enumerate(zip(on.block.roundings, on.roundings)):
        if said != real:
            return on.refusal(15, asset=asset, said=said, real=real)
    return None


def _after(on: Survey) -> Refusal:
    return on.digests(16, on.block.after, on.after_digest)


#: The rules of validity in the order in which a checker looks for the first that is broken.
RULES: Tuple[Tuple[str, Callable[[Survey], Refusal]], ...] = (
    ("BelowLast", _below_last),
    ("NextHeight", _next_height),
    ("Parent", _parent),
    ("Body", _body),
    ("Assets", _assets),
    ("Passes", _passes),
    ("CancelsOnce", _cancels_once),
    ("CreatesOnce", _creates_once),
    ("Room", _room),
    ("Covered", _covered),
    ("Within", _within),
    ("Balanced", _balanced),
    ("Tight", _tight),
    ("Cut", _cut),
    ("Rounded", _rounded),
    ("After", _after),
)


def verdict_of(block: it.Block) -> Verdict:
    """What ``check`` says of this block if it is valid."""
    return Verdict(block.height, block.value, block.cut is not None)


def refusal_of(survey: Survey) -> Refusal:
    """The first rule that a block breaks; None if it is valid."""
    return next((refusal for _, rule in RULES for refusal in (rule(survey),) if refusal is not None), None)


def check(state: it.State, block: it.Block) -> Verdict:
    """What there is to say of a block that is valid for a state; a ``RefusedError`` if it is not."""
    refusal = refusal_of(Survey(state, block))
    if refusal is not None:
        raise refusal
    return verdict_of(block)


def replay(state: it.State, blocks: Sequence[it.Block]) -> it.State:
    """The ledger after blocks, each of which has to be valid for what those before it leave."""
    for number, block in enumerate(blocks):
        survey = Survey(state, block, number)
        refusal = refusal_of(survey)
        if refusal is not None:
            raise refusal
        state = survey.after
    return state


def follow(state: it.State, blocks: Sequence[it.Block]) -> it.State:
    """The ledger after the chain that blocks make, whatever their order; blocks that are not valid are passed over."""
    by_height: Dict[int, List[it.Block]] = {}
    for block in blocks:
        by_height.setdefault(block.height, []).append(block)
    while True:
        surveys = (Survey(state, block) for block in by_height.get(state.height + 1, ()))
        survey = next((each for each in surveys if refusal_of(each) is None), None)
        if survey is None:
            return state
        state = survey.after
