"""Why a block is valid or refused: the rules one by one, each with its sums, by the arithmetic of this package.

The figures are the ones in the program's line, so the two can be compared. Values are in units of ``2^-24``, with
the decimal in brackets.
"""

from __future__ import annotations

from collections import Counter
from dataclasses import dataclass
from typing import Callable, Dict, Iterator, List, Optional, Tuple

from . import ledger
from . import records as it
from .decimals import from_fixed
from .errors import STATIC_REASONS, RefusedError
from .rules import RULES, Survey, Verdict, verdict_of
from .text import transaction_line

#: How many lines of sums a rule has at most, unless more are asked for.
MOST_LINES = 12


@dataclass(frozen=True)
class Step:
    """A rule, whether the block keeps it, what the rule says of this block, and the sums behind that."""

    number: int
    rule: str
    holds: bool
    says: str
    sums: Tuple[str, ...]


@dataclass(frozen=True)
class Explanation:
    """The rules up to the first that is broken, and the refusal; or all of them and the verdict."""

    steps: Tuple[Step, ...]
    verdict: Optional[Verdict]
    refusal: Optional[RefusedError]

    @property
    def line(self) -> str:
        """The line of ``check``."""
        return str(self.verdict if self.refusal is None else self.refusal)

    def __str__(self) -> str:
        lines = []
        for step in self.steps:
            lines.append(f"{step.number:2} {step.rule:<12}{'holds ' if step.holds else 'BROKEN'}  {step.says}")
            lines += [f"{'':23}{line}" for line in step.sums]
        return "".join(f"{line}\n" for line in [*lines, self.line])


def explain(state: it.State, block: it.Block, most_lines: Optional[int] = MOST_LINES) -> Explanation:
    """Goes through the rules of validity. Each has so many lines of sums at most, or all of them with None."""
    survey = Survey(state, block)
    steps: List[Step] = []
    for number, (rule, test) in enumerate(RULES, 1):
        refusal = test(survey)
        says, sums = _SAYS[rule](survey, refusal)
        steps.append(Step(number, rule, refusal is None, says, tuple(_shortened(sums, most_lines))))
        if refusal is not None:
            return Explanation(tuple(steps), None, refusal)
    return Explanation(tuple(steps), verdict_of(block), None)


def _shortened(lines: List[str], most: Optional[int]) -> Iterator[str]:
    if most is None or len(lines) <= most:
        yield from lines
        return
    yield from lines[:most]
    yield f"and {len(lines) - most} more like these"


def value(number: int) -> str:
    """A value with its decimal."""
    return f"{number} ({from_fixed(number)})"


Said = Tuple[str, List[str]]
Refusal = Optional[RefusedError]


def _below_last(on: Survey, refusal: Refusal) -> Said:
    which = "the last height there is" if refusal else f"below the last one, {it.MOST_HEIGHT}"
    return f"the ledger is at height {on.state.height}, {which}", []


def _next_height(on: Survey, refusal: Refusal) -> Said:
    have, said = on.state.height, on.block.height
    return f"the next height is {have} + 1 = {have + 1}, and the block has {said}", []


def _digests(what: str, said: bytes, real: bytes) -> Said:
    return f"SHA-256 of {what} is {'what' if said == real else 'not what'} the block names", [
        f"computed {real.hex()}",
        f"named    {said.hex()}",
    ]


def _parent(on: Survey, refusal: Refusal) -> Said:
    return _digests("the state's record", on.block.parent, on.parent)


def _body(on: Survey, refusal: Refusal) -> Said:
    return _digests(f"the list of {len(on.block.transactions)} transactions", on.block.body, on.body)


def _assets(on: Survey, refusal: Refusal) -> Said:
    return f"the ledger has {len(on.state.prices)} assets, and the block {len(on.block.prices)}", []


def _passes(on: Survey, refusal: Refusal) -> Said:
    if refusal is None:
        kinds = Counter(type(made).__name__ for made in on.block.transactions)
        counts = ", ".join(f"{count} {kind}" for kind, count in sorted(kinds.items())) or "there is none"
        return "the ledger refuses no transaction by itself", [counts]
    index, static = int(refusal.figures["index"]), int(refusal.figures["static"])
    made = on.block.transactions[index]
    return f"the ledger refuses transaction {index} by itself: {static} {STATIC_REASONS[static]}", [
        transaction_line(made),
        _why_static(on, made, static),
    ]


def _why_static(on: Survey, made: it.Transaction, static: int) -> str:
    account = on.index.accounts.get(made.account)
    last = account.last if account else 0
    if static == 1:
        return f"the ledger has no account {made.account}"
    if static == 2:
        return f"its sequence number {made.seq} is at most the account's last one, {last}"
    if static == 3:
        return f"its sequence number {made.seq} is above {last} + {it.WINDOW} = {last + it.WINDOW}"
    if static == 10:
        return f"its sequence number {made.seq} is marked as used, by bit {made.seq - last - 1} of the account's map"
    if static == 4:
        return f"the ledger has the assets 0 to {on.index.assets - 1}"
    if static == 5:
        return "it trades an asset for itself"
    if static == 6:
        return f"the ledger has no account {made.payee if isinstance(made, it.Payment) else ''} to be paid"
    if static == 7:
        return f"the ledger has the account {made.id if isinstance(made, it.Creation) else ''} already"
    if static == 8:
        return f"account {made.account} has no such offer in the ledger"
    assert isinstance(made, it.NewOffer)
    return f"amount × limit price = {made.amount} × {made.limit} = {made.amount * made.limit}, below {it.ONE}"


def _twice(on: Survey, refusal: Refusal, kind: type, what: str) -> Said:
    if refusal is None:
        return f"no {what} by two transactions", []
    index = int(refusal.figures["index"])
    made = on.block.transactions[index]
    same = [
        other
        for other, each in enumerate(on.block.transactions[:index])
        if isinstance(each, kind) and _names(each) == _names(made)
    ]
    return f"{what} by transaction {same[0]} and again by transaction {index}", [
        transaction_line(on.block.transactions[same[0]]),
        transaction_line(made),
    ]


def _names(made: it.Transaction) -> Tuple[int, ...]:
    if isinstance(made, it.Creation):
        return (made.id,)
    assert isinstance(made, it.Cancellation)
    return made.account, made.sell, made.buy, made.limit, made.offer_seq


def _cancels_once(on: Survey, refusal: Refusal) -> Said:
    return _twice(on, refusal, it.Cancellation, "offer is cancelled")


def _creates_once(on: Survey, refusal: Refusal) -> Said:
    return _twice(on, refusal, it.Creation, "account is created")


def _room(on: Survey, refusal: Refusal) -> Said:
    created = sum(isinstance(made, it.Creation) for made in on.block.transactions)
    offered = sum(isinstance(made, it.NewOffer) for made in on.block.transactions)
    return "accounts and offers are at most as many as there may be" if refusal is None else "there are too many", [
        f"accounts {len(on.state.accounts)} + {created}, at most {it.MOST_ACCOUNTS}",
        f"offers {len(on.state.offers)} + {offered}, at most {it.MOST_OFFERS}",
    ]


def _covered(on: Survey, refusal: Refusal) -> Said:
    if refusal is not None:
        account, asset = int(refusal.figures["account"]), int(refusal.figures["asset"])
        terms = [
            f"{transaction_line(made)}"
            for made in on.block.transactions
            if made.account == account
            and (
                (isinstance(made, it.Payment) and made.asset == asset)
                or (isinstance(made, it.NewOffer) and made.sell == asset)
            )
        ]
        return f"account {account} spends more of asset {asset} than it may", [_spent(on, account, asset), *terms]
    lines = [_spent(on, account, asset) for account, asset in sorted(on.postings.debits)]
    return "no account spends more than it may", lines


def _spent(on: Survey, account: int, asset: int) -> str:
    debits, opening = on.postings.debits[account, asset], on.index.accounts[account].balances[asset]
    credits = on.postings.credits.get((account, asset), 0)
    may = f"{opening}" if on.block.version == 1 else f"{opening} + {credits} = {opening + credits}"
    return f"account {account} asset {asset}: has {may}, spends {debits}"


def _within(on: Survey, refusal: Refusal) -> Said:
    lines = []
    for (sell, buy), low, high, traded in on.pairs():
        is_broken = not low <= traded <= high
        if (high or traded) and (refusal is None or is_broken):
            lines.append(f"sell {sell} buy {buy}: must {value(low)}, may {value(high)}, trades {value(traded)}")
    if refusal is None:
        return "each pair trades no less than it must and no more than it may", lines
    sell, buy = int(refusal.figures["sell"]), int(refusal.figures["buy"])
    may, must = _amounts(on, sell, buy)
    price = on.block.prices[sell]
    sums = [f"price {price} × {may} units of offers that may trade = {price * may}"]
    if on.block.cut is None:
        sums.append(f"price {price} × {must} units of offers that must trade = {price * must}")
    return f"the pair that sells {sell} and buys {buy} trades outside of its bounds", [lines[0], *sums, *lines[1:]]


def _amounts(on: Survey, sell: int, buy: int) -> Tuple[int, int]:
    """The units of a pair's offers that may trade, and of its offers that must."""
    may = must = 0
    prices = on.block.prices
    for key, amount in on.settled.offers.items():
        if key[:2] == (sell, buy):
            may += amount if ledger.may_trade(prices[sell], prices[buy], key[2]) else 0
            must += amount if ledger.must_trade(prices[sell], prices[buy], key[2], on.block.mu) else 0
    return may, must


def _balanced(on: Survey, refusal: Refusal) -> Said:
    lines = []
    for asset in range(len(on.block.prices)):
        sold, bought = on.sold_and_bought(asset)
        if sold or bought:
            lines.append(f"asset {asset}: sold {value(sold)}, bought {value(bought)}")
    if refusal is None:
        return "of each asset as much value is sold as bought", lines
    asset = int(refusal.figures["asset"])
    lines.sort(key=lambda line: not line.startswith(f"asset {asset}:"))
    return f"of asset {asset} another value is sold than bought", lines


def _tight(on: Survey, refusal: Refusal) -> Said:
    lines, potentials = [], on.block.potentials
    for (sell, buy), low, high, traded in on.pairs():
        gain = on.gain(sell, buy)
        has_to = high if gain > 0 else low if gain < 0 else traded
        if (high or traded) and (refusal is None or has_to != traded):
            wants = f"all, {value(high)}" if gain > 0 else f"no more than {value(low)}" if gain < 0 else "any value"
            sum_ = f"1 + {potentials[sell]} - {potentials[buy]} = {gain}"
            lines.append(f"sell {sell} buy {buy}: gain {sum_}, has to trade {wants}, trades {value(traded)}")
    if refusal is None:
        return "the potentials show that no circulation within the bounds trades more", lines
    return "the potentials do not show that no circulation trades more", lines


def _cut(on: Survey, refusal: Refusal) -> Said:
    cut = on.block.cut
    if cut is None:
        return "lower bounds were kept, so no cut has to be shown", []
    must, may = on.through_cut()
    inside = [asset for asset in range(len(on.block.prices)) if cut >> asset & 1]
    names = ", ".join(map(str, inside)) or "none"
    return "lower bounds were dropped, and the cut " + ("shows why" if refusal is None else "does not show why"), [
        f"inside are the assets {names}",
        f"must go in  {value(must)}",
        f"may go out  {value(may)}",
    ]


def _rounded(on: Survey, refusal: Refusal) -> Said:
    assets = range(len(on.block.prices))
    gives, gets = [0 for _ in assets], [0 for _ in assets]
    for fill in on.fills:
        gives[fill.sell] += fill.gives
        gets[fill.buy] += fill.gets
    lines = [
        f"asset {asset}: {gives[asset]} given - {gets[asset]} got = {gives[asset] - gets[asset]}, the block says "
        f"{on.block.roundings[asset]}"
        for asset in assets
        if gives[asset] or gets[asset] or on.block.roundings[asset]
    ]
    if refusal is None:
        return "the rounding of each asset is what offers give less what they get", lines
    lines = [line for line in lines if line.startswith(f"asset {refusal.figures['asset']}:")]
    trades = [
        f"account {fill.account} seq {fill.seq}: value {fill.value}, gives {fill.gives} of asset {fill.sell}, gets "
        f"{fill.gets} of asset {fill.buy}"
        for fill in on.fills
        if refusal.figures["asset"] in (fill.sell, fill.buy)
    ]
    return f"the rounding of asset {refusal.figures['asset']} is another one", [*lines, *trades]


def _after(on: Survey, refusal: Refusal) -> Said:
    return _digests("the record of the ledger after the block", on.block.after, on.after_digest)


_SAYS: Dict[str, Callable[[Survey, Refusal], Said]] = {
    "BelowLast": _below_last,
    "NextHeight": _next_height,
    "Parent": _parent,
    "Body": _body,
    "Assets": _assets,
    "Passes": _passes,
    "CancelsOnce": _cancels_once,
    "CreatesOnce": _creates_once,
    "Room": _room,
    "Covered": _covered,
    "Within": _within,
    "Balanced": _balanced,
    "Tight": _tight,
    "Cut": _cut,
    "Rounded": _rounded,
    "After": _after,
}
