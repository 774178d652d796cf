"""CSV in and out: transactions, accounts, offers and outcomes, with exact decimals.

The first line has the names of the columns. ``assets`` gives each asset a name and decimal places: ``Asset("gold", 3)``
counts gold in thousandths, so an amount of 50000 units is written ``50.000``, and a limit price is then a rate between
whole golds and whole euros. Without it assets are numbers and amounts are units. Limit prices are decimals either way,
and exact: a table that was written is read back to the same records. A table of somebody else may have a limit price
that is no multiple of ``2^-24``; ``rounding`` says what becomes of it (``decimals.UP``: the seller gets no less), and
if nothing is said that line is refused. A line that is not understood is a ``TextError`` with its number.
"""

from __future__ import annotations

import csv
from dataclasses import dataclass
from fractions import Fraction
from typing import Callable, Dict, Iterable, Iterator, List, Mapping, Sequence, TextIO, Tuple, TypeVar

from . import records as it
from .decimals import fraction_of, from_units, to_units, whole
from .drafts import OUTCOME_NAMES
from .errors import TextError

RowType = TypeVar("RowType")


@dataclass(frozen=True)
class Asset:
    """What people call an asset, and how many decimal places its unit is behind the point."""

    name: str
    places: int = 0


Assets = Sequence[Asset]
_RANGES = {
    "account": (0, (1 << 64) - 1),
    "payee": (0, (1 << 64) - 1),
    "id": (0, (1 << 64) - 1),
    "used": (0, (1 << 64) - 1),
    "seq": (1, it.MOST_SEQ),
    "offer_seq": (1, it.MOST_SEQ),
    "last": (0, it.MOST_SEQ),
    "limit": (1, it.MOST_LIMIT),
    "amount": (1, it.MOST_AMOUNT),
    "balance": (0, it.MOST_AMOUNT),
    "seen": (0, it.MOST_AMOUNT),
    "need": (1, it.MOST_AMOUNT),
    "number": (1, 10),
    "asset": (0, it.MOST_ASSETS - 1),
}
_KINDS: Dict[str, Tuple[Callable[..., it.Transaction], Tuple[str, ...]]] = {
    "payment": (it.Payment, ("payee", "asset", "amount")),
    "creation": (it.Creation, ("id",)),
    "offer": (it.NewOffer, ("sell", "buy", "limit", "amount")),
    "cancellation": (it.Cancellation, ("sell", "buy", "limit", "offer_seq")),
}
_KIND_OF = {it.Payment: "payment", it.Creation: "creation", it.NewOffer: "offer", it.Cancellation: "cancellation"}
TRANSACTION_COLUMNS = "account seq kind payee asset amount id sell buy limit offer_seq".split()
OFFER_COLUMNS = "sell buy limit account seq amount".split()
OUTCOME_COLUMNS = "index outcome number seen need".split()
_ASSETS = ("asset", "sell", "buy")


class _Cells:
    """The cells of a line, by the name of their column; each is read once, and what is left has to be empty."""

    def __init__(self, cells: Mapping[str, str], assets: Assets, rounding: str) -> None:
        self.cells = {name: cell.strip() for name, cell in cells.items()}
        self.assets, self.rounding = assets, rounding

    def word(self, name: str) -> str:
        if name not in self.cells:
            raise ValueError(f"there is no column {name}")
        return self.cells.pop(name)

    def ranged(self, name: str, number: int, kind: str = "") -> int:
        least, most = _RANGES[kind or name]
        if not least <= number <= most:
            raise ValueError(f"{name} {number} is not from {least} to {most}")
        return number

    def number(self, name: str) -> int:
        word = self.word(name)
        if not (word.isascii() and word.isdecimal()):
            raise ValueError(f"{name} {word!r} is no number" if word else f"there is no {name}")
        return self.ranged(name, int(word))

    def asset(self, name: str) -> int:
        word = self.word(name)
        names = [asset.name for asset in self.assets]
        if word in names:
            return names.index(word)
        if not (word.isascii() and word.isdecimal()) or (names and int(word) >= len(names)):
            raise ValueError(f"{name} {word!r} is no asset" if word else f"there is no {name}")
        return self.ranged(name, int(word), "asset")

    def places(self, asset: int) -> int:
        return self.assets[asset].places if asset < len(self.assets) else 0

    def amount(self, name: str, asset: int, kind: str = "") -> int:
        word = self.word(name)
        try:
            units = to_units(word, self.places(asset))
        except ValueError:
            raise ValueError(f"{name} {word!r} has not at most {self.places(asset)} decimals") from None
        return self.ranged(name, units, kind)

    def limit(self, sell: int, buy: int) -> int:
        word = self.word("limit")
        scale = Fraction(10) ** (self.places(buy) - self.places(sell)) * it.ONE
        exact = fraction_of(word) * scale
        if exact.denominator != 1 and not self.rounding:
            raise ValueError(f"limit {word} is no multiple of 2^-24 in units, and nothing says how to round it")
        return self.ranged("limit", whole(exact, self.rounding))

    def finish(self) -> None:
        for name, cell in self.cells.items():
            if cell:
                raise ValueError(f"{name} {cell!r} has no meaning here")


def _rows(
    file: Iterable[str], assets: Assets, rounding: str, make: Callable[[_Cells], RowType]
) -> Iterator[RowType]:
    """What is made of each line after the first; a fault names the line."""
    reader = csv.reader(file)
    names = [name.strip() for name in next(reader, [])]
    if not names or len(set(names)) != len(names):
        raise TextError(1, "line 1: the names of the columns, each once, have to stand here")
    for cells in reader:
        if not cells:
            continue
        try:
            if len(cells) != len(names):
                raise ValueError(f"there are {len(cells)} cells, and {len(names)} columns")
            row = _Cells(dict(zip(names, cells)), assets, rounding)
            made = make(row)
            row.finish()
        except ValueError as error:
            raise TextError(reader.line_num, f"line {reader.line_num}: {error}") from None
        yield made


def _transaction(cells: _Cells) -> it.Transaction:
    account, seq, kind = cells.number("account"), cells.number("seq"), cells.word("kind")
    if kind not in _KINDS:
        raise ValueError(f"kind {kind!r} is none of {', '.join(_KINDS)}")
    make, names = _KINDS[kind]
    found: Dict[str, int] = {name: cells.asset(name) for name in names if name in _ASSETS}
    for name in names:
        if name == "limit":
            found[name] = cells.limit(found["sell"], found["buy"])
        elif name == "amount":
            found[name] = cells.amount(name, found.get("asset", found.get("sell", 0)))
        elif name not in found:
            found[name] = cells.number(name)
    return make(account=account, seq=seq, **found)


def _offer(cells: _Cells) -> it.Offer:
    sell, buy = cells.asset("sell"), cells.asset("buy")
    limit, amount = cells.limit(sell, buy), cells.amount("amount", sell)
    return it.Offer(sell, buy, limit, cells.number("account"), cells.number("seq"), amount)


def _account(cells: _Cells) -> it.Account:
    id, last = cells.number("id"), cells.number("last")
    used = cells.number("used") if cells.cells.get("used") else 0
    columns = [name for name in cells.cells if name.startswith("balance ")]
    names = [name[len("balance ") :] for name in columns]
    wanted = [asset.name for asset in cells.assets] or [str(place) for place in range(len(names))]
    if names != wanted:
        raise ValueError("the columns of balances are not those of the assets in their order")
    return it.Account(id, last, used, tuple(cells.amount(name, at, "balance") for at, name in enumerate(columns)))


def _outcome(cells: _Cells) -> Tuple[int, it.Outcome]:
    index, name = cells.word("index"), cells.word("outcome")
    kinds = {name: kind for kind, name in OUTCOME_NAMES.items()}
    if not index.isdecimal():
        raise ValueError(f"index {index!r} is no number")
    if name not in kinds:
        raise ValueError(f"outcome {name!r} is none of {', '.join(kinds)}")
    if kinds[name] is it.Static:
        return int(index), it.Static(cells.number("number"))
    if kinds[name] is it.Overdraft:
        return int(index), it.Overdraft(cells.number("seen"), cells.number("need"))
    make: Callable[[], it.Outcome] = kinds[name]
    return int(index), make()


def read_transactions(file: Iterable[str], assets: Assets = (), rounding: str = "") -> List[it.Transaction]:
    """Transactions from the lines of a table with the columns ``TRANSACTION_COLUMNS``; columns of kinds that do not
    come may be left out. Cells that a kind has no use for are empty."""
    return list(_rows(file, assets, rounding, _transaction))


def read_offers(file: Iterable[str], assets: Assets = (), rounding: str = "") -> List[it.Offer]:
    """The offers of a ledger from a table with the columns ``OFFER_COLUMNS``."""
    return list(_rows(file, assets, rounding, _offer))


def read_accounts(file: Iterable[str], assets: Assets = ()) -> List[it.Account]:
    """Accounts from a table with the columns ``id``, ``last``, ``used`` (in version 2) and ``balance NAME`` for each
    asset, or ``balance 0`` and so on without names."""
    return list(_rows(file, assets, "", _account))


def read_outcomes(file: Iterable[str]) -> it.Outcomes:
    """Outcomes from a table with the columns ``OUTCOME_COLUMNS``, whose indexes count from 0."""
    found: List[it.Outcome] = []
    for line, (index, outcome) in enumerate(_rows(file, (), "", _outcome), 2):
        if index != len(found):
            raise TextError(line, f"line {line}: index {index} stands where {len(found)} has to")
        found.append(outcome)
    return it.Outcomes(tuple(found))


def _name(asset: int, assets: Assets) -> str:
    return assets[asset].name if asset < len(assets) else str(asset)


def _units(units: int, asset: int, assets: Assets) -> str:
    return from_units(units, assets[asset].places if asset < len(assets) else 0)


def _rate(limit: int, sell: int, buy: int, assets: Assets) -> str:
    """A limit price as an exact decimal between whole assets."""
    places = [assets[asset].places if asset < len(assets) else 0 for asset in (sell, buy)]
    digits = 24 + max(0, places[1] - places[0])
    exact = Fraction(limit, it.ONE) * Fraction(10) ** (places[0] - places[1])
    text = from_units(whole(exact * 10**digits), digits)
    return text.rstrip("0").rstrip(".")


def write_transactions(file: TextIO, transactions: Iterable[it.Transaction], assets: Assets = ()) -> None:
    """Transactions as a table."""
    writer = csv.writer(file, lineterminator="\n")
    writer.writerow(TRANSACTION_COLUMNS)
    for made in transactions:
        cells: Dict[str, object] = {"account": made.account, "seq": made.seq, "kind": _KIND_OF[type(made)]}
        if isinstance(made, it.Payment):
            cells["payee"], cells["asset"] = made.payee, _name(made.asset, assets)
            cells["amount"] = _units(made.amount, made.asset, assets)
        elif isinstance(made, it.Creation):
            cells["id"] = made.id
        else:
            cells["sell"], cells["buy"] = _name(made.sell, assets), _name(made.buy, assets)
            cells["limit"] = _rate(made.limit, made.sell, made.buy, assets)
            if isinstance(made, it.NewOffer):
                cells["amount"] = _units(made.amount, made.sell, assets)
            else:
                cells["offer_seq"] = made.offer_seq
        writer.writerow([cells.get(name, "") for name in TRANSACTION_COLUMNS])


def write_offers(file: TextIO, offers: Iterable[it.Offer], assets: Assets = ()) -> None:
    """The offers of a ledger as a table."""
    writer = csv.writer(file, lineterminator="\n")
    writer.writerow(OFFER_COLUMNS)
    for offer in offers:
        pair = _name(offer.sell, assets), _name(offer.buy, assets)
        rate = _rate(offer.limit, offer.sell, offer.buy, assets)
        writer.writerow([*pair, rate, offer.account, offer.seq, _units(offer.amount, offer.sell, assets)])


def write_accounts(file: TextIO, accounts: Sequence[it.Account], assets: Assets = ()) -> None:
    """Accounts as a table."""
    writer = csv.writer(file, lineterminator="\n")
    count = len(accounts[0].balances) if accounts else len(assets)
    writer.writerow(["id", "last", "used", *(f"balance {_name(asset, assets)}" for asset in range(count))])
    for account in accounts:
        balances = [_units(units, asset, assets) for asset, units in enumerate(account.balances)]
        writer.writerow([account.id, account.last, account.used, *balances])


def write_outcomes(file: TextIO, outcomes: it.Outcomes) -> None:
    """Outcomes as a table."""
    writer = csv.writer(file, lineterminator="\n")
    writer.writerow(OUTCOME_COLUMNS)
    for index, outcome in enumerate(outcomes.outcomes):
        row: List[object] = [index, OUTCOME_NAMES[type(outcome)]]
        row.append(outcome.number if isinstance(outcome, it.Static) else "")
        row += [outcome.seen, outcome.need] if isinstance(outcome, it.Overdraft) else ["", ""]
        writer.writerow(row)
