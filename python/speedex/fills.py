"""The execution report of a block: who traded how much at which price, and what stays on offer."""

from __future__ import annotations

import csv
import io
from dataclasses import dataclass
from fractions import Fraction
from typing import Any, Dict, List, Tuple

from . import records as it
from .decimals import from_fixed, rounded
from .ledger import Fill
from .rules import Survey, refusal_of

#: How many decimals a batch rate is shown with. It is a ratio of two prices, which stand beside it exactly.
RATE_PLACES = 12


@dataclass(frozen=True)
class AssetTotal:
    """What a block moves of an asset, in units: what its offers give, what offers get, and what rounding keeps."""

    asset: int
    price: int
    gives: int
    gets: int
    rounding: int


@dataclass(frozen=True)
class ExecutionReport:
    """The fills of a valid block, in the order in which they trade, and the totals of each asset.

    ``untouched`` are the offers after the body that trade nothing. Prices and values are in units of ``2^-24``.
    """

    height: int
    prices: Tuple[int, ...]
    bounds_dropped: bool
    fills: Tuple[Fill, ...]
    untouched: Tuple[it.Offer, ...]
    totals: Tuple[AssetTotal, ...]

    def rate(self, fill: Fill) -> Fraction:
        """How many units of the bought asset the batch gives for a unit of the sold one, before whole units."""
        return Fraction(self.prices[fill.sell], self.prices[fill.buy])


def execution_report(state: it.State, block: it.Block) -> ExecutionReport:
    """The fills of a block. One that is not valid for the state raises its ``RefusedError``: nobody trades by it."""
    survey = Survey(state, block)
    refusal = refusal_of(survey)
    if refusal is not None:
        raise refusal
    return report_of(survey)


def report_of(survey: Survey) -> ExecutionReport:
    """The same of a block that was checked."""
    block, assets = survey.block, range(len(survey.block.prices))
    gives, gets = [0 for _ in assets], [0 for _ in assets]
    filled = set()
    for fill in survey.fills:
        gives[fill.sell] += fill.gives
        gets[fill.buy] += fill.gets
        filled.add((fill.sell, fill.buy, fill.limit, fill.account, fill.seq))
    resting = sorted(key for key in survey.settled.offers if key not in filled)
    return ExecutionReport(
        height=block.height,
        prices=block.prices,
        bounds_dropped=block.cut is not None,
        fills=tuple(survey.fills),
        untouched=tuple(it.Offer(*key, survey.settled.offers[key]) for key in resting),
        totals=tuple(
            AssetTotal(at, block.prices[at], gives[at], gets[at], gives[at] - gets[at]) for at in assets
        ),
    )


COLUMNS = (
    "account seq sell buy limit rate sell_price buy_price offered gives gets value stays made".split()
)


def rows_of(report: ExecutionReport) -> List[Dict[str, Any]]:
    """The fills as rows: amounts in units, ``value`` in units of ``2^-24``, limits and prices as exact decimals, the
    rate rounded to 12 places. ``made`` says whether the offer is of this block or stood in the ledger before it."""
    return [
        {
            "account": fill.account,
            "seq": fill.seq,
            "sell": fill.sell,
            "buy": fill.buy,
            "limit": from_fixed(fill.limit),
            "rate": rounded(report.rate(fill), RATE_PLACES),
            "sell_price": from_fixed(report.prices[fill.sell]),
            "buy_price": from_fixed(report.prices[fill.buy]),
            "offered": fill.amount,
            "gives": fill.gives,
            "gets": fill.gets,
            "value": fill.value,
            "stays": fill.stays,
            "made": "block" if fill.is_new else "ledger",
        }
        for fill in report.fills
    ]


def as_json(report: ExecutionReport) -> Dict[str, Any]:
    """The report as what ``json.dump`` takes."""
    return {
        "height": report.height,
        "bounds": "dropped" if report.bounds_dropped else "kept",
        "fills": rows_of(report),
        "untouched": [
            {
                "account": offer.account,
                "seq": offer.seq,
                "sell": offer.sell,
                "buy": offer.buy,
                "limit": from_fixed(offer.limit),
                "stays": offer.amount,
            }
            for offer in report.untouched
        ],
        "totals": [
            {
                "asset": total.asset,
                "price": from_fixed(total.price),
                "gives": total.gives,
                "gets": total.gets,
                "rounding": total.rounding,
            }
            for total in report.totals
        ],
    }


def as_csv(report: ExecutionReport) -> str:
    """The fills as CSV, with a line of names first."""
    out = io.StringIO()
    writer = csv.DictWriter(out, COLUMNS, lineterminator="\n")
    writer.writeheader()
    writer.writerows(rows_of(report))
    return out.getvalue()


def as_text(report: ExecutionReport) -> str:
    """The report as lines for people."""
    lines = [f"height {report.height}, bounds {'dropped' if report.bounds_dropped else 'kept'}"]
    for fill in report.fills:
        state = f"{fill.stays} stay on offer" if fill.stays else "filled"
        lines.append(
            f"account {fill.account} seq {fill.seq} gives {fill.gives} of asset {fill.sell} and gets {fill.gets} of "
            f"asset {fill.buy}, at {rounded(report.rate(fill), 6)} (limit {rounded(Fraction(fill.limit, it.ONE), 6)}): "
            f"{state}"
        )
    lines.append(f"{len(report.fills)} offers trade, and {len(report.untouched)} stay as they are")
    for total in report.totals:
        lines.append(
            f"asset {total.asset} at {rounded(Fraction(total.price, it.ONE), 6)}: {total.gives} given, {total.gets} "
            f"got, {total.rounding} kept by rounding"
        )
    return "".join(f"{line}\n" for line in lines)
