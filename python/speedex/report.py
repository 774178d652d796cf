"""One page on a block: prices, trades, order books, the circulation, the cut, outcomes, totals and roundings.

The page needs no server and no network. All figures are worked out from the state and the block by this package, which
checks the block first: one that is refused gets no page but its ``RefusedError``.
"""

from __future__ import annotations

from collections import Counter, defaultdict
from fractions import Fraction
from html import escape
from typing import Dict, List, Optional, Sequence, Tuple

from . import charts
from . import records as it
from .decimals import rounded
from .errors import STATIC_REASONS
from .fills import ExecutionReport, report_of
from .html import Cell, bar, change, figures, paragraph, percent, price, section, table, value
from .ledger import NO_BOUNDS, Pair
from .rules import Survey, refusal_of, verdict_of
from .text import outcome_words

#: So many order books stand open, those of the greatest value; the others fold out.
OPEN_BOOKS = 6
#: So many rows of trades and of fills stand open.
OPEN_ROWS = 24
#: The page has so many fills at most; ``python -m speedex fills`` writes all.
MOST_FILLS = 200

_KINDS = (("payments", it.Payment), ("creations", it.Creation), ("offers", it.NewOffer))
_KEY = (
    '<ul class="key">'
    '<li><svg viewBox="0 0 34 12" aria-hidden="true"><path class="supply" d="M0 6H34"/></svg>supply</li>'
    '<li><svg viewBox="0 0 34 12" aria-hidden="true"><path class="demand" d="M0 6H34"/></svg>demand</li>'
    '<li><svg viewBox="0 0 34 12" aria-hidden="true"><path class="supply trades" d="M0 6H34"/></svg>'
    "thick: the part that trades</li>"
    '<li><svg viewBox="0 0 34 12" aria-hidden="true"><path class="rate" d="M0 6H34"/></svg>batch rate</li></ul>'
)


def page(state: it.State, block: it.Block, outcomes: Optional[it.Outcomes] = None, title: str = "") -> str:
    """The page of a block, as HTML. ``outcomes`` are those of its candidates, if they are known."""
    survey = Survey(state, block)
    refusal = refusal_of(survey)
    if refusal is not None:
        raise refusal
    return _Page(survey, outcomes, title or f"Block {block.height}").html()


class _Page:
    """A page in the making."""

    def __init__(self, survey: Survey, outcomes: Optional[it.Outcomes], title: str) -> None:
        self.on, self.outcomes, self.title = survey, outcomes, title
        self.state, self.block, self.after = survey.state, survey.block, survey.after
        self.report: ExecutionReport = report_of(survey)
        self.assets = range(len(self.block.prices))
        self.names = [str(asset) for asset in self.assets]

    def html(self) -> str:
        css = charts.styles("picture.css", "page.css")
        parts = [
            ("prices", "Prices and volumes", self.prices()),
            ("circulation-h", "The circulation", self.circulation()),
            ("books", "Order books", self.books()),
            ("candidates", "Transactions and outcomes", self.candidates()),
            ("fills", "Fills", self.fills()),
            ("totals", "Totals that add up", self.totals()),
        ]
        if self.block.cut is not None:
            parts.insert(2, ("cut", "Why lower bounds were dropped", self.cut()))
        links = "".join(f'<li><a href="#{name}">{escape(head)}</a></li>' for name, head, _ in parts)
        body = "".join(section(name, head, content) for name, head, content in parts)
        return (
            '<!doctype html>\n<html lang="en"><head><meta charset="utf-8">'
            '<meta name="viewport" content="width=device-width, initial-scale=1">'
            f"<title>{escape(self.title)}</title><style>\n{css}</style></head><body>"
            f'<header>{self.head()}<nav aria-label="Sections"><ul>{links}</ul></nav></header>'
            f"<main>{body}</main>{self.foot()}</body></html>\n"
        )

    def head(self) -> str:
        block, report = self.block, self.report
        dropped = block.cut is not None
        full = sum(not fill.stays for fill in report.fills)
        return (
            f"<h1>{escape(self.title)}</h1>"
            f'<p><span class="badge good">valid</span> at height {block.height}, on a ledger of '
            f"{len(self.block.prices)} assets, {len(self.state.accounts):,} accounts and "
            f"{len(self.state.offers):,} offers. The figures of this page are worked out from the state and the block."
            f"</p>"
            + figures(
                [
                    ("Value traded", value(block.value), f"{block.value:,} × 2^-24"),
                    ("Transactions", f"{len(block.transactions):,}", ""),
                    ("Offers that trade", f"{len(report.fills):,}", f"{full:,} of them in full"),
                    ("Offers that wait", f"{len(report.untouched):,}", "they trade nothing in this block"),
                    ("Lower bounds", "dropped" if dropped else "kept", f"margin μ = 2^-{block.mu}"),
                    ("Kept by rounding", f"{sum(block.roundings):,}", "units of all assets"),
                ]
            )
        )

    def prices(self) -> str:
        rows: List[Sequence[Cell]] = []
        most = max((self.on.sold_and_bought(asset)[0] for asset in self.assets), default=0)
        for asset in self.assets:
            sold, _ = self.on.sold_and_bought(asset)
            before, now = self.state.prices[asset], self.block.prices[asset]
            row: List[Cell] = [asset, price(before), price(now), change(before, now)]
            row += [self.report.totals[asset].gives, self.report.totals[asset].gets, value(sold), bar(sold, most)]
            rows.append(row)
        heads = ["Asset", "Price before", "Price", "Change", "Units given", "Units got", "Value sold", "Share"]
        return paragraph(
            "Only the ratio of two prices matters: the batch rate. Everybody trades at the same one."
        ) + table("Prices, and what is traded of each asset; units are whole", heads, rows, wide=(7,))

    def circulation(self) -> str:
        values = self.block.values
        picture = charts.circulation(self.names, self.block.potentials, values, self.block.cut)
        words = (
            "Each arrow leads from the asset that is sold to the one that is bought, and is as wide as its value. Of "
            "each asset as much value goes out as comes in. The potentials π show that nothing trades more: the gain "
            "of a pair is 1, plus π of the sold asset, less π of the bought one. A pair with a gain above 0 trades "
            "all that it may, and one with a gain below 0 only what it must."
        )
        rows: List[Tuple[int, Sequence[Cell]]] = []
        for (sell, buy), low, high, traded in self.on.pairs():
            if high or traded:
                rate = rounded(Fraction(self.block.prices[sell], self.block.prices[buy]), 6)
                row = [f"{sell} for {buy}", rate, value(low), value(traded), value(high), f"{self.on.gain(sell, buy)}"]
                rows.append((-traded, [*row, percent(traded, high), bar(traded, high)]))
        rows.sort(key=lambda item: item[0])
        heads = ["Pair", "Batch rate", "Must trade", "Trades", "May trade", "Gain", "Part", "Part of what may trade"]
        caption = "What each pair must trade, trades and may trade, by value"
        return (
            paragraph(words)
            + f'<figure class="large">{picture}{self.arrows()}</figure>'
            + self.matrix()
            + _folded([row for _, row in rows], OPEN_ROWS, caption, heads, (7,), "pairs")
        )

    def arrows(self) -> str:
        """Which pairs the picture of the circulation shows, if not all."""
        pairs = len(self.block.trades)
        if len(self.names) <= charts.FEW or pairs <= charts.MOST_ARROWS:
            return ""
        return f"<figcaption>The {charts.MOST_ARROWS} greatest of {pairs} pairs; the next picture has all.</figcaption>"

    def matrix(self) -> str:
        """What all pairs trade in one picture, if there are too many for arrows."""
        if len(self.names) <= charts.FEW:
            return ""
        picture = charts.matrix(self.names, self.block.values)
        words = "Each row is an asset that is sold, each column one that is bought. The fuller a cell, the more trades."
        return f'<figure class="large">{picture}<figcaption>{words}</figcaption></figure>'

    def cut(self) -> str:
        cut = self.block.cut or 0
        must, may = self.on.through_cut()
        inside = [asset for asset in self.assets if cut >> asset & 1]
        which = "assets" if len(inside) > 1 else "asset"
        rows: List[Sequence[Cell]] = []
        for (sell, buy), (low, high) in sorted(self.on.bounds.items()):
            sells, buys = cut >> sell & 1, cut >> buy & 1
            if buys and not sells and low:
                rows.append([f"{sell} for {buy}", "into", value(low), ""])
            if sells and not buys and high:
                rows.append([f"{sell} for {buy}", "out of", "", value(high)])
        words = (
            f"The cut is the set of {which} {', '.join(map(str, inside))}. In a circulation as much value goes into a "
            "set as out of it. Here more must go in than may go out, so no circulation has every offer trade that "
            "must, and each pair may trade from 0 up."
        )
        heads = ["Pair", "Goes", "Must go in", "May go out"]
        foot: List[Cell] = ["Sum", f"{value(must - may)} too much", value(must), value(may)]
        return paragraph(words) + table("What has to pass through the cut, by value", heads, rows, foot)

    def books(self) -> str:
        offers: Dict[Pair, List[Tuple[int, int]]] = defaultdict(list)
        for (sell, buy, limit, _, _), amount in self.on.settled.offers.items():
            offers[sell, buy].append((limit, amount))
        values = self.block.values
        pairs = sorted({(min(pair), max(pair)) for pair in offers})
        pairs.sort(key=lambda pair: -values.get(pair, 0) - values.get((pair[1], pair[0]), 0))
        drawn = [self.book(offers, pair) for pair in pairs]
        words = (
            "Along the bottom stands the value that is on offer, from the best price on, and upwards the price. "
            "Supply sells the first asset for the second, and demand buys it. Who wants less than the batch rate "
            "gives may trade. A price beyond the picture stands at its edge; curves of many offers are drawn in "
            f"{charts.MOST_STEPS} steps."
        )
        rest = drawn[OPEN_BOOKS:]
        folded = f'<summary>{len(rest)} more order books</summary><div class="books">{"".join(rest)}</div>'
        more = f"<details>{folded}</details>" if rest else ""
        return paragraph(words) + _KEY + f'<div class="books">{"".join(drawn[:OPEN_BOOKS])}</div>' + more

    def book(self, offers: Dict[Pair, List[Tuple[int, int]]], pair: Pair) -> str:
        first, second = pair
        values = self.block.values
        supply, demand = charts.curves(offers, values, self.block.prices, pair)
        rate = Fraction(self.block.prices[first], self.block.prices[second])
        title = f"Supply and demand of asset {first} for asset {second}"
        name = f"book-{first}-{second}"
        picture = charts.order_book(name, title, supply, demand, rate, f"of {second}", f"of {first}")
        low = sum(self.on.bounds.get(each, NO_BOUNDS).low for each in (pair, (second, first)))
        notes = [
            f"{len(supply.offers):,} offers sell {first} and {value(values.get(pair, 0))} trade",
            f"{len(demand.offers):,} sell {second} and {value(values.get((second, first), 0))} trade",
        ]
        if low and self.block.cut is None:
            notes.append(f"{value(low)} must trade")
        return (
            f"<figure><h3>{first} for {second} at {rounded(rate, 6)}</h3>{picture}"
            f"<figcaption>{escape('; '.join(notes))}.</figcaption></figure>"
        )

    def candidates(self) -> str:
        made = Counter(type(each) for each in self.block.transactions)
        count = len(self.block.transactions)
        kinds = [*_KINDS, ("cancellations", it.Cancellation)]
        rows: List[Sequence[Cell]] = [
            [name, made[kind], percent(made[kind], count), bar(made[kind], count)] for name, kind in kinds
        ]
        found = table(
            "Transactions of the block by kind",
            ["Kind", "Transactions", "Part", "Share"],
            rows,
            ["all", count, percent(count, count), ""],
            wide=(3,),
        )
        if self.outcomes is None:
            return found + paragraph("What became of other candidates is not known: the block stands alone.")
        outcomes = Counter(map(_outcome_name, self.outcomes.outcomes))
        total = len(self.outcomes.outcomes)
        lines: List[Sequence[Cell]] = [
            [name, many, percent(many, total), bar(many, total)] for name, many in outcomes.most_common()
        ]
        return found + table(
            "What became of the candidates",
            ["Outcome", "Candidates", "Part", "Share"],
            lines,
            ["all", total, percent(total, total), ""],
            wide=(3,),
        )

    def fills(self) -> str:
        fills = sorted(self.report.fills, key=lambda fill: -fill.value)
        rows: List[Sequence[Cell]] = [
            [
                f"{fill.account} / {fill.seq}",
                f"{fill.sell} for {fill.buy}",
                price(fill.limit),
                rounded(self.report.rate(fill), 6),
                fill.amount,
                fill.gives,
                fill.gets,
                value(fill.value),
                fill.stays,
            ]
            for fill in fills[:MOST_FILLS]
        ]
        heads = ["Account / number", "Sells", "Limit", "Rate", "Offered", "Gives", "Gets", "Value", "Stays"]
        which = f"the {MOST_FILLS} greatest of {len(fills):,}" if len(fills) > MOST_FILLS else f"all {len(fills):,}"
        words = (
            "An offer gives its value in units of the sold asset, rounded up, and gets it in units of the bought one, "
            "rounded down. At most one offer of a pair trades in part."
        )
        caption = f"Offers that trade, {which}, by value"
        return paragraph(words) + _folded(rows, OPEN_ROWS, caption, heads, (), "fills")

    def totals(self) -> str:
        rows: List[Sequence[Cell]] = []
        for at, total in enumerate(self.report.totals):
            there, after = self.state.roundings[at], self.after.roundings[at]
            row: List[Cell] = [at, total.gives, total.gets, self.block.roundings[at], there, after]
            rows.append(row)
        heads = ["Asset", "Given", "Got", "Kept: given − got", "Kept before", "Kept after"]
        kept = table("What rounding keeps, in units", heads, rows)
        before, behind = _parts(self.state), _parts(self.after)
        lines: List[Sequence[Cell]] = []
        for at in self.assets:
            there, after = sum(before[at]), sum(behind[at])
            lines.append([at, *before[at], there, *behind[at], after, after - there])
        heads = ["Asset", *["Balances", "On offer", "Rounding", "Total"] * 2, "Difference"]
        groups = (("", 1), ("before the block", 4), ("after the block", 4), ("", 1))
        words = "No unit is made or lost: of each asset the total of balances, offers and rounding stays as it is."
        return kept + paragraph(words) + table("All units of each asset", heads, lines, groups=groups)

    def foot(self) -> str:
        block = self.block
        digests = (("Ledger before", block.parent), ("Transactions", block.body), ("Ledger after", block.after))
        lines = "".join(f'<div>{name}: <span class="mono">{digest.hex()}</span></div>' for name, digest in digests)
        return f"<footer><p>{escape(str(verdict_of(block)))}</p><p>SHA-256 of:</p>{lines}</footer>"


def _parts(state: it.State) -> List[Tuple[int, int, int]]:
    """Of each asset the units in balances, on offer and in rounding."""
    balances, offered = [0 for _ in state.prices], [0 for _ in state.prices]
    for account in state.accounts:
        balances = [there + units for there, units in zip(balances, account.balances)]
    for offer in state.offers:
        offered[offer.sell] += offer.amount
    return list(zip(balances, offered, state.roundings))


def _outcome_name(outcome: it.Outcome) -> str:
    words = outcome_words(outcome).split()
    return f"static {words[1]} {STATIC_REASONS[int(words[1])]}" if words[0] == "static" else words[0]


def _folded(
    rows: Sequence[Sequence[Cell]], most: int, caption: str, heads: Sequence[str], wide: Sequence[int], what: str
) -> str:
    """A table, of which the rows behind the first ones fold out."""
    shown = table(caption, heads, rows[:most], wide=wide)
    rest = rows[most:]
    if not rest:
        return shown
    more = table(f"{caption}: the rest", heads, rest, wide=wide)
    return f"{shown}<details><summary>{len(rest)} more {what}</summary>{more}</details>"
