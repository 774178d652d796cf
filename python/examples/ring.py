#!/usr/bin/env python3
"""Two markets, step by step and in pictures: a ring of three assets, and a market whose lower bounds are dropped.

    python3 python/examples/ring.py [FOLDER]

prints what it finds and writes its pictures to FOLDER, which is the current one if none is named. Nothing is searched
for here: the trades are those that were found by hand, and the rules are tested by the package's own arithmetic. The
last step hands the same transactions to the program, if there is one.
"""

from __future__ import annotations

import pathlib
import sys
from fractions import Fraction
from typing import Dict, List, Tuple

sys.path.insert(0, str(pathlib.Path(__file__).resolve().parents[1]))

import speedex  # noqa: E402
from speedex import charts, decimals, rules  # noqa: E402

RING = """
state height 0 assets 3
asset 0 price 67108864 rounding 0                 # A costs 4
asset 1 price 33554432 rounding 0                 # B costs 2
asset 2 price 16777216 rounding 0                 # C costs 1
account 1 last 0 balances 5 0 0
account 2 last 0 balances 0 10 0
account 3 last 0 balances 0 0 20
block
trade 0 1 335544320
trade 1 2 335544320
trade 2 0 335544320
tx 1 1 offer 0 1 limit 25165824 amount 5          # 5 A, for at least 1.5 B each
tx 2 1 offer 1 2 limit 30198989 amount 10         # 10 B, for at least 1.8 C each
tx 3 1 offer 2 0 limit 3355444 amount 20          # 20 C, for at least 0.2 A each
"""

POOR = """
state height 0 assets 2
asset 0 price 50331648 rounding 0                 # A costs 3
asset 1 price 33554432 rounding 0                 # B costs 2
account 1 last 0 balances 5 0
account 2 last 0 balances 0 8
block
dropped 00000001
trade 0 1 251658240
trade 1 0 251658240
tx 1 1 offer 0 1 limit 4194304 amount 5
tx 2 1 offer 1 0 limit 4194304 amount 8
"""

LETTERS = "ABC"


def market(text: str) -> Tuple[speedex.State, speedex.Block]:
    """The state and the block of a text, with the digests, roundings and potentials that it leaves out."""
    state, block = speedex.parse(text)
    assert isinstance(state, speedex.State) and isinstance(block, speedex.Block)
    return state, block


def pair(sell: int, buy: int) -> str:
    return f"{LETTERS[sell]} for {LETTERS[buy]}"


def show_bounds(survey: rules.Survey) -> None:
    """What each pair with offers must trade, trades and may trade."""
    for (sell, buy), (low, high) in sorted(survey.bounds.items()):
        value = survey.block.values.get((sell, buy), 0)
        words = [decimals.from_fixed(number) for number in (low, value, high)]
        print(f"   {pair(sell, buy)}: must trade {words[0]}, trades {words[1]}, may trade {words[2]}")


def show_fills(survey: rules.Survey) -> None:
    for fill in survey.fills:
        print(
            f"   account {fill.account} gives {fill.gives} {LETTERS[fill.sell]} and gets {fill.gets} "
            f"{LETTERS[fill.buy]}, for a value of {decimals.from_fixed(fill.value)}"
        )


def write(folder: pathlib.Path, name: str, picture: str) -> None:
    (folder / name).write_text(charts.standalone(picture), encoding="utf-8")
    print(f"   picture: {name}")


def circulation(block: speedex.Block) -> str:
    return charts.circulation(list(LETTERS[: len(block.prices)]), block.potentials, block.values, block.cut)


def walk_ring(folder: pathlib.Path) -> None:
    state, block = market(RING)
    survey = rules.Survey(state, block)
    print("1. A ring of three assets")
    print("   Each of three accounts has what another one wants, and no two can trade alone.")
    show_bounds(survey)
    print("   Around the ring a value of 20 goes out of each asset and comes in:")
    for asset in range(3):
        sold, bought = survey.sold_and_bought(asset)
        print(f"   {LETTERS[asset]}: sold {decimals.from_fixed(sold)}, bought {decimals.from_fixed(bought)}")
    show_fills(survey)
    print(f"   The rules say: {speedex.check(state, block)}")
    write(folder, "ring.svg", circulation(block))


def walk_poor(folder: pathlib.Path) -> None:
    state, block = market(POOR)
    survey = rules.Survey(state, block)
    print("2. A market whose lower bounds are dropped")
    print("   Both accounts want little, so both must trade in full, but 15 is not 16:")
    show_bounds(survey)
    must, may = survey.through_cut()
    print(
        f"   Into the set of A alone must go {decimals.from_fixed(must)}, and {decimals.from_fixed(may)} may go out. "
        f"That is a cut:"
    )
    print("   no circulation keeps the bounds. So they are dropped, and 15 trade both ways.")
    show_fills(survey)
    print(f"   One B is kept by rounding: {list(block.roundings)}")
    print(f"   The rules say: {speedex.check(state, block)}")
    kept = market(POOR.replace("dropped 00000001\n", ""))
    try:
        speedex.check(*kept)
    except speedex.RefusedError as error:
        print(f"   Without the cut they say: {error}")
    write(folder, "cut.svg", circulation(block))
    write(folder, "book.svg", book(survey))


def book(survey: rules.Survey) -> str:
    """Supply and demand of A for B."""
    offers: Dict[Tuple[int, int], List[Tuple[int, int]]] = {}
    for (sell, buy, limit, _, _), amount in survey.settled.offers.items():
        offers.setdefault((sell, buy), []).append((limit, amount))
    prices = survey.block.prices
    supply, demand = charts.curves(offers, survey.block.values, prices, (0, 1))
    rate = Fraction(prices[0], prices[1])
    return charts.order_book("book", "Supply and demand of A for B", supply, demand, rate, "B", "A")


def walk_program() -> None:
    print("3. The program finds the same trades")
    try:
        engine = speedex.Engine()
    except speedex.EngineNotFoundError as error:
        print(f"   {error}")
        return
    for text in (RING, POOR):
        state, block = market(text)
        sealed = engine.seal(state, speedex.Candidates(block.transactions), rounds=0)
        words: List[str] = [
            f"{pair(trade.sell, trade.buy)} {decimals.from_fixed(trade.value)}" for trade in sealed.block.trades
        ]
        print(f"   {', '.join(words)}: {'the same' if sealed.block.trades == block.trades else 'others'}")


def main() -> None:
    folder = pathlib.Path(sys.argv[1] if len(sys.argv) > 1 else ".")
    folder.mkdir(parents=True, exist_ok=True)
    walk_ring(folder)
    walk_poor(folder)
    walk_program()


if __name__ == "__main__":
    main()
