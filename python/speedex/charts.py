"""Pictures of a market as inline SVG: the circulation, and supply and demand of a pair.

Each picture has a title and a description for those who do not see it, and colours by name (``var(--supply)``), which
the page sets for light and dark. Places of marks are floats; every figure that is written is exact or says how it is
rounded.
"""

from __future__ import annotations

import math
import pathlib
from dataclasses import dataclass
from fractions import Fraction
from html import escape
from typing import Callable, List, Mapping, Optional, Sequence, Tuple

from .decimals import rounded
from .ledger import Pair

Scale = Callable[[float], float]

#: A curve is drawn in so many steps at most, however many offers it has.
MOST_STEPS = 48
#: Up to so many assets all arrows of a circulation are drawn; above, those of the greatest values, and a matrix.
FEW = 12
MOST_ARROWS = 64


def svg(name: str, width: int, height: int, title: str, about: str, parts: Sequence[str], wide: bool = False) -> str:
    """A picture with a name of its own, which scales to the width that there is."""
    kind = "picture wide" if wide else "picture"
    return (
        f'<svg class="{kind}" viewBox="0 0 {width} {height}" role="img" aria-labelledby="{name}-t {name}-d" '
        f'xmlns="http://www.w3.org/2000/svg"><title id="{name}-t">{escape(title)}</title>'
        f'<desc id="{name}-d">{escape(about)}</desc>{"".join(parts)}</svg>'
    )


def styles(*names: str) -> str:
    """The styles of pictures (``picture.css``) and pages (``page.css``)."""
    return "".join(pathlib.Path(__file__).with_name(name).read_text(encoding="utf-8") for name in names)


def standalone(picture: str) -> str:
    """A picture as a file of its own, which is light or dark as the reader's system is."""
    begin = picture.index(">") + 1
    style = f"<style>{styles('picture.css')}svg {{ background: var(--paper); }}</style>"
    return f'<?xml version="1.0" encoding="utf-8"?>\n{picture[:begin]}{style}{picture[begin:]}\n'


def _text(x: float, y: float, words: object, kind: str = "", anchor: str = "middle") -> str:
    style = f' class="{kind}"' if kind else ""
    return f'<text x="{x:.4g}" y="{y:.4g}" text-anchor="{anchor}"{style}>{escape(str(words))}</text>'


@dataclass(frozen=True)
class _Spot:
    x: float
    y: float


def _spots(count: int, middle: float, level: float, radius: float) -> List[_Spot]:
    """Places on a circle, the first at the top; two stand side by side."""
    turn = math.pi if count == 2 else -math.pi / 2
    angles = [turn + 2 * math.pi * place / count for place in range(count)]
    return [_Spot(middle + radius * math.cos(angle), level + radius * math.sin(angle)) for angle in angles]


def circulation(
    names: Sequence[str], potentials: Sequence[int], values: Mapping[Pair, int], cut: Optional[int]
) -> str:
    """The assets on a circle with their potentials, and an arrow for what each pair trades, from the asset that is
    sold to the one that is bought, as wide as its value. Assets inside the cut have a square."""
    count = len(names)
    size, radius, node = (560, 215, 15) if count > FEW else (480, 160, 24)
    middle, high = size / 2, 220 if count == 2 else size
    spots = _spots(count, middle, high / 2, radius)
    shown = sorted(values.items(), key=lambda item: (-item[1], item[0]))[: MOST_ARROWS if count > FEW else None]
    most = max(values.values(), default=1)
    parts = []
    for (sell, buy), value in reversed(shown):
        parts.append(_arrow(spots[sell], spots[buy], node, value / most, count))
    for asset, spot in enumerate(spots):
        is_inside = cut is not None and bool(cut >> asset & 1)
        kind = "node inside" if is_inside else "node"
        if is_inside:
            corner = f'x="{spot.x - node:.4g}" y="{spot.y - node:.4g}"'
            parts.append(f'<rect class="{kind}" {corner} width="{2 * node}" height="{2 * node}" rx="4"/>')
        else:
            parts.append(f'<circle class="{kind}" cx="{spot.x:.4g}" cy="{spot.y:.4g}" r="{node}"/>')
        parts.append(_text(spot.x, spot.y + 5, names[asset], "name" if count <= FEW else "name small"))
        away = 1 + (node + 22) / radius
        x, y = middle + (spot.x - middle) * away, high / 2 + (spot.y - high / 2) * away
        parts.append(_text(x, y + 5, f"π {potentials[asset]}", "potential" if count <= FEW else "potential small"))
    total = sum(values.values())
    about = f"{count} assets on a circle. {len(values)} pairs trade a value of {rounded(Fraction(total, 1 << 24), 2)}"
    if len(shown) < len(values):
        about += f"; the arrows of the {len(shown)} greatest are drawn"
    if cut is not None:
        about += ". Assets inside the cut have a square"
    return svg("circulation", size, high, "The circulation, with potentials", about + ".", parts, wide=count > FEW)


def _arrow(begin: _Spot, end: _Spot, node: float, share: float, count: int) -> str:
    """An arrow from one spot to another, bent to its left, so that both directions are seen."""
    across, down = end.x - begin.x, end.y - begin.y
    length = math.hypot(across, down) or 1
    bend = (0.28 if count == 2 else 0.16) * length
    bent = _Spot((begin.x + end.x) / 2 + down / length * bend, (begin.y + end.y) / 2 - across / length * bend)
    width = 1 + _widest(count) * share
    head = 5 + 1.6 * width
    first = _towards(begin, bent, node + 2)
    tip = _towards(end, bent, node + 3)
    last = _towards(end, bent, node + 3 + head)
    back = math.hypot(tip.x - last.x, tip.y - last.y) or 1
    side_x, side_y = (tip.y - last.y) / back * head * 0.55, (last.x - tip.x) / back * head * 0.55
    faint = 1.0 if count <= 4 else 0.25 + 0.7 * share * share
    line = f"M{first.x:.4g} {first.y:.4g}Q{bent.x:.4g} {bent.y:.4g} {last.x:.4g} {last.y:.4g}"
    point = (
        f"M{tip.x:.4g} {tip.y:.4g}L{last.x + side_x:.4g} {last.y + side_y:.4g}"
        f"L{last.x - side_x:.4g} {last.y - side_y:.4g}z"
    )
    return (
        f'<g opacity="{faint:.2g}"><path class="arrow" d="{line}" stroke-width="{width:.2g}"/>'
        f'<path class="head" d="{point}"/></g>'
    )


def matrix(names: Sequence[str], values: Mapping[Pair, int]) -> str:
    """What each pair trades: a row for each asset that is sold, a column for each that is bought, and a square whose
    area is the value."""
    cell, edge = 16, 26
    size = edge + cell * len(names) + 4
    most = max(values.values(), default=1)
    parts = []
    for place, name in enumerate(names):
        middle = edge + cell * place + cell / 2
        parts.append(_text(middle, edge - 8, name, "tiny"))
        parts.append(_text(edge - 6, middle + 4, name, "tiny", "end"))
        corner = edge + cell * place
        parts.append(f'<rect class="self" x="{corner}" y="{corner}" width="{cell}" height="{cell}"/>')
    for (sell, buy), value in sorted(values.items()):
        side = max(1.0, (cell - 2) * math.sqrt(value / most))
        x, y = edge + cell * buy + (cell - side) / 2, edge + cell * sell + (cell - side) / 2
        parts.append(f'<rect class="value" x="{x:.4g}" y="{y:.4g}" width="{side:.3g}" height="{side:.3g}"/>')
    about = f"{len(values)} of {len(names) * (len(names) - 1)} pairs trade. The table below has the figures."
    return svg("matrix", size, size, "What each pair trades", about, parts, wide=True)


def _widest(count: int) -> float:
    """How much wider than a hair the widest arrow is."""
    return 7 if count <= 4 else 4.5 if count <= FEW else 3.5


def _towards(begin: _Spot, end: _Spot, far: float) -> _Spot:
    length = math.hypot(end.x - begin.x, end.y - begin.y) or 1
    return _Spot(begin.x + (end.x - begin.x) / length * far, begin.y + (end.y - begin.y) / length * far)


@dataclass(frozen=True)
class Curve:
    """Offers of one direction, from the best price on: each with a price and a value. ``traded`` is the value that
    trades, so the first part of the curve."""

    offers: Sequence[Tuple[float, float]]
    traded: float

    @property
    def total(self) -> float:
        return sum(value for _, value in self.offers)

    def steps(self) -> List[Tuple[float, float]]:
        """The curve in steps: each with its price and where it ends."""
        if not self.offers:
            return []
        found: List[Tuple[float, float]] = []
        wide, end = self.total / MOST_STEPS, 0.0
        for price, value in self.offers:
            end += value
            if not found or len(self.offers) <= MOST_STEPS or end - found[-1][1] >= wide:
                found.append((price, end))
        found[-1] = (found[-1][0], end)
        return found


WIDTH, HEIGHT = 420, 250
LEFT, RIGHT, TOP, BOTTOM = 62, 14, 16, 40


def order_book(name: str, title: str, supply: Curve, demand: Curve, rate: Fraction, unit: str, per: str) -> str:
    """Supply and demand of a pair: along the bottom the value on offer, and upwards the price. The thick part of a
    curve trades; the level line is the batch rate."""
    price = float(rate)
    least, most = _range(supply, demand, price)
    wide = max(supply.total, demand.total) or 1.0
    across, up = WIDTH - LEFT - RIGHT, HEIGHT - TOP - BOTTOM

    def x(value: float) -> float:
        return LEFT + across * min(value / wide, 1.0)

    def y(level: float) -> float:
        return TOP + up * (1 - (min(max(level, least), most) - least) / (most - least))

    parts = [
        f'<path class="axis" d="M{LEFT} {TOP}V{HEIGHT - BOTTOM}H{WIDTH - RIGHT}"/>',
        f'<path class="rate" d="M{LEFT} {y(price):.4g}H{WIDTH - RIGHT}"/>',
    ]
    for kind, curve in (("supply", supply), ("demand", demand)):
        steps = curve.steps()
        if steps:
            parts.append(f'<path class="{kind}" d="{_path(steps, x, y)}"/>')
            if curve.traded > 0:
                parts.append(f'<path class="{kind} trades" d="{_path(_cut_off(steps, curve.traded), x, y)}"/>')
                end = x(curve.traded)
                parts.append(f'<path class="{kind} mark" d="M{end:.4g} {y(price):.4g}V{HEIGHT - BOTTOM}"/>')
    for level in _ticks(least, price, most):
        parts.append(_text(LEFT - 6, y(level) + 4, _short(level), "tick", "end"))
    parts.append(_text(LEFT, HEIGHT - BOTTOM + 15, "0", "tick", "start"))
    parts.append(_text(WIDTH - RIGHT, HEIGHT - BOTTOM + 15, _short(wide), "tick", "end"))
    parts.append(_text(LEFT + across / 2, HEIGHT - 6, f"value on offer; upwards {unit} for one {per}", "tick"))
    about = (
        f"The batch rate is {rounded(rate, 6)} {unit} for one {per}. Supply: {len(supply.offers)} offers worth "
        f"{_short(supply.total)}, of which {_short(supply.traded)} trade. Demand: {len(demand.offers)} offers worth "
        f"{_short(demand.total)}, of which {_short(demand.traded)} trade."
    )
    return svg(name, WIDTH, HEIGHT, title, about, parts)


def _range(supply: Curve, demand: Curve, price: float) -> Tuple[float, float]:
    """The prices that a picture shows: where most of the offers are, and the batch rate well inside."""
    levels = [level for curve in (supply, demand) for level, _ in curve.offers]
    near = sorted(level for level in levels if price / 3 <= level <= price * 3) or [price]
    tail = len(near) // 50
    least, most = min(near[tail], price), max(near[-1 - tail], price)
    room = max((most - least) * 0.12, price * 0.02)
    return max(least - room, 0.0), most + room


def _path(steps: Sequence[Tuple[float, float]], x: Scale, y: Scale) -> str:
    words = [f"M{LEFT} {y(steps[0][0]):.4g}"]
    for place, (price, end) in enumerate(steps):
        if place:
            words.append(f"V{y(price):.4g}")
        words.append(f"H{x(end):.4g}")
    return "".join(words)


def _cut_off(steps: Sequence[Tuple[float, float]], end: float) -> List[Tuple[float, float]]:
    found: List[Tuple[float, float]] = []
    for price, step_end in steps:
        found.append((price, min(step_end, end)))
        if step_end >= end:
            break
    return found


def _ticks(least: float, price: float, most: float) -> List[float]:
    """The batch rate, and the ends of the range where they are not too near to it."""
    near = (most - least) * 0.09
    return [price] + [level for level in (least, most) if abs(level - price) > near]


def _short(number: float) -> str:
    """A figure of a picture, in four digits."""
    for size, letter in ((1e15, "P"), (1e12, "T"), (1e9, "G"), (1e6, "M"), (1e4, "k")):
        if number >= size:
            return f"{number / (1e3 if letter == 'k' else size):.4g}{letter}"
    return f"{number:.4g}"


def curves(
    offers: Mapping[Pair, Sequence[Tuple[int, int]]], values: Mapping[Pair, int], prices: Sequence[int], pair: Pair
) -> Tuple[Curve, Curve]:
    """Supply and demand of a pair: those who sell its first asset for the second, by what they want for it, and those
    who sell the second for the first, by what they give for it. ``offers`` has limit prices and amounts by pair."""
    first, second = pair
    one = float(1 << 24)
    supply = [(limit / one, amount * prices[first] / one) for limit, amount in offers.get((first, second), ())]
    demand = [(one / limit, amount * prices[second] / one) for limit, amount in offers.get((second, first), ())]
    return (
        Curve(sorted(supply), values.get((first, second), 0) / one),
        Curve(sorted(demand, reverse=True), values.get((second, first), 0) / one),
    )
