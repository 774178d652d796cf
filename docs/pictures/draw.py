#!/usr/bin/env python3
"""Draws the pictures of the documents from what the program prints: docs/pictures/draw.py [--check] [PROGRAM]

Every figure in a picture is read from an example or a stored case of this repository, or from what the program answers
to it; PROGRAM is bin/speedex if none is named. Places and sentences stand in this file. With --check nothing is
written, and pictures that would come out different are named; the exit code is then 1. Needs Python 3.9 or later, and
nothing else.
"""

import pathlib
import subprocess
import sys
from fractions import Fraction

HERE = pathlib.Path(__file__).resolve().parent
TOP = HERE.parent.parent
ONE = 2**24

INK, SOFT, LINE, PAPER = "#1f2328", "#57606a", "#8c959f", "#ffffff"
BLUE, GREEN, RED, AMBER = "#0b5cad", "#1a7f37", "#b42318", "#9a6700"
PALE = {BLUE: "#e7f1fb", GREEN: "#e6f4ea", RED: "#fdeceb", AMBER: "#fff5d6", SOFT: "#f3f5f7"}
SANS, MONO = "DejaVu Sans, Verdana, Helvetica, sans-serif", "DejaVu Sans Mono, Menlo, Consolas, monospace"
LETTERS = "ABCDEFGHIJKLMNOPQRSTUVWXYZ"


# ---- what the program says


PROGRAM = str(TOP / "bin/speedex")


def called(words, data):
    """What a command writes for an input; it has to end with code 0."""
    done = subprocess.run([PROGRAM, *words], input=data, stdout=subprocess.PIPE)
    if done.returncode != 0:
        sys.exit(f"draw: {' '.join(words)} ended with exit code {done.returncode}")
    return done.stdout


def records(data):
    """The records of some bytes, each with its tag."""
    while data:
        end = 5 + int.from_bytes(data[1:5], "big")
        yield data[0], data[:end]
        data = data[end:]


def shown(record):
    """The lines of a record, each as its words."""
    return [line.split() for line in called(["show"], record).decode().splitlines()]


def lines(rows, *names):
    return [row for row in rows if row[0] in names]


class Sealed:
    """A market and what a seal makes of it."""

    def __init__(self, data, words):
        self.state, self.candidates = (shown(record) for _, record in records(data))
        sealed = called(["seal", "--workers", "1", *words], data)
        by_tag = dict(records(sealed))
        self.block, self.outcomes = shown(by_tag[3]), shown(by_tag[4])
        state_record = next(record for _, record in records(data))
        self.line = called(["check"], state_record + by_tag[3]).decode().strip()
        self.after = shown(called(["replay"], state_record + sealed))
        assets = lines(self.block, "asset")
        self.prices = [int(row[3]) for row in assets]
        self.potentials = [int(row[5]) for row in assets]
        self.trades = {(int(row[1]), int(row[2])): int(row[3]) for row in lines(self.block, "trade")}
        self.dropped = lines(self.block, "dropped")[0][1]
        self.margin = 2 ** int(self.block[0][6])
        self.offers = [
            dict(zip(("account", "sell", "buy", "limit", "amount"), (int(row[at]) for at in (1, 4, 5, 7, 9))))
            for row in lines(self.block, "tx")
            if row[3] == "offer"
        ]

    def bounds(self, sell, buy):
        """The least and the greatest value of a pair, before any bounds are dropped."""
        low = high = 0
        for offer in self.offers:
            if (offer["sell"], offer["buy"]) != (sell, buy):
                continue
            value = self.prices[sell] * offer["amount"]
            given, wanted = self.prices[sell] * ONE, offer["limit"] * self.prices[buy]
            high += value if given >= wanted else 0
            low += value if given * (self.margin - 1) >= wanted * self.margin else 0
        return low, high

    def gain(self, sell, buy):
        return 1 + self.potentials[sell] - self.potentials[buy]


def file(path):
    return (TOP / path).read_bytes()


def market(*words):
    return Sealed(file("examples/market/state.record") + file("examples/market/candidates.record"), words)


def stored(name):
    words = (TOP / "examples/cases" / name / "words").read_text().split()[1:]
    return Sealed(file(f"examples/cases/{name}/input"), words)


def decimal(number, places=4):
    """A number in units of 2^-24 as a decimal, without zeros at its end."""
    text = f"{float(Fraction(number, ONE)):.{places}f}"
    return text.rstrip("0").rstrip(".")


# ---- drawing


class Picture:
    """An SVG picture on paper of its own, so that it is read on dark pages too."""

    def __init__(self, width, height, title, text):
        self.width, self.height, self.title, self.about, self.parts = width, height, title, text, []

    def add(self, part):
        self.parts.append(part)

    def text(self, x, y, words, size=15, color=INK, anchor="start", bold=False, mono=False):
        family = MONO if mono else SANS
        weight = ' font-weight="bold"' if bold else ""
        words = str(words).replace("&", "&amp;").replace("<", "&lt;")
        self.add(
            f'<text x="{x:g}" y="{y:g}" font-family="{family}" font-size="{size}" fill="{color}" '
            f'text-anchor="{anchor}"{weight}>{words}</text>'
        )

    def box(self, x, y, width, height, color=SOFT, dashed=False, fill=None):
        dash = ' stroke-dasharray="7 5"' if dashed else ""
        self.add(
            f'<rect x="{x:g}" y="{y:g}" width="{width:g}" height="{height:g}" rx="9" fill="{fill or PALE[color]}" '
            f'stroke="{color}" stroke-width="1.6"{dash}/>'
        )

    def card(self, x, y, width, height, color, head, rows):
        """A box with a head and rows of text."""
        self.box(x, y, width, height, color)
        self.text(x + 13, y + 26, head, 16, color, bold=True)
        for at, row in enumerate(rows):
            self.text(x + 13, y + 51 + 22 * at, row, 14)

    def line(self, points, color=LINE, width=2, arrow=False, dashed=False):
        path = " ".join(f"{x:g},{y:g}" for x, y in points)
        head = f' marker-end="url(#head{color[1:]})"' if arrow else ""
        dash = ' stroke-dasharray="6 5"' if dashed else ""
        self.add(f'<polyline points="{path}" fill="none" stroke="{color}" stroke-width="{width:g}"{dash}{head}/>')

    def area(self, points, color):
        path = " ".join(f"{x:g},{y:g}" for x, y in points)
        self.add(f'<polygon points="{path}" fill="{PALE[color]}" stroke="none"/>')

    def dot(self, x, y, radius, color, fill=None):
        self.add(
            f'<circle cx="{x:g}" cy="{y:g}" r="{radius:g}" fill="{fill or color}" stroke="{color}" stroke-width="2"/>'
        )

    def svg(self):
        heads = "".join(
            f'<marker id="head{color[1:]}" viewBox="0 0 10 10" refX="9" refY="5" markerWidth="7" markerHeight="7" '
            f'orient="auto"><path d="M0,0 L10,5 L0,10 z" fill="{color}"/></marker>'
            for color in (LINE, SOFT, BLUE, GREEN, RED, AMBER)
        )
        return (
            f'<svg xmlns="http://www.w3.org/2000/svg" viewBox="0 0 {self.width} {self.height}" width="{self.width}" '
            f'height="{self.height}" role="img" aria-labelledby="title about">\n'
            f'<title id="title">{self.title}</title>\n<desc id="about">{self.about}</desc>\n<defs>{heads}</defs>\n'
            f'<rect x="1" y="1" width="{self.width - 2}" height="{self.height - 2}" rx="12" fill="{PAPER}" '
            f'stroke="#d0d7de" stroke-width="1.5"/>\n' + "\n".join(self.parts) + "\n</svg>\n"
        )


# ---- the pictures


def flow():
    """A block on its way, with the figures of examples/market."""
    it = market()
    counts = {}
    for row in lines(it.outcomes, *(row[0] for row in it.outcomes[1:])):
        counts[row[1]] = counts.get(row[1], 0) + 1
    names = {"static": "refused by the ledger", "overdraft": "overdraft", "accepted": "accepted"}
    told = [f"{count} {names[name]}" for name, count in sorted(counts.items())]
    heads = {"before": it.state[0], "after": it.after[0]}
    accounts, assets = len(lines(it.state, "account")), heads["before"][6]
    total = int(it.line.split()[4])
    picture = Picture(
        960, 432, "A block on its way",
        "State and candidates are gathered, priced and traded into a block; others check the block and replay it.",
    )
    picture.text(24, 38, "seal: whoever makes the block", 17, SOFT, bold=True)
    width, gap, top, tall = 204, 32, 54, 132
    xs = [24 + (width + gap) * at for at in range(4)]
    rate = Fraction(it.prices[0], it.prices[1])
    kept = it.line.split()[-1]
    holds = [f"a state: height {heads['before'][4]},", f"{accounts} accounts, {assets} assets"]
    asked = [f"{it.candidates[0][1]} transactions,", "in any order"]
    costs = [f"{letter} costs {decimal(price)}" for letter, price in zip(LETTERS, it.prices)]
    values = [f"{LETTERS[sell]} for {LETTERS[buy]}: {decimal(value, 2)}" for (sell, buy), value in it.trades.items()]
    cards = [
        (SOFT, "Input", [*holds, *asked]),
        (BLUE, "1 Gather", ["threads, without locks", *told]),
        (BLUE, "2 Search prices", [*costs, f"so 1 A buys {float(rate):.4f} B"]),
        (BLUE, "3 Trade the most", [*values, f"lower bounds {kept}"]),
    ]
    for x, (color, head, rows) in zip(xs, cards):
        picture.card(x, top, width, tall, color, head, rows)
    for x in xs[1:]:
        picture.line([(x - gap + 3, top + tall / 2), (x - 3, top + tall / 2)], SOFT, arrow=True)
    lower = 270
    picture.text(xs[1], lower - 14, "check and replay: everybody else", 17, SOFT, bold=True)
    first, last = xs[0] + width / 2, xs[3] + width / 2
    picture.line([(last, top + tall + 3), (last, 218), (first, 218), (first, lower - 4)], SOFT, arrow=True)
    after = {int(row[1]): [int(word) for word in row[5:]] for row in lines(it.after, "account")}
    rest, taken, said = lines(it.after, "offer")[0], len(lines(it.block, "tx")), it.line.split()[0]
    below = [
        (SOFT, width, "Block", [f"{taken} transactions, prices,", "trades, potentials,", "roundings, digests"]),
        (GREEN, width, "Check by sums",
         ["nothing is searched:", f"{said}, value {decimal(total, 2)},", f"bounds {kept}"]),
        (GREEN, 2 * width + gap, f"Replay: the state at height {heads['after'][4]}",
         [f"account 1 has {after[1][1]} B, account 2 has {after[2][0]} A,",
          f"account 3 has {after[3][0]} A, account 4 has {after[4][1]} B,",
          f"and {rest[-1]} A of account {rest[6]} rests on offer"]),
    ]
    x = 24
    for at, (color, wide, head, rows) in enumerate(below):
        picture.card(x, lower, wide, 124, color, head, rows)
        if at:
            picture.line([(x - gap + 3, lower + 62), (x - 3, lower + 62)], SOFT, arrow=True)
        x += wide + gap
    picture.text(24, 416, "Figures: examples/market, as the program answers it.", 13, SOFT)
    return picture


def supply():
    """Supply and demand of a pair at the price that was found, in examples/market."""
    it = market()
    rate = Fraction(it.prices[0], it.prices[1])
    sellers = sorted((Fraction(o["limit"], ONE), o["account"], o["amount"]) for o in it.offers if o["sell"] == 0)
    (buyer,) = [o for o in it.offers if o["sell"] == 1]
    most = 1 / Fraction(buyer["limit"], ONE)
    traded = Fraction(it.trades[0, 1], it.prices[0])
    picture = Picture(
        960, 576, "Supply and demand of a pair",
        "The supply of A as steps, the demand for A as a falling curve, and the rate at which they meet.",
    )
    left, right, bottom, top = 96, 640, 478, 104
    high_x, low_y, high_y = 26, Fraction(12, 10), Fraction(22, 10)

    def at(amount, price):
        return (
            left + float(Fraction(amount) / high_x) * (right - left),
            bottom - float((Fraction(price) - low_y) / (high_y - low_y)) * (bottom - top),
        )

    picture.text(24, 38, "How much A is offered and wanted, at each rate", 17, SOFT, bold=True)
    sold = Fraction(0)
    shades = (BLUE, AMBER)
    for (limit, account, amount), color in zip(sellers, shades):
        part = min(Fraction(amount), traded - sold)
        corners = [at(sold, low_y), at(sold, rate), at(sold + part, rate), at(sold + part, low_y)]
        picture.area(corners, color)
        x, _ = at(sold + part / 2, rate)
        picture.text(x, bottom - 40, f"account {account}", 14, color, "middle", bold=True)
        picture.text(x, bottom - 20, f"sells {float(part):.2f} A", 14, color, "middle")
        sold += part
    picture.line([(left, top - 8), (left, bottom), (right, bottom)], INK, 1.8)
    for step in range(0, high_x + 1, 5):
        x, y = at(step, low_y)
        picture.line([(x, y), (x, y + 6)], INK, 1.5)
        picture.text(x, y + 24, step, 14, INK, "middle")
    for tenth in range(12, 23, 2):
        x, y = at(0, Fraction(tenth, 10))
        picture.line([(x - 6, y), (x, y)], INK, 1.5)
        picture.text(x - 12, y + 5, f"{tenth / 10:.1f}", 14, INK, "end")
    picture.text((left + right) / 2, bottom + 50, "units of A", 15, INK, "middle")
    picture.text(left - 62, top - 26, "rate: B for one A", 15, INK)
    steps, amount_so_far = [at(0, low_y)], Fraction(0)
    for limit, _, amount in sellers:
        steps += [at(amount_so_far, limit), at(amount_so_far + amount, limit)]
        amount_so_far += amount
    steps.append(at(amount_so_far, high_y))
    picture.line(steps, BLUE, 3)
    curve = [at(0, most), at(buyer["amount"] / most, most)]
    for step in range(1, 61):
        price = most - (most - Fraction(1235, 1000)) * step / 60
        curve.append(at(buyer["amount"] / price, price))
    picture.line(curve, GREEN, 3)
    x, y = at(traded, rate)
    picture.line([at(0, rate), (x, y), at(traded, low_y)], RED, 1.8, dashed=True)
    picture.dot(x, y, 6, RED)
    side = right + 22
    picture.text(side, top + 6, "Demand", 16, GREEN, bold=True)
    picture.text(side, top + 29, f"Account {buyer['account']} sells {buyer['amount']} B and", 14)
    picture.text(side, top + 50, f"gives at most {decimal(int(most * ONE), 2)} B for an A.", 14)
    picture.text(side, top + 96, "Supply", 16, BLUE, bold=True)
    for row, (limit, account, amount) in enumerate(sellers):
        wanted = f"{float(limit):.2f}"
        picture.text(side, top + 119 + 46 * row, f"Account {account} sells {amount} A and", 14)
        picture.text(side, top + 140 + 46 * row, f"wants {wanted} B or more for each.", 14)
    picture.text(side, top + 232, "They meet", 16, RED, bold=True)
    picture.text(side, top + 255, f"{it.prices[0]} / {it.prices[1]}", 14, mono=True)
    picture.text(side, top + 276, f"= {float(rate):.4f} B for an A.", 14)
    picture.text(side, top + 297, f"{float(traded):.2f} A trade, worth", 14)
    picture.text(side, top + 318, f"{decimal(it.trades[0, 1], 2)} each way. Both sellers", 14)
    picture.text(side, top + 339, "get this one rate.", 14)
    picture.text(24, 560, "Figures: examples/market, as the program answers it.", 13, SOFT)
    return picture


def demand():
    """What the margin does to the supply of A in examples/market, near the limit price of account 4."""
    exponents = (8, 9, 10)
    found = [market("--mu", str(j)) for j in exponents]
    it = found[-1]
    sellers = sorted((Fraction(o["limit"], ONE), o["account"], o["amount"]) for o in it.offers if o["sell"] == 0)
    (_, _, first), (limit, account, second) = sellers
    (buyer,) = [o for o in it.offers if o["sell"] == 1]
    picture = Picture(
        960, 560, "Why the margin exists",
        "At a limit price supply jumps past demand; with a margin it rises along a slope, and they meet.",
    )
    left, right, bottom, top = 112, 620, 470, 104
    low_x, high_x, low_y, high_y = 8, 22, Fraction(1597, 1000), Fraction(1608, 1000)

    def at(amount, price):
        return (
            left + float((Fraction(amount) - low_x) / (high_x - low_x)) * (right - left),
            bottom - float((Fraction(price) - low_y) / (high_y - low_y)) * (bottom - top),
        )

    head = f"How much A is offered and wanted, near the limit price of account {account}"
    picture.text(24, 38, head, 17, SOFT, bold=True)
    picture.line([(left, top - 8), (left, bottom), (right, bottom)], INK, 1.8)
    for step in range(low_x, high_x + 1, 2):
        x, y = at(step, low_y)
        picture.line([(x, y), (x, y + 6)], INK, 1.5)
        picture.text(x, y + 24, step, 14, INK, "middle")
    for thousandth in range(1598, 1609, 2):
        x, y = at(low_x, Fraction(thousandth, 1000))
        picture.line([(x - 6, y), (x, y)], INK, 1.5)
        picture.text(x - 12, y + 5, f"{thousandth / 1000:.3f}", 14, INK, "end")
    picture.text((left + right) / 2, bottom + 50, "units of A", 15, INK, "middle")
    picture.text(left - 78, top - 26, "rate: B for one A", 15, INK)
    wanted = [at(buyer["amount"] / price, price) for price in (low_y, high_y)]
    picture.line(wanted, GREEN, 3)
    steepest = 2 ** exponents[-1]
    jump = [at(first, limit), at(first + second, limit), at(first + second, limit * steepest / (steepest - 1))]
    picture.line(jump, SOFT, 2.4, dashed=True)
    for j, one in zip(exponents, found):
        full = limit * 2**j / (2**j - 1)
        slope = [at(first, low_y)]
        for step in range(21):
            part = Fraction(step, 20)
            slope.append(at(first + second * part, limit * 2**j / (2**j - part)))
        picture.line([*slope, at(first + second, high_y)], BLUE, 2.4)
        x, y = at(first + second, full)
        picture.text(x + 10, y + (16 if j == exponents[-1] else 5), f"1/{2**j}", 14, BLUE, bold=True)
    rows = []
    for j, one in zip(exponents, found):
        rate, traded = Fraction(one.prices[0], one.prices[1]), Fraction(one.trades[0, 1], one.prices[0])
        assert one.margin == 2**j and one.dropped == "none"
        assert abs(first + second * 2**j * (1 - limit / rate) - traded) < Fraction(1, 100), "not on the slope"
        picture.dot(*at(traded, rate), 6, RED)
        rows.append(f"1/{2**j}: {float(traded):.3f} A at {float(rate):.5f} B")
    side = right + 30
    at_limit = buyer["amount"] / limit
    least, most = f"{float(limit):.1f} B", f"{float(at_limit):.2f} A"
    told = [
        ("Demand", GREEN, [f"Account {buyer['account']} gives {buyer['amount']} B: {most}", f"at {least} for an A."]),
        ("Supply without a margin", SOFT,
         [f"At {least} it jumps from {first} A", f"to {first + second} A, past the {most}", "that are wanted: no rate",
          "balances them."]),
        ("Supply with a margin μ", BLUE,
         [f"Account {account} sells a part that grows", f"from nothing at {least} to all",
          "once the rate is μ above it."]),
        ("What the program finds", RED, rows),
    ]
    y = top + 2
    for head, color, texts in told:
        picture.text(side, y, head, 16, color, bold=True)
        for row, words in enumerate(texts):
            picture.text(side, y + 23 + 21 * row, words, 14)
        y += 36 + 21 * len(texts)
    picture.text(24, 544, "Figures: examples/market with --mu 8, 9 and 10, as the program answers it.", 13, SOFT)
    return picture


def circulation():
    """The greatest circulation of a stored case, with the potentials that certify it."""
    name = "seal_greatest_circulation"
    it = stored(name)
    pairs = sorted({(o["sell"], o["buy"]) for o in it.offers})
    picture = Picture(
        960, 474, "A circulation with its potentials",
        "Three assets trade in a ring; potentials show that no circulation within the bounds trades more.",
    )
    picture.text(24, 38, "What trades, and why nothing can trade more", 17, SOFT, bold=True)
    places = [(205, 128), (338, 342), (72, 342)]
    radius = 42
    for sell, buy in pairs:
        (x0, y0), (x1, y1) = places[sell], places[buy]
        length = ((x1 - x0) ** 2 + (y1 - y0) ** 2) ** 0.5
        ux, uy = (x1 - x0) / length, (y1 - y0) / length
        shift = 13 if (buy, sell) in pairs else 0
        ox, oy = -uy * shift, ux * shift
        here = it.trades.get((sell, buy), 0)
        color = BLUE if here else LINE
        start = (x0 + ux * (radius + 5) - ox, y0 + uy * (radius + 5) - oy)
        end = (x1 - ux * (radius + 5) - ox, y1 - uy * (radius + 5) - oy)
        picture.line([start, end], color, 3 if here else 2, arrow=True, dashed=not here)
        away = 30 if shift else 22
        x, y = (start[0] + end[0]) / 2 + uy * away, (start[1] + end[1]) / 2 - ux * away
        if uy == 0:
            y = (start[1] + end[1]) / 2 + 28
        label = decimal(here)
        picture.text(x, y + 5, label, 17, color if here else SOFT, "middle", bold=True)
    for (x, y), letter, price, potential in zip(places, LETTERS, it.prices, it.potentials):
        picture.dot(x, y, radius, BLUE, PALE[BLUE])
        picture.text(x, y - 8, letter, 18, INK, "middle", bold=True)
        picture.text(x, y + 11, f"costs {decimal(price)}", 12, INK, "middle")
        picture.text(x, y + 27, f"pot. {potential}", 13, RED, "middle", bold=True)
    left = 448
    columns = [left + 14, left + 190, left + 310, left + 420]
    picture.text(left, 92, "gain = 1 + potential of the sold asset", 15, RED)
    picture.text(left + 54, 114, "− potential of the bought asset", 15, RED)
    for x, word in zip(columns, ("pair", "gain", "may trade", "trades")):
        picture.text(x, 154, word, 15, SOFT, bold=True)
    picture.line([(left, 164), (left + 488, 164)], LINE, 1.2)
    certified = 0
    for row, (sell, buy) in enumerate(pairs):
        y = 190 + 28 * row
        low, high = it.bounds(sell, buy)
        gain, here = it.gain(sell, buy), it.trades.get((sell, buy), 0)
        certified += max(gain, 0) * high + min(gain, 0) * low
        cells = (f"{LETTERS[sell]} for {LETTERS[buy]}", f"{gain}", decimal(high), decimal(here))
        for x, cell in zip(columns, cells):
            picture.text(x, y, cell, 16, BLUE if here else INK)
    total = sum(it.trades.values())
    y = 190 + 28 * len(pairs) + 14
    picture.line([(left, y - 24), (left + 488, y - 24)], LINE, 1.2)
    sums = " + ".join(f"{max(it.gain(*pair), 0)} × {decimal(it.bounds(*pair)[1])}" for pair in pairs)
    picture.text(left, y + 8, "Around any circulation the potentials cancel, so its", 15)
    picture.text(left, y + 30, "value is the sum of gain × trade. That is at most", 15)
    picture.text(left, y + 56, f"{sums} = {decimal(certified)}.", 15, mono=True)
    picture.text(left, y + 82, f"This one trades {decimal(total)}: none trades more.", 15, GREEN, bold=True)
    source = f"Figures: the stored case {name}, as the program answers it. No pair has to trade."
    picture.text(24, 458, source, 13, SOFT)
    assert certified == total, "the potentials do not certify the trades"
    assert all(it.bounds(*pair)[0] == 0 for pair in pairs), "a pair has to trade"
    return picture


def cut():
    """A set of assets into which more must go than may go out, in a stored case."""
    name = "seal_dropped_bounds"
    it = stored(name)
    mask = int(it.dropped, 16)
    inside = [asset for asset in range(len(it.prices)) if mask >> asset & 1]
    (asset,), (other,) = inside, [one for one in range(len(it.prices)) if one not in inside]
    into, out = it.bounds(other, asset), it.bounds(asset, other)
    assert into[0] > out[1], "the set is no cut"
    sells = {o["sell"]: o["amount"] for o in it.offers}
    picture = Picture(
        960, 398, "A cut",
        "More value must go into a set of assets than may go out of it, so no circulation keeps the bounds.",
    )
    picture.text(24, 38, "Why the lower bounds of this block cannot be kept", 17, SOFT, bold=True)
    x0, x1, y, radius = 150, 478, 190, 52
    picture.box(60, 92, 180, 200, RED, dashed=True)
    picture.text(150, 120, f"the cut {it.dropped}", 15, RED, "middle", bold=True)
    picture.line([(x1 - radius, y - 22), (x0 + radius + 6, y - 22)], RED, 3, arrow=True)
    picture.line([(x0 + radius, y + 22), (x1 - radius - 6, y + 22)], BLUE, 3, arrow=True)
    for x, one, color in ((x0, asset, RED), (x1, other, BLUE)):
        picture.dot(x, y, radius, color, PAPER)
        picture.text(x, y - 2, LETTERS[one], 20, INK, "middle", bold=True)
        picture.text(x, y + 19, f"costs {decimal(it.prices[one])}", 12, INK, "middle")
    middle = (240 + x1 - radius) / 2
    picture.text(middle, y - 36, f"must go in: {decimal(into[0])}", 15, RED, "middle", bold=True)
    picture.text(middle, y + 50, f"may go out: {decimal(out[1])}", 15, BLUE, "middle", bold=True)
    left = 556
    rows = [
        (f"All {sells[other]} {LETTERS[other]} must be sold for {LETTERS[asset]}, worth", INK),
        (f"{sells[other]} × {decimal(it.prices[other])} = {decimal(into[0])}.", RED),
        (f"All that may leave {LETTERS[asset]} is {sells[asset]} {LETTERS[asset]}, worth", INK),
        (f"{sells[asset]} × {decimal(it.prices[asset])} = {decimal(out[1])}.", BLUE),
        ("In a circulation as much goes in as out, so", INK),
        (f"none can be: {decimal(into[0])} > {decimal(out[1])}.", INK),
        ("The block drops its lower bounds and", INK),
        (f"prints the cut. {decimal(it.trades[asset, other])} trade each way.", GREEN),
    ]
    for row, (words, color) in enumerate(rows):
        picture.text(left, 106 + 25 * row + 12 * (row // 2), words, 15, color, bold=color in (RED, BLUE, GREEN))
    picture.text(24, 382, f"Figures: the stored case {name}, as the program answers it.", 13, SOFT)
    return picture


def gathering():
    """Words and seats: two actors at one purse, step by step, in examples/interleave."""
    folder = TOP / "examples/interleave"
    data = [(folder / f"{name}.record").read_bytes() for name in ("state", "candidates", "script")]
    state, candidates, script = (shown(record) for record in data)
    outcomes = shown(called(["interleave"], b"".join(data)))[1:]
    payments = [(int(row[2]), int(row[-1])) for row in lines(candidates, "tx")]
    payer = lines(candidates, "tx")[0][1]
    purse = int(next(row for row in lines(state, "account") if row[1] == payer)[5])
    turns = [int(row[1]) for row in lines(script, "turn")]
    picture = Picture(
        960, 644, "Words and seats of gathering",
        "Two passes take atomic steps at the words of one shard; the second finds that too little is left.",
    )
    picture.text(24, 38, "Two threads want the same balance, and neither waits", 17, SOFT, bold=True)
    lanes, colors = [(24, 270), (666, 270)], (BLUE, AMBER)
    for actor, ((x, wide), color) in enumerate(zip(lanes, colors)):
        number, amount = payments[actor]
        rows = [f"candidate {actor}: account {payer} pays {amount},", f"sequence number {number}"]
        picture.card(x, 58, wide, 82, color, f"Pass {actor}, with its seat", rows)
    rows = [f"purse of account {payer}: {purse}", "bits of its window: all clear"]
    picture.card(346, 58, 268, 82, SOFT, "Words of the shard", rows)
    for x in (159, 801):
        picture.line([(x, 140), (x, 514)], LINE, 1.4, dashed=True)
    picture.box(400, 152, 160, 362, SOFT)
    picture.text(480, 176, "after each step", 13, SOFT, "middle")
    seen, done, claimed = {}, {0: 0, 1: 0}, set()
    left = purse
    for row, actor in enumerate(turns):
        y = 204 + 54 * row
        color, (number, amount) = colors[actor], payments[actor]
        step = done[actor]
        done[actor] += 1
        if step == 0:
            claimed.add(number)
            words, answer = f"claims number {number}", "it was clear"
        elif step == 1:
            seen[actor] = left
            words, answer = "loads the purse", f"sees {left}"
        else:
            taken = left == seen[actor]
            words = f"takes {amount} if still {seen[actor]}"
            left -= amount if taken else 0
            answer = "taken" if taken else f"no: {left} is left"
        x0, x1 = (159, 400) if actor == 0 else (801, 560)
        picture.line([(x0, y), (x1 + (-3 if actor == 0 else 3), y)], color, 2.4, arrow=True)
        picture.dot(x0, y, 6, color)
        middle = (x0 + x1) / 2
        picture.text(middle, y - 8, f"{row + 1}  {words}", 14, color, "middle", bold=True)
        picture.text(middle, y + 18, answer, 14, INK, "middle")
        bits = " ".join(str(it) for it in sorted(claimed))
        picture.text(480, y + 1, f"purse {left}", 15, INK, "middle", bold=True)
        picture.text(480, y + 20, f"used: {bits}", 13, SOFT, "middle")
    for actor, ((x, wide), color) in enumerate(zip(lanes, colors)):
        outcome = outcomes[actor]
        told = "accepted" if outcome[1] == "accepted" else f"overdraft: {outcome[3]} seen, {outcome[5]} needed"
        picture.box(x, 518, wide, 36, color, fill=PAPER)
        picture.text(x + wide / 2, 541, told, 14, color, "middle", bold=True)
        assert outcome[1] == "accepted" or int(outcome[3]) == left, "the steps drawn are not those of the program"
    why = "A purse only falls and a bit is only set. So what was too little when a step saw it stays too little, and"
    picture.text(24, 582, why, 14)
    picture.text(24, 602, "no step has to be undone.", 14)
    picture.text(24, 628, "Figures: examples/interleave, as the program answers it.", 13, SOFT)
    return picture


PICTURES = {
    "flow": flow,
    "supply": supply,
    "demand": demand,
    "circulation": circulation,
    "cut": cut,
    "gathering": gathering,
}


def main(words):
    global PROGRAM
    check = words[:1] == ["--check"]
    words = words[check:]
    if len(words) > 1 or words and words[0].startswith("-"):
        sys.exit("usage: docs/pictures/draw.py [--check] [PROGRAM]")
    if words:
        PROGRAM = words[0]
    other = []
    for name, draw in PICTURES.items():
        path, svg = HERE / f"{name}.svg", draw().svg()
        if not check:
            path.write_text(svg)
        elif not path.is_file() or path.read_text() != svg:
            other.append(path.name)
    if other:
        sys.exit(f"draw: the program says something else than {', '.join(other)}")
    print(f"{len(PICTURES)} pictures {'are' if check else 'drawn as'} what the program says")


main(sys.argv[1:])
