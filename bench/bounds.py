"""Bounds of trade for bench/circulation: for each two assets the least and the greatest value that may be traded.

Each kind is a function of the number of assets and of a generator, and answers a table of pairs (low, high), by the
asset sold and the asset bought.
"""
ORDERS = 102


def table(assets, span):
    """The bounds of each two different assets, and none of an asset with itself."""
    return [[(0, 0) if sell == buy else span(sell, buy) for buy in range(assets)] for sell in range(assets)]


def value(draw, least, end):
    """A value of an order of magnitude from 2^least on, and below 2^end."""
    return draw.getrandbits(20) + (1 << 20) << draw.randrange(least, end) >> 20


def circulation(assets, draw):
    """A sum of cycles, one through each two assets, and mostly a third."""
    y = [[0] * assets for _ in range(assets)]
    for sell in range(assets):
        for buy in range(assets):
            if sell == buy:
                continue
            amount, third = value(draw, 20, 44), draw.randrange(assets)
            path = [sell, buy, sell] if third in (sell, buy) else [sell, buy, third, sell]
            for tail, head in zip(path, path[1:]):
                y[tail][head] += amount
    return y


def zero(assets, draw):
    return table(assets, lambda sell, buy: (0, 0))


def tight(assets, draw):
    """Only a drawn circulation is within them."""
    y = circulation(assets, draw)
    return table(assets, lambda sell, buy: (y[sell][buy], y[sell][buy]))


def most(assets, draw):
    return table(assets, lambda sell, buy: (0, 1 << ORDERS))


def half(assets, draw):
    """More must go into one half of the assets than may go out."""

    def span(sell, buy):
        outer = draw.getrandbits(20)
        if (sell < assets // 2) == (buy < assets // 2):
            return 0, 1 << 40
        return (0, outer) if sell < assets // 2 else (outer + (1 << 20), outer + (1 << 20))

    return table(assets, span)


def ring(assets, draw):
    """Each asset may be sold for the next one."""
    return table(assets, lambda sell, buy: (0, 1000 + sell if buy == (sell + 1) % assets else 0))


def rings(assets, draw):
    """The first half of the assets is a ring, and so is the rest."""
    middle = max(1, assets // 2)

    def following(asset):
        return (asset + 1) % middle if asset < middle else middle + (asset + 1 - middle) % (assets - middle)

    return table(assets, lambda sell, buy: (0, 1000 + sell if buy == following(sell) else 0))


def small(assets, draw):
    return table(assets, lambda sell, buy: (0, draw.randrange(4)))


def spread(assets, draw):
    """Upper bounds of any order of magnitude below 2^50."""
    return table(assets, lambda sell, buy: (0, value(draw, 0, 50)))


def wide(assets, draw):
    """Upper bounds of any order of magnitude from 2^50 to 2^102."""
    return table(assets, lambda sell, buy: (0, value(draw, 50, ORDERS)))


def chance(assets, draw):
    """Bounds of many orders of magnitude about a drawn circulation."""
    y = circulation(assets, draw)

    def span(sell, buy):
        amount = y[sell][buy]
        return amount - (amount >> draw.randrange(8)), amount + (amount >> draw.randrange(8))

    return table(assets, span)


def posted(assets, draw):
    """What 32 offers of each pair may trade and what they must, at prices apart by chance, with a margin of 1/1024."""
    prices = [(asset + 1) * draw.uniform(0.5, 1.5) for asset in range(assets)]

    def span(sell, buy):
        low = high = 0
        for _ in range(32):
            amount = int(draw.randint(1, 1 << 16) * prices[sell] * 2**24)
            limit, rate = (sell + 1) * draw.uniform(0.5, 1.5) / (buy + 1), prices[sell] / prices[buy]
            high += amount if limit <= rate else 0
            low += amount if limit <= rate * (1 - 2**-10) else 0
        return low, high

    return table(assets, span)


def offers(assets, draw):
    """The same, but nothing must be traded."""
    return without_lower(posted(assets, draw))


def scales(assets, draw):
    """One asset is bought only, for each other one up to a bound of another order, so that each scale has a path."""
    step = 96 // max(1, assets - 1)
    return table(assets, lambda sell, buy: (0, 0 if buy else (1 << step * sell + 5) + draw.getrandbits(5)))


def nested(assets, draw):
    """Each asset may be sold for the one before, up to less and less: each level shows a cut, and has one more path."""
    short = [draw.getrandbits(96) >> draw.randrange(96) for _ in range(assets)]
    return table(assets, lambda sell, buy: (0, sum(short[sell:]) if sell == buy + 1 else 0))


def layers(assets, draw):
    """Assets in layers of four. Each may be sold for those of the layer before, up to bounds of all orders."""
    return table(assets, lambda sell, buy: (0, value(draw, 0, ORDERS) if sell // 4 == buy // 4 + 1 else 0))


def ladder(assets, draw):
    """The same, and back again by a tenth of the pairs."""

    def span(sell, buy):
        if sell // 4 == buy // 4 + 1:
            return 0, value(draw, 0, ORDERS)
        return 0, value(draw, 0, ORDERS) if draw.randrange(10) == 0 else 0

    return table(assets, span)


def without_lower(bounds):
    return [[(0, high) for _, high in row] for row in bounds]


KINDS = (zero, tight, most, half, ring, rings, small, spread, wide, chance, offers, posted)
KINDS += (scales, nested, layers, ladder)
