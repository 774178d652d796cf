"""What the program has to answer, computed apart from it: from docs/FORMATS.md, docs/RULES.md and the Python package.

There are three kinds of answers. `Crowd` has inputs of any length whose answers are closed forms. `Searches` has the
price search of docs/RULES.md, and `judge_seal` says what is wrong with a sealed block, of which many are right.
`demo_market` is the market of `demo N`. Nothing here calls the program.
"""

import bisect
import hashlib
import struct
import sys

from checks import TOP

sys.path.insert(0, str(TOP / "python"))

from speedex import reading, records, rules, writing

ONE = records.ONE
FRAME = 5
NO_DIGEST = bytes(32)
PAY = struct.Struct(">QQBQBQ").pack
CREATE = struct.Struct(">QQBQ").pack
OFFER = struct.Struct(">QQBBBQQ").pack


def sha256(data):
    return hashlib.sha256(data).digest()


def record(tag, payload):
    return struct.pack(">BI", tag, len(payload)) + payload


def listed(entries):
    """A count and the entries."""
    return struct.pack(">I", len(entries)) + b"".join(entries)


def numbers(form, items):
    return struct.pack(f">{len(items)}{form}", *items)


# ---- closed forms


class Crowd:
    """A ledger of `count` accounts, 1 up, at `height`, of which each has `balance` of each asset, and its records.

    `lasts` has the last sequence number of each, `balances` what each has, and `offers` the entries of the ledger's.
    All prices are 1, except in a state that says otherwise.
    """

    def __init__(self, count, assets=1, balance=1000, version=1, height=0):
        self.count, self.assets, self.version, self.height = count, assets, version, height
        self.lasts = [0] * count
        self.balances = [[balance] * assets for _ in range(count)]
        self.offers = []

    def accounts(self):
        entry = struct.Struct(f">QQ{self.assets}Q" if self.version == 1 else f">QQQ{self.assets}Q").pack
        used = () if self.version == 1 else (0,)
        rows = enumerate(zip(self.lasts, self.balances), 1)
        return [entry(id, last, *used, *balances) for id, (last, balances) in rows]

    def state(self):
        head = struct.pack(">BQB", self.version, self.height, self.assets)
        head += numbers("Q", [ONE] * self.assets) + bytes(8 * self.assets)
        return record(1, head + listed(self.accounts()) + listed(self.offers))

    def block(self, body, trades=()):
        """The record of the valid block of these transactions, once the ledger was changed to what they leave: the
        digest of the ledger before it is taken from `parent`."""
        self.height += 1
        head = struct.pack(">BQ32s32sBB", 1, self.height, self.parent, sha256(body), 10, self.assets)
        head += numbers("Q", [ONE] * self.assets) + struct.pack(">H", len(trades))
        head += b"".join(struct.pack(">BBQQ", sell, buy, value >> 64, value % 2**64) for sell, buy, value in trades)
        head += bytes(1 + 4 * self.assets + 8 * self.assets)
        return record(3, head + sha256(self.state()) + body)

    def begin(self):
        """Notes the digest of the ledger before a block; its state record."""
        state = self.state()
        self.parent = sha256(state)
        return state

    def payments(self, count):
        """So many payments of 1 unit, each to the next account, which are done; their list."""
        counts = [count // self.count + (at < count % self.count) for at in range(self.count)]
        entries = []
        for at, many in enumerate(counts):
            last, payee = self.lasts[at], (at + 1) % self.count
            entries += [PAY(at + 1, last + 1 + seq, 1, payee + 1, 0, 1) for seq in range(many)]
            self.lasts[at] += many
            self.balances[at][0] -= many
            self.balances[payee][0] += many
        return listed(entries)

    def resting(self, count):
        """So many offers that do not trade, each of 1 unit and by the next account; their list, in order."""
        made = []
        for at in range(count):
            place = at % self.count
            self.lasts[place] += 1
            self.balances[place][0] -= 1
            made.append((place + 1, self.lasts[place], ONE + 1 + at))
        self.offers += [struct.pack(">BBQQQQ", 0, 1, limit, id, seq, 1) for id, seq, limit in made]
        return listed([OFFER(id, seq, 3, 0, 1, limit, 1) for id, seq, limit in sorted(made)])

    def trading(self, count):
        """An even number of offers that trade 3 units of one asset for 3 of the other; their list and the trades."""
        entries = []
        for at in range(count):
            place, side = at % self.count, at % 2
            self.lasts[place] += 1
            self.balances[place][side] -= 3
            self.balances[place][1 - side] += 3
            entries.append((place + 1, self.lasts[place], side))
        value = count // 2 * 3 * ONE
        body = listed([OFFER(id, seq, 3, side, 1 - side, ONE // 2, 3) for id, seq, side in sorted(entries)])
        return body, [(0, 1, value), (1, 0, value)] if count else []

    def creations(self, count):
        """So many creations by the accounts that there are; their list."""
        entries, there = [], self.count
        for at in range(count):
            place = at % there
            self.lasts[place] += 1
            entries.append((place + 1, self.lasts[place], there + 1 + at))
        self.count += count
        self.lasts += [0] * count
        self.balances += [[0] * self.assets for _ in range(count)]
        return listed([CREATE(id, seq, 2, new) for id, seq, new in sorted(entries)])


def backwards(body, width):
    """A list of entries of so many bytes, the last one first."""
    return body[:4] + b"".join(body[at : at + width] for at in range(len(body) - width, 3, -width))


def without_potentials(block):
    """The bytes of a block record with potentials of 0."""
    assets = block[FRAME + 74]
    at = FRAME + 75 + 8 * assets
    at += 2 + 18 * int.from_bytes(block[at : at + 2], "big")
    at += 5 if block[at] else 1
    return block[:at] + bytes(4 * assets) + block[at + 4 * assets :]


# ---- the price search


class Quotes:
    """Offers as the search sees them, by pair: for each the limits, and sums of amounts and of amounts times limits."""

    def __init__(self, offers, assets, mu):
        self.assets, self.mu, self.pairs = assets, mu, {}
        for sell, buy, limit, amount in sorted(offers):
            limits, amounts, worths = self.pairs.setdefault((sell, buy), ([], [0], [0]))
            limits.append(limit)
            amounts.append(amounts[-1] + amount)
            worths.append(worths[-1] + amount * limit)

    def volumes(self, prices):
        """Of each asset the excess and the volume."""
        excess, volume = [0] * self.assets, [0] * self.assets
        for (sell, buy), (limits, amounts, worths) in self.pairs.items():
            rate = prices[sell] << 24
            may = bisect.bisect_right(limits, rate // prices[buy])
            must = bisect.bisect_right(limits, rate * (2**self.mu - 1) // (prices[buy] << self.mu))
            part = rate * (amounts[may] - amounts[must]) - prices[buy] * (worths[may] - worths[must])
            value = prices[sell] * amounts[must] + (part >> 24 - self.mu)
            excess[buy] += value
            excess[sell] -= value
            volume[sell] += value
            volume[buy] += value
        return excess, volume


def _moved(price, excess, volume, slow):
    if volume == 0:
        return price
    shift = max(0, volume.bit_length() - 64)
    step = price * (abs(excess) >> shift) // ((volume >> shift) << slow)
    return min(max(price + step if excess > 0 else price - step, records.LEAST_PRICE), records.MOST_PRICE)


FIRST_STEPS = (4, 1, 2, 3, 5, 6, 7, 8)


def search(quotes, prices, number, rounds):
    """The prices and the imbalance of search `number` after 0, 1, 2 .. trials, up to `rounds` or to its end."""
    slow, prices = FIRST_STEPS[number], list(prices)
    excess, volume = quotes.volumes(prices)
    imbalance = sum(map(abs, excess))
    found = [(prices, imbalance)]
    while imbalance > 0 and slow <= 40 and len(found) <= rounds:
        trial = [_moved(*row, slow) for row in zip(prices, excess, volume)]
        its_excess, its_volume = quotes.volumes(trial)
        if sum(map(abs, its_excess)) < imbalance:
            prices, excess, volume = trial, its_excess, its_volume
            imbalance, slow = sum(map(abs, excess)), max(1, slow - 1)
        else:
            slow += 1
        found.append((prices, imbalance))
    return found


class Searches:
    """The prices that are posted for a book, whatever the number of rounds and searches."""

    def __init__(self, offers, prices, mu, rounds=records.MOST_TRANSACTIONS):
        self.quotes = Quotes(offers, len(prices), mu)
        self.prices, self.rounds, self.found = prices, rounds, {}

    def posted(self, rounds, searches):
        best = None
        for number in range(searches):
            if number not in self.found:
                self.found[number] = search(self.quotes, self.prices, number, self.rounds)
            end = self.found[number][min(rounds, len(self.found[number]) - 1)]
            if best is None or end[1] < best[1]:
                best = end
        return tuple(best[0])


def offers_after(state, transactions):
    """The offers after a body: sold and bought asset, limit and amount."""
    cancelled = {
        (it.sell, it.buy, it.limit, it.account, it.offer_seq)
        for it in transactions
        if isinstance(it, records.Cancellation)
    }
    there = [(it.sell, it.buy, it.limit, it.amount) for it in state.offers if it.key not in cancelled]
    new = [(it.sell, it.buy, it.limit, it.amount) for it in transactions if isinstance(it, records.NewOffer)]
    return there + new


def judge_seal(state, transactions, outcomes, output, mu, prices):
    """What is wrong with what was sealed, if these outcomes are the right ones: lines."""
    accepted = [made for made, outcome in zip(transactions, outcomes) if isinstance(outcome, records.Accepted)]
    body = tuple(sorted(accepted, key=lambda made: (made.account, made.seq)))
    block, at = reading.record_at(output, 0, (3,))
    if output[at:] != writing.encode(records.Outcomes(tuple(outcomes))):
        yield "other outcomes"
    for name, wanted in {"version": 1, "mu": mu, "prices": tuple(prices), "transactions": body}.items():
        if getattr(block, name) != wanted:
            yield f"{name}: {getattr(block, name)!r:.100}, and not {wanted!r:.100}"
    refusal = rules.refusal_of(rules.Survey(state, block))
    if refusal is not None:
        yield f"a block that is not valid: {refusal}"


# ---- the market of a demonstration

_64 = (1 << 64) - 1


def _left(word, count):
    return (word << count | word >> 64 - count) & _64


def _words(number):
    """The words of xoshiro256++, which SplitMix64 seeds from a number."""
    seed = []
    for _ in range(4):
        number = number + 0x9E3779B97F4A7C15 & _64
        word = (number ^ number >> 30) * 0xBF58476D1CE4E5B9 & _64
        word = (word ^ word >> 27) * 0x94D049BB133111EB & _64
        seed.append(word ^ word >> 31)
    a, b, c, d = seed
    while True:
        yield _left(a + d & _64, 23) + a & _64
        c, d, shifted = c ^ a, d ^ b, b << 17 & _64
        a, b, c, d = a ^ d, b ^ c, c ^ shifted, _left(d, 45)


def demo_market(number):
    """The state and the candidates of `demo number`: four offers each of 1,000 accounts, and a payment of each."""
    word, made = _words(number).__next__, []
    for at in range(4000):
        first, second, third, fourth = word(), word(), word(), word()
        sell = first % 8
        buy = (sell + 1 + second % 7) % 8
        limit = (8 + sell) * ONE * (900 + fourth % 201) // ((8 + buy) * 1000)
        made.append(records.NewOffer(1 + at % 1000, 1 + at // 1000, sell, buy, limit, 100 + third % 9901))
    for at in range(1000):
        payee, asset, amount = word(), word(), word()
        made.append(records.Payment(1 + at, 5, 1 + payee % 1000, asset % 8, 1 + amount % 100))
    accounts = tuple(records.Account(1 + at, 0, 0, (1_000_000,) * 8) for at in range(1000))
    return records.State(1, 0, (ONE,) * 8, (0,) * 8, accounts), tuple(made)
