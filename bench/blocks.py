"""Large inputs for the benchmarks, from a seed: a state and blocks on top of it, all valid.

    python3 bench/blocks.py KIND FOLDER

For a kind of one block it writes these files, and for `chain` the same with `shuffled` instead of the last three:

    input        the records of a state and of its blocks
    after        the record of the state after the last block
    line         what `check` prints of the block
    candidates   the records of the state and of the block's transactions, which are in no order there
    kept         the record of the transactions in the order of a block: what `filter` keeps of them
    shuffled     the records of the state and of the blocks, which are in no order there

For `apart` it writes `input` alone. For `script` it writes `input`, the records of a state, of candidates and of the
script, and `outcomes`, the record of the outcomes. The kinds:

    payments   1,000,000 payments among 65,536 accounts of one asset
    resting    no transactions, on 262,144 offers of 32 assets that all rest
    mixed      200,000 transactions of all kinds on 200,000 offers of 8 assets, with trades in every pair
    apart      the same, from a state whose prices are from half to one and a half times those of the block
    trading    no transactions, on 262,144 offers of 32 assets, of which half trade, in every pair
    longest    the longest state of version 1, 65,536 accounts of 32 assets and 262,144 offers, and 1,000,000 payments
    chain      1,000 blocks of 1,000 payments each on 10,000 accounts
    script     no block: 250,000 payments on 65,536 accounts, and 700,000 turns of 8 actors

It is written apart from the program, from docs/FORMATS.md and docs/RULES.md, and nothing of it is proved. Offers trade
in full or not at all here: in each pair those that may trade are worth as much as those of the opposite pair, so that
the greatest circulation takes all of them, and potentials of 0 show it.
"""
import hashlib
import pathlib
import random
import struct
import sys

ONE = 1 << 24
PAY, CREATE, OFFER, CANCEL = 1, 2, 3, 4
FIELDS = {PAY: ">QQBQBQ", CREATE: ">QQBQ", OFFER: ">QQBBBQQ", CANCEL: ">QQBBBQQ"}


def sha256(data):
    return hashlib.sha256(data).digest()


def record(tag, payload):
    return struct.pack(">BI", tag, len(payload)) + payload


def list_bytes(txs):
    pack = {kind: struct.Struct(fields).pack for kind, fields in FIELDS.items()}
    return struct.pack(">I", len(txs)) + b"".join(pack[tx[2]](*tx) for tx in txs)


def candidates(txs):
    return record(2, list_bytes(txs))


class Ledger:
    """Accounts by id, as [last, balances]; offers by (sell, buy, limit, account, seq), as amounts."""

    def __init__(self, prices):
        self.height, self.prices, self.rounding = 0, prices, [0] * len(prices)
        self.accounts, self.offers = {}, {}

    def record(self):
        n = len(self.prices)
        parts = [struct.pack(f">BQB{n}Q{n}QI", 1, self.height, n, *self.prices, *self.rounding, len(self.accounts))]
        entry = struct.Struct(f">QQ{n}Q")
        parts += (entry.pack(id, last, *balances) for id, (last, balances) in sorted(self.accounts.items()))
        parts.append(struct.pack(">I", len(self.offers)))
        entry = struct.Struct(">BBQQQQ")
        parts += (entry.pack(*key, amount) for key, amount in sorted(self.offers.items()))
        return record(1, b"".join(parts))

    def apply_body(self, txs):
        """The transactions, of which each is (account, seq, kind, further fields)."""
        new = {}
        for account, seq, kind, *fields in txs:
            entry = self.accounts[account]
            entry[0] = max(entry[0], seq)
            if kind == PAY:
                to, asset, amount = fields
                entry[1][asset] -= amount
                self.accounts[to][1][asset] += amount
            elif kind == CREATE:
                new[fields[0]] = [0, [0] * len(self.prices)]
            elif kind == OFFER:
                sell, buy, limit, amount = fields
                entry[1][sell] -= amount
                self.offers[sell, buy, limit, account, seq] = amount
            else:
                sell, buy, limit, number = fields
                entry[1][sell] += self.offers.pop((sell, buy, limit, account, number))
        self.accounts.update(new)

    def may_trade(self, key):
        sell, buy, limit = key[:3]
        return self.prices[sell] * ONE >= limit * self.prices[buy]

    def trade(self):
        """All offers that may trade do, in full. Answers the value of each pair and the block's rounding."""
        values, rounding = {}, [0] * len(self.prices)
        for key in [key for key in self.offers if self.may_trade(key)]:
            sell, buy, _, account, _ = key
            amount = self.offers.pop(key)
            value = self.prices[sell] * amount
            gets = value // self.prices[buy]
            self.accounts[account][1][buy] += gets
            rounding[sell] += amount
            rounding[buy] -= gets
            values[sell, buy] = values.get((sell, buy), 0) + value
        self.rounding = [old + more for old, more in zip(self.rounding, rounding)]
        return values, rounding

    def block(self, txs, prices=None):
        """The record of the valid block of these transactions, which is applied, and the value that it trades. The
        block posts the ledger's prices, or those that are given."""
        n, parent = len(self.prices), sha256(self.record())
        self.prices = prices or self.prices
        body = list_bytes(txs)
        self.apply_body(txs)
        values, rounding = self.trade()
        self.height += 1
        head = struct.pack(">BQ32s32sBB", 1, self.height, parent, sha256(body), 10, n)
        trades = b"".join(
            struct.pack(">BBQQ", sell, buy, value >> 64, value & (1 << 64) - 1)
            for (sell, buy), value in sorted(values.items())
        )
        market = struct.pack(f">{n}QH", *self.prices, len(values)) + trades + bytes(1 + 4 * n)
        market += struct.pack(f">{n}Q", *rounding)
        return record(3, head + market + sha256(self.record()) + body), sum(values.values())


def pairs(n):
    return [(sell, buy) for sell in range(n) for buy in range(n) if sell != buy]


def limit_at(ledger, draw, sell, buy, trades):
    """A limit price up to a tenth below the batch rate, or above it."""
    rate = ledger.prices[sell] * ONE // ledger.prices[buy]
    return draw.randrange(rate * 9 // 10, rate + 1) if trades else draw.randrange(rate + 1, rate * 11 // 10)


def balance_pairs(ledger, draw, place):
    """Adds offers through `place`, so that what may trade is worth as much in each pair as in the opposite one."""
    worth = {pair: 0 for pair in pairs(len(ledger.prices))}
    for key, amount in ledger.offers.items():
        if ledger.may_trade(key):
            worth[key[:2]] += ledger.prices[key[0]] * amount
    for sell, buy in pairs(len(ledger.prices)):
        # a value that both prices divide, above both sums
        step = ledger.prices[sell] * ledger.prices[buy] // ONE
        most = (max(worth[sell, buy], worth[buy, sell]) // step + 2) * step
        place(sell, buy, limit_at(ledger, draw, sell, buy, True), (most - worth[sell, buy]) // ledger.prices[sell])


class Resting:
    """Offers put into a ledger before its first block, with the next sequence number of an account drawn."""

    def __init__(self, ledger, draw, most):
        self.ledger, self.draw, self.most = ledger, draw, most
        self.open = list(ledger.accounts)

    def place(self, sell, buy, limit, amount):
        at = self.draw.randrange(len(self.open))
        account = self.open[at]
        entry = self.ledger.accounts[account]
        entry[0] += 1
        if entry[0] == self.most:
            self.open[at] = self.open[-1]
            self.open.pop()
        self.ledger.offers[sell, buy, limit, account, entry[0]] = amount


def with_accounts(prices, draw, count, balance):
    ledger = Ledger(prices)
    for id in sorted(draw.sample(range(1 << 40), count)):
        ledger.accounts[id] = [0, [balance] * len(prices)]
    return ledger


def draw_prices(draw, n):
    return [draw.choice((1, 2, 3, 4)) * ONE for _ in range(n)]


def payments_on(ledger, draw, count):
    """Payments of accounts drawn, each of at most 64, of what they have at the opening at most."""
    ids = sorted(ledger.accounts)
    counts = [count // len(ids)] * len(ids)
    left = count - sum(counts)
    while left:
        at = draw.randrange(len(ids))
        if counts[at] < 64:
            counts[at] += 1
            left -= 1
    txs = []
    for at, id in enumerate(ids):
        last, balances = ledger.accounts[id]
        most = balances[0] // max(1, counts[at])
        for seq in sorted(draw.sample(range(last + 1, last + 65), counts[at])):
            if most:
                txs.append((id, seq, PAY, draw.choice(ids), 0, draw.randint(1, most)))
    return txs


def payments(draw):
    ledger = with_accounts([ONE], draw, 65_536, 1_000_000)
    return ledger, [lambda: payments_on(ledger, draw, 1_000_000)]


def longest(draw):
    ledger = with_accounts(draw_prices(draw, 32), draw, 65_536, 1_000_000)
    book, every = Resting(ledger, draw, 64), pairs(32)
    for at in range(262_144):
        sell, buy = every[at % len(every)]
        book.place(sell, buy, limit_at(ledger, draw, sell, buy, False), draw.randint(1, 10_000))
    return ledger, [lambda: payments_on(ledger, draw, 1_000_000)]


def offers_on(draw, trades):
    ledger = with_accounts(draw_prices(draw, 32), draw, 8_192, 1_000_000)
    book, every = Resting(ledger, draw, 64), pairs(32)
    for at in range(262_144 - (len(every) if trades else 0)):
        sell, buy = every[at % len(every)]
        is_trade = trades and draw.random() < 0.5
        book.place(sell, buy, limit_at(ledger, draw, sell, buy, is_trade), draw.randint(1, 10_000))
    if trades:
        balance_pairs(ledger, draw, book.place)
    return ledger, [lambda: []]


def mixed(draw):
    ledger = with_accounts(draw_prices(draw, 8), draw, 20_000, 10_000_000)
    book, every = Resting(ledger, draw, 60), pairs(8)
    for at in range(200_000):
        sell, buy = every[at % len(every)]
        book.place(sell, buy, limit_at(ledger, draw, sell, buy, False), draw.randint(100, 10_000))
    return ledger, [lambda: mixed_body(ledger, draw)]


def write_apart(draw, folder):
    ledger, bodies = mixed(draw)
    txs, prices = bodies[0](), ledger.prices
    ledger.prices = [price * draw.randrange(512, 1537) // 1024 for price in prices]
    state = ledger.record()
    (folder / "input").write_bytes(state + ledger.block(txs, prices)[0])


def mixed_body(ledger, draw):
    """99,900 payments, 2,000 creations, 60,000 cancellations and 38,100 offers, of which half may trade."""
    ids, every, txs = sorted(ledger.accounts), pairs(8), []
    lasts = {id: entry[0] for id, entry in ledger.accounts.items()}

    def add(id, *fields):
        lasts[id] += 1
        txs.append((id, lasts[id], *fields))

    for _ in range(99_900):
        add(draw.choice(ids), PAY, draw.choice(ids), draw.randrange(8), draw.randint(1, 1000))
    for at in range(2_000):
        add(draw.choice(ids), CREATE, (1 << 41) + 3 * at)
    for sell, buy, limit, account, seq in draw.sample(sorted(ledger.offers), 60_000):
        add(account, CANCEL, sell, buy, limit, seq)
    trial = Ledger(ledger.prices)

    def place(sell, buy, limit, amount):
        id = draw.choice(ids)
        add(id, OFFER, sell, buy, limit, amount)
        trial.offers[sell, buy, limit, id, lasts[id]] = amount

    for at in range(38_100 - len(every)):
        sell, buy = every[at % len(every)]
        place(sell, buy, limit_at(ledger, draw, sell, buy, draw.random() < 0.5), draw.randint(100, 10_000))
    balance_pairs(trial, draw, place)
    return sorted(txs)


def chain(draw):
    ledger = with_accounts([ONE], draw, 10_000, 1_000_000)
    return ledger, [lambda: sparse_payments_on(ledger, draw, 1_000)] * 1_000


def sparse_payments_on(ledger, draw, count):
    """One payment each of `count` accounts drawn."""
    ids = sorted(ledger.accounts)
    txs = []
    for id in sorted(draw.sample(ids, count)):
        last, balances = ledger.accounts[id]
        if balances[0]:
            txs.append((id, last + 1, PAY, draw.choice(ids), 0, draw.randint(1, balances[0])))
    return txs


def candidates_on(ledger, draw, count):
    """Payments in no order. Some numbers are used twice or out of the window, some payees are not there, and some
    payments are above what is left."""
    ids, txs = sorted(ledger.accounts), []
    for _ in range(count):
        to = draw.choice(ids) + (draw.random() < 0.01)
        txs.append((draw.choice(ids), draw.randint(1, 65), PAY, to, 0, draw.randint(1, 500_000)))
    return txs


class Actor:
    """One actor of a script, with its candidates; `seen` is what it saw last of a balance, if it looked."""

    def __init__(self, txs):
        self.txs, self.outcomes, self.claimed, self.seen = txs, [], False, None

    def decide(self, outcome):
        self.outcomes.append(outcome)
        self.claimed, self.seen = False, None

    def turn(self, ledger, purses, numbers):
        """One event. Answers whether there was anything left to do."""
        while len(self.outcomes) < len(self.txs):
            account, seq, _, to, _, need = self.txs[len(self.outcomes)]
            if seq <= 64 and to in ledger.accounts:
                break
            self.outcomes.append(bytes([1, 3 if seq > 64 else 6]))
        else:
            return False
        if not self.claimed:
            self.claimed = (account, seq) not in numbers
            numbers.add((account, seq))
            if not self.claimed:
                self.decide(b"\2")
        elif self.seen is not None and purses[account] == self.seen:
            purses[account] -= need
            self.decide(b"\0")
        else:
            self.seen = purses[account]
            if self.seen < need:
                self.decide(struct.pack(">BQQ", 5, self.seen, need))
        return True


def outcomes_of(ledger, txs, actors, turns):
    """The outcomes of the candidates, which are payments of one asset, if the actors take these turns."""
    purses, numbers = {id: balances[0] for id, (_, balances) in ledger.accounts.items()}, set()
    parts = [Actor(txs[len(txs) * k // actors : len(txs) * (k + 1) // actors]) for k in range(actors)]
    for name in turns:
        parts[name].turn(ledger, purses, numbers)
    for part in parts:
        while part.turn(ledger, purses, numbers):
            pass
    return [outcome for part in parts for outcome in part.outcomes]


def write_script(draw, folder):
    ledger = with_accounts([ONE], draw, 65_536, 1_000_000)
    txs = candidates_on(ledger, draw, 250_000)
    turns = bytes(draw.randrange(8) for _ in range(700_000))
    script = struct.pack(">BI", 8, len(turns)) + turns
    (folder / "input").write_bytes(ledger.record() + candidates(txs) + record(5, script))
    outcomes = outcomes_of(ledger, txs, 8, turns)
    (folder / "outcomes").write_bytes(record(4, struct.pack(">I", len(outcomes)) + b"".join(outcomes)))


KINDS = {
    "payments": payments,
    "resting": lambda draw: offers_on(draw, False),
    "mixed": mixed,
    "trading": lambda draw: offers_on(draw, True),
    "longest": longest,
    "chain": chain,
}


def main():
    if len(sys.argv) != 3 or sys.argv[1] not in (*KINDS, "apart", "script"):
        sys.exit("usage: python3 bench/blocks.py payments|resting|mixed|apart|trading|longest|chain|script FOLDER")
    folder = pathlib.Path(sys.argv[2])
    if sys.argv[1] == "script":
        return write_script(random.Random(1), folder)
    if sys.argv[1] == "apart":
        return write_apart(random.Random(1), folder)
    ledger, bodies = KINDS[sys.argv[1]](random.Random(1))
    state, blocks = ledger.record(), []
    for body in bodies:
        txs = body()
        block, value = ledger.block(txs)
        blocks.append(block)
    (folder / "input").write_bytes(state + b"".join(blocks))
    (folder / "after").write_bytes(ledger.record())
    if len(blocks) > 1:
        random.Random(2).shuffle(blocks)
        (folder / "shuffled").write_bytes(state + b"".join(blocks))
        return
    (folder / "line").write_text(f"valid height {ledger.height} value {value} bounds kept\n")
    (folder / "kept").write_bytes(candidates(txs))
    random.Random(2).shuffle(txs)
    (folder / "candidates").write_bytes(state + candidates(txs))


if __name__ == "__main__":
    main()
