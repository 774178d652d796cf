"""A market that is drawn from a seed: a first state, and traders whose candidates are mixed, mostly right and sometimes
wrong on purpose. Only for trials: it writes what docs/FORMATS.md says, and knows none of the other programs here."""

import struct

import entries

ONE = 1 << 24
ASSETS = 4
FIRST = 1000
KINDS = (entries.PAY, entries.CREATE, entries.SELL, entries.CANCEL)


def transaction(account, number, kind, *fields):
    parts = {entries.PAY: ">QBQ", entries.CREATE: ">Q"}.get(kind, ">BBQQ")
    return struct.pack(">QQB", account, number, kind) + struct.pack(parts, *fields)


def first_state(draw, accounts, version=2):
    """A ledger of so many accounts, each with some of each asset, at prices near to one another."""
    out = struct.pack(">BQB", version, 0, ASSETS)
    out += struct.pack(f">{ASSETS}Q", *(ONE * draw.randint(8, 24) // 12 for _ in range(ASSETS)))
    out += bytes(8 * ASSETS) + struct.pack(">I", accounts)
    for id in range(FIRST, FIRST + accounts):
        out += struct.pack(">QQ", id, 0) + (bytes(8) if version == 2 else b"")
        out += struct.pack(f">{ASSETS}Q", *(draw.randint(0, 200_000) for _ in range(ASSETS)))
    return entries.record(1, out + bytes(4))


class Traders:
    """Who draws candidates: each account takes its numbers from the lowest one that it has not used and that is not on
    its way, and learns from the outcomes which were used."""

    def __init__(self, draw, accounts, version=2, most_accounts=2000, most_offers=500):
        self.draw, self.version, self.accounts = draw, version, list(range(FIRST, FIRST + accounts))
        self.last_id, self.most_offers = FIRST + most_accounts, most_offers
        self.next_id = FIRST + accounts
        self.used, self.sent, self.last = {}, {}, {}
        self.offers = []

    def number(self, account):
        used, sent = self.used.setdefault(account, set()), self.sent.setdefault(account, set())
        number = self.last.get(account, 0) + 1
        while number in used or number in sent:
            number += 1
        sent.add(number)
        return number

    def candidate(self):
        draw = self.draw
        account = draw.choice(self.accounts)
        if draw.random() < 0.04:
            return self.wrong(account)
        number = self.number(account)
        kind = draw.choices(KINDS, (55, 4, 33, 8 if len(self.offers) < self.most_offers else 60))[0]
        if kind == entries.CANCEL and self.offers:
            # an own offer, which may be filled or cancelled by then
            self.sent[account].discard(number)
            account, sold, bought, limit, made = draw.choice(self.offers)
            return transaction(account, self.number(account), kind, sold, bought, limit, made)
        if kind == entries.CREATE:
            self.next_id = min(self.last_id, self.next_id + (draw.random() < 0.7))
            return transaction(account, number, kind, self.next_id - 1)
        if kind == entries.PAY:
            payee = draw.choice(self.accounts) if draw.random() < 0.97 else 7
            return transaction(account, number, kind, payee, draw.randrange(ASSETS), self.amount())
        sold, bought = draw.sample(range(ASSETS), 2) if draw.random() < 0.98 else (1, 1)
        limit = ONE * draw.randint(40, 140) // 100
        if draw.random() < 0.02:
            return transaction(account, number, entries.SELL, sold, bought, 1, 1)
        return transaction(account, number, entries.SELL, sold, bought, limit, self.amount())

    def wrong(self, account):
        """A candidate that a ledger refuses by itself."""
        last, used = self.last.get(account, 0), self.used.get(account, set())
        way = self.draw.randrange(6)
        if way == 0:
            return transaction(3, 1, entries.PAY, account, 0, 1)
        if way == 1:
            return transaction(account, max(1, last), entries.CANCEL, 0, 1, ONE, 1)
        if way == 2:
            return transaction(account, last + 65 + self.draw.randrange(9), entries.PAY, account, 0, 1)
        if way == 3 and used:
            return transaction(account, max(used), entries.PAY, account, 0, 1)
        if way == 4:
            return transaction(account, last + 64, entries.PAY, account, ASSETS, 1)
        return transaction(account, last + 63, entries.CANCEL, 0, 1, 3, 1)

    def amount(self):
        return self.draw.randint(1, 3000) if self.draw.random() < 0.97 else self.draw.randint(200_000, 900_000)

    def told(self, candidate, accepted):
        """What became of a candidate."""
        account, number, kind = entries.START.unpack_from(candidate)
        self.sent.setdefault(account, set()).discard(number)
        if not accepted:
            return
        used, last = self.used.setdefault(account, set()), self.last.get(account, 0)
        used.add(number)
        if self.version == 1:
            # numbers that were left out are lost
            last = max(last, number)
        while last + 1 in used:
            last += 1
        used -= {it for it in used if it <= last}
        self.last[account] = last
        if kind == entries.CREATE:
            (id,) = struct.unpack_from(">Q", candidate, 17)
            self.accounts.append(id)
        elif kind == entries.SELL:
            sold, bought, limit, _ = entries.OFFER.unpack_from(candidate, 17)
            self.offers.append((account, sold, bought, limit, number))
            if len(self.offers) > 2 * self.most_offers:
                del self.offers[: self.most_offers]


def broken(draw, body):
    """A message that is no candidates record, with the number of the fault that it has."""
    start = entries.FRAME.size + 4
    way = draw.randrange(6)
    if way == 0:
        return body[: draw.randrange(len(body))], 1
    if way == 1:
        return body + b"\0", 10
    if way == 2:
        return b"\x03" + body[1:], 2
    # the first transaction without what it has to have: its kind, its number
    head, tail = body[:start], body[start + 17 :]
    account, number, kind = entries.START.unpack_from(body, start)
    if way == 3:
        return head + entries.START.pack(account, number, 9) + tail, 2
    if way == 4:
        return head + entries.START.pack(account, 0, kind) + tail, 5
    return b"\x02\xff\xff\xff\xff" + body[5:], 13
