"""Records as a text says them, line by line, and what completes them; ``text`` has the lines.

A draft is what the lines of one record say so far. ``completed`` fills in what they leave out, from the ledger before
the record, and answers the record and the ledger behind it.
"""

from __future__ import annotations

import contextlib
import struct
from typing import Callable, Dict, List, MutableMapping, Optional, Sequence, Tuple, Type, TypeVar

from . import gathering, ledger
from . import records as it
from .writing import body_digest, state_digest

#: What comes if a number or a word does not fit.
WRONG = (ValueError, IndexError, KeyError, TypeError, OverflowError, ZeroDivisionError, struct.error)

OUTCOME_NAMES: Dict[Type[it.Outcome], str] = {
    it.Accepted: "accepted",
    it.Static: "static",
    it.SeqTaken: "seq-taken",
    it.OfferTaken: "offer-taken",
    it.NameTaken: "name-taken",
    it.Overdraft: "overdraft",
}
_OUTCOMES: Dict[str, Type[it.Outcome]] = {name: kind for kind, name in OUTCOME_NAMES.items()}
_TRANSACTIONS: Dict[str, Tuple[Type[it.Transaction], str]] = {
    "pay": (it.Payment, "tx ACCOUNT SEQ pay TO ASSET AMOUNT"),
    "create": (it.Creation, "tx ACCOUNT SEQ create ID"),
    "offer": (it.NewOffer, "tx ACCOUNT SEQ offer SELL BUY limit M amount E"),
    "cancel": (it.Cancellation, "tx ACCOUNT SEQ cancel SELL BUY limit M seq S"),
}
_ROWS = (["price"], ["price", "potential"], ["price", "rounding"], ["price", "potential", "rounding"])
KeyType = TypeVar("KeyType")
ValueType = TypeVar("ValueType")


def decimal(word: str) -> int:
    """A number that is spelled in decimal digits alone."""
    if not (word.isascii() and word.isdecimal()):
        raise ValueError
    return int(word)


def matched(words: Sequence[str], pattern: str) -> List[int]:
    """The numbers of a line, if it fits the pattern: words in small letters stand as they are, words in
    capitals for a number, and one that ends in two dots for any number of them."""
    names = pattern.split()
    if names[-1].endswith(".."):
        names[-1:] = [names[-1]] * (len(words) - len(names) + 1)
    if len(names) != len(words) or any(name.islower() and name != word for name, word in zip(names, words)):
        raise ValueError
    return [decimal(word) for name, word in zip(names, words) if not name.islower()]


def options(words: Sequence[str], *names: str) -> Dict[str, int]:
    """The numbers of a line that begins a record, by name: each name once at most, with a number after it."""
    found = dict(zip(words[1::2], map(decimal, words[2::2])))
    if len(words) != 1 + 2 * len(found) or not found.keys() <= set(names):
        raise ValueError
    return found


def count_in(words: Sequence[str]) -> Optional[int]:
    """The count in a line of two words; None if it is left out."""
    return matched(words, f"{words[0]} COUNT")[0] if len(words) > 1 else None


def hexadecimal(word: str, count: int) -> bytes:
    data = bytes.fromhex(word)
    if len(data) != count:
        raise ValueError
    return data


def put_once(to: MutableMapping[KeyType, ValueType], key: KeyType, value: ValueType) -> None:
    if key in to:
        raise ValueError
    to[key] = value


def agree(said: Optional[int], count: int) -> None:
    """Sees that there are as many entries as the text says, if it says so."""
    if said not in (None, count):
        raise ValueError


def transaction_in(words: Sequence[str]) -> it.Transaction:
    kind, pattern = _TRANSACTIONS[words[3]]
    make: Callable[..., it.Transaction] = kind
    return make(*matched(words, pattern))


def account_in(version: Optional[int], words: Sequence[str]) -> it.Account:
    has_map = words[4:5] == ["used"]
    if has_map and version == 1:
        raise ValueError
    id, last, *rest = matched(words, f"account ID last L {'used U ' if has_map else ''}balances B..")
    return it.Account(id, last, rest.pop(0) if has_map else 0, tuple(rest))


Completed = Tuple[it.Record, Optional[it.State]]


class Draft:
    """What the lines of a record say so far."""

    def __init__(self, words: Sequence[str]) -> None:
        raise NotImplementedError

    def add(self, words: Sequence[str]) -> None:
        """Takes a line after the first."""
        raise NotImplementedError

    def completed(self, state: Optional[it.State]) -> Completed:
        """The record, and the ledger behind it."""
        raise NotImplementedError


class _State(Draft):
    def __init__(self, words: Sequence[str]) -> None:
        said = options(words, "version", "height", "assets")
        self.version, self.height, self.assets = said.get("version", 1), said.get("height", 0), said.get("assets")
        self.prices: List[int] = []
        self.roundings: List[int] = []
        self.accounts: List[it.Account] = []
        self.offers: List[it.Offer] = []

    def add(self, words: Sequence[str]) -> None:
        if words[0] == "asset":
            asset, price, rounding = matched(words, "asset A price P rounding R")
            if asset != len(self.prices):
                raise ValueError
            self.prices.append(price)
            self.roundings.append(rounding)
        elif words[0] == "account":
            self.accounts.append(account_in(self.version, words))
        else:
            self.offers.append(it.Offer(*matched(words, "offer SELL BUY limit M account ID seq S amount E")))

    def completed(self, state: Optional[it.State]) -> Completed:
        agree(self.assets, len(self.prices))
        parts = tuple(self.prices), tuple(self.roundings), tuple(self.accounts), tuple(self.offers)
        made = it.State(self.version, self.height, *parts)
        return made, made


class _Block(Draft):
    def __init__(self, words: Sequence[str]) -> None:
        said = options(words, "version", "height", "mu", "assets")
        self.version, self.mu = said.get("version", 1), said.get("mu", 10)
        self.height, self.assets = said.get("height"), said.get("assets")
        self.rows: Dict[int, Dict[str, int]] = {}
        self.values: Dict[Tuple[int, int], int] = {}
        self.words: Dict[str, str] = {}
        self.counts: Dict[str, Optional[int]] = {}
        self.cut: Optional[int] = None
        self.transactions: List[it.Transaction] = []

    def add(self, words: Sequence[str]) -> None:
        if words[0] == "asset":
            names = list(words[2::2])
            if names not in _ROWS:
                raise ValueError
            asset, *row = matched(words, "asset A " + " ".join(f"{name} N" for name in names))
            put_once(self.rows, asset, dict(zip(names, row)))
        elif words[0] == "trade":
            sell, buy, value = matched(words, "trade SELL BUY VALUE")
            put_once(self.values, (sell, buy), value)
        elif words[0] == "dropped" and len(words) == 2:
            self.cut = None if words[1] == "none" else int.from_bytes(hexadecimal(words[1], 4), "big")
            put_once(self.words, "dropped", words[1])
        elif words[0] in ("parent", "body", "after") and len(words) == 2:
            hexadecimal(words[1], 32)
            put_once(self.words, words[0], words[1])
        elif words[0] == "transactions":
            put_once(self.counts, "transactions", count_in(words))
        else:
            self.transactions.append(transaction_in(words))

    def completed(self, state: Optional[it.State]) -> Completed:
        agree(self.counts.get("transactions"), len(self.transactions))
        if state is None:
            return self.alone(), None
        assets = range(len(state.prices) if self.assets is None else self.assets)
        prices = [self.rows[at]["price"] if at in self.rows else state.prices[at] for at in assets]
        right = {
            "potential": [0 for _ in assets],
            "rounding": [0 for _ in assets],
        }
        digests = {"parent": state_digest(state), "body": body_digest(self.transactions), "after": bytes(32)}
        block = self.block(state.height + 1, prices, right, digests)
        after: Optional[it.State] = None
        with contextlib.suppress(*WRONG):
            effects = ledger.settled(state, self.transactions)
            fills = ledger.fills_of(state, block, effects.offers)
            after = ledger.ledger_after(state, block, effects, fills)
            right["rounding"] = ledger.roundings_of(fills, len(prices))
            right["potential"] = ledger.potentials_of(block, ledger.bounds_of(effects.offers, prices, self.mu))
            digests["after"] = state_digest(after)
        return self.block(state.height + 1, prices, right, digests), after

    def alone(self) -> it.Block:
        """The block of a text that has no ledger before it and leaves nothing out."""
        assets = range(len(self.rows) if self.assets is None else self.assets)
        if self.height is None or {"parent", "body", "after"} - self.words.keys():
            raise ValueError
        prices = [self.rows[at]["price"] for at in assets]
        said = {name: [self.rows[at][name] for at in assets] for name in ("potential", "rounding")}
        return self.block(self.height, prices, said, {})

    def block(
        self, height: int, prices: List[int], right: Dict[str, List[int]], digests: Dict[str, bytes]
    ) -> it.Block:
        """The block, with these figures if its text has none."""
        rows = {
            name: [self.rows.get(at, {}).get(name, figure) for at, figure in enumerate(figures)]
            for name, figures in right.items()
        }
        said = {name: bytes.fromhex(self.words[name]) for name in ("parent", "body", "after") if name in self.words}
        digests = {**digests, **said}
        return it.Block(
            version=self.version,
            height=height if self.height is None else self.height,
            parent=digests["parent"],
            body=digests["body"],
            mu=self.mu,
            prices=tuple(prices),
            trades=tuple(it.Trade(sell, buy, value) for (sell, buy), value in self.values.items()),
            cut=self.cut,
            potentials=tuple(rows["potential"]),
            roundings=tuple(rows["rounding"]),
            after=digests["after"],
            transactions=tuple(self.transactions),
        )


class _Candidates(Draft):
    def __init__(self, words: Sequence[str]) -> None:
        self.count = count_in(words)
        self.transactions: List[it.Transaction] = []

    def add(self, words: Sequence[str]) -> None:
        self.transactions.append(transaction_in(words))

    def completed(self, state: Optional[it.State]) -> Completed:
        agree(self.count, len(self.transactions))
        return it.Candidates(tuple(self.transactions)), state


class _Outcomes(Draft):
    def __init__(self, words: Sequence[str]) -> None:
        self.count = count_in(words)
        self.outcomes: List[it.Outcome] = []

    def add(self, words: Sequence[str]) -> None:
        kind: Callable[..., it.Outcome] = _OUTCOMES[words[1]]
        pattern = {"static": "I static NUMBER", "overdraft": "I overdraft seen S need D"}
        place, *fields = matched(words, pattern.get(words[1], f"I {words[1]}"))
        if place != len(self.outcomes):
            raise ValueError
        self.outcomes.append(kind(*fields))

    def completed(self, state: Optional[it.State]) -> Completed:
        agree(self.count, len(self.outcomes))
        return it.Outcomes(tuple(self.outcomes)), state


class _Script(Draft):
    def __init__(self, words: Sequence[str]) -> None:
        said = options(words, "actors", "turns")
        self.actors, self.count = said.get("actors", 1), said.get("turns")
        self.turns: List[int] = []

    def add(self, words: Sequence[str]) -> None:
        self.turns.extend(matched(words, "turn K.."))

    def completed(self, state: Optional[it.State]) -> Completed:
        agree(self.count, len(self.turns))
        return it.Script(self.actors, bytes(self.turns)), state


class _Proof(Draft):
    def __init__(self, words: Sequence[str]) -> None:
        said = options(words, "version", "place", "assets")
        self.version, self.place, self.assets = said.get("version"), said.get("place"), said.get("assets")
        self.id: Optional[int] = None
        self.account: Optional[it.Account] = None
        self.root: Optional[bytes] = None
        self.siblings: List[bytes] = []

    def add(self, words: Sequence[str]) -> None:
        if words[0] == "root" and len(words) == 2 and self.root is None:
            self.root = hexadecimal(words[1], 32)
        elif words[0] == "sibling" and len(words) == 2:
            self.siblings.append(hexadecimal(words[1], 32))
        elif self.id is not None:
            raise ValueError
        elif len(words) == 2:
            self.id = matched(words, "account ID")[0]
        else:
            self.account = account_in(self.version, words)
            self.id = self.account.id

    def completed(self, state: Optional[it.State]) -> Completed:
        version, place, account = self.version, self.place, self.account
        root, siblings = self.root, tuple(self.siblings)
        if version is None:
            version = state.version if state else 1
        if account is None or place is None or root is None or not siblings:
            if state is None or self.id is None:
                raise ValueError
            if account is None or place is None:
                there = {one.id: (at, one) for at, one in enumerate(state.accounts)}[self.id]
                place = there[0] if place is None else place
                account = account or there[1]
            root = root or gathering.root_of(state)
            siblings = siblings or gathering.siblings_of(state, place)
        agree(self.assets, len(account.balances))
        return it.AccountProof(root, version, place, account, siblings), state


#: How the lines of each kind of record are taken.
DRAFTS: Dict[str, Type[Draft]] = {
    "state": _State,
    "block": _Block,
    "candidates": _Candidates,
    "outcomes": _Outcomes,
    "script": _Script,
    "proof": _Proof,
}
