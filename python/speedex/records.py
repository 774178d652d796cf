"""The records: what the program reads and writes, as dataclasses.

Amounts, balances and roundings are in whole units of their asset. Prices, limit prices and values are in units of
``2^-24``: a price of 1 is ``ONE``, and the value of an amount is price times amount. Assets are numbered from 0.

A dataclass tests nothing when it is made, so that wrong records can be made on purpose. ``decode`` tests all that
``docs/FORMATS.md`` says, and ``validate`` tests a record that was made here. All of them are frozen: make a changed one
with ``dataclasses.replace``.
"""

from __future__ import annotations

from dataclasses import dataclass
from typing import Any, Callable, Dict, Optional, Tuple, Type, Union

#: A price, a limit price or a value of 1.
ONE = 1 << 24

MOST_ASSETS = 32
LEAST_PRICE, MOST_PRICE = 1 << 8, 1 << 40
MOST_LIMIT = (1 << 56) - 1
MOST_AMOUNT = 1 << 62
MOST_SEQ = (1 << 63) - 1
MOST_HEIGHT = (1 << 63) - 1
MOST_VALUE = 1 << 102
MOST_MU = 20
MOST_ACCOUNTS = 65_536
MOST_OFFERS = 262_144
MOST_TRANSACTIONS = 1_000_000
MOST_BLOCKS = 1_000_000
MOST_TURNS = 8_000_000
MOST_ACTORS = 8
MOST_PLACES = 65_536
MOST_BYTES = 67_108_864
#: How many sequence numbers after its last one an account may use.
WINDOW = 64
#: How many levels of digests stand above an account.
LEVELS = 16


class _Entry:
    """What is frozen and has slots, and can still be copied and pickled."""

    __slots__: Tuple[str, ...] = ()

    def __reduce__(self) -> Tuple[Any, ...]:
        return type(self), tuple(getattr(self, name) for name in self.__slots__)


def _as_tuples(record: object, *names: str) -> None:
    """Makes tuples of the sequences of a frozen record."""
    for name in names:
        object.__setattr__(record, name, tuple(getattr(record, name)))


@dataclass(frozen=True)
class Account(_Entry):
    """An account of a ledger: all sequence numbers up to ``last`` are used, and in a ledger of version 2 also
    ``last + 1 + i`` for each bit *i* of ``used``, which is 0 in version 1. A balance for each asset, in units."""

    __slots__ = ("id", "last", "used", "balances")
    id: int
    last: int
    used: int
    balances: Tuple[int, ...]

    def __post_init__(self) -> None:
        if type(self.balances) is not tuple:
            _as_tuples(self, "balances")

    def has_used(self, seq: int) -> bool:
        """Whether the account used this sequence number."""
        return seq <= self.last or bool(self.used >> min(seq - self.last - 1, WINDOW) & 1)


@dataclass(frozen=True)
class Offer(_Entry):
    """An offer that stands in a ledger: it sells ``amount`` units of ``sell`` for ``buy``, and wants at least ``limit``
    units of the bought asset for a unit of the sold one (in units of ``2^-24``)."""

    __slots__ = ("sell", "buy", "limit", "account", "seq", "amount")
    sell: int
    buy: int
    limit: int
    account: int
    seq: int
    amount: int

    @property
    def key(self) -> Tuple[int, int, int, int, int]:
        """What the offers of a ledger are ordered by; no two have the same."""
        return self.sell, self.buy, self.limit, self.account, self.seq


@dataclass(frozen=True)
class State:
    """A ledger, as it is between two blocks. ``roundings`` is what the ledger keeps of each asset, in units."""

    version: int
    height: int
    prices: Tuple[int, ...]
    roundings: Tuple[int, ...]
    accounts: Tuple[Account, ...] = ()
    offers: Tuple[Offer, ...] = ()

    def __post_init__(self) -> None:
        _as_tuples(self, "prices", "roundings", "accounts", "offers")


@dataclass(frozen=True)
class Payment(_Entry):
    """A transaction: ``account`` pays ``amount`` units of ``asset`` to ``payee``."""

    __slots__ = ("account", "seq", "payee", "asset", "amount")
    account: int
    seq: int
    payee: int
    asset: int
    amount: int


@dataclass(frozen=True)
class Creation(_Entry):
    """A transaction: ``account`` creates the account ``id``."""

    __slots__ = ("account", "seq", "id")
    account: int
    seq: int
    id: int


@dataclass(frozen=True)
class NewOffer(_Entry):
    """A transaction: ``account`` makes an offer, as ``Offer`` says."""

    __slots__ = ("account", "seq", "sell", "buy", "limit", "amount")
    account: int
    seq: int
    sell: int
    buy: int
    limit: int
    amount: int


@dataclass(frozen=True)
class Cancellation(_Entry):
    """A transaction: ``account`` cancels its own offer of this pair, limit price and sequence number ``offer_seq``."""

    __slots__ = ("account", "seq", "sell", "buy", "limit", "offer_seq")
    account: int
    seq: int
    sell: int
    buy: int
    limit: int
    offer_seq: int


Transaction = Union[Payment, Creation, NewOffer, Cancellation]
KINDS: Dict[int, Callable[..., Transaction]] = {1: Payment, 2: Creation, 3: NewOffer, 4: Cancellation}


@dataclass(frozen=True)
class Candidates:
    """Transactions that a block may take, in any order and with repeats."""

    transactions: Tuple[Transaction, ...] = ()

    def __post_init__(self) -> None:
        _as_tuples(self, "transactions")


@dataclass(frozen=True)
class Trade(_Entry):
    """What a pair trades: ``value`` of ``sell`` is sold for ``buy``, in units of ``2^-24``."""

    __slots__ = ("sell", "buy", "value")
    sell: int
    buy: int
    value: int


@dataclass(frozen=True)
class Block:
    """A block: what it says of the trade, and its transactions.

    ``parent``, ``body`` and ``after`` are digests of 32 bytes. The margin is ``2^-mu``. ``cut`` is None if lower
    bounds were kept, else the set of assets that shows why they were dropped: bit *i* stands for asset *i*.
    ``roundings`` is what this block keeps of each asset, in units.
    """

    version: int
    height: int
    parent: bytes
    body: bytes
    mu: int
    prices: Tuple[int, ...]
    trades: Tuple[Trade, ...]
    cut: Optional[int]
    potentials: Tuple[int, ...]
    roundings: Tuple[int, ...]
    after: bytes
    transactions: Tuple[Transaction, ...]

    def __post_init__(self) -> None:
        _as_tuples(self, "prices", "trades", "potentials", "roundings", "transactions")

    @property
    def values(self) -> Dict[Tuple[int, int], int]:
        """What each pair trades, in units of ``2^-24``; a pair that is not there trades 0."""
        return {(trade.sell, trade.buy): trade.value for trade in self.trades}

    @property
    def value(self) -> int:
        """What all pairs trade, in units of ``2^-24``."""
        return sum(trade.value for trade in self.trades)


@dataclass(frozen=True)
class Accepted(_Entry):
    """The candidate is in the block."""

    __slots__ = ()


@dataclass(frozen=True)
class Static(_Entry):
    """The ledger refuses the candidate by itself; ``number`` says why (``errors.STATIC_REASONS``)."""

    __slots__ = ("number",)
    number: int


@dataclass(frozen=True)
class SeqTaken(_Entry):
    """Another candidate of the account has the sequence number."""

    __slots__ = ()


@dataclass(frozen=True)
class OfferTaken(_Entry):
    """Another candidate cancels the same offer."""

    __slots__ = ()


@dataclass(frozen=True)
class NameTaken(_Entry):
    """Another candidate creates the same account."""

    __slots__ = ()


@dataclass(frozen=True)
class Overdraft(_Entry):
    """When the candidate came, ``seen`` units were left, and it needs ``need``."""

    __slots__ = ("seen", "need")
    seen: int
    need: int


Outcome = Union[Accepted, Static, SeqTaken, OfferTaken, NameTaken, Overdraft]
RESULTS: Dict[int, Callable[..., Outcome]] = {
    0: Accepted,
    1: Static,
    2: SeqTaken,
    3: OfferTaken,
    4: NameTaken,
    5: Overdraft,
}


@dataclass(frozen=True)
class Outcomes:
    """What became of each candidate, in the order of the candidates."""

    outcomes: Tuple[Outcome, ...] = ()

    def __post_init__(self) -> None:
        _as_tuples(self, "outcomes")


@dataclass(frozen=True)
class Script:
    """Who of several actors makes the next step of gathering: each byte of ``turns`` is an actor, from 0."""

    actors: int
    turns: bytes = b""

    def __post_init__(self) -> None:
        object.__setattr__(self, "turns", bytes(self.turns))


@dataclass(frozen=True)
class AccountProof:
    """A root, and what shows an account of the ledger for it: its place there, and the 16 digests beside the way from
    the account to the root, the lowest level's first."""

    root: bytes
    version: int
    place: int
    account: Account
    siblings: Tuple[bytes, ...]

    def __post_init__(self) -> None:
        _as_tuples(self, "siblings")


Record = Union[State, Candidates, Block, Outcomes, Script, AccountProof]
#: The tag of each kind of record.
TAGS: Dict[int, Type[Record]] = {1: State, 2: Candidates, 3: Block, 4: Outcomes, 5: Script, 6: AccountProof}
TAG_OF: Dict[type, int] = {kind: tag for tag, kind in TAGS.items()}
