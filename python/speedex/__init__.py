"""speedex: records of a batch exchange, the program that seals and checks them, and what a block means.

    >>> import speedex
    >>> state, candidates = speedex.parse(text)
    >>> sealed = speedex.Engine().seal(state, candidates)
    >>> speedex.check(state, sealed.block)

- ``decode``, ``encode``, ``parse`` and ``show`` turn records into bytes and text, and back.
- ``Engine`` calls the program. ``check``, ``replay`` and ``follow`` answer the same apart from it, written from the
  rules alone.
- ``execution_report`` says who traded, ``explain`` why a block is valid or refused, ``report.page`` draws it.
- ``tables`` has CSV, ``decimals`` exact decimals, and ``errors`` all that is raised: each a ``SpeedexError``.

Amounts are whole units of an asset. Prices, limit prices and values are whole numbers in units of ``2^-24``: the value
of an amount is price times amount.
"""

from . import decimals, errors, gathering, ledger, tables
from .columns import TransactionColumns
from .engine import Engine, ProofVerdict, Sealed
from .errors import (
    DecodeError,
    EngineError,
    EngineNotFoundError,
    NumberError,
    OutOfMemoryError,
    ReadFaultError,
    RefusedError,
    SpeedexError,
    TextError,
    UsageError,
    WriteFaultError,
)
from .explanation import Explanation, Step, explain
from .fills import ExecutionReport, execution_report
from .ledger import Fill
from .reading import decode, decode_all, records_of, transaction_columns
from .records import (
    ONE,
    Accepted,
    Account,
    AccountProof,
    Block,
    Cancellation,
    Candidates,
    Creation,
    NameTaken,
    NewOffer,
    Offer,
    OfferTaken,
    Outcome,
    Outcomes,
    Overdraft,
    Payment,
    Record,
    Script,
    SeqTaken,
    State,
    Static,
    Trade,
    Transaction,
)
from .rules import Verdict, check, follow, replay
from .text import parse, show
from .writing import body_digest, encode, encode_all, state_digest, validate

__version__ = "0.1.0"

__all__ = [
    "ONE",
    "Accepted",
    "Account",
    "AccountProof",
    "Block",
    "Cancellation",
    "Candidates",
    "Creation",
    "DecodeError",
    "Engine",
    "EngineError",
    "EngineNotFoundError",
    "ExecutionReport",
    "Explanation",
    "Fill",
    "NameTaken",
    "NewOffer",
    "NumberError",
    "Offer",
    "OfferTaken",
    "OutOfMemoryError",
    "Outcome",
    "Outcomes",
    "Overdraft",
    "Payment",
    "ProofVerdict",
    "ReadFaultError",
    "Record",
    "RefusedError",
    "Script",
    "Sealed",
    "SeqTaken",
    "SpeedexError",
    "State",
    "Static",
    "Step",
    "TextError",
    "Trade",
    "Transaction",
    "TransactionColumns",
    "UsageError",
    "Verdict",
    "WriteFaultError",
    "body_digest",
    "check",
    "decimals",
    "decode",
    "decode_all",
    "encode",
    "encode_all",
    "errors",
    "execution_report",
    "explain",
    "follow",
    "gathering",
    "ledger",
    "parse",
    "records_of",
    "replay",
    "show",
    "state_digest",
    "tables",
    "transaction_columns",
    "validate",
]
