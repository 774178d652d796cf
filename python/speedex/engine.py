"""The program, called with records and answering records.

``Engine`` starts the program for each call, with the bytes of the records as its input. What it refuses is raised as
the error of its line (``errors``). A door that calls a C library by ``ctypes`` can stand beside ``Engine.run``, which
all calls go through: words and bytes in, exit code, bytes and a line out.
"""

from __future__ import annotations

import os
import pathlib
import re
import shutil
import subprocess
from typing import Iterable, List, NamedTuple, Optional, Sequence, Tuple, Type, TypeVar, Union

from . import records as it
from .answers import Answer
from .errors import EngineError, EngineNotFoundError, error_of
from .reading import decode, record_at
from .rules import Verdict
from .writing import encode

RecordType = TypeVar("RecordType", bound=it.Record)
#: A record, or its bytes.
StateLike = Union[it.State, bytes]
CandidatesLike = Union[it.Candidates, bytes]
BlockLike = Union[it.Block, bytes]
AnyRecord = Union[it.Record, bytes]

_VALID = re.compile(r"valid height (\d+) value (\d+) bounds (kept|dropped)\n")
_PROOF = re.compile(r"proof (good|bad) account (\d+) place (\d+) root ([0-9a-f]{64})\n")


class Sealed(NamedTuple):
    """What a seal writes: a block, what became of each candidate, and the bytes of both records."""

    block: it.Block
    outcomes: it.Outcomes
    data: bytes


class ProofVerdict(NamedTuple):
    """What ``verify`` says: whether the proof is good for its root, and of which account and place it is."""

    is_good: bool
    account: int
    place: int
    root: bytes


def find_program(program: Union[str, "os.PathLike[str]", None] = None) -> List[str]:
    """The words that call the program: that which is named, else what the environment variable SPEEDEX names, else
    ``speedex`` on the PATH, else ``bin/speedex`` of the repository in which this package stands, which is then told to
    build nothing."""
    named = program or os.environ.get("SPEEDEX")
    if named:
        found = shutil.which(str(named))
        if found is None:
            raise EngineNotFoundError(f"{named} is no program that can be run")
        return [found]
    found = shutil.which("speedex")
    if found is not None:
        return [found]
    script = pathlib.Path(__file__).resolve().parents[2] / "bin" / "speedex"
    if os.access(script, os.X_OK):
        return [str(script), "--no-build"]
    raise EngineNotFoundError("no program: name it, or set SPEEDEX, or put speedex on the PATH")


def _bytes(record: AnyRecord) -> bytes:
    return record if isinstance(record, bytes) else encode(record)


class Engine:
    """The program. ``program`` is a path or a name on the PATH; ``find_program`` says what is taken without it.

    Records are given as dataclasses or as bytes, and answers are dataclasses. What the program refuses raises a
    ``RefusedError`` with its rule and figures, wrong bytes a ``DecodeError`` with an offset in all bytes of the call.
    """

    def __init__(
        self, program: Union[str, "os.PathLike[str]", None] = None, timeout: Optional[float] = None
    ) -> None:
        self.words = find_program(program)
        self.timeout = timeout

    def __repr__(self) -> str:
        return f"Engine({self.words[0]!r})"

    def run(self, words: Sequence[str], data: bytes = b"") -> Answer:
        """Runs a command: its exit code, its output and its line on standard error, whatever they are."""
        try:
            done = subprocess.run([*self.words, *words], input=data, capture_output=True, timeout=self.timeout)
        except OSError as error:
            raise EngineNotFoundError(f"{self.words[0]} cannot be run: {error}") from error
        except subprocess.TimeoutExpired:
            raise EngineError(124, f"{words[0]} took longer than {self.timeout} seconds") from None
        return Answer(done.returncode, done.stdout, done.stderr.decode(errors="replace").strip())

    def call(self, words: Sequence[str], data: bytes = b"") -> bytes:
        """The output of a command. An answer of another code than 0 is raised."""
        answer = self.run(words, data)
        if answer.code != 0:
            raise error_of(answer.code, answer.line)
        return answer.output

    def _record(self, kind: Type[RecordType], words: Sequence[str], *records: AnyRecord) -> RecordType:
        return decode(self.call(words, b"".join(map(_bytes, records))), kind)

    def seal(
        self,
        state: StateLike,
        candidates: CandidatesLike,
        *,
        workers: Optional[int] = None,
        shards: Optional[int] = None,
        mu: Optional[int] = None,
        rounds: Optional[int] = None,
        searches: Optional[int] = None,
    ) -> Sealed:
        """A block of candidates, and what became of each. The margin is ``2^-mu``; docs/FORMATS.md has the ranges."""
        options = {"workers": workers, "shards": shards, "mu": mu, "rounds": rounds, "searches": searches}
        words = ["seal", *_options(options)]
        data = self.call(words, _bytes(state) + _bytes(candidates))
        block, at = record_at(data, 0, (3,))
        outcomes = decode(data[at:], it.Outcomes)
        assert isinstance(block, it.Block)
        return Sealed(block, outcomes, data)

    def check(self, state: StateLike, block: BlockLike) -> Verdict:
        """Whether a block is valid for a state; a ``RefusedError`` if it is not."""
        found = self._line(_VALID, ["check"], _bytes(state) + _bytes(block))
        return Verdict(int(found[1]), int(found[2]), found[3] == "dropped")

    def replay(
        self, state: StateLike, blocks: Union[bytes, Iterable[BlockLike]], *, workers: Optional[int] = None
    ) -> it.State:
        """The state after blocks, one after the other: an iterable of blocks, or the bytes of their records, among
        which outcomes may stand as a seal writes them."""
        return self._record(it.State, ["replay", *_options({"workers": workers})], state, _joined(blocks))

    def follow(self, state: StateLike, blocks: Union[bytes, Iterable[BlockLike]]) -> it.State:
        """The state after the chain that blocks make, whatever their order. No block is refused."""
        return self._record(it.State, ["follow"], state, _joined(blocks))

    def filter(
        self, state: StateLike, candidates: CandidatesLike, *, workers: Optional[int] = None
    ) -> it.Candidates:
        """Those of the candidates that may all stand in one block."""
        return self._record(it.Candidates, ["filter", *_options({"workers": workers})], state, candidates)

    def interleave(
        self, state: StateLike, candidates: CandidatesLike, script: Union[it.Script, bytes]
    ) -> it.Outcomes:
        """What becomes of candidates if a script says who makes the next step."""
        return self._record(it.Outcomes, ["interleave"], state, candidates, script)

    def migrate(self, state: StateLike) -> it.State:
        """The same ledger in version 2."""
        return self._record(it.State, ["migrate"], state)

    def prove(self, state: StateLike, account: int) -> Optional[it.AccountProof]:
        """The proof of the account with this number; None if the ledger has none."""
        data = self.call(["prove", str(account)], _bytes(state))
        return decode(data, it.AccountProof) if data else None

    def verify(self, proof: Union[it.AccountProof, bytes]) -> ProofVerdict:
        """Whether a proof is good for the root in it."""
        found = self._line(_PROOF, ["verify"], _bytes(proof))
        return ProofVerdict(found[1] == "good", int(found[2]), int(found[3]), bytes.fromhex(found[4]))

    def show(self, record: AnyRecord) -> str:
        """A record of any kind but a proof as text."""
        return self.call(["show"], _bytes(record)).decode()

    def demo(self, number: int, *, workers: Optional[int] = None) -> str:
        """The summary of the market that is made of a number."""
        return self.call(["demo", str(number), *_options({"workers": workers})]).decode()

    def _line(self, pattern: "re.Pattern[str]", words: Sequence[str], data: bytes) -> "re.Match[str]":
        """The one line that a command writes."""
        line = self.call(words, data).decode(errors="replace")
        found = pattern.fullmatch(line)
        if found is None:
            raise EngineError(0, f"{words[0]} wrote another line: {line.strip()}")
        return found


def _options(options: "dict[str, Optional[int]]") -> List[str]:
    given: Iterable[Tuple[str, Optional[int]]] = options.items()
    return [word for name, number in given if number is not None for word in (f"--{name}", str(number))]


def _joined(blocks: Union[bytes, Iterable[BlockLike]]) -> bytes:
    return blocks if isinstance(blocks, bytes) else b"".join(map(_bytes, blocks))
