"""What the program has to answer to an input, worked out from the documents alone: an independent answer for tests.

``answer(words, data)`` is the exit code, the standard output and the line on standard error. Two things are not worked
out here, and raise ``NotImplementedError``: what a ``seal`` writes, of which many outputs are right, and what a
``demo`` writes, whose market no document has.
"""

from __future__ import annotations

import re
from typing import Callable, Dict, List, NamedTuple, Sequence, Tuple

from . import gathering, rules, text
from . import records as it
from .errors import DecodeError, SpeedexError, UsageError
from .reading import record_at
from .scanning import REST, TOO_MANY
from .writing import encode

USAGE = "usage: speedex seal, replay, check, show, interleave, migrate, filter, prove ID, verify, follow or demo N"


class Answer(NamedTuple):
    """What a run of the program leaves behind."""

    code: int
    output: bytes
    line: str


class Input:
    """Records that are read one by one, with the faults that the program finds in them."""

    def __init__(self, data: bytes) -> None:
        self.data, self.at = data, 0

    def next(self, *tags: int) -> it.Record:
        """The next record, whose tag has to be one of these."""
        record, self.at = record_at(self.data, self.at, tags)
        return record

    def state(self) -> it.State:
        record = self.next(1)
        assert isinstance(record, it.State)
        return record

    def candidates(self) -> it.Candidates:
        record = self.next(2)
        assert isinstance(record, it.Candidates)
        return record

    def ends(self) -> bool:
        return self.at >= len(self.data)

    def finish(self) -> None:
        if not self.ends():
            raise DecodeError(REST, self.at)

    def block(self) -> it.Block:
        record = self.next(3)
        assert isinstance(record, it.Block)
        return record

    def blocks(self, judge: Callable[[it.Block], None]) -> None:
        """Blocks up to the end, each with outcomes behind it or not; each is judged before the next one is read."""
        count = 0
        may_come: Tuple[int, ...] = (3,)
        while not self.ends():
            begin = self.at
            record = self.next(*may_come)
            may_come = (3, 4) if isinstance(record, it.Block) else (3,)
            if isinstance(record, it.Block):
                count += 1
                if count > it.MOST_BLOCKS:
                    raise DecodeError(TOO_MANY, begin)
                judge(record)


def _check(data: Input, words: Sequence[int]) -> bytes:
    state, block = data.state(), data.block()
    data.finish()
    return f"{rules.check(state, block)}\n".encode()


def _replay(data: Input, words: Sequence[int]) -> bytes:
    state, number = data.state(), 0

    def judge(block: it.Block) -> None:
        nonlocal state, number
        survey = rules.Survey(state, block, number)
        refusal = rules.refusal_of(survey)
        if refusal is not None:
            raise refusal
        state, number = survey.after, number + 1

    data.blocks(judge)
    return encode(state)


def _follow(data: Input, words: Sequence[int]) -> bytes:
    state = data.state()
    blocks: List[it.Block] = []
    data.blocks(blocks.append)
    return encode(rules.follow(state, blocks))


def _filter(data: Input, words: Sequence[int]) -> bytes:
    state, candidates = data.state(), data.candidates()
    data.finish()
    return encode(gathering.kept(state, candidates))


def _interleave(data: Input, words: Sequence[int]) -> bytes:
    state, candidates, script = data.state(), data.candidates(), data.next(5)
    assert isinstance(script, it.Script)
    data.finish()
    return encode(gathering.interleave(state, candidates, script))


def _seal(data: Input, words: Sequence[int]) -> bytes:
    state, candidates = data.state(), data.candidates()
    data.finish()
    gathering.refuse_crowd(state, candidates.transactions)
    raise NotImplementedError("what is sealed is not worked out here")


def _demo(data: Input, words: Sequence[int]) -> bytes:
    raise NotImplementedError("the market of a demonstration is not worked out here")


def _migrate(data: Input, words: Sequence[int]) -> bytes:
    state = data.state()
    data.finish()
    return encode(gathering.migrate(state))


def _show(data: Input, words: Sequence[int]) -> bytes:
    record = data.next(1, 2, 3, 4, 5)
    data.finish()
    return "".join(f"{line}\n" for line in text.lines_of(record)).encode()


def _prove(data: Input, words: Sequence[int]) -> bytes:
    state = data.state()
    data.finish()
    proof = gathering.prove(state, words[0])
    return b"" if proof is None else encode(proof)


def _verify(data: Input, words: Sequence[int]) -> bytes:
    proof = data.next(6)
    assert isinstance(proof, it.AccountProof)
    data.finish()
    verdict = "good" if gathering.is_good(proof) else "bad"
    return f"proof {verdict} account {proof.account.id} place {proof.place} root {proof.root.hex()}\n".encode()


#: How each command is answered.
COMMANDS: Dict[str, Callable[[Input, Sequence[int]], bytes]] = {
    "seal": _seal,
    "demo": _demo,
    "check": _check,
    "replay": _replay,
    "follow": _follow,
    "filter": _filter,
    "interleave": _interleave,
    "migrate": _migrate,
    "show": _show,
    "prove": _prove,
    "verify": _verify,
}
_WORKERS = {"--workers": (1, 64)}
_SEAL = {**_WORKERS, "--shards": (1, 64), "--mu": (1, 20), "--rounds": (0, 10_000), "--searches": (1, 8)}
_OPTIONS = {"seal": _SEAL, "replay": _WORKERS, "filter": _WORKERS, "demo": _WORKERS}
_NUMBERED = ("prove", "demo")
_BARE = re.compile(r"0|[1-9][0-9]{0,19}")


def numbers_of(words: Sequence[str]) -> List[int]:
    """The number behind the command, if it has one; a ``UsageError`` if the program does not know the words."""
    if not words or words[0] not in COMMANDS:
        raise UsageError(USAGE)
    command, rest = words[0], [part for word in words[1:] for part in _parts(word)]
    numbers = [_number(rest.pop(0)) for _ in range(command in _NUMBERED and bool(rest))]
    if len(numbers) != (command in _NUMBERED) or len(rest) % 2:
        raise UsageError(USAGE)
    options = _OPTIONS.get(command, {})
    for word, number in zip(rest[::2], rest[1::2]):
        if word not in options or rest[::2].count(word) > 1:
            raise UsageError(USAGE)
        least, most = options[word]
        if not least <= _number(number) <= most:
            raise UsageError(USAGE)
    return numbers


def _parts(word: str) -> List[str]:
    name, mark, value = word.partition("=")
    return [name, value] if mark and name.startswith("--") else [word]


def _number(word: str) -> int:
    if not _BARE.fullmatch(word) or int(word) >= 1 << 64:
        raise UsageError(USAGE)
    return int(word)


def answer(words: Sequence[str], data: bytes) -> Answer:
    """What the program answers to these words and this input."""
    try:
        numbers = numbers_of(words)
        return Answer(0, COMMANDS[words[0]](Input(data), numbers), "")
    except SpeedexError as error:
        assert error.code is not None
        return Answer(error.code, b"", str(error))
