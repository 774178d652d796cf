"""Messages of candidates and entries of the log, as bytes. Needs nothing but Python's standard library.

A message of the queue `candidates` is one candidates record, as docs/FORMATS.md has it.

An entry of the stream `blocks` is what `seal` wrote, a block record and an outcomes record, and behind them a note of
21 bytes for each message that the block decides, in the order of their candidates:

    name      16 bytes   the first bytes of SHA-256 over the message's id, a zero byte and the message's body
    refused   u8         0, or why the message was refused as a whole: a form fault of docs/FORMATS.md, or 200 or 201
    count     u32        how many candidates it has; 0 if it was refused as a whole

So the outcomes of a message's candidates are the next `count` ones of the outcomes record.
"""

import hashlib
import struct

CANDIDATES, BLOCK, OUTCOMES = 2, 3, 4
FRAME = struct.Struct(">BI")
NOTE = struct.Struct(">16sBI")
COUNT = struct.Struct(">I")

# why a message is refused as a whole, beside the form faults 1 to 23
TOO_LARGE, NO_ROOM = 200, 201

MOST_TRANSACTIONS = 1_000_000
MOST_NUMBER = 2**63 - 1
MOST_AMOUNT = 2**62
MOST_LIMIT = 2**56 - 1
START = struct.Struct(">QQB")
PAYMENT, OFFER = struct.Struct(">QBQ"), struct.Struct(">BBQQ")
PAY, CREATE, SELL, CANCEL = 1, 2, 3, 4
LENGTHS = {PAY: 34, CREATE: 25, SELL: 35, CANCEL: 35}

# the bytes that an outcome has, by its first one
OUTCOME_LENGTHS = {0: 1, 1: 2, 2: 1, 3: 1, 4: 1, 5: 17}
OUTCOME_NAMES = {0: "accepted", 1: "static", 2: "seq-taken", 3: "offer-taken", 4: "name-taken", 5: "overdraft"}


class NotAnEntry(Exception):
    """The bytes do not begin with a block record, or their note is not one."""


def record(tag, payload):
    return FRAME.pack(tag, len(payload)) + payload


def name_of(message_id, body):
    """Which message this is. The body counts too, so nobody can take the name of another one's message."""
    return hashlib.sha256((message_id or "").encode() + b"\0" + body).digest()[:16]


def is_amount(number):
    return 1 <= number <= MOST_AMOUNT


def transaction_ends(data, at):
    """Where the transaction at this place ends, or None if it is not surely well formed."""
    if at + START.size > len(data):
        return None
    _, number, kind = START.unpack_from(data, at)
    end = at + LENGTHS.get(kind, len(data) + 1)
    if end > len(data) or not 1 <= number <= MOST_NUMBER:
        return None
    at += START.size
    if kind == PAY:
        _, asset, amount = PAYMENT.unpack_from(data, at)
        fine = asset < 32 and is_amount(amount)
    elif kind == CREATE:
        fine = True
    else:
        sold, bought, limit, last = OFFER.unpack_from(data, at)
        fine = sold < 32 and bought < 32 and 1 <= limit <= MOST_LIMIT
        fine = fine and (is_amount(last) if kind == SELL else 1 <= last <= MOST_NUMBER)
    return end if fine else None


def split_candidates(body):
    """The bytes of each candidate of a message, or None if the message is not surely well formed."""
    if len(body) < FRAME.size + COUNT.size:
        return None
    tag, length = FRAME.unpack_from(body)
    (count,) = COUNT.unpack_from(body, FRAME.size)
    if tag != CANDIDATES or length != len(body) - FRAME.size or count > MOST_TRANSACTIONS:
        return None
    at, found = FRAME.size + COUNT.size, []
    for _ in range(count):
        end = transaction_ends(body, at)
        if end is None:
            return None
        found.append(body[at:end])
        at = end
    return found if at == len(body) else None


def candidates_record(candidates):
    """The record of candidates, each given as its bytes."""
    return record(CANDIDATES, COUNT.pack(len(candidates)) + b"".join(candidates))


def record_end(data, at, tag):
    """Where the record of this tag that begins here ends."""
    if at + FRAME.size > len(data):
        raise NotAnEntry("the bytes end inside a frame")
    found, length = FRAME.unpack_from(data, at)
    if found != tag or at + FRAME.size + length > len(data):
        raise NotAnEntry("another record, or one that is cut off")
    return at + FRAME.size + length


class Block:
    """Of a block record: its bytes, its height, the digests before and after it and how many transactions it has."""

    def __init__(self, data):
        end = record_end(data, 0, BLOCK)
        self.record = data[:end]
        try:
            _, self.height, self.parent = struct.unpack_from(">BQ32s", data, FRAME.size)
            at = FRAME.size + 1 + 8 + 32 + 32 + 1
            assets = data[at]
            at += 1 + 8 * assets
            (trades,) = struct.unpack_from(">H", data, at)
            at += 2 + 18 * trades
            at += 1 + 4 * data[at] + 12 * assets
            self.after, self.count = struct.unpack_from(">32sI", data, at)
            self.transactions_at = at + 36
        except (struct.error, IndexError) as error:
            raise NotAnEntry("a block that ends inside its header") from error


class Entry:
    """An entry of the log, with the outcomes by message. An entry whose note is not one names no message."""

    def __init__(self, data):
        self.block = Block(data)
        self.messages, self.outcomes = [], []
        try:
            at = len(self.block.record)
            end = record_end(data, at, OUTCOMES)
            outcomes = split_outcomes(data[at:end])
            notes = list(NOTE.iter_unpack(data[end:]))
            if sum(count for _, _, count in notes) != len(outcomes):
                raise NotAnEntry("a note for other outcomes")
            self.messages, self.outcomes = notes, outcomes
        except (struct.error, NotAnEntry):
            pass

    def names(self):
        return [name for name, _, _ in self.messages]

    def fates(self):
        """For each message its name, why it was refused as a whole or 0, and the outcomes of its candidates."""
        at = 0
        for name, refused, count in self.messages:
            yield name, refused, self.outcomes[at : at + count]
            at += count


def split_outcomes(data):
    """The outcomes of a record, each as its bytes."""
    (count,) = COUNT.unpack_from(data, FRAME.size)
    at, found = FRAME.size + COUNT.size, []
    for _ in range(count):
        end = at + OUTCOME_LENGTHS.get(data[at], len(data)) if at < len(data) else len(data) + 1
        if end > len(data):
            raise NotAnEntry("an outcome that is none")
        found.append(data[at:end])
        at = end
    if at != len(data):
        raise NotAnEntry("bytes behind the outcomes")
    return found


def outcome_text(outcome):
    """An outcome as `show` writes it."""
    name = OUTCOME_NAMES[outcome[0]]
    if outcome[0] == 1:
        return f"{name} {outcome[1]}"
    if outcome[0] == 5:
        return "{} seen {} need {}".format(name, *struct.unpack(">QQ", outcome[1:]))
    return name


def entry_bytes(sealed, messages):
    """An entry of what `seal` wrote and of (name, refused, count) for each message."""
    return sealed + b"".join(NOTE.pack(*message) for message in messages)
