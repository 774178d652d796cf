"""The limits of counts, and inputs of many lengths, each with its answer in closed form: a part of tests/sweep.

Each function makes rows: a name, words, an input, and the answer or what judges it. Nothing here calls the program.
"""

from computed import FRAME, ONE, PAY, Crowd, backwards, listed, record, without_potentials
from speedex import answers, errors, reading, records, rules, text, writing


def differences(got, wanted):
    if got.code != wanted.code or got.line != wanted.line:
        yield f"exit code {got.code} and {got.line!r}, and not {wanted.code} and {wanted.line!r}"
    elif got.output != wanted.output:
        length = len(got.output)
        same = next((at for at, (a, b) in enumerate(zip(got.output, wanted.output)) if a != b), length)
        yield f"another output from byte {same} on, of {length} bytes and not {len(wanted.output)}"


def done(output):
    return answers.Answer(0, output, "")


def fails(error):
    return answers.Answer(error.code, b"", str(error))


def malformed(kind, at):
    return fails(errors.DecodeError(kind, at))


def crowded(have, more, limit):
    return fails(errors.RefusedError(0, 9, {"have": have, "more": more, "limit": limit}))


def limit_of_transactions(draw, most=records.MOST_TRANSACTIONS):
    yield from payments(65_536, most)
    state = Crowd(1).state()
    above = struct_count(most + 1)
    for words, before in ((["filter"], state), (["seal"], state), (["show"], b"")):
        yield "1,000,001 candidates", words, before + record(2, above + bytes(100)), malformed(9, len(before) + FRAME)
    crowd = Crowd(1)
    crowd.begin()
    block = crowd.block(crowd.payments(0))
    longer = record(3, block[FRAME:-4] + above + bytes(100))
    for command in ("check", "replay", "follow"):
        yield "a block of 1,000,001 transactions", [command], state + longer, malformed(9, len(state) + len(block) - 4)


def struct_count(count):
    return count.to_bytes(4, "big")


def limit_of_turns(draw):
    """The last of 8,000,000 turns decides which of two candidates keeps a number; those before it do nothing."""
    crowd = Crowd(8)
    made = [PAY(1, 1, 1, 2, 0, 1), PAY(2, 1, 1, 3, 0, 1), PAY(2, 1, 1, 4, 0, 1)]
    made += [PAY(3, 1 + at, 1, 5, 0, 1) for at in range(5)]
    before = crowd.state() + record(2, listed(made))
    turns = bytes(records.MOST_TURNS - 1) + b"\2"
    taken = record(4, struct_count(8) + bytes([0, 2] + [0] * 6))
    yield "the last turn is actor 2's", ["interleave"], [before, record(5, b"\10" + listed_turns(turns))], done(taken)
    taken = record(4, struct_count(8) + bytes([0, 0, 2] + [0] * 5))
    fewer = turns[:-1] + b"\0"
    yield "no turn of actor 2", ["interleave"], [before, record(5, b"\10" + listed_turns(fewer))], done(taken)
    more = record(5, b"\10" + listed_turns(turns + b"\0"))
    yield "8,000,001 turns", ["interleave"], [before, more], malformed(9, len(before) + FRAME + 1)
    yield "8,000,001 turns are shown", ["show"], more, malformed(9, FRAME + 1)
    lines = f"script actors 8 turns {len(turns)}\n" + "turn 0\n" * (len(turns) - 1) + "turn 2\n"
    yield "8,000,000 turns are shown", ["show"], record(5, b"\10" + listed_turns(turns)), done(lines.encode())


def listed_turns(turns):
    return struct_count(len(turns)) + turns


def limit_of_interleaved(draw, most=records.MOST_TRANSACTIONS):
    """1,000,000 candidates, of which each actor has the same: the first of them keeps all numbers."""
    crowd = Crowd(16_384)
    mine = [PAY(1 + at % 16_384, 1 + at // 16_384, 1, 1 + at % 16_384, 0, 1) for at in range(most // 8)]
    first = draw.randrange(8)
    turns = bytes([first]) * (3 * len(mine)) + bytes(draw.randrange(8) for _ in range(1000)) + bytes(7_000_000)
    turns += bytes([first]) * (records.MOST_TURNS - len(turns))
    outcomes = b"".join((b"\0" if actor == first else b"\2") * len(mine) for actor in range(8))
    data = [crowd.state(), record(2, listed(mine * 8)), record(5, b"\10" + listed_turns(turns))]
    yield f"actor {first} first", ["interleave"], data, done(record(4, struct_count(most) + outcomes))


def limit_of_outcomes(draw, most=records.MOST_TRANSACTIONS):
    longest = record(4, listed([b"\5" + bytes(8) + (2**62).to_bytes(8, "big")] * most))
    lines = [f"outcomes {most}", *(f"{at} overdraft seen 0 need {2**62}" for at in range(most)), ""]
    yield "1,000,000 outcomes", ["show"], longest, done("\n".join(lines).encode())
    more = record(4, struct_count(most + 1) + longest[FRAME + 4 :] + b"\0")
    yield "1,000,001 outcomes", ["show"], more, malformed(9, FRAME)
    longer = record(4, struct_count(most) + longest[FRAME + 4 :] + b"\0")
    yield "1,000,000 outcomes and a byte", ["show"], longer, malformed(10, len(longest))


def limit_of_accounts(draw, most=records.MOST_ACCOUNTS):
    crowd = Crowd(most - 1)
    yield from created(crowd, 1)
    state = crowd.state()
    yield "65,536 accounts", ["migrate"], state, done(migrated(crowd))
    yield "65,536 accounts are shown", ["show"], state, done(text.show(reading.decode(state)).encode())
    place = FRAME + 10 + 16
    more = record(1, state[FRAME:place] + struct_count(most + 1) + state[place + 4 : -4] + bytes(28))
    for words in (["show"], ["migrate"], ["prove", "1"], ["check"], ["replay"], ["follow"], ["seal"]):
        yield "65,537 accounts", words, more, malformed(9, place)
    made = record(2, crowd.creations(1))
    for words in (["seal"], ["filter"], ["interleave"]):
        script = writing.encode(records.Script(1)) if words == ["interleave"] else b""
        yield "a creation above 65,536 accounts", words, state + made + script, crowded(most, 1, most)


def created(crowd, count):
    """A seal of creations, and a check and a replay of the block that it makes."""
    state, body = crowd.begin(), crowd.creations(count)
    yield from sealed_rows("creations", crowd, state, body, ())


def sealed_rows(name, crowd, state, body, trades, block_commands=("check", "replay", "follow")):
    """Rows of a body that is sealed whole, whose effects the crowd has."""
    count = int.from_bytes(body[:4], "big")
    block = crowd.block(body, trades)
    wanted = without_potentials(block) + record(4, struct_count(count) + bytes(count))

    def judged(got):
        if got.code or got.line:
            return [f"exit code {got.code} and {got.line!r}"]
        return differences(done(without_potentials(got.output)), done(wanted))

    yield f"{count} {name}", ["seal"], [state, record(2, body)], judged
    value = sum(trade[2] for trade in trades)
    line = f"valid height {crowd.height} value {value} bounds kept\n".encode()
    after = done(crowd.state())
    for command in block_commands:
        yield f"{count} {name}", [command], [state, block], done(line) if command == "check" else after


def migrated(crowd):
    two = Crowd(crowd.count, crowd.assets, version=2, height=crowd.height)
    two.lasts, two.balances, two.offers = crowd.lasts, crowd.balances, crowd.offers
    return two.state()


def limit_of_offers(draw, most=records.MOST_OFFERS):
    crowd = Crowd(8_192, assets=2)
    state, body = crowd.begin(), crowd.resting(most)
    yield from sealed_rows("offers", crowd, state, body, (), ())
    state = crowd.state()
    yield "262,144 offers", ["migrate"], state, done(migrated(crowd))
    yield "262,144 offers are shown", ["show"], state, done(text.show(reading.decode(state)).encode())
    place = len(state) - 34 * most - 4
    more = record(1, state[FRAME:place] + struct_count(most + 1) + state[place + 4 :] + bytes(34))
    for words in (["show"], ["migrate"], ["prove", "1"], ["filter"]):
        yield "262,145 offers", words, more, malformed(9, place)
    made = record(2, crowd.resting(1))
    for words in (["seal"], ["filter"], ["interleave"]):
        script = writing.encode(records.Script(1)) if words == ["interleave"] else b""
        yield "an offer above 262,144", words, state + made + script, crowded(most, 1, most)


def limit_of_trades(draw):
    """32 assets, of which each pair trades; and a trade more."""
    pairs = [(sell, buy) for sell in range(32) for buy in range(32) if sell != buy]
    accounts = [records.Account(1 + at, 32, 0, (500,) * 32) for at in range(32)]
    offers = [records.Offer(sell, buy, ONE // 2, 1 + sell, 1 + (buy - sell) % 32, 7) for sell, buy in pairs]
    state = records.State(1, 0, (ONE,) * 32, (0,) * 32, accounts, sorted(offers, key=lambda it: it.key))
    trades = [records.Trade(sell, buy, 7 * ONE) for sell, buy in pairs]
    digests = writing.state_digest(state), writing.body_digest(())
    none = (0,) * 32
    block = records.Block(1, 1, *digests, 10, state.prices, trades, None, none, none, bytes(32), ())
    after = rules.Survey(state, block).after
    before = writing.encode(state)
    data = before + writing.encode(block)[:-36] + writing.state_digest(after) + bytes(4)
    yield "992 trades", ["check"], data, done(f"valid height 1 value {992 * 7 * ONE} bounds kept\n".encode())
    for command in ("replay", "follow"):
        yield "992 trades", [command], data, done(writing.encode(after))
    place = len(before) + FRAME + 75 + 8 * 32
    more = data[:place] + (993).to_bytes(2, "big") + data[place + 2 :]
    for command in ("check", "replay", "follow"):
        yield "993 trades", [command], more, malformed(9, place)


def limit_of_assets(draw):
    for count in (0, 33, 255):
        state = record(1, bytes([1, *[0] * 8, count]) + bytes(8 + 16 * count))
        yield f"{count} assets", ["show"], state, malformed(16, FRAME + 9)


def limit_of_window(draw):
    """An account uses the 64th number above its last one, and not the 65th."""
    crowd = Crowd(2)
    state = crowd.state()
    for seq, outcome in ((64, b"\0"), (65, b"\1\3")):
        data = state + record(2, listed([PAY(1, seq, 1, 2, 0, 1)])) + writing.encode(records.Script(1))
        yield f"number {seq}", ["interleave"], data, done(record(4, struct_count(1) + outcome))


LIMITS = {
    "transactions": limit_of_transactions,
    "candidates of interleave": limit_of_interleaved,
    "turns": limit_of_turns,
    "outcomes": limit_of_outcomes,
    "accounts": limit_of_accounts,
    "offers": limit_of_offers,
    "trades": limit_of_trades,
    "assets": limit_of_assets,
    "numbers of a window": limit_of_window,
}


# ---- lengths


def payments(accounts, count):
    """Payments that every command takes: sealed, filtered, interleaved, shown, and as a block."""
    crowd = Crowd(accounts)
    state, body = crowd.begin(), crowd.payments(count)
    candidates = record(2, body)
    script = writing.encode(records.Script(5, bytes([4, 3, 2, 1, 0] * 7)))
    yield f"{count} payments backwards", ["filter"], [state, record(2, backwards(body, 34))], done(candidates)
    outcomes = record(4, struct_count(count) + bytes(count))
    yield f"{count} payments", ["interleave"], [state, candidates, script], done(outcomes)
    if count <= 300_000:
        yield f"{count} payments are shown", ["show"], candidates, done(text.show(reading.decode(candidates)).encode())
    yield from sealed_rows("payments", crowd, state, body, ())


def trading(accounts, count):
    crowd = Crowd(accounts, assets=2)
    state = crowd.begin()
    body, trades = crowd.trading(count - count % 2)
    yield from sealed_rows("offers that trade", crowd, state, body, trades)


def resting(accounts, count):
    crowd = Crowd(accounts, assets=2)
    state, body = crowd.begin(), crowd.resting(count)
    yield from sealed_rows("offers that rest", crowd, state, body, ())
    state = crowd.state()
    yield f"{count} offers", ["migrate"], state, done(migrated(crowd))
    yield f"{count} offers are shown", ["show"], state, done(text.show(reading.decode(state)).encode())


def creating(accounts, count):
    crowd = Crowd(accounts)
    yield from created(crowd, count)
    state, last = crowd.state(), crowd.count
    yield f"the last of {last} accounts", ["prove", str(last)], state, answers.answer(["prove", str(last)], state)
