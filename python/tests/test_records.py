"""Bytes, records and text, both ways, and the decode errors."""

from __future__ import annotations

import copy
import dataclasses
import pickle
import random
import unittest

import speedex
from speedex import reading, records, scanning, text
from tests.cases import FOLDER, records_in_cases, stored


class RoundTrips(unittest.TestCase):
    def test_stored_records_are_written_as_they_were_read(self) -> None:
        found = records_in_cases()
        self.assertGreater(len(found), 200)
        self.assertEqual({type(record) for record in found.values()}, set(records.TAG_OF))
        for data, record in found.items():
            self.assertEqual(speedex.decode(data), record)
            self.assertEqual(speedex.encode(record), data)
            speedex.validate(record)

    def test_stored_inputs_are_the_bytes_of_their_records(self) -> None:
        whole = 0
        for case in stored():
            try:
                found = speedex.decode_all(case.input)
            except speedex.DecodeError:
                continue
            self.assertEqual(speedex.encode_all(found), case.input, case.name)
            whole += 1
        self.assertGreater(whole, 250)

    def test_text_says_all_of_a_record(self) -> None:
        for record in records_in_cases().values():
            if isinstance(record, speedex.AccountProof) or not isinstance(record, speedex.Script) or record.turns:
                self.assertEqual(text.parse(text.show(record)), [record])

    def test_text_is_that_of_show(self) -> None:
        shown = 0
        for case in stored("show"):
            if case.code == 0:
                self.assertEqual(text.show(speedex.decode(case.input)), case.output.decode(), case.name)
                shown += 1
        self.assertGreater(shown, 8)

    def test_records_are_copied_pickled_and_replaced(self) -> None:
        offer = speedex.Offer(0, 1, speedex.ONE, 5, 1, 10)
        self.assertEqual(copy.copy(offer), offer)
        self.assertEqual(pickle.loads(pickle.dumps(offer)), offer)
        self.assertEqual(len({offer, copy.deepcopy(offer)}), 1)
        self.assertEqual(dataclasses.replace(offer, amount=3).amount, 3)
        with self.assertRaises(dataclasses.FrozenInstanceError):
            offer.amount = 4  # type: ignore[misc]

    def test_lists_become_tuples(self) -> None:
        state = speedex.State(1, 0, [speedex.ONE], [0], [speedex.Account(1, 0, 0, [5])])  # type: ignore[arg-type]
        self.assertEqual(state.accounts[0].balances, (5,))
        self.assertEqual(speedex.decode(speedex.encode(state)), state)

    def test_a_number_that_fits_no_field_is_not_written(self) -> None:
        with self.assertRaises(ValueError):
            speedex.encode(speedex.Candidates((speedex.Creation(1, 1, 1 << 64),)))


class Columns(unittest.TestCase):
    def test_columns_have_what_the_records_have(self) -> None:
        seen = 0
        for data, record in records_in_cases().items():
            if isinstance(record, (speedex.Candidates, speedex.Block)):
                columns = speedex.transaction_columns(data)
                self.assertEqual(columns.count, len(record.transactions))
                for kind, numbers in columns.by_kind():
                    for at, index in enumerate(numbers["index"]):
                        made = record.transactions[index]
                        self.assertIs(type(made), records.KINDS[kind])
                        for name, column in numbers.items():
                            if name != "index":
                                self.assertEqual(column[at], getattr(made, name))
                        seen += 1
        self.assertGreater(seen, 300)

    def test_columns_have_the_same_faults(self) -> None:
        for case in stored("check"):
            if case.code == 5 and case.line.startswith("malformed"):
                frame = reading.FRAME
                begin = frame + int.from_bytes(case.input[1:frame], "big")
                if case.input[begin : begin + 1] != b"\3":
                    continue
                data = case.input[begin:]
                with self.assertRaises(speedex.DecodeError) as columns:
                    speedex.transaction_columns(data)
                with self.assertRaises(speedex.DecodeError) as record:
                    speedex.decode(data, speedex.Block)
                self.assertEqual(str(columns.exception), str(record.exception), case.name)


class Faults(unittest.TestCase):
    """``reading`` takes whole payloads and ``scanning`` single fields; they have to agree on what is wrong."""

    def test_a_byte_changed_is_a_fault_for_both_or_for_none(self) -> None:
        chosen = random.Random(1)
        faults = 0
        for data, record in sorted(records_in_cases().items()):
            if len(data) > 2000:
                continue
            for _ in range(30):
                at = chosen.randrange(reading.FRAME, len(data))
                value = chosen.choice((0, 1, 2, 3, 4, 5, 127, 128, 255))
                changed = data[:at] + bytes((value,)) + data[at + 1 :]
                fault = scanning.fault_of(data[0], changed, reading.FRAME, len(changed))
                if fault is None:
                    found = speedex.decode(changed)
                    self.assertEqual(speedex.encode(found), changed)
                else:
                    faults += 1
                    with self.assertRaises(speedex.DecodeError) as caught:
                        speedex.decode(changed)
                    self.assertEqual(str(caught.exception), str(fault))
        self.assertGreater(faults, 1000)

    def test_what_is_cut_off_is_short_at_its_end(self) -> None:
        for name in ("check_payment", "check_dropped_bounds", "show_outcomes_of_all_kinds", "show_script"):
            data = (FOLDER / name / "input").read_bytes()
            for count in range(len(data)):
                if count in _ends(data):
                    continue
                with self.assertRaises(speedex.DecodeError) as caught:
                    speedex.decode_all(data[:count])
                self.assertEqual((caught.exception.number, caught.exception.offset), (1, count))

    def test_wrong_structure_is_told_without_ranges_too(self) -> None:
        data = speedex.encode(speedex.Outcomes((speedex.Static(3),)))
        found = list(speedex.records_of(data[:-1] + b"\x63", strict=False))
        self.assertEqual(found, [speedex.Outcomes((speedex.Static(99),))])
        with self.assertRaises(speedex.DecodeError) as caught:
            list(speedex.records_of(data[:9] + b"\7" + data[10:], strict=False))
        self.assertEqual(str(caught.exception), "malformed at 9: 2 Tag")


def _ends(data: bytes) -> "set[int]":
    found, at = {0}, 0
    while at < len(data):
        at += reading.FRAME + int.from_bytes(data[at + 1 : at + reading.FRAME], "big")
        found.add(at)
    return found


class Text(unittest.TestCase):
    def test_a_wrong_line_is_named(self) -> None:
        for lines, number in (
            (["state height 0 assets 1", "asset 0 price 5"], 2),
            (["state assets 1", "", "# nothing", "asset 1 price 5 rounding 0"], 4),
            (["account 1 last 0 balances 1"], 1),
            (["candidates", "tx 1 1 pay 2 0 -5"], 2),
            (["candidates", "tx 1 1 pay 2 0 5 5"], 2),
            (["candidates 2", "tx 1 1 pay 2 0 5"], 1),
            (["block", "tx 1 1 pay 2 0 5"], 1),
        ):
            with self.assertRaises(speedex.TextError) as caught:
                speedex.parse("\n".join(lines))
            self.assertEqual(caught.exception.line, number, lines)
            self.assertIn(str(number), str(caught.exception))

    def test_a_decimal_is_named(self) -> None:
        for word in ("0.4", "1/66", "1,000"):
            with self.assertRaisesRegex(speedex.TextError, "line 2 is not understood: its numbers have to be whole: tx"):
                speedex.parse(f"candidates\ntx 1 1 offer 0 1 limit {word} amount 5")

    def test_what_a_block_leaves_out_is_filled_in(self) -> None:
        lines = (
            "state height 0 assets 2", "asset 0 price 16777216 rounding 0", "asset 1 price 16777216 rounding 0",
            "account 1 last 0 balances 60 0", "account 2 last 0 balances 0 60",
            "block", "trade 0 1 1006632960", "trade 1 0 1006632960",
            "tx 1 1 offer 0 1 limit 16777216 amount 60", "tx 2 1 offer 1 0 limit 8388608 amount 60",
        )  # fmt: skip
        state, block = speedex.parse("\n".join(lines))
        assert isinstance(state, speedex.State) and isinstance(block, speedex.Block)
        self.assertEqual(str(speedex.check(state, block)), "valid height 1 value 2013265920 bounds kept")


if __name__ == "__main__":
    unittest.main()
