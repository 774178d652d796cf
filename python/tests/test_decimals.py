"""Decimals and tables: exact both ways, and a wrong line is named."""

from __future__ import annotations

import io
import random
import unittest
from fractions import Fraction
from typing import List

import speedex
from speedex import decimals, tables
from speedex.tables import Asset
from tests.cases import records_in_cases


class Decimals(unittest.TestCase):
    def test_what_the_first_hour_computes(self) -> None:
        self.assertEqual(decimals.limit_price("64.80", 3, 2), 108716360)
        self.assertEqual(decimals.limit_price("65.80", 3, 2), 110394082)
        self.assertEqual(decimals.limit_price("1/66", 2, 3), 2542003)
        self.assertEqual(decimals.rounded(decimals.rate_of(108716360, 3, 2), 6), "64.800000")

    def test_quotients_of_decimals_are_exact(self) -> None:
        rates: List[decimals.Number] = ["10/22", "1/2.20", "1.00/2.2", "0.5/1.10", "+1/2.2", Fraction(10, 22)]
        for rate in rates:
            self.assertEqual(decimals.limit_price(rate, 2, 3), 76260073)
        self.assertEqual(decimals.fraction_of("1/2.20"), Fraction(5, 11))
        self.assertEqual(decimals.fraction_of("-0.3/0.1"), -3)
        # no float is as near to a third: 10^20 units of it would differ
        self.assertEqual(decimals.to_units("0.1/0.3", 20, decimals.UP), 33333333333333333334)
        for wrong in ("1/0", "1/0.00", "1/", "/2", "1/2/3", "1/-2", "1 / 2", "1/1e3", "1" * 1001, "1/" + "9" * 5000):
            with self.assertRaises(speedex.NumberError):
                decimals.fraction_of(wrong)
            with self.assertRaises(speedex.NumberError):
                decimals.limit_price(wrong)

    def test_a_limit_price_is_in_range(self) -> None:
        self.assertEqual(decimals.limit_price(Fraction(1, 2**24)), 1)
        self.assertEqual(decimals.limit_price(Fraction(1, 2**30)), 1)
        self.assertEqual(decimals.limit_price(Fraction(2**56 - 1, 2**24)), 2**56 - 1)
        for low in ("0", "-1.5"):
            with self.assertRaisesRegex(speedex.NumberError, "is below 1, in units of"):
                decimals.limit_price(low)
        for high in (2**32, 10**5000):
            with self.assertRaisesRegex(speedex.NumberError, "is above 2\\^56 - 1, in units of"):
                decimals.limit_price(high)

    def test_each_fixed_number_is_its_decimal_again(self) -> None:
        chosen = random.Random(7)
        numbers = [0, 1, 2**24 - 1, 2**24, 2**56 - 1, 2**102, *(chosen.randrange(2**64) for _ in range(500))]
        for number in numbers:
            text = decimals.from_fixed(number)
            self.assertEqual(decimals.to_fixed(text), number)
            self.assertEqual(Fraction(text), Fraction(number, 2**24))

    def test_rounding_is_said(self) -> None:
        with self.assertRaisesRegex(speedex.NumberError, "no multiple of 2\\^-24"):
            decimals.to_fixed("6.48")
        self.assertEqual(decimals.to_fixed("6.48", decimals.UP), 108716360)
        self.assertEqual(decimals.to_fixed("6.48", decimals.DOWN), 108716359)
        self.assertEqual(decimals.to_fixed("6.48", decimals.NEAREST), 108716360)
        self.assertEqual(decimals.rounded("0.5", 0), "1")

    def test_amounts(self) -> None:
        self.assertEqual(decimals.to_units("50.125", 3), 50125)
        self.assertEqual(decimals.from_units(50125, 3), "50.125")
        self.assertEqual(decimals.from_units(-5, 3), "-0.005")
        for wrong in ("", "1.", ".5", "1e3", "1,5", "NaN", "½", "1/0", " 1"):
            with self.assertRaises(speedex.NumberError):
                decimals.to_units(wrong, 3)
        with self.assertRaises(TypeError):
            decimals.to_units(1.5, 3)  # type: ignore[arg-type]


class Tables(unittest.TestCase):
    assets = (Asset("gold", 3), Asset("euro", 2), *(Asset(f"a{at}", at % 5) for at in range(2, 32)))

    def test_stored_records_are_read_back(self) -> None:
        kinds = set()
        for record in records_in_cases().values():
            for assets in ((), self.assets):
                out = io.StringIO()
                if isinstance(record, (speedex.Candidates, speedex.Block)):
                    tables.write_transactions(out, record.transactions, assets)
                    found = tables.read_transactions(io.StringIO(out.getvalue()), assets)
                    self.assertEqual(tuple(found), record.transactions)
                elif isinstance(record, speedex.Outcomes):
                    tables.write_outcomes(out, record)
                    self.assertEqual(tables.read_outcomes(io.StringIO(out.getvalue())), record)
                elif isinstance(record, speedex.State):
                    tables.write_offers(out, record.offers, assets)
                    self.assertEqual(tuple(tables.read_offers(io.StringIO(out.getvalue()), assets)), record.offers)
                    out = io.StringIO()
                    named = assets[: len(record.prices)]
                    tables.write_accounts(out, record.accounts, named)
                    self.assertEqual(tuple(tables.read_accounts(io.StringIO(out.getvalue()), named)), record.accounts)
                else:
                    continue
                kinds.add(type(record).__name__)
        self.assertEqual(kinds, {"State", "Candidates", "Block", "Outcomes"})

    def test_decimals_and_names(self) -> None:
        table = "account,seq,kind,sell,buy,limit,amount\n1,1,offer,gold,euro,64.80,50.000\n"
        made = tables.read_transactions(table.splitlines(), self.assets, decimals.UP)
        self.assertEqual(made, [speedex.NewOffer(1, 1, 0, 1, 108716360, 50000)])

    def test_a_wrong_line_is_named(self) -> None:
        head = "account,seq,kind,payee,asset,amount,id,sell,buy,limit,offer_seq"
        good = "1,1,payment,2,0,5,,,,,"
        for line, reason in (
            ("1,1,payment,2,0,5.5,,,,,", "amount '5.5' has not at most 0 decimals"),
            ("1,1,payment,2,0,0,,,,,", "amount 0 is not from 1 to"),
            ("1,1,payment,2,32,5,,,,,", "asset 32 is not from 0 to 31"),
            ("1,1,payment,2,0,5,7,,,,", "id '7' has no meaning here"),
            ("1,0,payment,2,0,5,,,,,", "seq 0 is not from 1 to"),
            ("1,1,gift,2,0,5,,,,,", "kind 'gift' is none of"),
            ("1,1,payment,2,0", "there are 5 cells, and 11 columns"),
            ("1,1,offer,,,5,,0,1,6.48,", "limit 6.48 is no multiple of 2^-24"),
            ("1,1,offer,,,5,,0,1,1e3,", "'1e3' is no decimal"),
            ("x,1,payment,2,0,5,,,,,", "account 'x' is no number"),
        ):
            with self.assertRaises(speedex.TextError) as caught:
                tables.read_transactions([head, good, line, good])
            self.assertEqual(caught.exception.line, 3)
            self.assertTrue(str(caught.exception).startswith(f"line 3: {reason}"), str(caught.exception))


if __name__ == "__main__":
    unittest.main()
