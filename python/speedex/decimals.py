"""Decimals and the whole numbers that stand for them, exactly: nothing here is a float.

Prices, limit prices and values are whole numbers in units of ``2^-24``, which have a finite decimal each: at most 24
digits behind the point. A decimal need not have such a number. So whoever turns a decimal into a number says how it is
rounded, and if nothing is said one that is not exact is a ``NumberError``, and so is a text that is no number.
"""

from __future__ import annotations

import re
from fractions import Fraction
from typing import Union

from .errors import NumberError
from .records import MOST_LIMIT, ONE

DOWN, UP, NEAREST = "down", "up", "nearest"
_NUMBER = re.compile(r"([+-]?)([0-9]+(?:\.[0-9]+)?)(?:/([0-9]+(?:\.[0-9]+)?))?")
# Python itself reads no more than some thousand digits
_LONGEST = 1000
Number = Union[str, int, Fraction]


def fraction_of(number: Number) -> Fraction:
    """A whole number, a fraction, a decimal as ``12.5``, or a quotient of two decimals as ``1/2.20``, exactly."""
    if isinstance(number, (int, Fraction)):
        return Fraction(number)
    if not isinstance(number, str):
        raise TypeError(f"a number is a str, an int or a Fraction, and not a {type(number).__name__}")
    if len(number) > _LONGEST:
        raise NumberError(f"a number has at most {_LONGEST} characters, and this one {len(number)}")
    found = _NUMBER.fullmatch(number)
    if not found:
        raise NumberError(f"{number!r} is no decimal as 12.5, and no quotient of two as 1/2.20")
    size, by = _decimal(found[2]), _decimal(found[3] or "1")
    if not by:
        raise NumberError(f"{number!r} divides by 0")
    return -size / by if found[1] == "-" else size / by


def _decimal(digits: str) -> Fraction:
    before, _, behind = digits.partition(".")
    return Fraction(int(before + behind), 10 ** len(behind))


def whole(number: Fraction, rounding: str = "") -> int:
    """A whole number for a fraction; ``rounding`` is ``DOWN``, ``UP``, ``NEAREST`` (halves up), or empty for none."""
    floor = number.numerator // number.denominator
    if floor == number:
        return floor
    if rounding == DOWN:
        return floor
    if rounding == UP:
        return floor + 1
    if rounding == NEAREST:
        return floor + (2 * (number - floor) >= 1)
    raise NumberError(f"{number} is no whole number, and nothing says how to round it")


def to_units(number: Number, places: int = 0, rounding: str = "") -> int:
    """How many units of an asset a decimal amount is, if a unit is the last of so many decimal places:
    ``to_units("50.125", 3)`` is 50125."""
    return whole(fraction_of(number) * 10**places, rounding)


def from_units(units: int, places: int = 0) -> str:
    """An amount in units as a decimal with so many places: ``from_units(50125, 3)`` is ``50.125``."""
    digits = str(abs(units)).rjust(places + 1, "0")
    sign = "-" if units < 0 else ""
    return f"{sign}{digits}" if not places else f"{sign}{digits[:-places]}.{digits[-places:]}"


def to_fixed(number: Number, rounding: str = "") -> int:
    """A price, limit price or value in units of ``2^-24``: ``to_fixed("1.5")`` is 25165824."""
    size = fraction_of(number) * ONE
    if size.denominator != 1 and not rounding:
        raise NumberError(f"{number} is no multiple of 2^-24, and nothing says how to round it")
    return whole(size, rounding)


def from_fixed(fixed: int) -> str:
    """The exact decimal of a number in units of ``2^-24``: ``from_fixed(25165824)`` is ``1.5``."""
    text = from_units(fixed * 5**24, 24).rstrip("0")
    return text.rstrip(".")


def rounded(number: Number, places: int) -> str:
    """A number with so many decimal places, halves up. It is for eyes: what is cut off is lost."""
    return from_units(to_units(number, places, NEAREST), places)


def limit_price(rate: Number, sell_places: int = 0, buy_places: int = 0) -> int:
    """The limit price, in units of ``2^-24``, of somebody who wants at least ``rate`` of the bought asset for 1 of the
    sold one, if their units are the last of so many decimal places. It is rounded up, so nobody gets less:
    ``limit_price("64.80", 3, 2)`` is 108716360, for gold in milligrams and euro in cents. A limit price is from 1 to
    ``2^56 - 1``, and for another rate it is a ``NumberError``."""
    limit = whole(fraction_of(rate) * Fraction(10) ** (buy_places - sell_places) * ONE, UP)
    if not 1 <= limit <= MOST_LIMIT:
        beyond = "below 1" if limit < 1 else "above 2^56 - 1"
        raise NumberError(f"the limit price of this rate is {beyond}, in units of 2^-24")
    return limit


def rate_of(limit: int, sell_places: int = 0, buy_places: int = 0) -> Fraction:
    """The rate that a limit price stands for, exactly; ``rounded`` shows it."""
    return Fraction(limit, ONE) * Fraction(10) ** (sell_places - buy_places)
