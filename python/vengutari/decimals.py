"""Decimal numbers, exactly: read from text, kept as whole numbers of a power of ten, and shown to people."""

import math
import re
from dataclasses import dataclass
from decimal import Context, Decimal
from fractions import Fraction

from .problems import BadInput

MOST_CHARACTERS = 40
MOST_EXPONENT = 99
NUMBER = re.compile(r"[+-]?(?:[0-9]+(?:[.][0-9]*)?|[.][0-9]+)(?:[eE]([+-]?[0-9]+))?")
NO_SAMPLE = ("", "nan", "na", "n/a", "null", "none", "-")
# Digits enough for every number that is read, at any power of ten that is allowed.
EXACT = Context(prec=4 * MOST_EXPONENT)


def dotted(text, decimal_comma):
    """A decimal comma as a point."""
    return text.replace(",", ".") if decimal_comma and text.count(",") == 1 and "." not in text else text


def shortened(text):
    return repr(text) if len(text) <= MOST_CHARACTERS else f"{text[:12]!r}.. of {len(text):,} characters"


def decimal(text, what, decimal_comma=False):
    """A number out of text, exactly."""
    plain = dotted(text.strip(), decimal_comma)
    found = NUMBER.fullmatch(plain)
    if not found:
        raise BadInput(f"{what}: {shortened(text)} is not a number")
    exponent = found.group(1)
    if len(plain) > MOST_CHARACTERS or (exponent and (len(exponent) > 4 or abs(int(exponent)) > MOST_EXPONENT)):
        raise BadInput(f"{what}: {shortened(text)} is out of range: a number has at most {MOST_CHARACTERS} characters, "
                       f"and an exponent of at most {MOST_EXPONENT}")
    return Decimal(plain)


def number(text, what, decimal_comma=False):
    return Fraction(decimal(text, what, decimal_comma))


@dataclass
class Decimals:
    """The numbers of a column: each is a whole number of 1 / 10^digits, with as few digits as they need; None where there is none."""

    values: list
    digits: int

    @property
    def unit(self):
        return Fraction(1, 10**self.digits)

    def exact(self, k):
        return Fraction(self.values[k], 10**self.digits)

    def text(self, k):
        return "none" if self.values[k] is None else plain_text(self.values[k], self.digits)

    def floats(self, origin=0):
        """Each number less an exact origin, as a float."""
        shift, unit = Fraction(origin) / self.unit, 10**self.digits
        if shift.denominator == 1:
            shift = int(shift)
            return [None if value is None else (value - shift) / unit for value in self.values]
        return [None if value is None else float((value - shift) / unit) for value in self.values]


def decimals_of(values):
    """Decimal numbers, or None, as whole numbers of one power of ten."""
    digits = max([0, *(-value.as_tuple().exponent for value in values if value is not None)])
    whole = [None if value is None else int(EXACT.scaleb(value, digits)) for value in values]
    common = math.gcd(*(value for value in whole if value is not None))
    fewer = digits if common == 0 else 0
    while fewer < digits and common % 10 ** (fewer + 1) == 0:
        fewer += 1
    if fewer:
        whole = [None if value is None else value // 10**fewer for value in whole]
    return Decimals(whole, digits - fewer)


# Numbers for people


def rounded(value, step):
    """The nearest whole number of steps, halves away from 0."""
    count = Fraction(abs(value)) / step
    nearest = (2 * count.numerator + count.denominator) // (2 * count.denominator)
    return -nearest if value < 0 else nearest


def plain_text(value, digits):
    """A whole number of 1 / 10^digits, without zeros at its end."""
    if digits == 0:
        return str(value)
    text = str(abs(value)).rjust(digits + 1, "0")
    return ("-" if value < 0 else "") + f"{text[:-digits]}.{text[-digits:]}".rstrip("0").rstrip(".")


def shown(value):
    """A fraction as a decimal number, exactly where it has an end."""
    value = Fraction(value)
    rest = value.denominator
    for prime in (2, 5):
        while rest % prime == 0:
            rest //= prime
    if rest != 1:
        return f"{float(value):.12g}"
    digits = 0
    while (value * 10**digits).denominator != 1:
        digits += 1
    return plain_text(int(value * 10**digits), digits)


def shown_exactly(value):
    """A fraction as text that reads back as itself."""
    text = shown(value)
    return text if Fraction(text) == value else f"{value.numerator}/{value.denominator}"


def fixed(value, digits):
    """A fraction rounded to so many decimals, halves away from 0, without zeros at its end."""
    return plain_text(rounded(value, Fraction(1, 10**digits)), digits)


def digits_of(value, significant):
    """A number to so many significant digits, without an exponent."""
    value = Fraction(value)
    if value == 0:
        return "0"
    return fixed(value, max(0, significant - 1 - math.floor(math.log10(abs(value)))))


def on_step(value, step):
    """A number to the decimals at which neighbours on the grid differ."""
    return fixed(value, max(0, -math.floor(math.log10(step))))
