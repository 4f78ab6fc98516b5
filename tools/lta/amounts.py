"""Amounts as people read them: MW, euros, euros per MWh and per cent, exact, with commas between the thousands."""

from __future__ import annotations

from decimal import Decimal


class Microcents(int):
    """Money as the library has it. It counts as a whole number; a sum of two is a plain one."""

    def euros(self) -> Decimal:
        """The same in euros, exact, whatever the precision of the decimal context."""
        return Decimal(f"{int(self)}E-8")


class Grains(int):
    """A zone's price as the library has it."""

    def euros(self) -> Decimal:
        """Euros per MWh, exact."""
        return Decimal(f"{int(self)}E-7")


class GapPart(int):
    """A shortfall as the library has it, in hundred-thousandths of a microcent."""

    def euros(self) -> Decimal:
        """Euros, exact."""
        return Decimal(f"{int(self)}E-13")


def scaled(number: int, decimals: int, least: int) -> str:
    """A whole number over 10 to the power of decimals, with no zero at the end past the least decimals."""
    sign, digits = "-" if number < 0 else "", str(abs(number)).rjust(decimals + 1, "0")
    whole, fraction = digits[: len(digits) - decimals], digits[len(digits) - decimals :]
    fraction = fraction[:least] + fraction[least:].rstrip("0")
    return f"{sign}{int(whole):,}" + (f".{fraction}" if fraction else "")


def fixed(number: int, decimals: int) -> str:
    """The same with all its decimals and no commas, as the desk prints it and machines read it."""
    return scaled(number, decimals, decimals).replace(",", "")


def mw(tenths: int) -> str:
    return f"{scaled(tenths, 1, 1)} MW"


def mwh(tenths: int) -> str:
    return f"{scaled(tenths, 1, 1)} MWh"


def load_mw(load: int) -> str:
    """Of rules 4 and 5: tenths times hundred-thousandths."""
    return f"{scaled(load, 6, 1)} MW"


def per_cent(share: int) -> str:
    return f"{scaled(share, 3, 1)} %"


def factor(hundred_thousandths: int) -> str:
    return scaled(hundred_thousandths, 5, 1)


def cents(amount: int) -> str:
    return scaled(amount, 2, 2)


def grains(amount: int) -> str:
    return scaled(amount, 7, 2)


def microcents(amount: int) -> str:
    return scaled(amount, 8, 2)


def gap_part(amount: int) -> str:
    """Hundred-thousandths of a microcent, in which the gap's parts are whole."""
    return scaled(amount, 13, 2)


def plural(noun: str) -> str:
    return f"{noun}es" if noun.endswith("ch") else f"{noun}s"


def counted(number: int, noun: str) -> str:
    """A number of things: '1 byte', '2 bytes', '2 branches'."""
    return f"{number:,} {noun if number == 1 else plural(noun)}"
