"""Whole numbers of small units as decimals of large ones, by moving the point: no digit is lost and none is added."""

MILLI = 3
MICRO = 6
NANO = 9


def shifted(number: int, places: int) -> str:
    """The number with its point moved to the left: 152724 mA by 3 places are 152.724 A."""
    digits = str(abs(number)).rjust(places + 1, "0")
    return f"{'-' if number < 0 else ''}{digits[:-places]}.{digits[-places:]}"


def signed(number: int, places: int) -> str:
    """The same with its sign in any case but for 0, as of a difference."""
    return ("+" if number > 0 else "") + shifted(number, places)


def middle_text(low: int, high: int, places: int) -> str:
    """The middle of two numbers, exactly: by one more digit, which is 0 or 5."""
    return shifted(5 * (low + high), places + 1)
