"""The findings of a review as questions to the one who wrote the case."""

from .reports import Question

UNITS = {
    "latitude": (100, "degrees"),
    "beta": (100, ""),
    "span": (1000, "km"),
    "perkm": (1_000_000, "ohm per km"),
    "high_volts": (1000, "kV"),
    "low_volts": (1000, "kV"),
    "third_volts": (1000, "kV"),
}
OHM = (1_000_000, "ohm")
FIELDS = {
    "latitude": "the geomagnetic latitude",
    "perkm": "the resistance for each kilometre",
    "span": "the span",
    "ground": "the resistance of the ground",
    "neutral": "the neutral resistor",
}
LEAST_GAP = 2000  # metres: no loop is told that stays open by less
MERIDIANS = (
    "Right ones round a large loop don't close to the east either, since meridians converge: by some 7 km for two degrees by "
    "two at a latitude of 60."
)

PLACES = "With --places the desk compares each span with the coordinates, and asks only where one doesn't fit."


def moved(number: int, scale: int) -> str:
    """The number over a power of ten, with the point moved, and no 0 at its end."""
    places = len(str(scale)) - 1
    digits = str(abs(number)).rjust(places + 1, "0")
    text = f"{digits[:-places]}.{digits[-places:]}".rstrip("0").rstrip(".")
    return f"-{text}" if number < 0 else text


def quantity(field: str, number: int) -> str:
    scale, unit = UNITS.get(field, OHM)
    return f"{moved(number, scale)} {unit}".rstrip()


def named(field: str) -> str:
    return FIELDS.get(field, field.replace("_", " "))


def question_text(question: Question) -> str:
    """What the writer of the case is asked."""
    match question.kind:
        case "ungrounded":
            return f"{question.name} has no ground, and a winding ends at its grid: is its ground forgotten?"
        case "part":
            return (
                f"The network falls into parts, and one of {question.number} nodes has {question.name} as its first: "
                "is a line or a bus tie missing?"
            )
        case "closure" if question.gap is not None:
            north, east = (moved(metres, 1000) for metres in question.gap)
            text = (
                f"The loop that {question.name} closes stays open by {north} km to the north and {east} km to the "
                "east: has one of its lines a wrong span, or is a bus at another substation?"
            )
            return text if abs(question.gap[0]) > LEAST_GAP else f"{text} {MERIDIANS} {PLACES}"
        case "value" if question.number is not None:
            what = f"{question.list} {question.name}: {named(question.field)} is"
            return f"{what} {quantity(question.field, question.number)}, as few have it: is it meant?"
        case "alpha" if question.number is not None:
            return (
                f"zone {question.name}: at {quantity('latitude', question.number)} alpha of the table is below that of the "
                "formula, and `below` may be too good: is that of the table meant? `scale` takes the formula's."
            )
        case "volts" if question.number is not None and question.other is not None:
            number, other = (quantity(question.field, volts) for volts in (question.number, question.other))
            return (
                f"{question.name}: {named(question.field)} is {number} at a bus where another unit has {other}: "
                "which is right?"
            )
        case "outside":
            return (
                f"{question.name} has more than 200 kV and is delta-delta, so that nothing is said of it: "
                "has it no grounded wye?"
            )
    return f"{question.kind} {question.name}"
