"""What formats 1 and 2 of a case have no key for, as format 3 says it: a third earthed winding, and a shunt reactor."""

from collections.abc import Sequence

from .cases import Field, Row

REACTOR = "reactor"  # a shunt reactor, or an earthing transformer
THREE_SIDED = {"wye-wye": "wye-wye-wye", "auto": "auto-wye"}  # the kinds with a third earthed winding


def with_third(fields: Sequence[Field], third: Sequence[Field]) -> list[Field]:
    """The fields of a unit with these of its third winding behind them."""
    kind, *others = fields
    return [Field("kind", THREE_SIDED[str(kind.value)]), *others, *third]


def reactor_row(
    name: str, volts: int, bus: str, resistance: Field, neutral: Sequence[Field], note: str = "a shunt reactor"
) -> Row:
    """A shunt reactor at a bus, of the voltage of that."""
    fields = [Field("kind", REACTOR), Field("high_volts", volts, "the voltage of its bus"), Field("high", bus)]
    return Row(name, [*fields, resistance, *neutral], note)
