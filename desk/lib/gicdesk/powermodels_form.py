"""The names of the GMD data of PowerModels that are written and read."""

# What the windings of a unit are called there, by its kind in a case.
CONFIGS = {"delta-wye": "gwye-delta", "wye-wye": "gwye-gwye", "auto": "gwye-gwye-auto", "delta-delta": "delta-delta"}
# The branch of each winding.
WINDINGS = {"high": "gmd_br_hi", "low": "gmd_br_lo", "series": "gmd_br_series", "common": "gmd_br_common"}
# The windings of a kind, the first at its high bus.
WINDINGS_OF: dict[str, tuple[str, ...]] = {
    "delta-wye": ("high",),
    "wye-wye": ("high", "low"),
    "auto": ("series", "common"),
    "delta-delta": (),
}
# The field of the data, as the desk writes it beside the tables: parts to the north and to the east, in mV/km.
FIELD = "gicdesk_field"
