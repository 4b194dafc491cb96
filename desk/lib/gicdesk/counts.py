"""Counts in words."""


def plural(many: int, one: str) -> str:
    """A number of a thing: 1 line, 2 lines."""
    return f"{many} {one}" if many == 1 else f"{many} {one}s"
