"""Earth models with their betas, from a table: a zone that names its model has the beta of that."""

from collections.abc import Mapping

from .findings import Finding, shown
from .quantities import BETA, Number, bare, number_in
from .records import Record, read_table

HEADS = ["name", "beta"]


def read_models(file: str, findings: list[Finding]) -> dict[str, Number]:
    """The betas of a table by the names of the models."""
    models: dict[str, Number] = {}
    for at in read_table(file, HEADS, findings):
        beta = number_in(at, "beta", BETA)
        if at.text("name") in models:
            at.wrong("name", f"{shown(at.text('name'))} stands in the table already; leave one of the two")
        elif beta is not None:
            models[at.text("name")] = beta
    return models


def beta_words(at: Record, beta: Number, models: Mapping[str, Number]) -> str | None:
    """What is to be asked about the beta of a zone that names its earth model."""
    model = at.text("earth_model")
    if not model or not models:
        return None
    if model not in models:
        return f"its earth model {shown(model)} is none of {', '.join(sorted(models))}"
    if models[model] == beta:
        return None
    others = [name for name, other in models.items() if other == beta]
    words = f"it is {bare(at.text('beta'))}, and its earth model {bare(model)} has {models[model]:f}"
    return words + (f"; {bare(at.text('beta'))} is that of {bare(others[0])}" if others else "")
