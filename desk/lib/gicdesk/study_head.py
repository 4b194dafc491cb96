"""The head of a study's page, which can be signed: what was given of it, and lines to write on for the rest."""

import pathlib

from .findings import visible
from .markup import Markup, tag
from .study import Study

LABELS = {"project": "Project", "author": "Author", "revision": "Revision", "data_date": "Date of the data"}
TO_SIGN = ("Reviewed by", "Date and signature")


def title_of(study: Study) -> str:
    """That of --title, or else the name of the case."""
    given = study.request.head.get("title", "").strip()
    return visible(given or f"Study of {pathlib.PurePath(study.request.case).name}")


def row(label: str, text: str) -> Markup:
    """A line of the head; one without a text has room to write."""
    cell = tag("td", visible(text)) if text.strip() else tag("td", class_="blank")
    return tag("tr", tag("th", label, scope="row"), cell)


def signed_head(study: Study) -> Markup:
    given = study.request.head
    rows = [row(label, given.get(key, "")) for key, label in LABELS.items()]
    rows.append(row("Date of the study", study.began.strftime("%d %B %Y")))
    rows += [row(label, "") for label in TO_SIGN]
    return tag("table", tag("tbody", *rows), class_="signed")
