"""The questions to the writer of a case: the findings of the review, with what the desk knows beside them."""

import dataclasses
from collections.abc import Sequence
from typing import Any

from .neighbours import Graph, low_parts, low_text
from .questions import question_text
from .reports import Question
from .spans import Compared


@dataclasses.dataclass(frozen=True)
class Asked:
    """A question in words, and the units that its answer can change."""

    text: str
    units: frozenset[str]


def review_questions(questions: Sequence[Question], compared: Compared | None, case: dict[str, Any] | None) -> list[Asked]:
    """The spans that don't fit the places, and the findings of the review that these don't explain; parts of low voltages are one
    question. Where the case isn't known, as one in TOML 1.1, no unit is."""
    graph = Graph({} if case is None else case)
    explained = [] if compared is None else compared.explained
    low, others = low_parts(graph, [question for question in questions if question not in explained])
    asked = [Asked(one.text, frozenset(graph.near([one.link.name]))) for one in ([] if compared is None else compared.misfits)]
    for question in others:
        more = compared.loop_text(question.name) if compared is not None and question.kind == "closure" else ""
        text = within_text(question, graph) or question_text(question)
        asked.append(Asked(text + more, frozenset(graph.changed_by(question))))
    if low:
        asked.append(Asked(low_text(graph, low), frozenset(unit for one in low for unit in graph.part(one.name))))
    return asked


def within_text(question: Question, graph: Graph) -> str:
    """The question about a line without a span within one station, as a phase shifter is one; empty for any other."""
    start, end = graph.ends.get(question.name, ("", ""))
    if question.list != "line" or question.field != "span" or not start or start != end:
        return ""
    return f"line {question.name} joins two buses of {start}, and has no span: is it a phase shifter, or does it lead to another station?"


def asked_of(questions: Sequence[tuple[str, Sequence[str]]], case: dict[str, Any] | None) -> list[Asked]:
    """Questions in words about rows of these names, with the units that are near to any of them."""
    graph = Graph({} if case is None else case)
    return [Asked(text, frozenset(graph.near(names))) for text, names in questions]


def marks_of(asked: Sequence[Asked], case: dict[str, Any] | None) -> dict[str, list[int]]:
    """The numbers of the questions that can change a unit, from 1 on."""
    units = [row["name"] for row in Graph({} if case is None else case).rows("transformer")]
    marks: dict[str, list[int]] = {}
    for number, one in enumerate(asked, 1):
        for unit in units:
            if unit in one.units:
                marks.setdefault(unit, []).append(number)
    return marks
