"""`gicdesk review`: the questions of a case as `study` has them, without the study."""

import dataclasses

from .counts import plural
from .doubts import doubts_of
from .findings import Finding, Refused, refuse
from .network import Degrees, network_of, read_case, read_degrees
from .progress import Progress
from .reports import Review
from .reviewed import review_questions
from .spans import Compared, compared
from .study import Request, Runs
from .study_seen import seen_case


@dataclasses.dataclass(frozen=True)
class Reviewed:
    questions: list[str]
    compared: Compared | None


def make_review(request: Request) -> Reviewed:
    """The findings of the review and of the desk as questions; with places each span is compared with them, and no loop is asked about that they
    explain."""
    with Progress(1) as progress:
        review = Runs(request, progress).report(Review, "review", "review")
    request.program.look_for_change()
    data = request.data("case")
    network, found, places = network_of(data), None, dict[str, Degrees]()
    if request.places is not None:
        if network is None:
            raise refuse(request.places, "it needs the case, which is in TOML 1.1; write the case without what only TOML 1.1 has")
        findings: list[Finding] = []
        places = read_degrees(request.places, network.stations, findings, request.data("places"))
        if findings:
            raise Refused(findings)
        found = compared(network.links, places, review.questions)
    asked = [one.text for one in review_questions(review.questions, found, read_case(data))]
    doubts = [] if network is None else doubts_of(seen_case(request.copies.inputs["case"], places, None))
    return Reviewed(asked + [doubt.text for doubt in doubts], found)


def review_text(reviewed: Reviewed) -> str:
    lines = [f"question: {question}" for question in reviewed.questions]
    lines += [] if reviewed.compared is None else [f"note: {reviewed.compared.text}"]
    return "\n".join([*lines, plural(len(reviewed.questions), "question")]) + "\n"
