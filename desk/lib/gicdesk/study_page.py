"""The page of a study: one file of HTML, without a script and without a request to anywhere."""

import hashlib
from collections.abc import Iterable, Sequence

from .compare import outcome_text
from .counts import plural
from .decimals import MILLI, shifted
from .findings import visible
from .markup import Markup, joined, table, tag
from .outages import Worst
from .reports import Screen, ScreenUnit
from .study import BY_EVENT, BY_LIST, BY_OUTAGE, EVENT, MUST, Kept, Study, UnitFacts, count_text
from .study_gict import gict_section
from .study_head import signed_head, title_of
from .study_inputs import inputs_section, rest_words, rests_in
from .study_map import map_section
from .study_margin import devices_section, margin_section, robust_words
from .study_marks import marked, marks_note
from .study_rounding import rounding_text
from .study_storm import losses_section, storm_section
from .study_style import STYLE
from .study_units import directions_section, units_section
from .study_words import (
    TITLES,
    amperes,
    made,
    names_text,
    peak_of,
    section,
    switchings_text,
    threshold_of,
    words_of,
)

# A browser that reads it asks for nothing, whatever stands in the page.
POLICY = "default-src 'none'; style-src 'unsafe-inline'; img-src data:"
COMMIT_UNKNOWN = (
    "not known: no record of a build is known of the program with the sum below, in a repository with its sources and its "
    "history; so whether it is a proved one isn't known here either"
)
COMMIT_UNTOLD = (
    "not known: a record of a build is known of the program with the sum below, but the sources here aren't those of that "
    "build, or have no history here"
)
MOST_WITH_ROOM = 60  # questions with a line to write on
UNSOLVED = {
    "unearthed": "without the item a part is live and hangs in the air, and nothing is said of any current",
    "unresolved": "without the item a part is earthed too poorly, and nothing is said of any current",
    "idle": "there is nothing to take out, which doesn't mean that the item is harmless: a capacitor that is bypassed "
    "closes its line",
}
KEPT_NOTE = (
    "Each of these commands was run, and where its status is 0 its report stands beside this page as it came, in "
    "reports/, and as a table in tables/; commands.txt has all words."
)
SUMS_NOTE = "The sha256 of what was read and of each report of these commands; checksums.txt has those of all files of the folder."
PROVED_NOTE = (
    "What the program proves holds from the bytes of the case to its reports: each interval holds the exact value. Nothing "
    "of this page is proved. Each of its numbers is one that the program printed, with its point moved, or is said to be "
    "made of such."
)
OUTAGE_NOTE = (
    "NERC's criterion of 75 A asks for the network as it stands. What has something out is a step beyond that, and what comes "
    "of it is yours to decide."
)
UNKNOWN_NOTE = " Whether the program that was run is a proved one isn't known here: there is no record of a build with its sum."
UNTOLD_NOTE = " Of which commit the program is that was run isn't known here, though there is a record of a build with its sum."


def event_text(name: str, screen: Screen, what: str) -> str:
    field, threshold = shifted(screen.field, MILLI), shifted(screen.threshold, MILLI)
    return f"{name}: {field} V/km and {threshold} A per phase; {what}"


def switch_text(study: Study) -> str:
    if study.request.switch is None:
        return "none"
    if not study.switchings:
        return "none: the file has no rows"
    if study.request.storm is None:
        return f"all rows are in force in each report of the network: {switchings_text(study.switchings)}"
    return "in force by their times in the storm, and in no other report"


def commit_text(study: Study) -> str:
    return study.commit or (COMMIT_UNTOLD if study.is_recorded else COMMIT_UNKNOWN)


def proved_text(study: Study) -> str:
    """What is proved, and what isn't known of the program."""
    if study.commit:
        return PROVED_NOTE
    return PROVED_NOTE + (UNTOLD_NOTE if study.is_recorded else UNKNOWN_NOTE)


def asked_section(study: Study) -> Markup:
    events = (
        event_text("benchmark", study.screen, "for the network, its outages and the events of a list"),
        event_text("supplemental", study.supplemental, "for the network as it stands"),
    )
    facts = {
        "Date": study.began.strftime("%d %B %Y, %H:%M %z"),
        "Commit of the program": commit_text(study),
        "Events": joined((events[0], tag("br"), events[1])),
        "Width of intervals": f"{shifted(study.screen.width, MILLI)} A at most",
        "Switchings": switch_text(study),
    }
    rows = [(given.role, visible(given.name), str(len(given.data))) for given in study.inputs]
    rows.append(("program", visible(study.request.program.path), ""))
    return section(
        "asked",
        tag("table", *[tag("tr", tag("td", name, class_="name"), tag("td", words)) for name, words in facts.items()]),
        table(("file", "name", "bytes"), rows, ("name", "wrap", "n")),
    )


def sums_section(study: Study) -> Markup:
    rows = [(given.role, given.checksum) for given in study.inputs]
    rows.append(("program", study.program_checksum))
    for kept in listed_runs(study):
        if kept.report is not None:
            rows.append((f"reports/{kept.name}.txt", hashlib.sha256(kept.run.report).hexdigest()))
    return section("sums", tag("p", SUMS_NOTE), table(("file", "sha256"), rows, ("name", "sum")))


def questions_section(study: Study) -> Markup:
    questions = study.questions
    compared = [] if study.compared is None else [made(study.compared.text)]
    if not questions:
        words = (
            "Nothing unusual was found. What can't be seen, as a line that is missing in a loop, isn't "
            "asked."
        )
        return section("questions", tag("p", words), *compared)
    words = f"The review has {plural(len(questions), 'finding')}. Each is a question, and no fault: write down the answer."
    if study.compared is not None or study.doubts:
        words = f"{plural(len(questions), 'question')}, and none is a fault: write down the answer."
    room = [tag("span", class_="write")] if len(questions) <= MOST_WITH_ROOM else []
    items = [tag("li", question, *room, id=f"q{number}") for number, question in enumerate(questions, 1)]
    return section("questions", tag("p", words), tag("ol", *items), *compared)


def group(words: str, units: Iterable[tuple[str, str]]) -> Markup:
    """A group of units of the answer; nothing where there is none."""
    items = [tag("li", tag("b", name), f" {current}") for name, current in units]
    return joined((tag("h3", f"{words}: {len(items)}"), tag("ul", *items, class_="list"))) if items else Markup("")


def perhaps(words: str, verdict: str) -> str:
    """The words of a current, and one more where its interval doesn't tell whether it reaches the threshold."""
    return words + (", perhaps" if verdict == "undecided" else "")


def screen_words(row: ScreenUnit) -> str:
    return perhaps(amperes(row.worst), row.verdict)


def outage_words(unit: UnitFacts) -> str:
    without = "" if unit.worst_outage is None else f" without {unit.worst_outage.event}"
    return perhaps(f"{amperes(unit.outage.value)}{without}", unit.outage.verdict)


def event_words(worst: Worst | None) -> str:
    return "" if worst is None else perhaps(f"{amperes(worst.unit.worst)} in {worst.event}", worst.unit.verdict)


def peak_words(unit: UnitFacts) -> str:
    return amperes(peak_of(unit)) if unit.peak is None else perhaps(amperes(peak_of(unit)), unit.peak.verdict)


def lead_text(study: Study) -> str:
    """The answer in a sentence or two."""
    many, field, threshold = len(study.applicable), shifted(study.screen.field, MILLI), threshold_of(study)
    outside = len(study.units) - many
    end = f"The standard applies to {many} of {plural(len(study.units), 'unit')}, those above 200 kV with an earthed wye on the high side"
    end += f"; {outside} {'is' if outside == 1 else 'are'} outside of the assessment." if outside else "."
    if study.assessed:
        return (
            f"{count_text(study)}: in some direction of a uniform field of {field} V/km they have {threshold} A a phase or more, "
            f"or may have it. {end}"
        )
    if not many:
        return f"None of {plural(len(study.units), 'unit')} is judged. {end}"
    return (
        f"None of {plural(many, 'applicable unit')} must be assessed by the benchmark event: all stay under {threshold} A a phase "
        f"in every direction of a uniform field of {field} V/km, also with each single item out whose network can be "
        f"solved. {end}"
    )


def answer_groups(study: Study) -> list[Markup]:
    """The units that must be assessed, by what brings them to the threshold."""
    return [
        group(
            "By the benchmark event, in the network as it stands",
            [(marked(unit.name, study.marks), screen_words(unit.benchmark)) for unit in study.brought(BY_EVENT)],
        ),
        group("More with one item out", [(marked(unit.name, study.marks), outage_words(unit)) for unit in study.brought(BY_OUTAGE)]),
        group("More in an event of the list", [(marked(unit.name, study.marks), event_words(unit.worst_event)) for unit in study.brought(BY_LIST)]),
    ]


def groups_beside(study: Study) -> list[Markup]:
    """What the supplemental event and the storm bring to a threshold."""
    storm = [
        unit
        for unit in study.units
        if unit.peak is not None and unit.peak.verdict in MUST and unit.benchmark.verdict == "below"
    ]
    threshold = shifted(study.supplemental.threshold, MILLI)
    words = "Below the threshold in the network as it stands, and at it or above in the storm"
    return [
        group(
            f"Of the others these reach {threshold} A in the supplemental event",
            [(marked(unit.name, study.marks), screen_words(unit.supplemental)) for unit in study.beyond],
        ),
        group(words, [(marked(unit.name, study.marks), peak_words(unit)) for unit in storm]),
    ]


def grounds_notes(study: Study) -> list[Markup]:
    """How far the answer depends on numbers that may be off, as far as that was asked."""
    notes = []
    if study.within is not None and study.within.found is not None:
        notes.append(tag("p", robust_words(study.within.found.robust), " See ", tag("a", TITLES["margin"], href="#margin"), "."))
    if study.sources is not None and study.sources.of_rows:
        notes.append(tag("p", rest_words(study, rests_in(study)), " See ", tag("a", TITLES["inputs"], href="#inputs"), "."))
    return notes


def answer_section(study: Study) -> Markup:
    outcomes = [*study.outage.outcomes]
    if study.events is not None:
        outcomes += [result.outcome for result in study.events.results]
    unsolved = sum(outcome.word in ("unearthed", "unresolved") for outcome in outcomes)
    notes = []
    if unsolved:
        words = f"Nothing is said of the currents in {plural(unsolved, 'outage')}, whose network can't be solved: see "
        notes.append(tag("p", words, tag("a", TITLES["left"], href="#left"), "."))
    questions = plural(len(study.questions), "question")
    if study.questions:
        asked = tag("a", questions, href="#questions")
        stand = "stands" if len(study.questions) == 1 else "stand"
        notes.append(tag("p", "All of it is said of the case as it is written, of which ", asked, f" {stand} below."))
    if study.assessed != study.brought(BY_EVENT):
        notes.append(tag("p", OUTAGE_NOTE))
    notes += grounds_notes(study)
    notes += marks_note(study.units, study.marks)
    notes += [tag("p", note) for note in study.notes]
    note = (
        "Beside each name stands the high end of its worst current, in amperes a phase, as the program printed it. What "
        "below doesn't say stands in README.md of the program."
    )
    answer = tag("div", tag("p", tag("b", lead_text(study))), class_="answer")
    return section("answer", answer, *answer_groups(study), *groups_beside(study), *notes, made(note))


def outage_items(study: Study) -> list[str]:
    """The outages of which nothing is said."""
    found: dict[str, list[str]] = {}
    for outcome in study.outage.outcomes:
        found.setdefault(outcome.word, []).append(outcome.item + (f" (at {outcome.node})" if outcome.node else ""))
    items = [
        f"{plural(len(found[word]), 'outage')} {word}: {names_text(found[word])}; {why}."
        for word, why in UNSOLVED.items()
        if word in found
    ]
    if study.events is None:
        return [*items, "Outages of several items at once: no list of events was given."]
    unsolved = [result for result in study.events.results if result.screen is None]
    return items + [
        f"The event {result.event.name}: {outcome_text(result.outcome)}; nothing is said of its currents."
        for result in unsolved
    ]


def network_items(study: Study) -> list[str]:
    """What of the network has no current here."""
    items = []
    outside = [unit.name for unit in study.units if unit.benchmark.verdict == "outside"]
    if outside:
        core = "nothing is said of the core, as of a delta-delta unit or a reactor"
        why = f"since the high side has 200 kV or less, or {core}"
        items.append(f"{plural(len(outside), 'unit')} outside, {why}: {names_text(outside)}.")
    idle = {outcome.item for outcome in study.outage.outcomes if outcome.word == "idle"}
    off = [unit.name for unit in study.units if unit.name in idle and unit.benchmark.verdict != "outside"]
    if off:
        items.append(f"{plural(len(off), 'unit')} switched off, of which below says nothing: {names_text(off)}.")
    dead = [name for name, state in study.check.nodes.items() if state == "dead"]
    if dead:
        nodes = plural(len(dead), "node")
        items.append(f"{nodes} at which nothing that stands ends, without a potential: {names_text(dead)}.")
    if study.network is None:
        words = "the case is in TOML 1.1, which Python doesn't read, so none is named"
        items.append(f"Lines with a series capacitor: {words}.")
    blocked = [] if study.network is None else [link.name for link in study.network.links if link.blocked]
    if blocked:
        lines = plural(len(blocked), "line")
        items.append(f"{lines} with a series capacitor, which pass no direct current: {names_text(blocked)}.")
    return items


def left_section(study: Study) -> Markup:
    """What no number of the page speaks of."""
    items = [*network_items(study), *outage_items(study), "Outages and events in the supplemental event."]
    if study.storm is None:
        items.append("The current over time: no storm was given.")
    elif study.storm.report is None:
        items.append("The current over time: the storm has no report.")
    if study.waveform is None:
        items.append("GIC(t) for a thermal assessment: no waveform was given.")
    if study.losses is None:
        items.append("Losses: no factors were given.")
    elif len(study.losses.factors) < len(study.units):
        items.append(f"Losses of {plural(len(study.units) - len(study.losses.factors), 'unit')} without a factor.")
    items.append(
        "Power flow, alternating voltages, temperatures, harmonics and protection. Networks beyond the case, and fields "
        "that aren't uniform within a zone."
    )
    return section("left", tag("ul", *[tag("li", words) for words in items]))


def events_of_list(study: Study) -> Sequence[Markup]:
    if study.events is None:
        return []
    rows = [
        (f"{EVENT}{number}", result.event.name, str(result.event), outcome_text(result.outcome))
        for number, result in enumerate(study.events.results, 1)
    ]
    heads = ("report", "event", "switchings", "ends")
    return [tag("h3", "The events of the list"), table(heads, rows, ("name", "", "wrap", "wrap"))]


def listed_runs(study: Study) -> list[Kept]:
    """The runs whose words the page has: of series there may be many."""
    return [kept for kept in study.kept if kept.mode != "series"]


def made_section(study: Study) -> Markup:
    series = len(study.kept) - len(listed_runs(study))
    series += sum(len(one.curves) for _, found in study.all_gict for one in found)
    rows = []
    for kept in listed_runs(study):
        words = words_of(map(visible, ("gicstudy", *kept.words)))
        rows.append((kept.name, str(kept.run.status), words))
    single = plural(sum(outcome.word == "solved" for outcome in study.outage.outcomes), "screen")
    more = f"The worst outages have their names from {single}, each with one item open, whose reports aren't kept."
    if series:
        more += f" {series} series are kept too, and stand in commands.txt."
    return section(
        "made",
        tag("p", KEPT_NOTE),
        table(("report", "status", "words"), rows, ("name", "n", "wrap")),
        tag("p", more),
        *events_of_list(study),
        tag("p", proved_text(study)),
        tag("p", rounding_text(study)),
    )


def page(study: Study) -> str:
    """The page as one text."""
    title = title_of(study)
    head = tag(
        "head",
        tag("meta", charset="utf-8"),
        tag("meta", http_equiv="Content-Security-Policy", content=POLICY),
        tag("meta", name="viewport", content="width=device-width, initial-scale=1"),
        tag("link", rel="icon", href="data:,"),
        tag("title", title),
        tag("style", Markup(STYLE)),
    )
    date = study.began.strftime("%d %B %Y")
    lead = f"Geomagnetically induced currents, {date}: which transformers must be assessed, and what that rests on."
    links = [tag("a", words, href=f"#{key}") for key, words in TITLES.items()]
    sections = (
        answer_section(study),
        questions_section(study),
        inputs_section(study),
        units_section(study),
        margin_section(study),
        directions_section(study),
        map_section(study),
        storm_section(study),
        gict_section(study),
        losses_section(study),
        devices_section(study),
        left_section(study),
        asked_section(study),
        made_section(study),
        sums_section(study),
    )
    header = tag("header", tag("h1", title), tag("p", lead, class_="faint"), signed_head(study), tag("nav", *links))
    body = tag("body", header, "\n", *[Markup(part + "\n") for part in sections])
    return f"<!DOCTYPE html>\n{tag('html', head, Markup(chr(10)), body, lang='en')}\n"
