#!/usr/bin/env python3
"""Makes docs/CLAIM.txt, all definitions that the headline says, in one file to be printed and read, and checks it.

    python3 docs/claim.py [--write]
    python3 docs/claim.py --mode=MODE

The headline is `Headline` of gic_headline, which `run` of that crate says of the program (crates/gic_headline/src/program.rt).
It stands first, with the clause of `run`. From it this follows what is cited, definition by definition, through
`crates/NAME/specs/FILE.antt`, and puts what it comes to in the order in which a reader needs it: all that a true report of
`field` rests on, then what each other mode adds, then what words and files ask for, the lines of faults, and how a call
ends otherwise. But for the headline no definition cites one that comes later. Imports are left out; under each definition stands
which others of the claim cite it, the first four by name, and in front of it the types and the constants of the code that it is
the first to speak of. Words of libraries stand in a list of their own (claim_words.py).

Two faults are of names: a word of a library that is cited and told nowhere, and a name that two definitions have, or a
definition and a word of a library. Of a sign in SIGNS each definition tells the others, and one that cites that of another
crate tells which it is. A third is of README.md: a field of `Headline`, or of what is true of a report, that the list in
*What is proved* doesn't name, and an entry of that list that names none.

With --mode it prints the claim of one mode and checks nothing: the headline, and all that it rests on where the words ask for this
mode. Rows of other modes are left out. What reads words and files comes last, since a reader who knows the formats can pass over it.
A line on the error stream says how many lines were printed.

Without --write it compares docs/CLAIM.txt, and the table of its parts in docs/DEFINITIONS.md, with what it makes. The
last line is `N definitions of the claim, M faults`, and the status is 0 only where M is 0.
"""

from __future__ import annotations

import re
import sys
from dataclasses import dataclass, field
from pathlib import Path

from claim_words import OUTSIDE
from definitions import TOP, WORDS, crate_names

CLAIM = "docs/CLAIM.txt"
CALL = "crates/gic_headline/src/program.rt"
# lines of definitions and remarks that are counted for a minute of reading: an estimate
LINES_A_MINUTE = 13
TABLE = "| part | files | lines | minutes |"
FIRST = "`field`"
HEADLINE = "The headline"
ENDS = "How a call ends otherwise"
# what stands in front, the headline first: definitions, or all of a file
FRONT = ("gic_headline/Program", "gic_headline/Headline", "gic_headline/TrueReports.IsTrueReport")
# the parts of the path: what each is of, and the definitions that it is read for
PARTS = (
    (FIRST, ("gic_headline/TrueReports.IsTrueField",)),
    ("`screen`", ("gic_headline/TrueReports.IsTrueScreen",)),
    ("`robust`", ("gic_headline/TrueReports.IsTrueRobust",)),
    ("`study`", ("gic_headline/TrueReports.IsTrueStudy",)),
    ("`outage`", ("gic_headline/TrueReports.IsTrueOutage",)),
    ("`recheck`", ("gic_headline/TrueReports.IsTrueRecheck", "gic_recheck/Accepted.IsAccepted", "gic_recheck/Accepted.IsRefused")),
    ("`series`", ("gic_headline/TrueReports.IsTrueSeries",)),
    ("`certify`", ("gic_headline/TrueReports.IsTrueCertify",)),
    ("`make`", ("gic_headline/TrueReports.IsTrueMake",)),
    ("`review`", ("gic_review/RightReview.IsRightReview",)),
    (
        "`volts`, `list` and `check`",
        ("gic_volts/RightVolts.IsRightVolts", "gic_list/RightList.IsRightList", "gic_headline/TrueReports.IsTrueCheck"),
    ),
    ("What words and files ask for", ("gic_ask/Asks.Asks",)),
    ("The lines of faults", ("gic_study/Faults.line_of_fault",)),
    (ENDS, ("gic_study/Answers.moment", "gic_study/ProgramEnds.status_without_words", "gic_headline/Program.ProgramHeadline")),
)
# the modes, each with the variants that stand for it in the types of the code, which definitions have rows for
MODES = {
    "volts": ("Volts",),
    "list": ("List", "ListAsked"),
    "check": ("Check",),
    "field": ("Field",),
    "study": ("Study",),
    "screen": ("Screen",),
    "make": ("Make",),
    "certify": ("Certify",),
    "recheck": ("Recheck",),
    "outage": ("Outage",),
    "series": ("Series",),
    "review": ("Review",),
    "robust": ("Robust",),
}
# a definition with rows for at least this many modes is cut to one of them
FEWEST_ROWS = 4
TRUE_REPORT = "gic_headline/TrueReports.IsTrueReport"
# the crates that read words and files
READERS = ("gic_words", "gic_case_reader", "gic_records", "gic_storm", "gic_switch")
# the signs that two definitions have; no word has two meanings
SIGNS = (">>=",)
# the list of what is proved, whose entries name the fields of the records behind it
README = "README.md"
PROVED = "## What is proved"
FIELDS_OF = ("gic_headline/Headline.Headline", "gic_headline/TrueReports")
# the chapters of the first part, and the crates or files of each, in order
CHAPTERS = (
    ("Whole numbers and intervals", ("gic_fixed",)),
    (
        "A network, what stands, and a solution",
        (
            "gic_model/Network",
            "gic_model/Sums",
            "gic_model/Standing",
            "gic_model/Voltages",
            "gic_model/Solution",
            "gic_exists",
            "gic_headline/Solved",
        ),
    ),
    ("The case and its elements", ("gic_case", "gic_inputs", "gic_winding/ElementList", "gic_winding/InForce")),
    ("The voltages of a field", ("gic_induce", "gic_uniform")),
    ("A right view", ("gic_view", "gic_winding/Weights", "gic_effective")),
    ("The text", ("gic_text", "gic_criteria", "gic_report", "gic_field/FieldText")),
    ("A right report", ("gic_stand/Standing", "gic_field/RightField")),
    ("What is true of it", ("gic_field/Follows", "gic_headline/TrueReports")),
)
BEGINNING = """\
THE CLAIM

What the program gicstudy says, first the headline and then all definitions that it stands on, in the order in which a reader
needs them; made by `python3 docs/claim.py --write`. docs/DEFINITIONS.md has the words, the units, and a table of the parts
with lines and minutes; docs/PROMISES.md says in sentences what is claimed, which theorems stand beside it, and what is trusted.
"""
PREFACE = """\
Imports are left out. Under each definition stands which others of the claim cite it, the first four by name; but for the
headline none cites one that comes later. The types and the constants of the code stand in front of the first definition that
speaks of them, with the file that declares them. Steps of a storm and monitors come in part 3, certificates in part 5.

Notation. A record holds where all its fields do; `A → Type 0` is a predicate; `abbrev` and `unfoldable` stand in front of
definitions, of which the second are unfolded only where a proof asks for it. Of statements `P × Q` is "and", `P ⊎ Q` "or",
`¬ P` "not", `(k : ℕ) × P k` "there is a k with", `(k : ℕ) → P k` "for each k"; `⊤` and `Unit {0}` are true, `⊥` is false; `≡`
is equal, `≢` is not. Of values `A × B` are pairs, with `p.0` and `p.1`; `.0` is also the number in a place such as `NodeId`.
Signs with a ℤ are on whole numbers, those without on natural ones, where `a - b` is 0 where b is above a. A name with a dot in
front of a variant (`kinds.Auto`, `item.Line`, `role.High`) is a short name of its type. A value of the code stands for what it
holds: a number of 16 bits for that number, a `Name` for its bytes, a `Case` for its `Lists`, `Switchings` for the list of its
rows. A variant without a dot is one of the type that the signature names: types may have variants of one name (`Case`, `Node`,
`Unearthed`), or of that of another type (`Event`). Where one definition speaks of two of them, one has another name here:
`NoMemory` is `Memory` of InputFault, `UsageFault` and `RefusedUsage` are `Usage`, `CaseRefused`, `StormRefused` and
`SwitchRefused` are `Case`, `Storm` and `Switch` of InputRefusal, `CertificateFile` is `Certificate` of File, and `NamedEvent`
is the type `Event`. No two definitions share a name, but these are a definition and a field of some record or type too:
`counted`, `earthing`, `fetches`, `given`, `in_order`, `named`, `node`, `of_case`, `opens`, `outcome`, `shown`, `times`, `within`.
A field is written with its record, or after a dot. One sign has two meanings, `>>=`, to which the lines with `←` come: it goes
on with the value that is there, and else stops with what was refused.
"""
# what a reader of a part should know that its definitions don't say
NOTES = {
    FIRST: (
        "Every claim is of all solutions; that there is one, and that any two agree, is `HasOneSolution`. What the mode prints is",
        "`IsRightField`; the other fields of `IsTrueField` follow from it. A network that is earthed, and so has a solution, but not",
        "within 4096, is refused with status 9: bound vectors come in part 4.",
        "An accepted case keeps the rules of part 11: no two things of one name, no line whose two buses are one, no transformer",
        "with two sides at one bus or with buses in two substations, no low or third voltage above the high one, high voltages of",
        "at least 1000 V, resistances from 1000 to 10^9 micro-ohm. Where a definition says something odd of other cases (a",
        "denominator 0, a difference cut at 0, an element from a node to itself), no accepted case gets there.",
        "The current of an element is that of all its paths together; effective currents are per phase. mV/km times m is microvolt,",
        "and tenths (alpha) times hundredths (beta) are thousandths: so their product is in nanovolt. Alpha is that of the first row",
        "whose latitude is not under the given one, without interpolation.",
    ),
    ENDS: (
        "A call has an answer: done (status 0), or one fault. Faults of input (2, 3, 5, 6, 7, 10, 12) are told by parts 11 and 12,",
        "8 and 9 are that the network doesn't meet the need of the mode, 4 that the output can't be written (a part of the text was",
        "written, perhaps none or all of it), 13 that a certificate is refused, 11 that memory is wanting. Status 11 is an answer",
        "to any call: a program that always gave it would satisfy the headline. That others come is said, 11 aside, by `comes` and by",
        "theorems of gic_study (PROMISES), and by the contract of each mode's call, which, once the mode's workspace is",
        "made, has no such answer but in `study` for the texts of monitors.",
        "The files and the streams of the system tell no bytes. Of a run over them the headline says only that there are bytes which",
        "the files may have held and for which a true report exists, or which fault there was; that the same code writes this text is",
        "what it says over a sink that tells its bytes (gic_unit_tests has one). A call with monitors of one's own keeps the headline",
        "too: the clause of `gicstudy` (gic_study) is `CallEnds`, and `headline_law` of gic_headline leads from it to `Headline`.",
    ),
}
USE = re.compile(r"^(?:pub )?use Rattle\.(\w+)\.specs\.([\w.]+?)(?:\.\{(.*)\}| as (\w+))?$")
DEFINED = re.compile(r"^(?:unfoldable |abbrev )*(?:pub )?(?:(record|data) )?(\S+)")
TOKEN = re.compile(r"[A-Za-z_][\w'-]*(?:\.[A-Za-z_][\w'-]*)*|>>=|←")
MEMBER = re.compile(r"^  (?:pub )?([\w'-]+) :")
# the name of a field, where a record declares it or is made
FIELD = re.compile(r"(?m)^  (?:pub )?[\w'-]+(?= :)|(?<=[{;] )[\w'-]+(?= = )|(?m:^ +)[\w'-]+(?= = )")


class ClaimError(ValueError):
    """What is wrong with the definitions, in one line."""


@dataclass
class Definition:
    """One definition, with the remarks in front of it."""

    file: str  # `gic_x/Y`
    names: list[str]  # what it defines: its name first, then the constructors of a data type
    lines: list[str]
    cites: list[str] = field(default_factory=list)  # `gic_x/Y.name`, in the order in which they stand
    types: list[str] = field(default_factory=list)  # `gic_x/file.Type`, or `gic_x/file.CONSTANT`
    outside: list[str] = field(default_factory=list)  # `library/File.word`
    words: dict[str, str] = field(default_factory=dict)  # a word as it stands there, and the crate or the library that is meant
    cited_in: list[str] = field(default_factory=list)

    @property
    def key(self) -> str:
        return f"{self.file}.{self.names[0]}"


@dataclass
class File:
    """One file of definitions."""

    name: str
    says: list[str]  # the remark at its head
    definitions: list[Definition]
    meant: dict[str, str]  # a name of its imports, and what it means: `gic_x/Y.name`, or the module of an alias
    declared: dict[str, str]  # a name of its imports, and the type or constant of the code: `gic_x/file.Type`


def blocks_of(text: str) -> list[list[str]]:
    """The lines of a text between blank ones."""
    return [block.splitlines() for block in re.split(r"\n\s*\n", text.strip("\n")) if block.strip()]


def named_in(inside: str) -> list[tuple[str, str]]:
    """The names that an import has between its braces, with the names that they get."""
    pairs = []
    for word in inside.split(","):
        name, _, other = word.strip().partition(" as ")
        pairs.append((name.strip(), (other or name).strip()))
    return pairs


def bare(name: str) -> str:
    """An operator as it stands between what it joins."""
    return name.replace("◌", "")


def declared_key(crate: str, path: list[str], name: str) -> str:
    """The type or the constant that an import of the code names: `declared.file.Type.{Type}`, `.TheVariants`, `.TheConstants`."""
    if path[-1] in ("TheVariants", "TheConstants"):
        path = path[:-1]
        if path and path[-1][0].isupper():
            name = path[-1]
    modules = [part for part in path if part[0].islower()]
    return f"{crate}/{'/'.join(modules) or 'lib'}.{name}"


def read_file(name: str, text: str) -> File:
    """The definitions of a file, and what its imports mean."""
    file = File(name, [], [], {}, {})
    imports = [line for line in text.splitlines() if line.startswith(("use ", "pub use "))]
    for line in imports:
        match = USE.match(line)
        if not match:
            continue
        crate, path, inside, alias = match[1], match[2].split("."), match[3], match[4]
        if path[0] == "declared" and crate.startswith("gic_"):
            for given, got in named_in(inside) if inside else [(alias or "", alias or "")]:
                file.declared[bare(got)] = declared_key(crate, path[1:], given)
        elif inside:
            place = path[0] if crate.startswith("gic_") else ".".join(path)
            file.meant.update({bare(got): f"{crate}/{place}.{given}" for given, got in named_in(inside)})
    rest = "\n".join(line for line in text.splitlines() if line not in imports)
    for place, block in enumerate(blocks_of(rest)):
        code = [line for line in block if not line.startswith("--")]
        if place == 0:
            head = [line for line in block if line.startswith("--")]
            file.says = head if not code else head[:1]
            block = [line for line in block if line not in file.says]
        if not code:
            continue
        first = next((line for line in code if not line.startswith("infix")), "")
        match = DEFINED.match(first)
        if not match:
            raise ClaimError(f"{name}: there is no definition in the lines that begin {code[0]!r}")
        names = [match[2]]
        if match[1] == "data":
            names += [m[1] for line in code[1:] if (m := MEMBER.match(line))]
        file.definitions.append(Definition(name, names, block))
    return file


def read_all(top: Path) -> dict[str, File]:
    """All files of definitions of the repository's crates."""
    files = {}
    for path in sorted(top.glob("crates/*/specs/*.antt")):
        if path.stem != "Lib":
            name = f"{path.parent.parent.name}/{path.stem}"
            files[name] = read_file(name, path.read_text(encoding="utf-8"))
    return files


def row_of(line: str, name: str) -> str | None:
    """The variant that a line of a definition is the row of: `name a (Field inputs) = ..`, `name asked.Field = ..`."""
    if not line.startswith(f"{name} ") or "=" not in line:
        return None
    variants = [word for words in MODES.values() for word in words]
    for token in re.findall(r"[\w.']+", line.partition("=")[0])[1:]:
        word = str(token).rpartition(".")[2]
        if word in variants:
            return word
    return None


def cut_rows(lines: list[str], name: str, mode: str) -> list[str]:
    """The lines of a definition without the rows of other modes, where it has rows for several."""
    rows = [row_of(line, name) for line in lines]
    if len({word for word in rows if word}) < FEWEST_ROWS:
        return lines
    kept: list[str] = []
    keeping = True
    for line, word in zip(lines, rows):
        if not line.startswith((" ", "--")):
            keeping = word is None or word in MODES[mode]
        if keeping:
            kept.append(line)
    return kept


def cut_to(files: dict[str, File], mode: str) -> None:
    """Leaves the rows of other modes out of all definitions."""
    for file in files.values():
        for definition in file.definitions:
            definition.lines = cut_rows(definition.lines, definition.names[0], mode)


def resolve(files: dict[str, File]) -> dict[str, Definition]:
    """Finds what each definition cites. A name that is passed on by `pub use` is that of the file where it stands."""
    known: dict[str, Definition] = {}
    for file in files.values():
        for definition in file.definitions:
            known.update({f"{file.name}.{name}": definition for name in definition.names})

    def meaning(key: str) -> Definition | None:
        while key not in known:
            name, _, word = key.rpartition(".")
            if name not in files or bare(word) not in files[name].meant:
                return None
            key = files[name].meant[bare(word)]
        return known[key]

    for file in files.values():
        own = {bare(name): definition for definition in file.definitions for name in definition.names}
        for definition in file.definitions:
            code = "\n".join(line for line in definition.lines if not line.startswith("--"))
            code = FIELD.sub(" ", code)
            for token in TOKEN.findall(code):
                word = ">>=" if token == "←" else token.partition(".")[0]
                key = file.declared.get(word) or file.meant.get(word)
                if word in file.declared:
                    definition.types.append(file.declared[word])
                cited = own.get(word) or (meaning(file.meant[word]) if word in file.meant else None)
                if cited:
                    key = cited.key
                elif key and not key.startswith("gic_"):
                    definition.outside.append(key)
                if key:
                    definition.words[word] = key.partition("/")[0]
                if cited and cited is not definition and cited.key not in definition.cites:
                    definition.cites.append(cited.key)
    return known


def reached(known: dict[str, Definition], roots: tuple[str, ...]) -> dict[str, Definition]:
    """All that the roots come to, step by step."""
    found: dict[str, Definition] = {}
    waiting = [known[root].key for root in roots]
    while waiting:
        key = waiting.pop()
        if key not in found:
            found[key] = known[key]
            waiting.extend(known[key].cites)
    return found


def place_of(file: str) -> tuple[int, int]:
    """The chapter of the first part to which a file belongs, and its place there."""
    crate = file.partition("/")[0]
    for chapter, (_, members) in enumerate(CHAPTERS):
        for place, member in enumerate(members):
            if member in (file, crate):
                return chapter, place
    return len(CHAPTERS), 0


def chapter_of(file: str) -> int:
    """The chapter of the first part to which a file belongs."""
    return place_of(file)[0]


def in_order(found: list[Definition], crates: list[str]) -> list[Definition]:
    """Definitions so that each comes behind those that it cites: by chapters, crates, and files, as far as that goes."""
    mine = {definition.key for definition in found}
    place = {crate: index for index, crate in enumerate(crates)}
    order: list[Definition] = []
    done: set[str] = set()
    by_file: dict[str, list[Definition]] = {}
    for definition in found:
        by_file.setdefault(definition.file, []).append(definition)
    needs = {
        name: {cited.rpartition(".")[0] for d in members for cited in d.cites if cited in mine} - {name}
        for name, members in by_file.items()
    }
    while len(done) < len(by_file):
        ready = [name for name in by_file if name not in done and needs[name] <= done]
        if not ready:
            raise ClaimError("files of definitions cite one another: " + ", ".join(sorted(set(by_file) - done)))
        name = min(ready, key=lambda n: (place_of(n), place.get(n.partition("/")[0], 0), n))
        done.add(name)
        order.extend(by_file[name])
    return order


@dataclass
class Part:
    """One part of the path."""

    title: str
    definitions: list[Definition]

    @property
    def lines(self) -> int:
        return sum(len(definition.lines) for definition in self.definitions)


def front_of(files: dict[str, File], known: dict[str, Definition]) -> Part:
    """What stands in front: the headline first, and behind each definition those of its file that it cites."""
    found: list[Definition] = []
    for name in FRONT:
        if name in files:
            found += reversed(files[name].definitions)
        elif name in known:
            found.append(known[name])
        else:
            raise ClaimError(f"there is no definition {name}")
    return Part(HEADLINE, found)


def parts_of(files: dict[str, File], known: dict[str, Definition], crates: list[str], front: Part) -> list[Part]:
    """The parts of the path, each with what the ones before and the front don't have."""
    read = {definition.key for definition in front.definitions}
    parts = []
    for title, roots in PARTS:
        found = {key: definition for key, definition in reached(known, roots).items() if key not in read}
        ordered = [d for file in files.values() for d in file.definitions if d.key in found]
        parts.append(Part(title, in_order(ordered, crates)))
        read |= set(found)
    return parts


def without_chapter(part: Part) -> list[str]:
    """The files of the first part that are in none of its chapters."""
    files = dict.fromkeys(definition.file for definition in part.definitions)
    return [f"{file} is in no chapter of the first part" for file in files if chapter_of(file) == len(CHAPTERS)]


def undeclared(top: Path, parts: list[Part]) -> list[str]:
    """The types and constants of the code that are spoken of and not found."""
    keys = dict.fromkeys(key for part in parts for definition in part.definitions for key in definition.types)
    return [f"{key} is declared nowhere" for key in keys if not declaration(top, key)]


def late_cites(parts: list[Part], front: Part) -> list[str]:
    """The definitions behind the front that cite one that comes later."""
    late = []
    read = {definition.key for definition in front.definitions}
    for part in parts:
        for definition in part.definitions:
            read.add(definition.key)
            late += [f"{definition.key} cites {key}, which comes later" for key in definition.cites if key not in read]
    return late


def meanings(found: list[Definition]) -> dict[str, list[str]]:
    """Each name with the crates and the libraries that give it a meaning of their own: by a definition, a type, a word."""
    keys: dict[str, dict[str, None]] = {}
    for definition in found:
        for name in definition.names:
            keys.setdefault(bare(name), {})[definition.key] = None
        for key in definition.types:
            keys.setdefault(key.rpartition(".")[2], {})[key] = None
        for key in definition.outside:
            library, _, path = key.partition("/")
            keys.setdefault(path.rpartition(".")[2], {})[f"{library}/"] = None
    return {name: [key.partition("/")[0] for key in several] for name, several in keys.items()}


def twice(found: list[Definition]) -> dict[str, list[str]]:
    """The names of more than one meaning, with the crates and the libraries that give them one."""
    return {name: several for name, several in meanings(found).items() if len(several) > 1}


def name_faults(found: list[Definition]) -> list[str]:
    """The names of two meanings, but for the signs that are known to have them, and those signs that have one."""
    several = twice(found)
    words = [name for name in several if name not in SIGNS or re.search(r"\w", name)]
    told = [f"{name} is a name of {' and of '.join(several[name])}: rename one" for name in words]
    return told + [f"{name} stands in SIGNS and has one meaning" for name in SIGNS if name not in several]


def fields_of(definition: Definition) -> list[str]:
    """The fields of a record, in their order."""
    return [match[1] for line in definition.lines if (match := re.match(r"  pub ([\w'-]+) :", line))]


def unsaid(readme: str, found: list[Definition]) -> list[str]:
    """The fields of the headline and of true reports that the list of what is proved doesn't name, and its entries that name none."""
    section = readme.partition(f"\n{PROVED}\n")[2].partition("\n## ")[0]
    entries = re.findall(r"(?m)^\d+\. .*(?:\n   .*)*", section)
    named = [re.findall(r"`([\w'-]+)`", entry) for entry in entries]
    fields = dict.fromkeys(name for d in found if d.key in FIELDS_OF or d.file in FIELDS_OF for name in fields_of(d))
    told = [f"{README} doesn't name the field `{name}` in *{PROVED[3:]}*" for name in fields if not any(name in words for words in named)]
    return told + [
        f"entry {number} of *{PROVED[3:]}* in {README} names no field"
        for number, words in enumerate(named, 1)
        if not any(name in fields for name in words)
    ]


def cited_outside(found: list[Definition]) -> dict[str, dict[str, str]]:
    """The words of libraries that are cited, by library, each with the file from which it is imported first."""
    words: dict[str, dict[str, str]] = {}
    for definition in found:
        for key in definition.outside:
            library, _, path = key.partition("/")
            place, _, word = path.rpartition(".")
            words.setdefault(library, {}).setdefault(word, place)
    return words


def word_faults(found: list[Definition]) -> list[str]:
    """The words of libraries that are cited and not told, and those that are told and cited no more."""
    cited = cited_outside(found)
    untold = [
        f"{word} of {library} ({place}) is cited, and claim_words.py doesn't tell it"
        for library, words in cited.items()
        for word, place in words.items()
        if word not in OUTSIDE.get(library, {})
    ]
    return untold + [
        f"{word} of {library} stands in claim_words.py, and no definition cites it"
        for library, words in OUTSIDE.items()
        for word in words
        if word not in cited.get(library, {})
    ]


def outside_lines(found: list[Definition]) -> list[str]:
    """The words of libraries, each with its meaning and the file from which it is imported."""
    lines = []
    for library, words in cited_outside(found).items():
        lines += ["", f"Of {library}:", ""]
        told = OUTSIDE.get(library, {})
        lines += [f"    {word} (specs/{words[word]}): {told[word]}" for word in sorted(words, key=str.lower) if word in told]
    return lines


def name_lines(definition: Definition, several: dict[str, list[str]]) -> list[str]:
    """What stands under a definition of names that have another meaning: its own, and those that it cites."""
    lines = []
    crate = definition.key.partition("/")[0]
    for name in map(bare, definition.names):
        others = [other for other in several.get(name, []) if other != crate]
        if others:
            lines.append(f"    -- `{name}` is also a name of {' and of '.join(others)}")
    here = [f"`{word}` is that of {owner}" for word, owner in definition.words.items() if word in several and owner != crate]
    return lines + ([f"    -- here {', '.join(here)}"] if here else [])


def minutes(lines: int) -> int:
    """How long lines take to read."""
    return max(1, round(lines / LINES_A_MINUTE))


def table_of(parts: list[Part], front: Part) -> list[str]:
    """The table of the parts: the front, the chapters of the first one, and then each other, with lines and minutes."""
    rows = [TABLE, "|---|---|---|---|"]

    def row(title: str, definitions: list[Definition]) -> None:
        names: dict[str, list[str]] = {}
        for definition in definitions:
            crate, _, file = definition.file.partition("/")
            if file not in names.setdefault(crate, []):
                names[crate].append(file)
        told = "; ".join(f"{crate}: {', '.join(found)}" for crate, found in names.items())
        lines = sum(len(definition.lines) for definition in definitions)
        rows.append(f"| {title} | {told} | {lines} | {minutes(lines)} |")

    row(front.title, front.definitions)
    for place, (title, _) in enumerate(CHAPTERS, 1):
        row(f"1.{place} {title}", [d for d in parts[0].definitions if chapter_of(d.file) == place - 1])
    rows.append(f"| **1. {parts[0].title}, all of it** | | {parts[0].lines} | {minutes(parts[0].lines)} |")
    lines = front.lines + parts[0].lines
    rows.append(f"| **the headline and {parts[0].title}** | | {lines} | {minutes(lines)} |")
    for number, part in enumerate(parts[1:], 2):
        row(f"{number}. {part.title}", part.definitions)
    lines = front.lines + sum(part.lines for part in parts)
    rows.append(f"| **all modes** | | {lines} | {minutes(lines)} |")
    return rows


def cited_line(definition: Definition) -> str:
    """Which others cite a definition."""
    names = list(dict.fromkeys(definition.cited_in))
    shown = ", ".join(names[:4]) + (f" and {len(names) - 4} more" if len(names) > 4 else "")
    return f"    -- cited by {shown}" if names else "    -- cited by the clause of the call"


def declared_in(top: Path) -> dict[str, str]:
    """Each type that the code of the project's crates declares, with its key `gic_x/file.Type`, where no other has its name."""
    found: dict[str, list[str]] = {}
    for path in sorted(top.glob("crates/gic_*/src/**/*.rt")):
        crate, _, rest = str(path.relative_to(top / "crates")).partition("/src/")
        for name in re.findall(r"(?m)^pub(?:\(crate\))? (?:struct|enum|const) (\w+)", path.read_text(encoding="utf-8")):
            found.setdefault(name, []).append(f"{crate}/{rest.removesuffix('.rt')}.{name}")
    return {name: keys[0] for name, keys in found.items() if len(keys) == 1}


def declaration(top: Path, key: str) -> list[str]:
    """The type or the constant of the code, with its doc comments, as it is declared; nothing where it isn't."""
    file, _, name = key.rpartition(".")
    crate, _, module = file.partition("/")
    lines = (top / "crates" / crate / "src" / f"{module}.rt").read_text(encoding="utf-8").splitlines()
    begins = re.compile(rf"^pub(?:\(crate\))? (struct|enum|const) {re.escape(name)}\b")
    for place, line in enumerate(lines):
        if begins.match(line):
            first = last = place
            while first > 0 and lines[first - 1].startswith(("///", "#[")):
                first -= 1
            if not line.endswith(";"):
                last = next((end for end in range(place, len(lines)) if lines[end].endswith("}") and not lines[end].startswith(" ")), place)
            told = [each for each in lines[first : last + 1] if each.strip() and not each.strip().startswith("#[") and "ghost" not in each]
            return ["", f"    crates/{crate}/src/{module}.rt", *("    " + each for each in told)]
    return []


def declarations(top: Path, key: str, known: dict[str, str], told: set[str]) -> list[str]:
    """The declaration of a type or a constant, behind those of the types that it names, but for what was told already."""
    if key in told:
        return []
    told.add(key)
    lines = declaration(top, key)
    code = "\n".join(line for line in lines[2:] if not line.strip().startswith("///"))
    names = re.findall(r"[:(<,] *(?:pub )?([A-Z]\w+)", code) + re.findall(r"\b[A-Z][A-Z_]+\b", code.partition(" = ")[2])
    below = [known[word] for word in names if word in known]
    return [line for other in dict.fromkeys(below) for line in declarations(top, other, known, told)] + lines


def clause(top: Path) -> list[str]:
    """The head of the call whose clause the headline is, with that clause."""
    head = re.search(r"(?ms)^pub fn run.*?(?=^\{)", (top / CALL).read_text(encoding="utf-8"))
    if not head:
        raise ClaimError(f"{CALL} has no call `run`")
    return head[0].splitlines()


def text_of(top: Path, files: dict[str, File], parts: list[Part], front: Part) -> str:
    """The text of the file that is printed."""
    found = [definition for part in (front, *parts) for definition in part.definitions]
    several = twice(found)
    known = declared_in(top)
    declared: set[str] = set()

    def blocks(definitions: list[Definition], head: bool) -> list[str]:
        lines = []
        for definition in definitions:
            if head:
                for key in dict.fromkeys(definition.types):
                    lines += declarations(top, key, known, declared)
            lines += ["", *definition.lines, cited_line(definition), *name_lines(definition, several)]
        return lines

    lines = BEGINNING.rstrip("\n").splitlines()
    lines += ["", "=" * 100, f"{front.title} ({len(front.definitions)} definitions, {front.lines} lines)", "=" * 100]
    lines += ["", CALL, "", *clause(top), *blocks(front.definitions, False)]
    lines += ["", "=" * 100, "How to read what follows", "=" * 100, "", *PREFACE.rstrip("\n").splitlines()]
    lines += ["", "Words of libraries, with the file of definitions of the toolchain from which each is imported.", *outside_lines(found)]
    for number, part in enumerate(parts, 1):
        lines += ["", "=" * 100, f"{number}. {part.title} ({len(part.definitions)} definitions, {part.lines} lines)", "=" * 100]
        if part.title in NOTES:
            lines += ["", *NOTES[part.title]]
        chapter = file = None
        for definition in part.definitions:
            if number == 1 and chapter_of(definition.file) != chapter:
                chapter = chapter_of(definition.file)
                lines += ["", f"---- {number}.{chapter + 1} {CHAPTERS[chapter][0]} ----"]
            if definition.file != file:
                file = definition.file
                crate, _, name = file.partition("/")
                lines += ["", f"crates/{crate}/specs/{name}.antt", *files[file].says]
            lines += blocks([definition], True)
    return "\n".join(lines) + "\n"


def crate_of(definition: Definition) -> str:
    """The crate of a definition."""
    return definition.file.partition("/")[0]


def text_of_mode(top: Path, files: dict[str, File], known: dict[str, Definition], crates: list[str], mode: str) -> str:
    """The claim of one mode, as it is printed: the headline, what it rests on in the order of reading, and the readers last."""
    front = front_of(files, known)
    said = {definition.key for definition in front.definitions}
    reports = set(reached(known, (TRUE_REPORT,)))
    behind = reached(known, tuple(definition.key for definition in front.definitions))
    ordered = [d for file in files.values() for d in file.definitions if d.key in behind and d.key not in said]
    groups = (
        (f"A true report of `{mode}`", [d for d in ordered if d.key in reports]),
        ("How a call ends, and what it is asked for", [d for d in ordered if d.key not in reports and crate_of(d) not in READERS]),
        ("How words and files are read", [d for d in ordered if d.key not in reports and crate_of(d) in READERS]),
    )
    found = [*front.definitions, *ordered]
    several, names, declared = twice(found), declared_in(top), set[str]()
    lines = [f"THE CLAIM OF `{mode}`", "", f"Made by `python3 docs/claim.py --mode={mode}`; rows of other modes are left out.", "", CALL, ""]
    lines += clause(top)
    for definition in front.definitions:
        lines += ["", *definition.lines]
    lines += ["", *PREFACE.rstrip("\n").splitlines(), "", "Words of libraries.", *outside_lines(found)]
    for number, (title, members) in enumerate(groups, 1):
        lines += ["", "=" * 100, f"{number}. {title} ({len(members)} definitions)", "=" * 100]
        file = None
        for definition in in_order(members, crates):
            for key in dict.fromkeys(definition.types):
                lines += declarations(top, key, names, declared)
            if definition.file != file:
                file = definition.file
                lines += ["", f"crates/{file.replace('/', '/specs/')}.antt", *files[file].says]
            lines += ["", *definition.lines, *name_lines(definition, several)]
    return "\n".join(lines) + "\n"


def print_mode(mode: str) -> int:
    """Prints the claim of one mode."""
    if mode not in MODES:
        print(f"claim.py: there is no mode {mode}; the modes are {', '.join(MODES)}", file=sys.stderr)
        return 2
    try:
        files = read_all(TOP)
        cut_to(files, mode)
        crates = crate_names((TOP / "crates.txt").read_text(encoding="utf-8"))
        text = text_of_mode(TOP, files, resolve(files), crates, mode)
    except (OSError, ValueError) as error:
        print(f"claim.py: {error}", file=sys.stderr)
        return 1
    print(text, end="")
    print(f"{len(text.splitlines())} lines", file=sys.stderr)
    return 0


def with_table(words: str, table: list[str]) -> str:
    """A document with its table of the parts of the claim replaced."""
    kept: list[str] = []
    skipping = False
    for line in words.splitlines():
        if line == TABLE:
            kept += table
            skipping = True
        elif not (skipping and line.startswith("|")):
            skipping = False
            kept.append(line)
    return "\n".join(kept) + "\n"


def main(words: list[str]) -> int:
    if len(words) == 1 and words[0].startswith("--mode="):
        return print_mode(words[0].removeprefix("--mode="))
    if words not in ([], ["--write"]):
        print(__doc__.strip(), file=sys.stdout if words in (["--help"], ["-h"]) else sys.stderr)
        return 0 if words in (["--help"], ["-h"]) else 2
    try:
        files = read_all(TOP)
        known = resolve(files)
        missing = [root for _, roots in PARTS for root in roots if root not in known]
        if missing:
            raise ClaimError(f"there is no definition {missing[0]}")
        front = front_of(files, known)
        parts = parts_of(files, known, crate_names((TOP / "crates.txt").read_text(encoding="utf-8")), front)
        mine = {definition.key: definition for part in (front, *parts) for definition in part.definitions}
        for definition in mine.values():
            for cited in definition.cites:
                mine[cited].cited_in.append(definition.names[0])
        document = (TOP / WORDS).read_text(encoding="utf-8")
        readme = (TOP / README).read_text(encoding="utf-8")
        unfiled = without_chapter(parts[0])
        if unfiled:
            raise ClaimError(unfiled[0])
        text, table = text_of(TOP, files, parts, front), table_of(parts, front)
        if words:
            (TOP / CLAIM).write_text(text, encoding="utf-8")
            document = with_table(document, table)
            (TOP / WORDS).write_text(document, encoding="utf-8")
        shown = (TOP / CLAIM).read_text(encoding="utf-8") if (TOP / CLAIM).exists() else ""
    except (OSError, ValueError) as error:
        print(f"claim.py: {error}", file=sys.stderr)
        return 1
    found = list(mine.values())
    faults = late_cites(parts, front) + undeclared(TOP, parts) + name_faults(found) + word_faults(found) + unsaid(readme, found)
    if text != shown:
        faults.append(f"{CLAIM} isn't what is made today; run `python3 docs/claim.py --write`")
    if "\n".join(table) not in document:
        told = "hasn't the table of the claim's parts that is made today; run `python3 docs/claim.py --write`"
        faults.append(f"{WORDS} {told if TABLE in document else 'has no table of the parts of the claim'}")
    for fault in faults:
        print(fault)
    print(f"{len(mine)} definitions of the claim, {len(faults)} faults")
    return 1 if faults else 0


if __name__ == "__main__":
    sys.exit(main(sys.argv[1:]))
