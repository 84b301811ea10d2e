"""Code actions: lines that `elements` accepted, put in; blanks filled as they were chosen."""

from __future__ import annotations

from ..answers import check
from ..diagnosis import Diagnosis
from ..filling.engine import fill_theorem
from ..program import Missing
from ..script import Theorem
from .checking import Checker, text_of
from .documents import Document, span
from .protocol import Json
from .workspace import Project

FILL_SECONDS = 8.0


def actions(document: Document, project: Project, checker: Checker, params: Json) -> list[Json]:
    """What may be done in a range of a document."""
    first = project.library.number(document.path, 1)
    report = checker.report(project.root)
    if first is None or report is None:
        return []
    wanted = params.get("context", {}).get("only")
    if wanted is not None and not any("quickfix".startswith(str(kind)) for kind in wanted):
        return []
    start = first + int(params["range"]["start"]["line"])
    end = first + int(params["range"]["end"]["line"])
    uri = str(params["textDocument"]["uri"])
    found: list[Json] = []
    for diagnosis in report.diagnoses:
        if start <= diagnosis.number <= end and is_as_it_was(project, checker, diagnosis):
            found += ways(uri, project, diagnosis, first)
            found += fillings(uri, project, diagnosis, first, report.refused_titles())
    for filling in report.fillings:
        number = filling.step.line.number
        if start <= number <= end and text_of(project.library, number) == filling.step.line.text:
            found.append(blanks(uri, filling.step.line.text, filling.arguments, number - first + 1))
    return found


def is_as_it_was(project: Project, checker: Checker, diagnosis: Diagnosis) -> bool:
    """Whether the line of a diagnosis is still as it was checked."""
    report = checker.report(project.root)
    return report is not None and text_of(report.library, diagnosis.number) == text_of(project.library, diagnosis.number)


def ways(uri: str, project: Project, diagnosis: Diagnosis, first: int) -> list[Json]:
    """The ways that are ready: lines before the step, or in the place of a citation that is wrong."""
    line = text_of(project.library, diagnosis.number)
    indent = line[: len(line) - len(line.lstrip())]
    number = diagnosis.number - first
    is_citation = line.split()[:1] == ["by"]
    found: list[Json] = []
    for way in diagnosis.ready():
        said = " ; ".join(f"`{each}`" for each in way.lines)
        if is_citation and way in diagnosis.ways:
            new = "\n".join(indent + each for each in way.lines)
            edit = {"range": span(line, number + 1, 1, len(line) + 1), "newText": new}
            found.append(action(f"write {said} instead", uri, edit, not found))
        else:
            text = "".join(f"{indent}{each}\n" for each in way.lines)
            found.append(action(f"insert {said}", uri, insertion(number, text), not found))
    return found


def fillings(uri: str, project: Project, diagnosis: Diagnosis, first: int, refused: set[str]) -> list[Json]:
    """The theorem with the lines that it lacks, where `elements` accepts it so."""
    theorem = project.book.theorem(diagnosis.title)
    if diagnosis.kind != "refused" or theorem is None:
        return []
    filled = fill_theorem(theorem, project.known_before(theorem), seconds=FILL_SECONDS)
    left_out = refused - {theorem.title}
    if not filled.is_whole() or not filled.put_in() or not is_accepted(project, theorem, filled.text(), left_out):
        return []
    last = theorem.lines[-1]
    start = theorem.lines[0].number - first
    where = {"start": {"line": start, "character": 0}, "end": span(last.text, last.number - first + 1, 1, len(last.text) + 1)["end"]}
    edit = {"range": where, "newText": filled.text().removesuffix("\n")}
    return [action("fill in the lines that are missing in this proof", uri, edit, False)]


def is_accepted(project: Project, theorem: Theorem, text: str, left_out: set[str]) -> bool:
    """Whether `elements` accepts the book up to a theorem, with this text for it; refused ones are left out."""
    first = theorem.lines[0].number
    gone = {line.number for item in project.book.items if item.title in left_out for line in item.lines}
    before = [line.text for line in project.book.lines if line.number < first and line.number not in gone]
    try:
        return check("\n".join([*before, text])).is_accepted()
    except Missing:
        return False


def blanks(uri: str, text: str, arguments: list[str], number: int) -> Json:
    """The blanks of an accepted line, filled as they were chosen."""
    words = text.split()
    behind = words[words.index("as") :] if "as" in words else []
    new = " ".join([*words[:2], *arguments, *behind])
    start = len(text) - len(text.lstrip()) + 1
    edit = {"range": span(text, number, start, len(text.rstrip()) + 1), "newText": new}
    return action("fill the blanks as chosen", uri, edit, False)


def insertion(line: int, text: str) -> Json:
    """Lines put in before a line, from 0."""
    place = {"line": line, "character": 0}
    return {"range": {"start": place, "end": place}, "newText": text}


def action(title: str, uri: str, edit: Json, is_preferred: bool) -> Json:
    """One action."""
    return {"title": title, "kind": "quickfix", "isPreferred": is_preferred, "edit": {"changes": {uri: [edit]}}}
