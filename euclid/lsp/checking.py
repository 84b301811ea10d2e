"""Checks what is open, in a thread of its own, and tells the client what is wrong with it."""

from __future__ import annotations

import threading
from collections.abc import Mapping
from dataclasses import dataclass, field
from pathlib import Path

from ..checking import Verdict
from ..contexts import Filled
from ..derivation import Proved, Unread, proved
from ..diagnose import Diagnoser, Report, add_ways
from ..diagnosis import Diagnosis
from ..library import Faulty, Library, load
from ..literals import spell
from ..program import Missing
from ..script import Item, Theorem
from .documents import span, uri_of, whole_line
from .protocol import Json, Writer
from .settings import Settings
from .workspace import Project, Workspace

ERROR, WARNING, INFORMATION = 1, 2, 3
SOURCE = "elements"
PAUSE = 0.25  # seconds without a change before it is looked for how to mend what is wrong


@dataclass
class Job:
    """What was open when a check was asked for."""

    roots: dict[Path, dict[Path, int]]  # the versions of the open documents, by what they are checked with
    overlay: Mapping[Path, str]


@dataclass
class State:
    """What is known of a root: the reports of one state after the other."""

    diagnoser: Diagnoser = field(default_factory=Diagnoser)
    report: Report | None = None
    told: dict[str, list[Json]] = field(default_factory=dict)  # the diagnostics of each document


class Checker:
    """Takes the newest job; an older one that is still at work ends as soon as it can."""

    def __init__(self, writer: Writer, settings: Settings) -> None:
        self.writer, self.settings = writer, settings
        self.states: dict[Path, State] = {}
        self.job: Job | None = None
        self.condition = threading.Condition()
        self.stopped = False
        threading.Thread(target=self.work, daemon=True).start()

    def ask(self, workspace: Workspace) -> None:
        """Checks all that is open, as it is now."""
        roots: dict[Path, dict[Path, int]] = {}
        for path, document in workspace.documents.items():
            roots.setdefault(workspace.root(path), {})[path] = document.version
        with self.condition:
            self.job = Job(roots, {path: document.text for path, document in workspace.documents.items()})
            self.condition.notify()

    def stop(self) -> None:
        """No more checks."""
        with self.condition:
            self.stopped = True
            self.condition.notify()

    def forget(self, uri: str) -> None:
        """Takes back what was told of a document that was closed."""
        self.writer.notify("textDocument/publishDiagnostics", {"uri": uri, "diagnostics": []})
        for state in list(self.states.values()):
            state.told.pop(uri, None)

    def work(self) -> None:
        """One job after the other."""
        while True:
            with self.condition:
                while self.job is None and not self.stopped:
                    self.condition.wait()
                if self.stopped:
                    return
                job, self.job = self.job, None
            assert job is not None
            for root, versions in job.roots.items():
                if self.job is None:
                    self.check(root, versions, job.overlay)

    def check(self, root: Path, versions: dict[Path, int], overlay: Mapping[Path, str]) -> None:
        """Checks one library or book; a program that is missing or has died is told once a check."""
        try:
            self.check_root(root, versions, overlay)
        except Faulty as fault:
            line = {"line": max(fault.line - 1, 0), "character": 0}
            found = {"range": {"start": line, "end": line}, "severity": ERROR, "source": SOURCE, "message": fault.message}
            self.tell(self.state(root), {uri_of(fault.path.resolve()): [found]}, versions)
        except (Missing, Unread, OSError, MemoryError, RecursionError) as error:
            self.writer.notify("window/logMessage", {"type": ERROR, "message": f"euclid: {error}"})
        except (BrokenPipeError, ValueError):
            return  # the client is gone

    def state(self, root: Path) -> State:
        """The state of a root."""
        return self.states.setdefault(root, State())

    def check_root(self, root: Path, versions: dict[Path, int], overlay: Mapping[Path, str]) -> None:
        """What is wrong is told at once; how to mend it comes after."""
        state = self.state(root)
        library = load([root], overlay)
        beside = [path for path in versions if path.suffix != ".toml" and library.number(path, 1) is None]
        for path in beside:  # files that book.toml does not name are checked alone
            self.check_root(path, {path: versions[path]}, overlay)
        report = state.diagnoser.report(library, with_ways=False)
        state.report = report
        self.tell(state, diagnostics(report), versions)
        if report.diagnoses:
            with self.condition:
                self.condition.wait_for(lambda: self.job is not None or self.stopped, PAUSE)
        for diagnosis in report.diagnoses:
            if self.job is not None or self.stopped:
                return
            add_ways(report, diagnosis)
        if report.diagnoses:
            self.tell(state, diagnostics(report), versions)

    def tell(self, state: State, found: dict[str, list[Json]], versions: dict[Path, int]) -> None:
        """Tells the client what has changed, and of each open document its version."""
        open_ones = {uri_of(path): version for path, version in versions.items()}
        for uri in [*found, *(uri for uri in state.told if uri not in found), *open_ones]:
            now = found.get(uri, [])
            if uri in open_ones or state.told.get(uri, []) != now:
                params: dict[str, Json] = {"uri": uri, "diagnostics": now}
                if uri in open_ones:
                    params["version"] = open_ones.pop(uri)
                self.writer.notify("textDocument/publishDiagnostics", params)
        state.told = {uri: each for uri, each in found.items() if each}

    def report(self, root: Path) -> Report | None:
        """The last report of a root."""
        state = self.states.get(root)
        return state.report if state else None

    def filled(self, root: Path) -> dict[str, Filled]:
        """By what the blanks of accepted theorems were filled."""
        report = self.report(root)
        if report is None:
            return {}
        return {item.title: outcome.part.filled() for item, outcome in zip(report.book.items, report.outcomes.items)
                if outcome.part is not None}

    def proved(self, project: Project, theorem: Theorem) -> Proved | None:
        """An accepted theorem with the reasons of its steps, where it is as it was checked."""
        report = self.report(project.root)
        outcome = report.outcome(theorem.title) if report else None
        checked = report.book.theorem(theorem.title) if report else None
        if outcome is None or outcome.part is None or checked is None:
            return None
        if [line.words for line in checked.lines] != [line.words for line in theorem.lines]:
            return None
        try:
            return proved(outcome.part, theorem, project.known_before(theorem))
        except (Unread, KeyError):
            return None


# ---- diagnostics of the protocol


def diagnostics(report: Report) -> dict[str, list[Json]]:
    """All that is to be told, by document."""
    found: dict[str, list[Json]] = {}
    for diagnosis in report.diagnoses:
        uri, data = of_diagnosis(report.library, diagnosis)
        found.setdefault(uri, []).append(data)
    for item, outcome in zip(report.book.items, report.outcomes.items):
        if outcome.verdict == Verdict.RESTS:
            uri, data = of_user(report.library, item, outcome.on)
            found.setdefault(uri, []).append(data)
    return found


def document_of(library: Library, number: int) -> tuple[str, int]:
    """The document of a line of the joined text, and the number of the line in it."""
    place = library.place(number)
    return uri_of((Path.cwd() / place.path).resolve()), place.line


def of_diagnosis(library: Library, diagnosis: Diagnosis) -> tuple[str, Json]:
    """A diagnosis with its document."""
    uri, line = document_of(library, diagnosis.number)
    text = text_of(library, diagnosis.number)
    data: dict[str, Json] = {"range": span(text, line, diagnosis.start, max(diagnosis.end, diagnosis.start)),
                             "severity": ERROR, "source": SOURCE, "code": diagnosis.kind,
                             "message": "\n".join([diagnosis.message, *diagnosis.details(library)[2:]])}
    related = [premise_place(library, premise.literal, premise.origin.line, premise.origin.words())
               for premise in diagnosis.premises if premise.origin is not None]
    if related:
        data["relatedInformation"] = related
    return uri, data


def premise_place(library: Library, literal: Json, number: int, words: str) -> Json:
    """Where a premise that is there comes from."""
    uri, line = document_of(library, number)
    where = whole_line(text_of(library, number), line)
    return {"location": {"uri": uri, "range": where}, "message": f"{spell(literal)}: {words}"}


def of_user(library: Library, item: Item, title: str) -> tuple[str, Json]:
    """That an item was not checked, since it rests on one that is not accepted."""
    uri, line = document_of(library, item.head.number)
    where = whole_line(item.head.text, line)
    return uri, {"range": where, "severity": WARNING, "source": SOURCE, "code": "rests",
                 "message": f"not checked: it rests on `{title}`, which is not accepted"}


def text_of(library: Library, number: int) -> str:
    """The text of a line of the joined text."""
    for file in library.files:
        if file.start <= number < file.start + len(file.lines):
            return file.lines[number - file.start].text
    return ""
