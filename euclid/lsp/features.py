"""The requests that are answered, each by one function of a session."""

from __future__ import annotations

from collections.abc import Callable
from dataclasses import dataclass

from . import actions, completion, editing, hints, hover, navigation, tokens
from .checking import Checker
from .documents import Document
from .protocol import Json
from .settings import Settings
from .workspace import Project, Spot, Workspace, word_range

CAPABILITIES: dict[str, Json] = {
    "textDocumentSync": {"openClose": True, "change": 2, "save": {"includeText": False}},
    "hoverProvider": True,
    "definitionProvider": True,
    "referencesProvider": True,
    "documentHighlightProvider": True,
    "documentSymbolProvider": True,
    "workspaceSymbolProvider": True,
    "foldingRangeProvider": True,
    "completionProvider": {"triggerCharacters": [" "]},
    "signatureHelpProvider": {"triggerCharacters": [" "]},
    "renameProvider": {"prepareProvider": True},
    "documentFormattingProvider": True,
    "codeActionProvider": {"codeActionKinds": ["quickfix"]},
    "inlayHintProvider": True,
    "semanticTokensProvider": {"legend": {"tokenTypes": tokens.TYPES, "tokenModifiers": []}, "full": True},
}


@dataclass
class Session:
    """What a request may look at."""

    workspace: Workspace
    checker: Checker
    settings: Settings

    def spot(self, params: Json) -> Spot:
        """The word at the position of a request, with the blanks filled where that is known."""
        spot = self.workspace.spot(params)
        spot.project.filled = self.checker.filled(spot.project.root)
        return spot

    def document(self, params: Json) -> tuple[Document, Project]:
        """The document of a request and its project."""
        document = self.workspace.document(str(params["textDocument"]["uri"]))
        return document, self.workspace.project(document.path)


def own_lines(document: Document, project: Project) -> set[int]:
    """The numbers in the joined text of the lines of a document."""
    first = project.library.number(document.path, 1)
    return set(range(first, first + len(document.lines))) if first is not None else set()


def hovered(session: Session, params: Json) -> Json:
    """`textDocument/hover`."""
    spot = session.spot(params)
    text = hover.hover(spot, session.settings.pages)
    if text is None:
        return None
    place = int(params["position"]["line"]) + 1
    return {"contents": {"kind": "markdown", "value": text}, "range": word_range(place, spot.line, spot.at)}


def definition(session: Session, params: Json) -> Json:
    """`textDocument/definition`."""
    return navigation.definition(session.spot(params))


def references(session: Session, params: Json) -> Json:
    """`textDocument/references`."""
    with_declaration = bool((params.get("context") or {}).get("includeDeclaration", True))
    return navigation.references(session.spot(params), with_declaration)


def highlights(session: Session, params: Json) -> Json:
    """`textDocument/documentHighlight`: the references in this document."""
    spot = session.spot(params)
    uri = params["textDocument"]["uri"]
    return [{"range": each["range"]} for each in navigation.references(spot, True) if each["uri"] == uri]


def document_symbols(session: Session, params: Json) -> Json:
    """`textDocument/documentSymbol`."""
    document, project = session.document(params)
    return navigation.document_symbols(project, own_lines(document, project))


def workspace_symbols(session: Session, params: Json) -> Json:
    """`workspace/symbol`."""
    roots = {session.workspace.root(path): path for path in session.workspace.documents}
    projects = [session.workspace.project(path) for path in roots.values()]
    return navigation.workspace_symbols(projects, str(params.get("query", "")))


def folds(session: Session, params: Json) -> Json:
    """`textDocument/foldingRange`."""
    document, project = session.document(params)
    return navigation.folds(project, own_lines(document, project))


def completions(session: Session, params: Json) -> Json:
    """`textDocument/completion`."""
    return {"isIncomplete": False, "items": completion.complete(session.spot(params))}


def signature(session: Session, params: Json) -> Json:
    """`textDocument/signatureHelp`."""
    return completion.signature(session.spot(params))


def semantic_tokens(session: Session, params: Json) -> Json:
    """`textDocument/semanticTokens/full`."""
    from ..syntax import lines_of

    return {"data": tokens.tokens(lines_of(session.workspace.document(str(params["textDocument"]["uri"])).text))}


def inlay_hints(session: Session, params: Json) -> Json:
    """`textDocument/inlayHint`."""
    document, project = session.document(params)
    first, last = int(params["range"]["start"]["line"]), int(params["range"]["end"]["line"])
    return hints.hints(document, project, session.checker, session.settings, first, last)


def formatting(session: Session, params: Json) -> Json:
    """`textDocument/formatting`."""
    return editing.formatting(*session.document(params))


def prepare_rename(session: Session, params: Json) -> Json:
    """`textDocument/prepareRename`."""
    return editing.prepare(session.spot(params), int(params["position"]["line"]) + 1)


def rename(session: Session, params: Json) -> Json:
    """`textDocument/rename`."""
    return editing.rename(session.spot(params), str(params["newName"]))


def code_actions(session: Session, params: Json) -> Json:
    """`textDocument/codeAction`."""
    document, project = session.document(params)
    return actions.actions(document, project, session.checker, params)


FEATURES: dict[str, Callable[[Session, Json], Json]] = {
    "textDocument/hover": hovered,
    "textDocument/definition": definition,
    "textDocument/references": references,
    "textDocument/documentHighlight": highlights,
    "textDocument/documentSymbol": document_symbols,
    "workspace/symbol": workspace_symbols,
    "textDocument/foldingRange": folds,
    "textDocument/completion": completions,
    "textDocument/signatureHelp": signature,
    "textDocument/semanticTokens/full": semantic_tokens,
    "textDocument/inlayHint": inlay_hints,
    "textDocument/formatting": formatting,
    "textDocument/prepareRename": prepare_rename,
    "textDocument/rename": rename,
    "textDocument/codeAction": code_actions,
}
