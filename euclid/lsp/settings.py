"""What a client may switch on and off."""

from __future__ import annotations

from dataclasses import dataclass

from .protocol import Json


@dataclass
class Settings:
    """The settings, by the names that a client gives them under `euclid`."""

    hints_by_what: bool = True
    hints_steps: bool = False
    hints_filled: bool = True
    pages: str = ""  # where a site of `euclid pages` is, for links to its rules with their figures

    def take(self, data: Json) -> None:
        """Takes what is given; other names are passed over."""
        hints = data.get("hints") if isinstance(data, dict) else None
        pages = data.get("pages") if isinstance(data, dict) else None
        if isinstance(pages, str):
            self.pages = pages.rstrip("/")
        if isinstance(hints, bool):
            self.hints_by_what = self.hints_steps = self.hints_filled = hints
        if isinstance(hints, dict):
            self.hints_by_what = bool(hints.get("byWhat", self.hints_by_what))
            self.hints_steps = bool(hints.get("steps", self.hints_steps))
            self.hints_filled = bool(hints.get("blanks", self.hints_filled))
