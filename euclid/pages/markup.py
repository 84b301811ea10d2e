"""Small helpers for HTML."""

from __future__ import annotations

import re
from collections.abc import Iterable
from html import escape


def esc(text: str) -> str:
    """A text inside of HTML."""
    return escape(text, quote=True)


def words_in(text: str) -> str:
    """Words in which backticks mark what books write."""
    return re.sub(r"`([^`]*)`", r"<code>\1</code>", esc(text))


def plain_words(text: str) -> str:
    """The same without marks."""
    return text.replace("`", "")


def sentence(text: str) -> str:
    """A comment as a sentence: with a capital."""
    return text[:1].upper() + text[1:]


def count_of(number: int, word: str) -> str:
    """A number of things."""
    return f"{number:,} {word}" + ("" if number == 1 else "s")


def tag(name: str, content: str = "", **attributes: str) -> str:
    """An element. A `_` at the end of an attribute's name is left out, inside it is `-`."""
    words = "".join(f' {key.rstrip("_").replace("_", "-")}="{esc(value)}"' for key, value in attributes.items() if value)
    return f"<{name}{words}>{content}</{name}>"


def link(to: str, content: str, **attributes: str) -> str:
    """A link."""
    return tag("a", content, href=to, **attributes)


def items(contents: Iterable[str]) -> str:
    """The items of a list."""
    return "".join(f"<li>{each}</li>" for each in contents)


def table(head: Iterable[str], rows: Iterable[Iterable[str]], caption: str = "", **attributes: str) -> str:
    """A table with heads of columns."""
    top = "".join(f'<th scope="col">{each}</th>' for each in head)
    body = "".join("<tr>" + "".join(f"<td>{cell}</td>" for cell in row) + "</tr>" for row in rows)
    said = f"<caption>{caption}</caption>" if caption else ""
    return tag("table", f"{said}<thead><tr>{top}</tr></thead><tbody>{body}</tbody>", **attributes)
