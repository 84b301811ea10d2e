"""Writes a picture as SVG."""

from __future__ import annotations

from html import escape

from .elements import Element, order, shape
from .figure import Figure, State

STYLE = """
  line, circle, path, polygon { fill: none; stroke: #64748b; stroke-width: 1.3 }
  line { stroke-linecap: round }
  .given { stroke: #111; stroke-width: 1.8 }
  .thin { stroke: #94a3b8; stroke-width: 1.1 }
  .segment.new, .line.new, .circle.new { stroke: #c2410c; stroke-width: 2 }
  .band, .lineband, .disc { stroke-width: 6; stroke-opacity: .4 }
  .left { stroke: #ea580c } .right { stroke: #2563eb } .why { stroke: #eab308; stroke-width: 9 }
  .area, .wedge { stroke: none; fill-opacity: .25 }
  .area.left, .wedge.left { fill: #ea580c } .area.right, .wedge.right { fill: #2563eb }
  .area.why, .wedge.why { fill: #eab308 } .area.given-area { fill: #64748b }
  .tick { stroke: #111 } .tick.goal { stroke: #2563eb; stroke-width: 1.5 } .tick.new { stroke: #c2410c; stroke-width: 1.6 }
  .dot { fill: #111; stroke: white; stroke-width: 1 } .dot.new, .dot.hot { fill: #c2410c }
  .ring { stroke: #ea580c; stroke-width: 2; stroke-opacity: .6 }
  text { font: 16px Georgia, 'DejaVu Serif', serif; fill: #111; text-anchor: middle }
  text.new, text.hot { fill: #c2410c }
  text.curve { font-size: 13px; font-style: italic; fill: #64748b } text.curve.hot { fill: #c2410c }
"""


def classes_of(element: Element, extra: str = "") -> str:
    """The classes of a part."""
    return " ".join(dict.fromkeys(word for word in (element.kind, element.look, extra) if word))


def tag_of(figure: Figure, element: Element, classes: str) -> str:
    """The SVG of a part."""
    tag, attributes = shape(element, figure.layout)
    text = f'<{tag} class="{classes}"' + "".join(f' {name}="{value}"' for name, value in attributes.items())
    return f"{text}>{escape(element.text)}</{tag}>" if element.text else text + "/>"


def svg(figure: Figure, state: State, title: str, description: str = "") -> str:
    """A picture in one state, as a text of its own."""
    width, height = (f"{size:.0f}" for size in (figure.layout.width, figure.layout.height))
    lines = [f'<svg xmlns="http://www.w3.org/2000/svg" width="{width}" height="{height}" '
             f'viewBox="0 0 {width} {height}" role="img">', f"<title>{escape(title)}</title>"]
    lines += [f"<desc>{escape(description)}</desc>"] if description else []
    lines.append(f"<style>{STYLE}</style>")
    elements = figure.elements
    for at in order(figure.numbers):
        if at in state.shown or at in state.classes:
            lines.append(tag_of(figure, elements[at], classes_of(elements[at], state.classes.get(at, ""))))
    return "\n".join([*lines, "</svg>", ""])
