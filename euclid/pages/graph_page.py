"""The graph of what applies what, drawn in layers: a theorem is below all that it rests on."""

from __future__ import annotations

from collections.abc import Mapping, Sequence

from .markup import esc
from .model import Group, Site
from .shell import heading, page, theorem_links

HIGH, GAP, LETTER = 20.0, 34.0, 6.4  # of a box, between layers, of a letter
SIDE = 10.0  # between boxes
SWEEPS = 12


Edges = dict[str, list[str]]


def edges_in(site: Site, group: Group) -> Edges:
    """The theorems of a book, each with those of the book that it applies, but for what it rests on by another of them
    too."""
    applies, below = site.graph.applies, site.graph.below
    own = {entry.title: None for entry in group.entries if entry.title in applies}
    return {title: [each for each in applies[title] if each in own
                    and not any(each in below[other] for other in applies[title] if other != each)] for title in own}


def joined_parts(edges: Edges) -> list[list[str]]:
    """The theorems in parts that no line joins, the largest first."""
    parent = {title: title for title in edges}

    def root(title: str) -> str:
        while parent[title] != title:
            title = parent[title]
        return title

    for title, below in edges.items():
        for each in below:
            parent[root(each)] = root(title)
    found: dict[str, list[str]] = {}
    for title in edges:
        found.setdefault(root(title), []).append(title)
    return sorted(found.values(), key=lambda part: -len(part))


class Drawing:
    """Theorems that lines join, in layers."""

    def __init__(self, site: Site, label: str, nodes: list[str], edges: Edges) -> None:
        self.site, self.label, self.nodes = site, label, nodes
        self.edges = {title: edges[title] for title in nodes}
        self.layers = self.in_layers()
        self.at: dict[str, float] = {}
        self.arrange()

    def in_layers(self) -> list[list[str]]:
        """The theorems by how long the longest way down is."""
        depth: dict[str, int] = {}
        for title in self.nodes:
            depth[title] = 1 + max((depth[each] for each in self.edges[title]), default=-1)
        for title in self.nodes:  # what rests on nothing here stands just above those that apply it
            if not self.edges[title]:
                depth[title] = min(depth[each] for each in self.nodes if title in self.edges[each]) - 1
        found: list[list[str]] = [[] for _ in range(max(depth.values(), default=-1) + 1)]
        for title in self.nodes:
            found[depth[title]].append(title)
        return found

    def arrange(self) -> None:
        """Gives each box its place: near the middle of those that it is joined with."""
        above: dict[str, list[str]] = {title: [] for title in self.nodes}
        for title, edges in self.edges.items():
            for each in edges:
                above[each].append(title)
        for layer in self.layers:
            self.spread(layer, {})
        for sweep in range(SWEEPS):
            down = sweep % 2 == 0
            for layer in self.layers if down else self.layers[::-1]:
                joined = self.edges if down else above
                middle = {title: self.middle(title, joined[title]) for title in layer}
                layer.sort(key=lambda title: (middle[title], self.nodes.index(title)))
                self.spread(layer, middle)
        left = min((self.at[title] - self.width(title) / 2 for title in self.nodes), default=0.0)
        for title in self.nodes:
            self.at[title] -= left - SIDE

    def middle(self, title: str, joined: Sequence[str]) -> float:
        """The middle of the boxes that a box is joined with."""
        return sum(self.at[each] for each in joined) / len(joined) if joined else self.at[title]

    def width(self, title: str) -> float:
        """The width of a box."""
        return len(title) * LETTER + 12

    def spread(self, layer: Sequence[str], middle: Mapping[str, float]) -> None:
        """Puts the boxes of a layer side by side, each near where it is wanted, the whole around its middle."""
        place = 0.0
        places: dict[str, float] = {}
        for title in layer:
            wanted = middle.get(title, place) - self.width(title) / 2
            place = max(place, wanted) if middle and places else wanted if middle else place
            places[title] = place + self.width(title) / 2
            place += self.width(title) + SIDE
        shift = 0.0
        if middle and places:
            shift = sum(middle[title] - at for title, at in places.items()) / len(places)
        elif places:
            shift = -place / 2
        for title, at in places.items():
            self.at[title] = at + shift

    def svg(self) -> str:
        """The drawing, each box a link."""
        level = {title: number for number, layer in enumerate(self.layers) for title in layer}
        width = max((self.at[title] + self.width(title) / 2 for title in self.nodes), default=0.0) + SIDE
        height = len(self.layers) * (HIGH + GAP) - GAP + 2 * SIDE

        def top(title: str) -> float:
            return SIDE + level[title] * (HIGH + GAP)

        lines = []
        for title, edges in self.edges.items():
            for each in edges:
                x, y, u, v = self.at[each], top(each) + HIGH, self.at[title], top(title)
                bend = (v - y) / 2
                lines.append(f'<path data-of="{esc(title)}" data-on="{esc(each)}" d="M{x:.0f} {y:.0f}C{x:.0f} {y + bend:.0f} '
                             f'{u:.0f} {v - bend:.0f} {u:.0f} {v:.0f}"/>')
        for title in self.nodes:
            entry, wide = self.site.entries[title], self.width(title)
            lines.append(f'<a href="theorem/{esc(entry.file)}" data-title="{esc(title)}"><title>{esc(entry.comment)}</title>'
                         f'<rect x="{self.at[title] - wide / 2:.0f}" y="{top(title):.0f}" width="{wide:.0f}" height="{HIGH:.0f}" rx="4"/>'
                         f'<text x="{self.at[title]:.0f}" y="{top(title) + 14:.0f}">{esc(title)}</text></a>')
        return (f'<svg class="graph" viewBox="0 0 {width:.0f} {height:.0f}" width="{width:.0f}" height="{height:.0f}" role="group" '
                f'aria-label="{esc(self.label)}">{"".join(lines)}</svg>')


def graph_page(site: Site) -> str:
    """The page of the graph, a drawing for each book."""
    lead = "A theorem stands below those that its steps apply. Point at one: what it rests on is blue, what rests on it orange. " \
           "What is applied by way of another theorem too has no line of its own; nor has what is in another book."
    parts = [heading("Graph", lead)]
    for group in site.groups:
        edges = edges_in(site, group)
        parts.append(f"<h2>{esc(group.title)}</h2>" if edges else "")
        label = f"What the theorems of {group.title} apply"
        found = joined_parts(edges)
        drawings = "".join(Drawing(site, label, part, edges).svg() for part in found if len(part) > 1)
        parts.append(f'<div class="graphs">{drawings}</div>' if drawings else "")
        alone = site.graph.in_order(part[0] for part in found if len(part) == 1)
        if alone:
            parts.append(f'<p class="many"><span class="count">neither apply one here nor are applied</span> '
                         f"{theorem_links(site, alone)}</p>")
    return page(site, "Graph", "".join(parts), current="graph.html")
