"""What all pages have in common: head, search, links, foot."""

from __future__ import annotations

from .markup import esc, link, plain_words, tag, words_in
from .model import Site

POLICY = ("default-src 'none'; style-src 'self'; script-src 'self'; img-src 'self'; base-uri 'none'; "
          "form-action 'none'")
PLACES = (("index.html", "Contents"), ("rules.html", "Rules"), ("definitions.html", "Definitions"),
          ("needs.html", "What needs what"), ("graph.html", "Graph"))


def page(site: Site, title: str, body: str, root: str = "", current: str = "", about: str = "") -> str:
    """A whole page. `root` is the way to the site's folder."""
    full = site.title if title == site.title else f"{title} · {site.title}"
    links = []
    for file, name in PLACES:
        here = ' aria-current="page"' if file == current else ""
        links.append(f'<li><a href="{root}{file}"{here}>{esc(name)}</a></li>')
    return f"""<!doctype html>
<html lang="en" data-root="{root}">
<head>
<meta charset="utf-8">
<meta http-equiv="Content-Security-Policy" content="{POLICY}">
<meta name="viewport" content="width=device-width, initial-scale=1">
<meta name="color-scheme" content="light dark">
<meta name="description" content="{esc(plain_words(about or full))}">
<title>{esc(full)}</title>
<link rel="icon" href="{root}icon.svg">
<link rel="stylesheet" href="{root}style.css">
<script src="{root}search.js" defer></script>
<script src="{root}euclid.js" defer></script>
</head>
<body>
<a class="skip" href="#main">To the text</a>
<header class="top">
<a class="site" href="{root}index.html">{esc(site.title)}</a>
<nav aria-label="Site"><ul>{''.join(links)}</ul></nav>
<div class="search" hidden><label for="search">Search</label><input id="search" type="search" placeholder="Search  /" \
autocomplete="off" aria-controls="found" aria-describedby="search-help"><span id="search-help" class="unseen">by title, \
by words, or by what is shown, as AB = AC</span><ol id="found" aria-label="Found" hidden></ol></div>
</header>
<main id="main">
{body}
</main>
<footer><p>Verified by {esc(site.verified)}. The figures claim nothing: they are pictures.</p></footer>
</body>
</html>
"""


def theorem_link(site: Site, title: str, root: str = "", text: str = "") -> str:
    """A link to a theorem, with its comment for who points at it."""
    entry = site.entries.get(title)
    if entry is None:
        return esc(text or title)
    return link(f"{root}theorem/{entry.file}", esc(text or title), title=entry.comment)


def theorem_links(site: Site, titles: list[str], root: str = "") -> str:
    """Links to theorems, one after the other."""
    return " ".join(theorem_link(site, title, root) for title in titles)


def rule_link(site: Site, name: str, root: str = "") -> str:
    """A link to a rule, with its words for who points at it."""
    if name == "superpose":
        return link(f"{root}rule/superposition.html", "superposition")
    rule = site.tables.rule(name)
    return link(f"{root}rule/{name}.html", esc(name), title=plain_words(rule.words) if rule else "")


def construction_file(number: int) -> str:
    """The page of a construction, in the folder of rules."""
    return f"construction-{number}.html"


def heading(title: str, lead: str = "") -> str:
    """The head of a page."""
    return tag("h1", esc(title)) + (tag("p", words_in(lead), class_="lead") if lead else "")
