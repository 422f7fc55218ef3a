"""Checks the style sheet of a page without a browser."""
from __future__ import annotations

import re

from harness import must
from .pages import read, story


def rules_of_style(page: bytes, medium: str) -> dict[str, str]:
    """Returns the CSS declarations of the page for a medium, by selector."""
    (style,) = re.findall(r"(?s)<style>(.*?)</style>", page.decode())[:1]
    found: dict[str, str] = {}
    start = style.index(f"@media {medium} {{") + len(f"@media {medium} {{")
    end = next(
        at
        for at in range(start, len(style))
        if style[start : at + 1].count("}") > style[start : at + 1].count("{")
    )
    for selectors, declarations in re.findall(r"([^{}]+)\{([^{}]*)\}", style[start:end]):
        for one in selectors.split(","):
            found[one.strip()] = found.get(one.strip(), "") + declarations
    return found


def check_breaks_without_a_browser(program: str) -> None:
    """The style for paper forbids page breaks inside tables and after headings. Each heading
    precedes its table or text.
    """
    style = rules_of_style(story(program), "print")
    for selector, declaration in (
        ("table", "break-inside: avoid"), ("tr", "break-inside: avoid"),
        (".pictures figure", "break-inside: avoid"),
        ("caption", "break-after: avoid"), ("h2", "break-after: avoid"),
        ("h3", "break-after: avoid"),
    ):  # fmt: skip
        must(declaration in style.get(selector, ""), f"{selector} on paper: {style.get(selector)}")
    page = read(story(program))
    for parent in [page, *page.find("main"), *page.find("section"), *page.find("div")]:
        nodes = [it for it in parent.children if not isinstance(it, str)]
        for heading, other in zip(nodes, [*nodes[1:], None]):
            if heading.tag in ("h2", "h3"):
                must(other is not None and other.tag not in ("h1", "h2"),
                     f"after '{heading.text()}' comes what it is about")
    tables = [it for it in page.find("table") if it.find("caption")]
    must(len(tables) > 5, f"tables have captions: {len(tables)}")
