"""Creates HTML elements. All text passes through these functions, so that no text is interpreted as
markup.
"""
from __future__ import annotations

import json
import re
from typing import Any, Iterable, Union
from xml.etree import ElementTree

from psichart.svg import add
from psinames.groups import GroupNames

Element = ElementTree.Element
Words = Union[str, Element]


def say(parent: Element, tag: str, *words: Words, **attributes: str) -> Element:
    """Adds an element that contains these texts and elements in this order, and returns it."""
    element = add(parent, tag, None, **attributes)
    for word in words:
        if isinstance(word, ElementTree.Element):
            element.append(word)
        elif len(element):
            element[-1].tail = (element[-1].tail or "") + word
        else:
            element.text = (element.text or "") + word
    return element


def word(tag: str, text: str, **attributes: str) -> Element:
    """Returns an element that contains `text`."""
    element = ElementTree.Element(
        tag, {name.rstrip("_").replace("_", "-"): value for name, value in attributes.items()}
    )
    element.text = text
    return element


def table(
    parent: Element,
    caption: str,
    heads: Iterable[str],
    rows: Iterable[Iterable[str]],
    named: int = 1,
) -> Element:
    """Adds a table in a scrollable box, and returns it. The first `named` cells of each row are
    texts, and the others are numbers.
    """
    box = add(parent, "div", class_="wide", tabindex="0", role="region", aria_label=caption)
    found = add(box, "table")
    say(found, "caption", caption)
    line = add(add(found, "thead"), "tr")
    for place, head in enumerate(heads):
        say(line, "th", head, scope="col", **({"class_": "text"} if place < named else {}))
    body = add(found, "tbody")
    for row in rows:
        line = add(body, "tr")
        for place, cell in enumerate(row):
            attributes = {} if place else {"scope": "row"}
            attributes.update({"class_": "text"} if place < named else {})
            say(line, "td" if place else "th", cell, **attributes)
    return found


def folded(parent: Element, summary: str) -> Element:
    """Adds a collapsed block with a visible summary, and returns the block."""
    found = add(parent, "details")
    say(found, "summary", summary)
    return found


def name_groups(page: Element, names: GroupNames) -> None:
    """Replaces container ids by names in all texts of the page, except in commands."""
    for element in page.iter():
        if element.tag != "code":
            element.text = element.text and names.in_text(element.text)
            for name, value in element.attrib.items():
                element.set(name, names.in_text(value))
        element.tail = element.tail and names.in_text(element.tail)


CONTROLS = re.compile(r"[\x00-\x08\x0b-\x1f\x7f-\x9f]")


def escape_controls(page: Element) -> None:
    """Replaces each control character by an escape such as `\\x1b`, since HTML can't contain
    control characters.
    """

    def escaped(text: str) -> str:
        return CONTROLS.sub(lambda found: f"\\x{ord(found[0]):02x}", text)

    for element in page.iter():
        element.text, element.tail = (it and escaped(it) for it in (element.text, element.tail))
        for name, value in element.attrib.items():
            element.set(name, escaped(value))


def data_of(value: Any) -> str:
    """Formats a value as JSON for a script element. The JSON contains no text that would end the
    element.
    """
    return json.dumps(value, separators=(",", ":")).replace("<", "\\u003c")
