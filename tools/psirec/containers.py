"""Parses the names of containers and pods. They are keyed by the identifiers in the names of
control groups: 64 hexadecimal digits for a container, or the UID for a pod. The file FILE of a
recording has them as lines `NUMBER NAME`.

These commands print the names: `crictl ps -a -o json`, `crictl pods -o json`,
`docker ps -a --no-trunc --format '{{json .}}'`, `podman ps -a --no-trunc --format json`, and
`docker inspect`. A container of a pod is named `NAMESPACE/POD/CONTAINER`.
"""
from __future__ import annotations

import json
import re
from collections.abc import Iterator
from typing import Any

FILE = "containers"
# Matches the identifier of a container, which docker may shorten to 12 digits, or of a pod.
NUMBER = re.compile("[0-9a-f]{12,64}|[0-9a-f]{8}(?:[-_][0-9a-f]{4}){3}[-_][0-9a-f]{12}")
KUBERNETES = "io.kubernetes."


def names_in(text: str) -> dict[str, str]:
    """Parses the output of crictl, docker or podman, or lines `NUMBER NAME`. Returns the names by
    identifier. Raises ValueError if the text has neither form.
    """
    found: dict[str, str] = {}
    if text.lstrip()[:1] in ("{", "["):
        for value in values_in(text):
            found.update(names_of(value))
        return found
    for line in text.splitlines():
        number, _, name = line.strip().partition(" ")
        if number and not number.startswith("#"):
            if not NUMBER.fullmatch(number) or not name.strip():
                raise ValueError(f"'{line.strip()[:60]}' isn't NUMBER NAME")
            found[number.replace("_", "-")] = name.strip()
    return found


def values_in(text: str) -> Iterator[Any]:
    """Yields the JSON objects in a text, which is either a single JSON value or has one value on
    each line. If a single value is an object with a list `containers` or `items`, yields the
    objects in that list.
    """
    try:
        whole = json.loads(text)
    except ValueError:
        whole = [json.loads(line) for line in text.splitlines() if line.strip()]
    if isinstance(whole, dict):
        whole = whole.get("containers") or whole.get("items") or [whole]
    yield from (it for it in whole if isinstance(it, dict))


def first_text(*values: Any) -> str:
    """Returns the first non-empty string among the values. A list is replaced by its first element.
    """
    for value in values:
        value = value[0] if isinstance(value, list) and value else value
        if isinstance(value, str) and value:
            return value
    return ""


def part_of(value: Any, key: str) -> Any:
    """Returns the value at `key` if `value` is a JSON object, and None if not."""
    return value.get(key) if isinstance(value, dict) else None


def names_of(value: dict[str, Any]) -> Iterator[tuple[str, str]]:
    """Yields the identifiers and names in `value`, the JSON object of one container or pod. The
    object of a container may also name its pod.
    """
    own, labels = value.get("metadata"), value.get("labels") or value.get("Labels")
    number = first_text(value.get("id"), value.get("Id"), value.get("ID"))
    name = first_text(part_of(own, "name"), value.get("Names"), value.get("Name")).lstrip("/")
    keys = (f"{KUBERNETES}pod.{it}" for it in ("name", "namespace", "uid"))
    pod, space, uid = (first_text(part_of(labels, key)) for key in keys)
    if part_of(own, "uid"):  # A pod: `id` identifies its sandbox container.
        space, uid = (first_text(part_of(own, key)) for key in ("namespace", "uid"))
        pod, name = name, "sandbox"
    whole = f"{space}/{pod}" if space and pod else pod
    if NUMBER.fullmatch(number) and name:
        yield number, f"{whole}/{name}" if whole else name
    if NUMBER.fullmatch(uid) and whole:
        yield uid.replace("_", "-"), whole
