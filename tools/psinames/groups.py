"""Replaces container ids by names in the paths of groups, and finds the group that an operator
names.
"""
from __future__ import annotations

import re
from collections import Counter
from collections.abc import Iterable

from psicli.fault import Fault
from psicli.status import Status
from psicli.wording import NAMED, suggested

from .text import escapes

CONTAINER = re.compile("[0-9a-f]{64}")
POD = re.compile("[0-9a-f]{8}(?:[-_][0-9a-f]{4}){3}[-_][0-9a-f]{12}")
# Matches a path component that contains the id of a container or pod.
LETTERS = r"[A-Za-z0-9_.@:\\-]*"
COMPONENT = re.compile(f"{LETTERS}(?:{CONTAINER.pattern}|{POD.pattern}){LETTERS}")
# Numbers of digits of container ids: SHORT digits are printed to distinguish containers of equal
# name, and an id in a file of names has at least LEAST digits.
SHORT, LEAST = 6, 12


class GroupNames:
    """The names of containers and pods, keyed by the ids that occur in paths."""

    def __init__(self, containers: dict[str, str]) -> None:
        self.containers = containers
        self.starts = {number[:LEAST]: number for number in containers}
        counts = Counter(containers.values())
        self.several = {name for name, count in counts.items() if count > 1}
        self.known: dict[str, str] = {}

    def shown(self, path: str) -> str:
        """Returns `path` with names in place of ids: each component with the id of a known
        container or pod becomes the name in braces, as in `/kubepods.slice/{default/web/nginx}`.
        Original paths never contain braces.
        """
        if not self.containers:
            return path
        if path not in self.known:
            self.known[path] = "/".join(self.component(it) for it in path.split("/"))
        return self.known[path]

    def in_text(self, text: str) -> str:
        """Replaces the ids of known containers by names, in each path within a text."""
        if not self.containers:
            return text
        return COMPONENT.sub(lambda found: self.component(found[0]), text)

    def component(self, text: str) -> str:
        """Returns the replacement of a path component that contains the id of a known container."""
        for form in (CONTAINER, POD):
            found = form.search(text)
            name = self.name(found[0].replace("_", "-")) if found else None
            if name:
                return f"{{{name}}}"
        return text

    def name(self, number: str) -> str | None:
        """Returns the name of the container or pod with this id. Returns None if it isn't known."""
        known = self.starts.get(number[:LEAST], number)
        if not number.startswith(known) or known not in self.containers:
            return None
        name = re.sub(r"[\s{}]", lambda letter: escapes(letter[0]), self.containers[known])
        return f"{name}@{number[:SHORT]}" if self.containers[known] in self.several else name

    def container(self, path: str) -> str | None:
        """Returns the name of the container or pod whose group has this path, or None."""
        found = re.search(r"/\{([^{}]*)\}\Z", self.shown(path))
        return found[1] if found else None

    # ------------------------------------------------------------ finding a group by its name

    def matches(self, word: str, path: str) -> bool:
        """Returns whether `word` names the group with this path. `word` may be the path, as in the
        trace or as printed; the path's last component, such as a systemd unit; or a container's
        name.
        """
        container = self.container(path)
        names = {path, self.shown(path), path.rpartition("/")[2]}
        return word in names or container is not None and word in (container, f"{{{container}}}")

    def find(self, word: str, paths: Iterable[str], where: str) -> str:
        """Returns the path that `word` names. Raises a Fault, which lists the candidates, unless
        `word` names exactly one of `paths`. In the message, `where` says where the paths come from.
        """
        names = list(dict.fromkeys(paths))
        if word in names:
            return word
        found = [path for path in names if self.matches(word, path)] if word != "" else []
        if len(found) == 1:
            return found[0]
        if found:
            listed = ", ".join(found[:NAMED]) + (", .." if len(found) > NAMED else "")
            many = f"{len(found)} groups {where}"
            raise Fault(f"{word} is the name of {many}: {listed}", Status.NO_GROUP)
        near = suggested(word, [self.shown(it) for it in names])
        raise Fault(f"no group {word} {where}, which has {near}", Status.NO_GROUP)
