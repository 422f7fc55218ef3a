"""Undoes the recorder's changes to the machine, in reverse order. Each change is registered
together with the step that undoes it, so that an error at any point leaves nothing on the machine.
"""
from __future__ import annotations

from collections.abc import Callable
from types import TracebackType


class Undoing:
    """The steps that restore the machine. If a step fails, the remaining steps still run, and
    `left` names the change that couldn't be undone.
    """

    def __init__(self) -> None:
        self.steps: list[tuple[str, Callable[[], None]]] = []
        self.left: list[str] = []

    def note(self, what: str, step: Callable[[], None]) -> None:
        """Registers a step. `what` names the change that remains on the machine if the step
        fails.
        """
        self.steps.append((what, step))

    def __enter__(self) -> Undoing:
        return self

    def __exit__(
        self,
        kind: type[BaseException] | None,
        error: BaseException | None,
        trace: TracebackType | None,
    ) -> None:
        """Undoes all changes when the context ends, also after an error."""
        self.undo()

    def undo(self) -> None:
        """Runs all registered steps. A second call does nothing."""
        while self.steps:
            what, step = self.steps.pop()
            try:
                step()
            except OSError as error:
                self.left.append(f"{what}: {error.strerror}")
