"""The parser of a tool's command line."""
from __future__ import annotations

import argparse
import os
import sys
from collections.abc import Sequence
from typing import Any, NoReturn

from .examples import examples_text, read_on_text
from .fault import Fault

OPTIONS = "[OPTION ..]"
# The form of a positional argument in a short usage, keyed by the argument's `nargs`. argparse uses
# `A...` for a subcommand.
FORMS = {"?": "[{}]", "*": "[{} ..]", "+": "{} ..", "A...": "{} .."}


def tool_name() -> str:
    """Returns the name by which the tool was called. It may differ from the name of the tool's
    file, since an installed tool is a link.
    """
    return os.path.basename(sys.argv[0])


class Parser(argparse.ArgumentParser):
    """Parses the arguments of a tool. A usage error raises a Fault, whose second line is a short
    usage.

    A description or epilog of several lines keeps its layout. With `reads_input`, a file name among
    the arguments is an error with the advice to use standard input.
    """

    def __init__(
        self,
        description: str | None,
        epilog: str = "",
        reads_input: bool = False,
        prog: str | None = None,
        usage: str | None = None,
    ) -> None:
        has_lines = "\n" in f"{description}{epilog}"
        super().__init__(
            prog=prog or tool_name(),
            usage=usage,
            description=description,
            epilog=epilog,
            formatter_class=(
                argparse.RawDescriptionHelpFormatter if has_lines else argparse.HelpFormatter
            ),
            allow_abbrev=False,
        )
        self.reads_input = reads_input

    def format_help(self) -> str:
        """Returns the help text. The tool's examples precede the arguments, and the last line names
        a page of docs/.
        """
        text, examples = super().format_help(), examples_text(self.prog)
        first = next(group.title for group in self._action_groups if group._group_actions)
        if examples:
            text = text.replace(f"\n\n{first}:\n", f"\n\nexamples:\n{examples}\n{first}:\n", 1)
        return f"{text}\n{read_on_text()}"

    def error(self, message: str) -> NoReturn:
        """Raises a Fault with the message and a short usage."""
        word = message.rpartition(" ")[2]
        if self.reads_input and "unrecognized arguments" in message and os.path.isfile(word):
            message += f": the input is standard input: {self.prog} < {word}"
        raise Fault(f"{message}\nusage: {self.short_usage()}; --help has the options")

    def short_usage(self) -> str:
        """Returns a usage line with only the required options and the positional arguments."""
        if self.usage:
            return self.usage % {"prog": self.prog}
        required = [it for it in self._actions if it.option_strings and it.required]
        positional = [it for it in self._actions if not it.option_strings]
        words = [f"{it.option_strings[-1]} {it.metavar}" for it in required]
        words += [FORMS.get(str(it.nargs), "{}").format(it.metavar) for it in positional]
        return " ".join([self.prog, OPTIONS, *words])

    def values(self, words: Sequence[str] | None = None) -> dict[str, Any]:
        """Returns the values of the options and arguments, by name. Parses `words`, or the
        process's own arguments if `words` is None.
        """
        return vars(self.parse_args(words))
