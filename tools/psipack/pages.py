"""Generates the manual pages of the tools from their --help. The pages of the programs are written
by hand, in `docs`.
"""
from __future__ import annotations

import re

from .commands import Tool
from .usage import Help, Item

HEAD = """.\\" Made of what `{name} --help` says, when it was packed.
.TH {title} 1 "{date}" "{source}" "User Commands"
.SH NAME
{name} \\- {about}
.SH SYNOPSIS
"""
CALL = """.SY {name}
{words}
.YS
"""
SEE_ALSO = """.SH SEE ALSO
.BR psi_oomd (1),
which has the forms of traces and rules;
.IR {page} ;
all documents are in
.IR /usr/share/doc/psi-oomd .
"""
# The first words of those blocks of --help that become separate sections of a manual page.
EXAMPLES, READ_ON = "examples:\n", "Read on: "
FIRST_PAGE = "/usr/share/doc/psi-oomd/docs/README.md"
STATUS = re.compile(r"(?:The )?status\b")


def page_of(tool: Tool, about: Help, commands: dict[str, Help], date: str, source: str) -> bytes:
    """Returns the manual page of a tool, with a section for each of its commands."""
    name = escaped(tool.command)
    lines = [
        HEAD.format(
            title=tool.command.upper(),
            date=date,
            source=source,
            name=name,
            about=escaped(tool.about),
        )
    ]
    calls = [f"{command} {found.usage}" for command, found in commands.items()] or [about.usage]
    lines += [CALL.format(name=name, words=escaped(words)) for words in calls]
    examples = [it.partition("\n")[2] for it in about.before if it.startswith(EXAMPLES)]
    said, statuses = parted(without_places(about.before))
    notes, more = parted(without_places(about.after))
    lines += [".SH EXAMPLES\n", *map(paragraph, examples)] if examples else []
    lines += [".SH DESCRIPTION\n", *map(paragraph, said)]
    lines += items_of(about.arguments) if not commands else []
    for command, found in commands.items():
        lines.append(f".SH {escaped(command.upper())}\n")
        after = without_places(found.after)
        lines += [
            *map(paragraph, found.before),
            *items_of(found.arguments + found.options),
            *map(paragraph, after),
        ]
    lines += [".SH OPTIONS\n", *items_of(about.options)] if not commands else []
    for title, paragraphs in (("NOTES", notes), ("EXIT STATUS", statuses + more)):
        lines += [f".SH {title}\n", *map(paragraph, paragraphs)] if paragraphs else []
    page = next(
        (it.removeprefix(READ_ON) for it in about.after if it.startswith(READ_ON)), FIRST_PAGE
    )
    return "".join([*lines, SEE_ALSO.format(page=page)]).encode()


def without_places(paragraphs: list[str]) -> list[str]:
    """Returns the paragraphs without the examples and without the reference to a document, which
    become separate sections of a manual page.
    """
    return [it for it in paragraphs if not it.startswith((EXAMPLES, READ_ON))]


def parted(paragraphs: list[str]) -> tuple[list[str], list[str]]:
    """Splits paragraphs into two lists: paragraphs on other subjects, and paragraphs on the exit
    status.
    """
    return [it for it in paragraphs if not STATUS.match(it)], [
        it for it in paragraphs if STATUS.match(it)
    ]


def paragraph(text: str) -> str:
    """Formats a paragraph in roff. If a line is indented or aligned, all line breaks are preserved.
    """
    lines = text.split("\n")
    if any(line.startswith(" ") or re.search(r"\S {2,}\S", line) for line in lines):
        return ".PP\n.nf\n" + "".join(f"{escaped(line)}\n" for line in lines) + ".fi\n"
    return ".PP\n" + "".join(f"{escaped(line)}\n" for line in lines)


def items_of(items: list[Item]) -> list[str]:
    """Formats a list of arguments or options in roff."""
    return [f".TP\n.B {escaped(item.words)}\n{escaped(item.about)}\n" for item in items]


def escaped(text: str) -> str:
    """Escapes a text for roff, so that hyphens are preserved and no line is interpreted as a
    request.
    """
    text = text.replace("\\", "\\e").replace("-", "\\-")
    return "\\&" + text if text.startswith((".", "'")) else text
