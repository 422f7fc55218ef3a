"""Writes a recording's formats as the table that `psi_convert` reads.

The table's lines are `psi_layout 1`, `page SIZE HEADER` (bytes), `letter BITS LETTER` for each
state of tasks, `kind NUMBER NAME FIELD..` for each event, and `end`. A field is `FORM:OFFSET:SIZE`.
"""
from __future__ import annotations

from collections.abc import Iterator

from psirec.layout import FORMATS

from .files import text_of
from .formats import (
    Field, Format, FormatFault, formats_of, page_format_of, sections_of, state_letters,
)  # fmt: skip
from .records import CURRENT, NUMBERS, SWITCH
from .source import Unreadable

# For each event with fields that aren't integers, these fields in the order of the table.
TEXTS: dict[str, tuple[str, ...]] = {
    "cgroup_mkdir": ("root", "path"),
    "cgroup_rmdir": ("root", "path"),
    "cgroup_attach_task": ("dst_root", "dst_path", "pid"),
    "print": ("buf",),
}
# The largest number of an event, and the largest offset and size (bytes) of a field.
MOST = 65535


def field_word(name: str, field: Field) -> str:
    """Formats a field as a word of the table."""
    if name == "prev_state":
        form = "state"
    elif field.type.startswith("__data_loc"):
        form = "located"
    elif "[" in field.type:
        form = "text"
    else:
        form = "signed" if field.is_signed else "unsigned"
    if max(field.offset, field.size) > MOST:
        raise FormatFault(f"field {name} is at {field.offset} with {field.size} bytes")
    return f"{form}:{field.offset}:{field.size}"


def fields_of(name: str) -> tuple[str, ...] | None:
    """Returns the fields of an event in addition to the common ones. Returns None if psi_convert
    doesn't read the event.
    """
    if name in NUMBERS:
        return NUMBERS[name][1]
    return SWITCH if name == "sched_switch" else TEXTS.get(name)


def kind_line(form: Format, names: tuple[str, ...]) -> str:
    """Returns the table's line for an event."""
    try:
        words = [field_word(name, form.fields[name]) for name in (CURRENT, *names)]
    except KeyError as missing:
        raise FormatFault(f"{form.name} has no field {missing}") from None
    return " ".join(["kind", str(form.number), form.name, *words])


def table_lines(sections: dict[str, list[str]]) -> Iterator[str]:
    """Yields the lines of the table, without newlines."""
    page, forms = page_format_of(sections), formats_of(sections)
    yield "psi_layout 1"
    yield f"page {page.size} {page.data}"
    if "sched_switch" in forms:
        letters, stays = state_letters(forms["sched_switch"].print_format)
        yield f"letter {stays} R"
        yield from (f"letter {bit} {letters[bit]}" for bit in sorted(letters))
    for form in forms.values():
        names = fields_of(form.name)
        if names is not None:
            yield kind_line(form, names)
    yield "end"


def table_of(folder: str) -> str:
    """Returns the table of a recording."""
    try:
        return "".join(f"{line}\n" for line in table_lines(sections_of(text_of(folder, FORMATS))))
    except FormatFault as fault:
        raise Unreadable(f"{FORMATS}: {fault}") from None
