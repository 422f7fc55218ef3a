"""Computes the expected output of `psi_convert events`, with the decoder of tools/psitrace."""
from __future__ import annotations

from collections.abc import Iterator
from typing import Any

from psiread.formats import Format, formats_of, page_format_of, sections_of
from psiread.pages import PADDING, WORD, Page, PageFault, page_at, records_of
from psiread.records import CURRENT, decoders_of
from psiread.table import fields_of


def value_text(value: Any) -> str:
    """Returns a value of an event as `psi_convert events` prints it."""
    if not isinstance(value, bytes):
        return str(value)
    return "".join(
        chr(byte) if 32 < byte < 127 and byte != 92 else f"\\{byte:03o}" for byte in value
    )


def least_of(form: Format) -> int:
    """Returns the smallest size (bytes) of a record that contains all fields that are decoded. Text
    fields may be empty.
    """
    fields = [form.fields[name] for name in (CURRENT, *(fields_of(form.name) or ()))]
    is_text = [
        field.size == 0 or "[" in field.type and not field.type.startswith("__data_loc")
        for field in fields
    ]
    return max(field.offset + (0 if text else field.size) for field, text in zip(fields, is_text))


def headers_of(data: bytes, page: Page) -> Iterator[int]:
    """Yields the offset of the first header word of each event's record in a page."""
    at = page.start
    while at + 4 <= page.end:
        kind, delta = WORD(data, at)[0] & 31, WORD(data, at)[0] >> 5
        if 0 < kind < PADDING:
            yield at
            at += 4 + 4 * kind
            continue
        if at + 8 > page.end:
            return
        if kind == 0:
            yield at
        elif kind == PADDING and delta == 0:
            return
        at += 8 if kind > PADDING else 4 + WORD(data, at + 4)[0]


class Lines:
    """Decodes pages of a recording with the recording's event formats."""

    def __init__(self, formats: str) -> None:
        sections = sections_of(formats)
        forms = formats_of(sections)
        self.page, self.decoders = page_format_of(sections), decoders_of(forms)
        self.forms = {form.number: form for form in forms.values()}
        self.least = {number: least_of(self.forms[number]) for number in self.decoders}

    def page_lines(self, data: bytes, at: int, processor: int) -> Iterator[str]:
        """Yields the lines of a page. Raises PageFault, with the byte of the page and the cause, if
        the page is malformed.
        """
        try:
            page = page_at(data, at, self.page)
        except PageFault:
            raise PageFault("byte 8: TooLong") from None
        if page.lost:
            yield f"{page.time_ns} {processor} lost {max(page.lost, 0)}"
        records = zip(records_of(data, page), headers_of(data, page))
        for (time_ns, start, end), header in records:
            record = data[start : min(end, page.end)]
            number = int.from_bytes(record[:2], "little")
            if len(record) < max(2, self.least.get(number, 0)):
                raise PageFault(f"byte {header - at}: ShortRecord")
            if number in self.decoders:
                event = self.decoders[number](time_ns % 2**64, processor, record, 0, len(record))
                words = [event[0], processor, self.forms[number].name, *map(value_text, event[2:])]
                yield " ".join(map(str, words))

    def file_lines(self, data: bytes, processor: int) -> tuple[list[str], str]:
        """Returns the lines for all whole pages of a file up to the first fault, and a text with
        the page, the byte and the cause of this fault ('' if no page has a fault).
        """
        lines: list[str] = []
        for page in range(len(data) // self.page.size):
            try:
                for line in self.page_lines(data, page * self.page.size, processor):
                    lines.append(line)
            except PageFault as fault:
                return lines, f"page {page} {fault}"
        return lines, ""
