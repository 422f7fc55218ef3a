"""tools/rules lint: reports errors in a rules file, or prints a corrected file."""
import argparse
import json
import re
import sys
from dataclasses import asdict
from typing import Any

from psicli.fault import Fault
from psicli.running import complain
from psicli.status import Status
from psicli.wording import quoted
from psireplay.kinds import RULES, kind_of, kind_message
from psirules import oomd_notes, telling
from psirules.mending import Finding, Kind, Mender
from psirules.program import Program, Refusal
from psirules.relaxed import Reading
from psirules.rules_file import bytes_of, temporary_rules
from psirules.shapes import first_fault
from psirules.telling import Form

ABOUT = """Reports what psi_oomd refuses in FILE (comments, commas after the last item, plugins and
values that only oomd has), what it passes over in silence (a misspelt argument does
nothing; it names the one that was probably meant), and what it takes otherwise than
oomd 0.5.0 (a size without a letter). Notes name what oomd does otherwise by the same
words, such as a kill at pressure 0; with --tick-ms or --interval-s also ticks that
don't divide the interval. With --fix a corrected file is printed, which psi_oomd takes,
and each change is reported on standard error; LOST marks those by which the rules do
other things than in oomd."""
STATUS = """The status is 0 where nothing is wrong, 1 where something is, and 2 where FILE can't be
read. With --fix it is 0 where the printed file means what FILE does, 1 where some of
that is lost, and 2 where nothing could be printed."""
WHOLE_FILE = "the file"
MOST_BYTES = 1048576
"""The largest size of a rules file (bytes)."""
CAUSES = {
    "TooLong": "it has more than 1048576 bytes",
    "BadJson": "it is no JSON text in UTF-8",
    "MissingKey": "a key or an argument that is required isn't there",
    "WrongKind": "a value is of another JSON kind than it has to be",
    "TooMany": "a list is longer than it may be",
    "UnknownPlugin": "there is no plugin of this name",
    "BadArg": "an argument isn't of its form or its range",
}


def place_told(said: str, data: Any) -> str:
    """Returns the place of an error in a rules file, from the program's message `said`. Adds the
    names of the ruleset, the group or the plugin from `data`, the parsed file.
    """
    lists = {"ruleset": "rulesets", "group": "detectors", "action": "actions"}
    parts, at = [], data
    for kind, number in re.findall(r"(ruleset|group|item|action) ([0-9]+)", said):
        try:
            at = (at[1:] if kind == "item" else at[lists[kind]])[int(number)]
            name = at[0] if kind == "group" else at["name"]
            parts.append(f"{kind} {number} {quoted(str(name))}")
        except (KeyError, IndexError, TypeError):
            parts.append(f"{kind} {number}")
            at = None
    return ", ".join(parts) or WHOLE_FILE


def verdict(data: bytes, read: Any) -> Finding | None:
    """Returns the first error that psi_oomd finds in a rules file with these bytes, or None if
    psi_oomd accepts it. `read` is the parsed file, which has the names for the message.
    """
    with temporary_rules(data, "") as file:
        try:
            Program().judge(file)
        except Refusal as refusal:
            if not refusal.said.startswith("rules"):
                raise
            cause = refusal.said.rpartition(": ")[2]
            why = first_fault(read) if cause in ("MissingKey", "WrongKind") else None
            what = f"{refusal.said}: {why or CAUSES.get(cause, 'docs/RULES.md has its cause')}"
            return Finding(place_told(refusal.said, read), Kind.REFUSED, what)
    return None


def written(data: Any) -> bytes:
    """Formats data as a rules file. Uses several lines, unless the file would then be too large."""
    lines = (json.dumps(data, indent=1, ensure_ascii=False) + "\n").encode("utf-8", "replace")
    close = json.dumps(data, separators=(",", ":"), ensure_ascii=False).encode("utf-8", "replace")
    return lines if len(lines) <= MOST_BYTES else close


class Linted:
    """A rules file with its findings. `notes` has further findings: what oomd does differently with
    the same rules. `fixed` has the bytes of the corrected file, or is None if the file can't be
    corrected.
    """

    def __init__(self, data: bytes) -> None:
        self.findings: list[Finding] = []
        self.notes: list[Finding] = []
        self.fixed: bytes | None = None
        try:
            reading = Reading(data)
        except Fault as fault:
            known = kind_message(kind_of(data), RULES, "FILE")
            found = known or f"{fault}: oomd doesn't take this either"
            self.findings.append(Finding(WHOLE_FILE, Kind.REFUSED, found))
            return
        self.findings += [Finding(WHOLE_FILE, Kind.REFUSED, *change) for change in reading.changes]
        for key in reading.doubles:
            what = f"the key {quoted(key)} stands twice in one object, and the last one counts"
            self.findings.append(Finding(WHOLE_FILE, Kind.IGNORED, what, "the last one stays"))
        was = verdict(data, reading.data)
        self.notes = oomd_notes.notes(reading.data)
        mender = Mender(reading.data)
        self.findings += mender.findings
        if was and not any(it.kind is Kind.REFUSED for it in self.findings):
            self.findings.append(was)
        self.fixed = written(mender.data)
        error = verdict(self.fixed, mender.data)
        if error:
            self.fixed = None
            if error not in self.findings:
                self.findings.append(error)


def told_fix(linted: Linted, name: str) -> int:
    """Prints the corrected file, reports the changes, and returns the exit status."""
    for finding in linted.findings:
        complain(finding.told_change() if linted.fixed else finding.text())
    if linted.fixed is None:
        complain(
            f"{name} can't be corrected: mend by hand what is reported above, and look at"
            " docs/RULES.md"
        )
        return Status.FAILED
    sys.stdout.flush()
    sys.stdout.buffer.write(linted.fixed)
    sys.stdout.buffer.flush()
    return Status.FOUND if any(finding.is_lost for finding in linted.findings) else Status.DONE


def run(options: argparse.Namespace) -> int:
    if options.fix and options.form is Form.JSON:
        raise Fault("--fix prints a corrected file, and --json what is wrong: give one of them")
    data = sys.stdin.buffer.read() if options.file == "-" else bytes_of(options.file)
    Program().prepare()
    linted = Linted(data)
    if options.fix:
        return told_fix(linted, options.file)
    linted.findings += [*linted.notes, *oomd_notes.of_pace(options.tick_ms, options.interval_s)]
    status = (
        Status.FOUND if any(it.kind is not Kind.NOTE for it in linted.findings) else Status.DONE
    )
    if options.form is Form.JSON:
        records = [{**asdict(it), "kind": it.kind.value} for it in linted.findings]
        telling.tell_json({"file": options.file, "status": status, "findings": records})
    else:
        for it in linted.findings:
            print(f"{options.file}: {it.text()}")
    return status
