"""The command line of tools/incident."""
from __future__ import annotations

import argparse
import os
import shlex
import signal
import sys
import tempfile
from types import FrameType
from typing import NoReturn

from psicli.fault import Fault, Malformed
from psicli.output import must_be_writable
from psicli.parser import Parser
from psicli.running import complain, run
from psicli.status import Status
from psicli.values import whole_number
from psirecord.options import Status as RecordStatus

from .host import Host
from .opening import folder_of, is_archive, remote_of, unpack
from .page import Output, write_page
from .steps import Steps, tools_path

OPEN = "open"
ABOUT = """Records a machine and writes the page of the incident, in steps that are shown and that
one could type.

examples:
  # this machine, as root
  tools/incident --seconds 60 -o incident.html
  # another one, over ssh
  tools/incident HOST --seconds 60 -o incident.html
  # an existing recording: a folder, an archive of one, or HOST:FOLDER
  tools/incident open FOLDER -o incident.html

Beside the page it leaves the recording (a folder of the same name), the trace and the converter's
summary. On HOST it copies the recorder into a new folder below /tmp, and removes the folder in the
end, also after a failure or Ctrl-C."""
AFTER = """Statuses: 0 the page was written, 2 something couldn't be run, 3 the page was written,
but the recording is incomplete or something couldn't be undone on the recorded machine, as the
recorder says."""
DONE = (RecordStatus.RECORDED, RecordStatus.NOT_WHOLE, RecordStatus.LEFT_BEHIND)


def host_name(word: str) -> str:
    """Parses a host's name for ssh. Rejects a name that ssh would read as an option."""
    if word.startswith("-") or not word.strip():
        raise Malformed(f"'{word}' isn't a host's name")
    return word


def page_name(word: str) -> str:
    """Parses the name of the page's file. The names of the other output files begin with this name
    without its suffix .html.
    """
    if not word.endswith(".html") or os.path.basename(word) == ".html":
        raise Malformed(f"{word} isn't a name such as incident.html")
    return word


def recorder_words(words: str) -> str:
    """Splits the recorder's options at spaces, and quotes each for the shell."""
    try:
        return " ".join(map(shlex.quote, shlex.split(words)))
    except ValueError as fault:
        raise Malformed(f"{words} can't be split into words: {fault}") from None


def add_shared(words: Parser) -> None:
    """Adds the options that recording an incident and `open` share."""
    add = words.add_argument
    add(
        "-o",
        "--output",
        metavar="FILE.html",
        type=page_name,
        default="incident.html",
        help="the page (%(default)s)",
    )
    add(
        "--rules",
        metavar="FILE",
        help="what these rules would have done, as --rules of tools/report",
    )
    add(
        "--oomd",
        metavar="FILE",
        help="what oomd would have done by this configuration, as --oomd of tools/report",
    )
    add(
        "--fold",
        metavar="S",
        type=whole_number(1, 60),
        help="fold the trace into windows of S seconds, as --fold of tools/psitrace",
    )
    add(
        "--ssh",
        metavar="COMMAND",
        default="ssh",
        help="how ssh is called, for example 'ssh -p 2222' (%(default)s)",
    )
    add(
        "--sudo",
        action="store_true",
        help="become root by `sudo -n` where the recording is made or read",
    )


def parser() -> Parser:
    """Returns the parser of the command that records."""
    words = Parser(ABOUT, AFTER)
    words.add_argument(
        "host",
        metavar="HOST",
        nargs="?",
        type=host_name,
        help="record this machine over ssh; else this one",
    )
    words.add_argument(
        "--seconds",
        metavar="N",
        type=whole_number(1, 86400),
        required=True,
        help="the recording's length",
    )
    words.add_argument(
        "--record",
        metavar="OPTIONS",
        type=recorder_words,
        default="",
        help="more options of tools/record, for example '--buffer-kb 65536'",
    )
    add_shared(words)
    return words


def open_parser() -> Parser:
    """Returns the parser of `incident open`."""
    words = Parser("Writes the page of an existing recording.", prog=f"{Parser('').prog} {OPEN}")
    words.add_argument("source", metavar="FOLDER|ARCHIVE|HOST:FOLDER", help="a recording")
    add_shared(words)
    return words


def report_words(options: argparse.Namespace) -> list[str]:
    """Returns the arguments that are passed on to tools/report."""
    named = (("--rules", options.rules), ("--oomd", options.oomd))
    return [f"{name}={value}" for name, value in named if value is not None]


def check(options: argparse.Namespace) -> None:
    """Raises a Fault if a file that only the last step reads doesn't exist, or if the page can't be
    written. Called before the first step.
    """
    for path in (it for it in (options.rules, options.oomd) if it is not None):
        if not os.path.isfile(path):
            raise Fault(f"no file: {path}")
    must_be_writable(options.output)


def record_here(steps: Steps, options: argparse.Namespace, folder: str, words: str) -> int:
    """Records this machine into a new folder, and returns the recorder's exit status."""
    sudo = "sudo -n " if options.sudo else ""
    status = steps.run(
        f"{sudo}{tools_path('record')} {shlex.quote(folder)} {words}", DONE, "recording"
    )
    if options.sudo:
        steps.run(f"{sudo}chown -R {os.getuid()}:{os.getgid()} {shlex.quote(folder)}")
    return status


def record_there(steps: Steps, options: argparse.Namespace, folder: str, words: str) -> int:
    """Records another machine, copies the recording into a new folder here, and returns the
    recorder's exit status.
    """
    with Host(steps, options.host, options.ssh, options.sudo) as host:
        host.copy_recorder()
        status = host.record(words, DONE)
        host.fetch_recording(folder)
    return status


def record(options: argparse.Namespace) -> int:
    """Records a machine, writes the page, and returns the exit status."""
    steps, output = Steps(), Output(options.output)
    output.must_be_new(output.base)
    words = f"--seconds {options.seconds} {options.record}".rstrip()
    make = record_there if options.host else record_here
    status = make(steps, options, output.base, words)
    write_page(steps, output.base, output, options.fold, report_words(options))
    complain(f"wrote {output.page}; the recording is in {output.base}, the trace is {output.trace}")
    return Status.DONE if status == RecordStatus.RECORDED else Status.INCOMPLETE


def open_recording(options: argparse.Namespace) -> int:
    """Writes the page of an existing recording, and returns the exit status."""
    steps, output = Steps(), Output(options.output)
    remote = remote_of(options.source)
    output.must_be_new(output.base if remote else None)
    with tempfile.TemporaryDirectory(prefix="psi-incident-") as scratch:
        if remote:
            folder = output.base
            Host(steps, host_name(remote[0]), options.ssh, options.sudo).fetch(remote[1], folder)
        elif is_archive(options.source):
            folder = unpack(steps, options.source, scratch)
        else:
            folder = folder_of(options.source)
        write_page(steps, folder, output, options.fold, report_words(options))
    complain(f"wrote {output.page}; the trace is {output.trace}")
    return Status.DONE


def incident() -> int:
    """Runs the command that the arguments name, and returns the exit status."""
    is_open = sys.argv[1:2] == [OPEN]
    options = open_parser().parse_args(sys.argv[2:]) if is_open else parser().parse_args()
    check(options)
    return open_recording(options) if is_open else record(options)


def interrupt(number: int, frame: FrameType | None) -> NoReturn:
    """A signal handler that ends the command as Ctrl-C does, so that all files on a host are
    removed.
    """
    raise KeyboardInterrupt


def main() -> int:
    """Runs the command; returns the exit status."""
    for number in (signal.SIGTERM, signal.SIGHUP):
        signal.signal(number, interrupt)
    return run(incident)
