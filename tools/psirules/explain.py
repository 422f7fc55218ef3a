"""tools/rules explain: prints why the rules fired on a trace or didn't, and which groups they
chose.
"""
import argparse
import contextlib

from psicli.fault import Fault
from psicli.running import complain
from psicli.status import Status
from psioomd.emulation import Run, emulate
from psireplay.lines import Kill
from psireplay.part import part_of, part_text, show_clock
from psireplay.runs import Runs
from psirules import by_oomd, by_systemd, telling
from psirules.program import Program, processors
from psirules.replays import Traces, accepted, no_input, note_samples, note_unmatched
from psirules.sampling import must_judge, note
from psirules.telling import Form
from psisystemd.replayed import replayed, warnings
from psisystemd.settings import Settings
from psiwhy import by_oomd as oomd_parts
from psiwhy import by_rules as rules_parts
from psiwhy import by_systemd as systemd_parts
from psiwhy.explanation import Part, lines_of, record_of
from psiwhy.judged import Asked, judge

ABOUT = """Prints why the rulesets of RULES fired on TRACE, or didn't:

  for each detector its highest value next to its threshold, when that was, and its longest hold
  next to its duration
  for each firing the candidates of its actions, and why each was or wasn't chosen; or why nobody
  was killed
  the ruleset that never fired and came nearest to it

With --by oomd the rules are evaluated by oomd's algorithm, as by tools/oomd; RULES is its
configuration then. With --by systemd-oomd RULES is a folder with the settings of systemd-oomd, as
of tools/systemd-oomd. --from, --to and --at select the firings."""
STATUS = "The status is 0 if everything was printed, and 2 if something couldn't be run."
PSI_OOMD = "psi_oomd"
KILLERS = (PSI_OOMD, by_oomd.NAME, by_systemd.NAME)


def check_words(options: argparse.Namespace) -> None:
    """Raises a Fault if the options contradict each other."""
    no_input([options.trace])
    if options.by == by_systemd.NAME and (options.tick_ms or options.interval_s):
        raise Fault(
            f"--tick-ms and --interval-s aren't for --by {options.by}, which evaluates each second"
        )
    if options.by == by_oomd.NAME and options.tick_ms:
        raise Fault(
            f"--tick-ms isn't for --by {options.by}, which evaluates at multiples of --interval-s"
        )
    if options.systemd and options.by != by_systemd.NAME:
        raise Fault(f"--systemd is for --by {by_systemd.NAME}")


def by_rules(options: argparse.Namespace) -> list[Part]:
    """Returns explanations of the rulesets that psi_oomd evaluates."""
    program = Program()
    program.prepare()
    with contextlib.ExitStack() as files:
        rules, file = accepted(
            program, options.file, files, "RULES TRACE, with a rules file for RULES"
        )
        must_judge(options.trace, rules.data, options.file)
        found = program.replay(options.trace, file, options.pace, processors())
        traces = Traces.of([options.trace], options.pace, None, vars(options))
        note_unmatched(traces, traces.names, [rules])
        note_samples(traces.names, [rules])
        runs = Runs()
        asked = Asked(options.trace, file.path, None, options.tick_ms, options.interval_s)
        words = ["--report-s=1", f"--rules={file.path}", *asked.pace]
        judged = judge(runs, asked, runs.program("replay", *words, "--", options.trace))
    return rules_parts.parts(
        judged, [Kill(it.time_ns, it.ruleset, it.action, it.path) for it in found]
    )


def parts_of(options: argparse.Namespace) -> list[Part]:
    """Returns explanations of the rulesets, as evaluated by the program that --by names."""
    if options.by == PSI_OOMD:
        return by_rules(options)
    program = Program()
    program.prepare()
    if options.by == by_oomd.NAME:
        run = Run(options.trace, options.file, interval=options.interval_s or by_oomd.INTERVAL)
        engine = emulate(program, run, processors())
        said, found = oomd_parts.notes(engine), oomd_parts.parts(engine)
    else:
        settings = Settings(options.file, options.systemd)
        watched = replayed(program, options.trace, settings, processors())
        said = [*settings.notes, *warnings(watched, settings)]
        found = systemd_parts.parts(watched, settings)
    for text in said:
        complain(text)
    return found


def run(options: argparse.Namespace) -> int:
    check_words(options)
    part = part_of(options.trace, vars(options))
    show_clock(options.trace, vars(options))
    found = [it.within(part) for it in parts_of(options)]
    if options.form is Form.JSON:
        telling.tell_json(
            {"rules": options.file, "trace": options.trace, "by": options.by, **record_of(found)}
        )
        return Status.DONE
    mark = note(options.trace)
    head = [f"{options.trace}{mark}:"] if mark else []
    if part:
        head.append(f"firings{part_text(part)}; values and holds are those of the whole trace")
    print("\n".join([*head, *lines_of(found, options.is_all)]))
    return Status.DONE
