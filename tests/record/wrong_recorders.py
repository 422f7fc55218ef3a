"""Mutation tests of the recorder: each edit introduces a fault into tools/psirecord, and a check of
tests/record must detect the fault.
"""
from __future__ import annotations

import concurrent.futures
import os
import re
import shutil
import subprocess
import tempfile

Edit = tuple[str, str, str, str]

# Edits of the recorder: the file, the original text, the text in its place, and the check that must
# fail.
EDITS: tuple[Edit, ...] = (
    ("command.py", "    if missing:", "    if False:", "nothing_is_there"),
    ("machine.py", 'elif os.path.exists(f"{self.groups}/cgroup.events"):', "elif False:",
     "in_a_container"),
    ("folder.py", "os.mkdir(name, FOLDER_MODE, dir_fd=above)", "os.makedirs(name, exist_ok=True)",
     "the_folder_is_there_already"),
    ("undoing.py", "self.steps.pop()\n            try", "self.steps.pop(0)\n            try",
     "a_whole_machine"),
    ("undoing.py", "        self.undo()\n", "        pass\n", "a_whole_machine"),
    ("undoing.py", "except OSError", "except KeyError", "what_cannot_be_undone"),
    ("instance.py", 'self.undoing.note("open files", self.close_files)', "pass", "a_whole_machine"),
    ("instance.py", "for processor in range(self.machine.processors()):",
     "for processor in range(1):", "a_whole_machine"),
    ("instance.py", 'self.write("trace_clock", "mono")', "pass", "what_is_set_meanwhile"),
    ("instance.py", '"overwrite": "1", ', "", "what_is_set_meanwhile"),
    ("instance.py", "if wanted:", "if False:", "what_is_set_meanwhile"),
    ("instance.py", "if event in NEEDED or", "if False and", "an_event_that_must_be"),
    ("instance.py", 'and it == "overrun")', "and False)", "ring_that_fires"),
    ("instance.py", "is_ring and it", "it", "lost_events"),
    ("instance.py", 'if int(statistics.get("overrun", 0)) else 0.0', "",
     "ring_that_was_not_overwritten"),
    ("instance.py", "int(number) == os.getpid() or not os.path.exists", "not not os.path.exists",
     "two_recorders"),
    ("instance.py", 'if named["statistics"]:', "if False:", "killed_and_started_again"),
    ("probing.py", "path, \"0\")", 'path, "1")', "no_kprobes"),
    ("probing.py", "probe_remover(machine, name))", "lambda: None)", "a_whole_machine"),
    ("probing.py", "return Statistics.ABSENT", "return Statistics.OFF", "statistics_are_absent"),
    ("probing.py", "        undoing.steps.pop()\n        raise", "        raise",
     "statistics_are_refused"),
    ("probing.py", "        undoing.steps.pop()\n            say", "        say", "no_kprobes"),
    ("probing.py", 'strip() == b"1"', 'strip() == b"2"', "statistics_are_on_already"),
    ("probing.py", 'f"{Probe.IO} == 1"', '""', "what_is_set_meanwhile"),
    ("kernel_types.py", "if all(it in found for it in wanted):", "if True:",
     "what_is_set_meanwhile"),
    ("kernel_types.py", "if has_widths:", "if False:", "what_is_set_meanwhile"),
    ("kernel_types.py", "if magic == MAGIC:", "if True:", "no_kernel_types"),
    ("samples.py",
     "sorted((it.path, it.inode()) for it in entries if it.is_dir(follow_symlinks=False))", "[]",
     "snapshot"),
    ("samples.py", "pending.extend(reversed(children))", "pending[:0] = children", "snapshot"),
    ("samples.py", 'text.rfind(b")")', 'text.find(b")")', "snapshot"),
    ("samples.py", "int(words[36])", "int(words[35])", "snapshot"),
    ("samples.py", "layout.escaped_path(os.fsencode(", "str((", "snapshot"),
    ("samples.py", 'startswith(b"pgscan ")', 'startswith(b"pgscan")', "markers"),
    ("samples.py", "* KIB", "* 1000", "markers"),
    ("samples.py", "if current is not None:", "if True:", "markers"),
    ("samples.py", "self.unaccounted = unaccounted", "pass", "accounting_changes"),
    ("samples.py", "(it.path, it.inode())", "(it.path, 1)",
     "an_unaccounted_group_that_comes_again"),
    ("samples.py", "None if number is None else", "", "accounting_without_its_file"),
    ("recorder.py", "self.memory.unaccounted = self.snapshots[-1].unaccounted", "pass",
     "accounting_changes"),
    ("machine.py", "except OSError:\n        return b", "except KeyError:\n        return b",
     "a_group_that_vanishes"),
    ("samples.py", "if end < 0 or len(words) < 37 or not process:", "if False:",
     "a_group_that_vanishes"),
    ("waiting.py", "signal.signal(number, self.note)", "pass", "signals"),
    ("waiting.py", "signal.getsignal(number) != signal.SIG_IGN or number", "0",
     "hangup_under_nohup"),
    ("waiting.py", "self.came or signal.Signals(number)", "sys.exit(3)", "signals"),
    ("waiting.py", "self.poll.register(signals.reader, select.POLLIN)", "pass",
     "ring_that_is_stopped"),
    ("recorder.py", "return [*jobs, self.draining]", "return jobs", "what_is_set_meanwhile"),
    ("recorder.py", "self.end = self.start + self.wanted.seconds", "self.end = self.start + 0.5",
     "a_whole_machine"),
    ("recorder.py", "self.instance.note_mark(layout.STOP)", "pass", "markers"),
    ("recorder.py", "except DiskFull:\n            reason = Reason.DISK_FULL\n        except",
     "except", "a_full_disk"),
    ("recorder.py", "min(DRAIN_SECONDS, max(LEAST_DRAIN_SECONDS, period))", "DRAIN_SECONDS",
     "a_busy_processor"),
    ("recorder.py", "return Reason.SIZE", "pass", "size"),
    ("recorder.py", "self.waiting.unwatch()", "pass", "ring_that_fires"),
    ("recorder.py", "return [*jobs, Job(", "return [*jobs, self.draining, Job(", "ring_that_fires"),
    ("recorder.py", "self.fired + self.wanted.after_seconds", "self.fired", "ring_that_fires"),
    ("recorder.py", "not self.has_snapshot_inside()", "False", "ring_where_the_buffers_begin"),
    ("recorder.py", "not self.fired or begin < self.fired", "True", "ring_that_was_too_small"),
    ("recorder.py", "if it.time_ns >= begin * 1e9", "", "ring_where_the_buffers_begin"),
    ("folder.py", "os.ftruncate(file", "len((file", "a_full_disk"),
    ("folder.py", "os.posix_fallocate(file, 0, RESERVE_BYTES)", "pass", "a_full_file_system"),
    ("folder.py", "os.unlink(RESERVE, dir_fd=self.descriptor)", "pass", "a_whole_machine"),
    ("folder.py", "FULL = (errno.ENOSPC, errno.EDQUOT, errno.EFBIG)", "FULL = ()", "a_full_disk"),
    ("command.py", "suppress(OSError, ValueError):\n            os.write",
     "suppress():\n            os.write", "nobody_reads"),
    ("command.py", "folder.discard()", "pass", "an_event_that_must_be"),
    ("command.py", "remove_leftovers(machine, tell)", "pass", "killed_and_started_again"),
    ("command.py", "(before + after) / 2", "before - 1", "the_two_clocks"),
    ("command.py", "ending.is_whole = False", "pass", "statistics_are_switched_off_meanwhile"),
    ("command.py", "if left:", "if False:", "what_cannot_be_undone"),
    ("systemd_settings.py", "if not place_of(machine).is_booted():", "if False:",
     "settings_that_are_not_wanted"),
    ("systemd_settings.py", "if last in setting)",
     'if SETTING.search(read_file(f"{root}/{name}")))', "settings_of_systemd_oomd"),
    ("systemd_settings.py", "is_stored if goes_on else ", "", "settings_of_systemd_oomd"),
    ("systemd_settings.py", "lower() in TRUE", "lower() is not None", "attributes_of_groups"),
    ("systemd_settings.py", "if shown.fault:", "if False:", "systemctl_that_says_nothing"),
    ("folder.py", "FOLDER_MODE, FILE_MODE = 0o700,", "FOLDER_MODE, FILE_MODE = 0o755,",
     "only_its_owner_reads_it"),
    ("folder.py", "0o700, 0o600", "0o700, 0o644", "only_its_owner_reads_it"),
    ("folder.py", "remove_all(self.descriptor)", "remove_all(os.open(self.path, os.O_RDONLY))",
     "a_swapped_folder_is_not_emptied"),
    ("folder.py", "if os.path.samestat(mine, os.lstat(self.path)):", "if True:",
     "a_swapped_folder_is_not_emptied"),
    ("folder.py", "FILE_MODE, dir_fd=self.descriptor)", "FILE_MODE, dir_fd=os.open(self.path, 0))",
     "a_swapped_folder_is_not_written"),
    ("folder.py", "at = os.dup(self.descriptor)", "at = os.open(self.path, 0)",
     "a_swapped_folder_is_not_written"),
    ("compressing.py", "flags | os.O_NOFOLLOW | os.O_CLOEXEC", "flags | os.O_CLOEXEC",
     "links_are_not_compressed"),
    ("compressing.py", 'open(unfinished, "xb", opener=opener)',
     'open(f"/proc/self/fd/{folder}/{unfinished}", "wb")', "links_are_not_compressed"),
    ("instance.py", "return start_time(machine.proc, number) != start", "return False",
     "a_number_that_is_used_again"),
    ("instance.py", "return start_time(machine.proc, number) != start", "return True",
     "a_number_that_is_used_again"),
    ("instance.py", "words[0] not in ENDED", "True", "a_number_that_is_used_again"),
    ("recorder.py", "bool(self.snapshots) and ", "", "a_ring_whose_markers_end"),
    ("recorder.py", "or [*self.snapshots][-1:]", "or [self.snapshots[-1]]",
     "a_ring_whose_markers_end"),
    ("recorder.py", "raise NotRecorded(f\"no marker", "print(f\"no marker",
     "a_ring_without_markers"),
    ("daily.py", "latest[limit - 1]", "latest[0]", "recordings_of_a_day"),
    ("daily.py", "if it <= now)", "if True)", "recordings_of_a_day"),
    ("daily.py", "+ DAY_SECONDS - now", "+ 2 * DAY_SECONDS - now",
     "fewer_recordings_than_the_limit"),
    ("command.py", "        signals.end_by_it()\n", "        pass\n", "a_signal_while_it_waits"),
)


def edited(top: str, edit: Edit) -> str | None:
    """Returns the file's text after an edit, or None if the original text doesn't occur exactly
    once.
    """
    with open(f"{top}/tools/psirecord/{edit[0]}", encoding="utf-8") as file:
        text = file.read()
    return text.replace(edit[1], edit[2]) if text.count(edit[1]) == 1 else None


def is_found(top: str, edit: Edit) -> bool:
    """Returns whether the check fails for the edited recorder."""
    with tempfile.TemporaryDirectory(prefix="wrong") as scratch:
        shutil.copytree(f"{top}/tools", f"{scratch}/tools")
        with open(f"{scratch}/tools/psirecord/{edit[0]}", "w", encoding="utf-8") as file:
            file.write(edited(top, edit) or "")
        environment = {**os.environ, "RECORD_TOOLS": f"{scratch}/tools"}
        words = [f"{top}/tests/record/test", edit[3]]
        done = subprocess.run(words, env=environment, capture_output=True, text=True, check=False)
    return done.returncode == 1 and bool(
        re.search(f"^failed: {edit[3]}$", done.stdout, re.MULTILINE)
    )


def main(top: str, cases: list[str]) -> int:
    """Runs the check of each edit. Returns the exit status."""
    stale = [edit for edit in EDITS if edit[3] not in cases or edited(top, edit) is None]
    tried = [edit for edit in EDITS if edit not in stale]
    with concurrent.futures.ThreadPoolExecutor(2) as pool:
        found = list(pool.map(lambda edit: is_found(top, edit), tried))
    missed = [edit for edit, is_told in zip(tried, found) if not is_told]
    for reason, edits in (("no case finds it", missed),
                          ("its text or its case isn't there", stale)):
        for edit in edits:
            print(f"{reason}: {edit[0]}: {edit[1]} -> {edit[2]}")
    print(f"record: {len(EDITS)} wrong recorders, {len(missed) + len(stale)} not found")
    return 1 if missed or stale else 0
