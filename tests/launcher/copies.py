"""Makes copies of the launcher, with stubs in place of `rt` and of the programs."""
from __future__ import annotations

import os
import re
import shutil
import subprocess
from collections.abc import Iterator

from harness import must, must_be
from shared.program import TOP

# Each program, with the page of docs/ that documents its arguments.
PAGES = {"psi_oomd": "COMMANDS.md", "psi_observe": "OBSERVERS.md", "psi_convert": "CONVERT.md"}
PROGRAMS = tuple(PAGES)
TOOLS = (
    *(
        "awk", "cat", "chmod", "cp", "date", "dirname", "find", "git", "grep", "head", "mkdir",
        "mkfifo", "mktemp", "mv", "nproc", "readlink",
    ),
    *("rm", "sed", "sh", "sha256sum", "sleep", "sort", "tail", "touch", "wc", "xargs"),
)
# A stub of the program. It prints its arguments, one per line, and exits with status 7.
PROGRAM = "#!/bin/sh\nprintf '<%s>\\n' \"$@\"\nexit 7\n"
# A stub of `rt`. `rt try` prints its folder and its arguments, with the content of each file in
# place of its path. `rt ci` writes the names of the files it finds to SEEN, and makes a program
# from MADE. Both print SAID and exit with STATUS. If LINKED names a program, `rt try` copies it
# into TMPDIR and sleeps for SLEEP seconds instead. `rt version` prints KIT. Other commands fail.
RT = """#!/bin/sh
case $1 in
try)
    shift
    if [ -n "${LINKED-}" ]; then
        mkdir "$TMPDIR/rt" && cp "$LINKED" "$TMPDIR/rt/program" &&
            chmod 755 "$TMPDIR/rt/program" && exec sleep "$SLEEP"
    fi
    ;;
ci)
    find . -type f -o -name .git | sort >"$SEEN"
    cat crates.txt >>"$SEEN"
    for crate in crates/*_main; do
        mkdir "$crate/out" && cp "$MADE" "$crate/out/${crate#crates/}"
    done
    printf '%s' "$SAID"
    exit "$STATUS"
    ;;
version) echo "$KIT"; exit 0 ;;
*) exit 1 ;;
esac
echo "in ${PWD##*/}"
for word do
    case $word in
    given-*=*) printf '<%s=%s>\n' "${word%%=*}" "$(cat "${word#*=}")" ;;
    *) printf '<%s>\n' "$word" ;;
    esac
done
printf '%s' "$SAID" >&2
exit "$STATUS"
"""
ENDED = (
    "interpreter: no-answer: it lacks something\nchecked: ended status={0}\nraces: no\n"
    "run=ended status={0} runners=1 proved=no\n"
)
TOO_LONG = "the program did not end within the time limit"
WARNED = (
    "nothing is proved by this run: rt builds the program without a proof, which takes a minute or "
    "two"
)
FIRST_BUILD = (
    r"\((?:20 to 40 minutes the first time on four processors|40 to 80 minutes the first time on "
    r"\d processors)\)"
)
# The progress of a build, which is printed at the end of the line about each crate.
PROGRESS = r" \(\d+ of about \d+ minutes\)"
AVOIDED = "; ./{0} --try runs it unproved in a minute or two, and {1}=FILE names a built one"
BUILDS = "what is proved is built by ./{0} without --try"


class Copy:
    """A copy of the launcher in its own folder. Its PATH contains git only if `has_git`, and at
    first no `rt`.
    """

    def __init__(self, room: str, name: str, has_git: bool = True) -> None:
        self.name = name
        self.top = os.path.join(room, name, "top")
        self.path = os.path.join(room, name, "path")
        os.makedirs(os.path.join(self.top, "tools"))
        os.makedirs(self.path)
        for file in (name, "tools/launch"):
            shutil.copy(os.path.join(TOP, file), os.path.join(self.top, file))
        shutil.copytree(os.path.join(TOP, "tools", "launcher"),
                        os.path.join(self.top, "tools", "launcher"))
        for tool in TOOLS:
            found = shutil.which(tool)
            if found and (has_git or tool != "git"):
                os.symlink(found, os.path.join(self.path, tool))

    def run(
        self, *words: str, place: str = "/", stdin: str = "", **more: str
    ) -> tuple[int, str, str]:
        """Runs the launcher in the folder `place`, with this standard input and these environment
        variables. Returns the exit status, standard output and standard error.
        """
        words = (os.path.join(self.top, self.name), *words)
        environment = {"PATH": self.path, **more}
        done = subprocess.run(words, cwd=place, env=environment, input=stdin, capture_output=True,
                              text=True)
        return done.returncode, done.stdout, done.stderr

    def give_rt(self) -> str:
        """Puts the stub of `rt` into PATH, and makes a crate at the path that the launcher expects.
        Returns a new working folder.
        """
        with open(os.path.join(self.path, "rt"), "w", encoding="utf-8") as file:
            file.write(RT)
        os.chmod(os.path.join(self.path, "rt"), 0o755)
        os.makedirs(os.path.join(self.top, "crates", f"{self.name}_main"))
        place = os.path.join(os.path.dirname(self.top), "a place")
        os.makedirs(place)
        return place

    def give_sources(self) -> str:
        """Puts the stub of `rt` into PATH, and writes three crates. One of the crates isn't used by
        the program. Returns a new working folder.
        """
        place, main = self.give_rt(), f"{self.name}_main"
        texts = {
            "HANDLES": "", "crates.txt": f"# of what\nlow:\nother: low\n{main}: low # itself\n",
            f"crates/{main}/args": "1\n",
        }
        for name in (
            "low/src/lib.rt", "low/must-fail/wrong.edit", "other/src/lib.rt", f"{main}/src/main.rt"
        ):
            texts[f"crates/{name}"] = ""
        for name, text in texts.items():
            os.makedirs(os.path.dirname(os.path.join(self.top, name)), exist_ok=True)
            with open(os.path.join(self.top, name), "w", encoding="utf-8") as file:
                file.write(text)
        return place

    def other(self, room: str) -> str:
        """Writes a stub of the program to another path, and returns the path."""
        place = os.path.join(room, f"a {self.name}")
        with open(place, "w", encoding="utf-8") as file:
            file.write(PROGRAM)
        os.chmod(place, 0o755)
        return place

    def trial(self, *words: str, **more: str) -> tuple[list[str], list[str]]:
        """Runs the launcher with `--try` and these arguments. Returns what the stub of `rt try`
        prints: the files with their contents, and the program's arguments.
        """
        status, said, error = self.run(
            "--try", *words, SAID="own words\n" + ENDED.format(3), STATUS="3", **more
        )
        message = "".join(f"{self.name}: {line}\n" for line in (WARNED, BUILDS.format(self.name)))
        must_be(f"--try {words}", (status, error), (3, f"{message}own words\n"))
        lines = said.splitlines()
        must_be(f"where the trial of {words} runs", lines[0], f"in {self.name}_main")
        end = lines.index("<-->")
        must_be(f"the flags of the trial of {words}", set(lines[1:end:2]) - {"<--data>"}, set())
        return [line[1:-1] for line in lines[2:end:2]], [line[1:-1] for line in lines[end + 1 :]]

    def git(self, *words: str) -> str:
        """Runs git in the copy's folder with a fixed author, and returns the output."""
        author = [
            word for name in ("user.name=a", "user.email=a@example.org") for word in ("-c", name)
        ]
        return subprocess.run(
            ["git", *author, *words], cwd=self.top, check=True, capture_output=True, text=True
        ).stdout.strip()

    def give_program(self, more: str = ":") -> None:
        """Writes a stub of the program to the path that the launcher expects. The stub is newer
        than the sources, and runs the shell commands `more` before it ends.
        """
        with open(os.path.join(self.top, "crates.txt"), "w", encoding="utf-8") as file:
            file.write(f"{self.name}_main:\n")
        os.makedirs(os.path.dirname(self.program()), exist_ok=True)
        with open(self.program(), "w", encoding="utf-8") as file:
            file.write(PROGRAM.replace("exit 7", f"{more}\nexit 7"))
        os.chmod(self.program(), 0o755)
        os.utime(os.path.join(self.top, "crates.txt"), (0, 0))

    def program(self) -> str:
        """Returns the path at which the launcher expects the built program."""
        return os.path.join(self.top, "crates", f"{self.name}_main", "out", f"{self.name}_main")


def must_match(what: str, lines: list[str], patterns: list[str]) -> None:
    """Raises unless the lines match the patterns one by one."""
    is_right = len(lines) == len(patterns) and all(
        re.fullmatch(pattern, line) for pattern, line in zip(patterns, lines)
    )
    must(is_right, f"{what}: {lines}, not {patterns}")


def copies(room: str, has_git: bool = True) -> Iterator[Copy]:
    """Yields a copy of the launcher for each program."""
    for name in PROGRAMS:
        yield Copy(room, name, has_git)


# Valid arguments of each program, which read the trace from standard input.
RIGHT = {
    "psi_oomd": ("check", "-"), "psi_observe": ("-", "1", "/"), "psi_convert": ("events", "-", "-")
}
# The required arguments of `gen`, without `--events`.
GEN = "--seed 1 --cpus 1 --groups 1".split()
