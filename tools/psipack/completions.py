"""Generates completions for bash and zsh. They complete commands, options and the values of
options.
"""
from __future__ import annotations

import re
from dataclasses import dataclass

# Matches the names of option values that are files. Other values aren't completed: they are
# numbers, paths of groups or texts.
FILES = re.compile(r"FILE|FOLDER|DIR|OUT|TRACE|TEXT")


@dataclass(frozen=True)
class Words:
    """The words that can follow a program's name. `commands` maps each command to its options, and
    each option to the name of its value, as the usage writes it. A program without commands has a
    single command with an empty name.
    """

    name: str
    commands: dict[str, dict[str, str]]


BASH = """\
# Completion of psi_oomd and its tools for bash: made by tools/package of what they say by --help.

# What can be typed after a name: its commands; after one of these, or without any, its options.
_psi_oomd_words()
{{
    case $1 in
{words}
    esac
}}

# What the value of an option can be: FILE, words, or nothing that is known.
_psi_oomd_value()
{{
    case $1 in
{values}
    esac
}}

_psi_oomd()
{{
    local name=${{1##*/}} word=${{COMP_WORDS[COMP_CWORD]}} before=${{COMP_WORDS[COMP_CWORD-1]}}
    local command= words value
    COMPREPLY=()
    words=$(_psi_oomd_words "$name")
    if [[ $COMP_CWORD -gt 1 && " $words " == *" ${{COMP_WORDS[1]}} "* &&
          ${{COMP_WORDS[1]}} != -* ]]; then
        command=${{COMP_WORDS[1]}}
        words=$(_psi_oomd_words "$name $command")
    fi
    # bash takes --name=value apart at the sign.
    if [[ $word == = ]]; then
        word=
    elif [[ $before == = ]]; then
        before=${{COMP_WORDS[COMP_CWORD-2]}}
    fi
    value=
    [[ $COMP_CWORD -le 1 ]] || value=$(_psi_oomd_value "$name${{command:+ $command}} $before")
    case $value in
    FILE) ;;
    ?*) mapfile -t COMPREPLY < <(compgen -W "$value" -- "$word"); return ;;
    *) mapfile -t COMPREPLY < <(compgen -W "$words" -- "$word") ;;
    esac
    [[ ${{#COMPREPLY[@]}} -gt 0 ]] || mapfile -t COMPREPLY < <(compgen -f -- "$word")
}}

complete -o filenames -F _psi_oomd {names}
"""

ZSH = """\
#compdef {names}
# Completion of psi_oomd and its tools for zsh: made by tools/package of what they say by --help.

# What can be typed after a name: its commands; after one of these, or without any, its options.
_psi_oomd_words() {{
    case $1 in
{words}
    esac
}}

# What the value of an option can be: FILE, words, or nothing that is known.
_psi_oomd_value() {{
    case $1 in
{values}
    esac
}}

_psi_oomd() {{
    local name=${{words[1]:t}} before=${{words[CURRENT-1]}} command= value
    local -a offered
    offered=(${{=$(_psi_oomd_words $name)}})
    if (( CURRENT > 2 && ${{offered[(Ie)$words[2]]}} )) && [[ $words[2] != -* ]]; then
        command=$words[2]
        offered=(${{=$(_psi_oomd_words "$name $command")}})
    fi
    if [[ $words[CURRENT] == --*=* ]]; then
        before=${{words[CURRENT]%%=*}}
        compset -P '*='
    fi
    (( CURRENT > 2 )) || [[ $words[CURRENT] == --*=* ]] &&
        value=$(_psi_oomd_value "$name${{command:+ $command}} $before")
    case $value in
    (FILE) _files ;;
    (?*) compadd -- ${{=value}} ;;
    (*) compadd -- $offered || _files ;;
    esac
}}

_psi_oomd "$@"
"""


def offered(program: Words) -> dict[str, list[str]]:
    """Returns the words to offer after each program's name, and after each name with a command."""
    named = [command for command in program.commands if command]
    found = {program.name: [*named, *program.commands.get("", {})]}
    return {
        **found,
        **{f"{program.name} {command}": list(program.commands[command]) for command in named},
    }


def valued(program: Words) -> dict[str, str]:
    """Returns how to complete each option's value. The keys are the words up to and including the
    option. A value in the result is FILE for a file name, or else a list of the possible values.
    """
    found: dict[str, str] = {}
    for command, options in program.commands.items():
        front = f"{program.name} {command}".rstrip()
        for option, value in options.items():
            if value.startswith("{"):
                found[f"{front} {option}"] = " ".join(value.strip("{}").split(","))
            elif FILES.fullmatch(value):
                found[f"{front} {option}"] = "FILE"
    return found


def cases(rows: dict[str, str]) -> str:
    """Formats the rows as branches of a shell's `case`. Each branch prints its words. Keys with
    equal words share a branch.
    """
    alike: dict[str, list[str]] = {}
    for key, text in rows.items():
        alike.setdefault(text, []).append(f'"{key}"')
    return "\n".join(
        f"    {' | '.join(keys)}) printf '%s\\n' '{text}' ;;" for text, keys in alike.items()
    )


def script_of(template: str, programs: list[Words]) -> bytes:
    """Returns the completions of the programs. `template` is the text for one of the shells."""
    words = {
        key: " ".join(found) for program in programs for key, found in offered(program).items()
    }
    values = {key: value for program in programs for key, value in valued(program).items()}
    names = " ".join(program.name for program in programs)
    return template.format(names=names, words=cases(words), values=cases(values)).encode()
