# Functions that print --help and --version. tools/launch reads this file.

# Prints the lines of --help about the options that the launcher itself handles.
own_words() {
    echo "    $name --help        these lines"
    if [ -f "$origin" ]; then
        echo "    $name --version     the commit that was proved, and by what"
        echo "    $name --build       prints where the program is"
    else
        echo "    $name --version     the commit of these sources"
        echo "    $name --build       builds it, and prints where it is"
        echo "    $name --try WORD .. runs it unproved on these words: a minute or two the first time, and at once from then on"
        echo "    $name --try --build makes the unproved program alone, and prints where it is: $variable can name it"
    fi
    echo "    $variable=FILE          in the environment: FILE is run, and nothing is built"
}

# Prints the help of psi_oomd. docs/COMMANDS.md, docs/OBSERVERS.md and docs/CONVERT.md quote the
# commands of the three programs as they are printed here.
help_on_psi_oomd() {
    cat <<END
psi_oomd replays a recorded trace of scheduler events: pressure, triggers and kills.

    psi_oomd replay TRACE [--tick-ms N] [--report-s N] [--rules FILE] [--drop-in FILE] [--interval-s N]
                          [--workers N] [--live PATH] [--live-count N]
    psi_oomd stall TRACE
    psi_oomd check TRACE [--tick-ms N]
    psi_oomd gen --seed N --cpus N --groups N --events N
    psi_oomd stress --seed N --cpus N --groups N --events N [--workers N]
    psi_oomd import TEXT --cpus N
    psi_oomd rules FILE [--drop-in FILE]
    psi_oomd whatif TRACE --rules FILE [--drop-in FILE] [--tick-ms N] [--report-s N] [--interval-s N] [--workers N]

$(own_words)

The manual has every word:    $manual
Options, output, statuses:    $documents/COMMANDS.md
Questions of operators:       $documents/OPERATING.md
END
}

help_on_psi_observe() {
    cat <<END
psi_observe replays a recorded trace of scheduler events while several observers read one group's clocks.

    psi_observe TRACE OBSERVERS PATH

$(own_words)

The manual has every word:    $manual
Lines and statuses:           $documents/OBSERVERS.md
Questions of operators:       $documents/OPERATING.md
END
}

help_on_psi_convert() {
    cat <<END
psi_convert decodes the pages of a kernel's ring buffers: it prints a line for each event.

    psi_convert events TABLE PAGES..

$(own_words)

The manual has every word:    $manual
Table, lines and statuses:    $documents/CONVERT.md
Questions of operators:       $documents/OPERATING.md
END
}

# Prints the version and the commit of the sources, and whether files differ from that commit. The
# commit is unknown in a copy of the sources without their git repository, and for a program that
# the variable names. An installed copy prints what its package was made of.
version() {
    if [ -n "$named" ]; then
        case $named in
        *-unproved) echo "$name of no known commit: $named, an unproved build, which $variable names" ;;
        *) echo "$name of no known commit: $named, which $variable names" ;;
        esac
        return
    fi
    if [ -f "$origin" ]; then
        printf '%s ' "$name" && cat "$origin"
        return
    fi
    commit=''
    if [ "$(git -C "$top" rev-parse --show-toplevel 2>/dev/null)" = "$top" ]; then
        commit=$(git -C "$top" describe --always --dirty=', with changes' --abbrev=40 --exclude='*' 2>/dev/null)
    fi
    # The version is the number in the top heading of CHANGELOG.md, such as `## 1.0 (2026-12-01)`;
    # empty if the heading has no number.
    version=$(sed -n '/^## /{s/^## \[\{0,1\}\([0-9][0-9A-Za-z.+-]*\).*/\1/p;q;}' "$top/CHANGELOG.md" 2>/dev/null)
    if [ -n "$version" ]; then
        commit=${commit:+commit $commit}
        echo "$name $version, ${commit:-of no known commit}"
    else
        echo "$name ${commit:-of no known commit}"
    fi
}
