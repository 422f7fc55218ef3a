# Functions that build a program with rt, which proves the program. tools/launch reads this file.

# Copies the crates of the program into "$room/copy". There `rt ci` proves only these crates; in the
# repository it would also prove the crates of tests and run the must-fail edits.
copy_parts() {
    # The folder .git makes the copy the top of a repository for rt, whatever is above it.
    mkdir -p "$room/copy/crates" "$room/copy/.git" && cp "$top/HANDLES" "$room/copy/" || return 1
    parts >"$room/parts"
    awk 'NR == FNR { wanted[$1]; next } { line = $0; sub(/:.*/, ""); if ($1 in wanted) print line }' \
        "$room/parts" "$top/crates.txt" >"$room/copy/crates.txt"
    while read -r part; do
        mkdir "$room/copy/crates/$part" || return 1
        for piece in src specs proofs args status stdin stdout data; do
            [ ! -e "$top/crates/$part/$piece" ] || cp -R "$top/crates/$part/$piece" "$room/copy/crates/$part/" || return 1
        done
    done <"$room/parts"
}

# Prints the measured proof time (s) and the name of each crate in the file $1. A crate that wasn't
# measured counts as 40 s, which is about the median.
weights() {
    awk 'FILENAME ~ /seconds$/ { if ($1 !~ /^#/) seconds[$1] = $2; next } { print ($1 in seconds ? seconds[$1] : 40), $1 }' \
        "$top/tools/launcher/seconds" "$1"
}

# Prints the progress of a build: the minutes since its beginning, and an estimate of its total
# minutes. $1 is the weight (s) of the proved crates, and $2 the weight of all crates. The estimate
# uses the speed so far. Until a tenth of the weight is proved, it is 30 minutes for four or more
# processors.
progress() {
    awk -v done="$1" -v all="$2" -v begun="$3" -v now="$(date +%s)" -v processors="$processors" 'BEGIN {
        passed = now - begun
        whole = done * 10 >= all ? passed * all / done : 1800 * 4 / (processors > 4 ? 4 : processors)
        printf "%d of about %d minutes", passed / 60 + 0.5, (whole > passed ? whole : passed) / 60 + 0.5
    }'
}

# Reads the output of rt from standard input, and prints a line for each proved crate. Returns 1 at
# the first crate that isn't proved.
follow() {
    number=0 weight=0
    while IFS= read -r line; do
        case $line in "== "*) : >"$log" ;; esac
        printf '%s\n' "$line" >>"$log"
        case $line in
        "rt: "*" NOT PROVED"*) return 1 ;;
        "rt: "*" proved" | "rt: "*" is kept: "*)
            number=$((number + 1))
            part=${line#rt: }
            part=${part%% *}
            weight=$((weight + $(awk -v part="$part" '$2 == part { print $1 + 0; exit }' "$room/weights")))
            echo "$number" >"$room/number"
            tell "$number of $count: $part ($(progress "$weight" "$weight_of_all" "$begun"))"
            ;;
        esac
    done
}

# Warns if rt has another version of its logic than the version that checked these sources, since
# the proofs may then fail.
warn_of_logic() {
    kit=$(rt version 2>/dev/null)
    [ "${kit##* logic }" = "$logic" ] || tell "warning: this kit is '$kit', and all was proved by logic $logic"
}

# Ends the launcher after a signal. rt keeps the crates that it proved for the next build.
interrupted() {
    [ ! -s "$room/number" ] || tell "interrupted: $(cat "$room/number") of $count crates are proved and kept, and the next build goes on from there"
    clean
    exit 130
}

# Ends the build or trial that is running, and removes its temporary folder.
clean() {
    [ -z "$running" ] || kill "$running" 2>/dev/null
    rm -rf "$room"
    trap - EXIT HUP INT TERM
}

# Proves those crates of the program that no earlier run on this machine has proved, and links the
# program. rt also runs the program once with the arguments of its crate.
prove_and_link() {
    copy_parts || return 1
    # rt writes its temporary files into the folder, so that they are removed with it. It runs the
    # program as the user nobody, who must be able to enter the folder.
    chmod 711 "$room"
    (cd "$room/copy" && TMPDIR="$room" exec rt ci) >"$room/said" 2>&1 &
    running=$!
    follow <"$room/said" && wait "$running" || return 1
    running=''
    mkdir -p "$crate/out" && cp "$room/copy/crates/${name}_main/out/${name}_main" "$program.new" || return 1
    # The program gets the time at which the build began, so that sources that were edited during
    # the build are newer than the program.
    touch -r "$room/begun" "$program.new" && mv -f "$program.new" "$program"
}

# Checks that rt is installed, and makes a temporary folder, which is removed at the end of the run.
prepare() {
    processors=$(nproc 2>/dev/null || echo 4)
    command -v rt >/dev/null 2>&1 || { tell "the command rt of the Rattle toolchain is not on the path"; return 1; }
    room=$(mktemp -d) || return 1
    running=''
    trap clean EXIT
    trap interrupted HUP INT TERM
}

# Prints how long a build takes on this machine, as text, according to measurements on two and on
# four processors.
how_long() {
    processors=$(nproc 2>/dev/null || echo 4)
    case $processors in
    1 | 2 | 3) echo "40 to 80 minutes the first time on $processors processors" ;;
    *) echo "20 to 40 minutes the first time on four processors" ;;
    esac
}

# Builds the program. $1 is advice on how to avoid the build, which is printed first; may be empty.
build() {
    prepare || return 1
    warn_of_logic
    log="$room/log"
    : >"$log" && : >"$room/begun" && mkfifo "$room/said" || return 1
    begun=$(date +%s)
    parts >"$room/names" && weights "$room/names" >"$room/weights"
    count=$(wc -l <"$room/names")
    weight_of_all=$(awk '{ sum += $1 } END { print int(sum) }' "$room/weights")
    tell "building, which proves $count crates ($(how_long))${1:+; $1}"
    prove_and_link
    is_built=$?
    if [ "$is_built" -ne 0 ]; then
        grep -vE '^(statements|library|crate|logic|axioms) ' "$log" | tail -n 20 >&2
        tell "the build failed"
    fi
    clean
    return "$is_built"
}

# Asks the user at a terminal what to do if the program isn't built. Sets `answer` to `try`, `build`
# or an empty text.
ask() {
    tell "the program isn't built yet. What now?"
    {
        echo "    t  try it: unproved, ready in about a minute, and kept for later runs"
        echo "    b  build it: proves $(parts | wc -l) crates, $(how_long)"
        echo "    q  quit: an installed package or $variable=FILE needs neither"
        printf 't, b or q? '
    } >&2
    answer=''
    read -r reply || reply=q
    case $reply in t* | T*) answer='try' ;; b* | B*) answer='build' ;; esac
}
