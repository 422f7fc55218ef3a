# Functions for trials: runs of a program without a proof. tools/launch reads this file.

# Copies the file $1 for a trial, since a trial runs in another folder. Sets `taken` to the name of
# the copy. A file that can't be read isn't copied, so that the program reports the error. The name
# of such a file becomes absolute if the crate's folder also contains a file of this name.
hand_over() {
    taken=$1
    if [ "$kind$1" = trace- ] || { [ -r "$1" ] && [ ! -d "$1" ]; }; then
        count=$((count + 1))
        taken="given-$count"
        cat -- "$1" >"$room/$taken" || { tell "$1 couldn't be copied for the trial"; exit 70; }
    elif [ -e "$1" ] || [ -e "$crate/$1" ]; then
        case $1 in /*) ;; *) taken="$PWD/$1" ;; esac
    fi
}

# Sets `taken` to the word that replaces the argument $1 in a trial. If $1 is an option, sets `next`
# to the kind of the argument after the option: `file`, or `value` for any other value.
take() {
    taken=$1 kind=$next next=''
    if [ -z "$kind" ]; then
        case $has_no_options$1 in
        --) has_no_options=yes; return ;;
        --rules | --drop-in) next='file'; return ;;
        --rules=* | --drop-in=*) hand_over "${1#*=}"; taken="${1%%=*}=$taken"; return ;;
        --*=*) return ;;
        --*) next='value'; return ;;
        esac
        plain=$((plain + 1))
        # psi_convert has files at this position and after it.
        case $name in
        psi_convert) [ "$plain" -lt "$place" ] || kind='trace' ;;
        *) [ "$plain" -ne "$place" ] || kind='trace' ;;
        esac
    fi
    case $kind in file | trace) hand_over "$1" ;; esac
}

# Prints the output of the program in a trial, without the lines that rt adds, or the reason why the
# trial gave no output. Returns 70 in the latter case.
tell_of_trial() {
    if grep -q '^run=ended ' "$room/said"; then
        cat "$room/printed"
        sed '/^\(interpreter\|checked\): /,$d' "$room/said" >&2
        return
    fi
    grep -v '^\(interpreter: no-answer\|races\|checked: no-answer\|run\)[:=]' "$room/said" >&2
    why=$(sed -n 's/^checked: no-answer: //p' "$room/said")
    tell "the trial gave no answer${why:+: $why}"
    [ -z "$why" ] || tell "a trial has at most 20,000,000 steps, 60 seconds and 1 MiB of output: take less, or build ./$name"
    return 70
}

# Sets `kept` to the path of the unproved program in the user's cache. Its name contains a checksum
# of all sources of the program. Returns 1 if the user has no cache folder.
find_kept() {
    cache=${XDG_CACHE_HOME:-${HOME:-}/.cache}/psi-oomd
    case $cache in /.cache/* | [!/]*) return 1 ;; esac
    sum=$(cd "$top" && { cat crates.txt && find $(parts | sed 's|\(.*\)|crates/\1/src crates/\1/specs crates/\1/proofs|') -type f 2>/dev/null |
        LC_ALL=C sort | xargs sha256sum; } | sha256sum) || return 1
    kept="$cache/$name-${sum%% *}-unproved"
}

# Returns whether the file $1 is a working copy of the program: without arguments it prints its
# usage with status 1, and it accepts an example trace.
is_the_program() {
    said=$("$1" 2>&1 </dev/null)
    [ $? -eq 1 ] || return 1
    case $said in "usage: $name "*) ;; *) return 1 ;; esac
    said=$("$1" check - 2>&1 <"$top/examples/one-wait.trace")
    [ $? -eq 0 ]
}

# Copies the program that rt has linked for a trial from the temporary folder to the cache. The file
# exists only while the trial runs.
capture() {
    made=$(find "$room" -type f -name program -perm -u+x 2>/dev/null | head -n 1)
    [ -n "$made" ] && cp -- "$made" "$kept.$$" 2>/dev/null && chmod 700 "$kept.$$" && is_the_program "$kept.$$" && return 0
    rm -f "$kept.$$"
    return 1
}

# Prints every 20 s how long the build has taken so far.
tell_of_waiting() {
    passed=$(($(date +%s) - begun))
    [ "$passed" -lt "$next_note" ] || { tell "still building, $passed s; about a minute on an idle machine"; next_note=$((next_note + 20)); }
}

# Builds the unproved program of these sources, and stores it in the cache. rt has no command that
# only builds, so the program is copied during a long trial, which is then ended.
keep_unproved() {
    find_kept && [ "$name" = psi_oomd ] || return 1
    mkdir -p "$cache" 2>/dev/null && chmod 700 "$cache" && [ -w "$cache" ] || return 1
    begun=$(date +%s) next_note=20
    (cd "$crate" && TMPDIR="$room" exec rt try -- stress --seed 1 --cpus 8 --groups 40 --events 3600000) </dev/null >"$room/printed" 2>"$room/said" &
    running=$!
    is_kept=1
    while kill -0 "$running" 2>/dev/null; do
        if capture; then is_kept=0; break; fi
        tell_of_waiting
        sleep 0.2
    done
    kill "$running" 2>/dev/null
    wait "$running" 2>/dev/null
    running=''
    [ "$is_kept" -eq 0 ] && mv -f "$kept.$$" "$kept"
}

# Runs the unproved program with these arguments, and ends with its status, or with 70 if it gave no
# output.
try_unproved() {
    [ $# -gt 0 ] || { tell "after --try come the program's words, as in ./$name --try $example; or --build"; return 1; }
    is_path=''
    if [ $# -eq 1 ] && [ "$1" = --build ]; then is_path=yes; else look_at_words "$@"; fi
    [ -z "$hint_status" ] || { tell_hints; exit "$hint_status"; }
    if find_kept && [ -x "$kept" ]; then run_kept "$@"; fi
    prepare || return 70
    tell "nothing is proved by this run: rt builds the program without a proof, which takes a minute or two"
    tell "what is proved is built by ./$name without --try"
    if keep_unproved; then
        clean
        run_kept "$@"
    fi
    [ -z "$is_path" ] || { tell "the unproved program couldn't be kept"; clean; return 70; }
    try_once "$@"
}

# Runs the unproved program in the cache, or prints its path after `--try --build`.
run_kept() {
    if [ -n "$is_path" ]; then printf '%s\n' "$kept"; exit 0; fi
    tell "nothing is proved by this run: it is the unproved program of these sources"
    program=$kept
    run_program "$@"
}

# Runs the program once as a trial of rt with these arguments, within the limits of a trial. Nothing
# is stored.
try_once() {
    count=0 plain=0 next='' has_no_options=''
    for word do
        shift
        take "$word"
        set -- "$@" "$taken"
    done
    set -- -- "$@"
    while [ "$count" -gt 0 ]; do
        set -- --data "given-$count=$room/given-$count" "$@"
        count=$((count - 1))
    done
    (cd "$crate" && exec rt try "$@") </dev/null >"$room/printed" 2>"$room/said" &
    running=$!
    wait "$running"
    status=$?
    running=''
    tell_of_trial || status=70
    clean
    return "$status"
}

