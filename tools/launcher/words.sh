# Functions that find errors in the arguments of a run: in commands, options and file names. The
# program itself checks the values of options. tools/launch reads this file. Unless there is an
# error, the only command that runs here is `head`, for the first bytes of a trace.

commands='stall check replay gen stress import rules whatif'
newline='
'

# Sets `options` to the options of the command $1, all of which take a value; `needed` to the
# options that it requires; and `role` to the kind of file that its plain argument names, empty if
# it takes none.
set_options_of() {
    options='' needed='' role='trace'
    case $1 in
    replay) options='--tick-ms --report-s --rules --drop-in --interval-s --workers --live --live-count' ;;
    whatif) options='--rules --drop-in --tick-ms --report-s --interval-s --workers' needed='--rules' ;;
    check) options='--tick-ms' ;;
    gen) options='--seed --cpus --groups --events' needed=$options role='' ;;
    stress) options='--seed --cpus --groups --events --workers' needed='--seed --cpus --groups --events' role='' ;;
    import) options='--cpus' needed='--cpus' role='text' ;;
    rules) options='--drop-in' role='rules file' ;;
    esac
}

# Prints the word among $2, $3, .. that is most similar to the word $1 by the number of edits, or
# nothing if none is similar.
nearest() {
    awk 'function least(a, b) { return a < b ? a : b }
        function distance(a, b, i, j, cost, rows) {
            for (j = 0; j <= length(b); j++) rows[0, j] = j
            for (i = 1; i <= length(a); i++) {
                rows[i, 0] = i
                for (j = 1; j <= length(b); j++) {
                    cost = substr(a, i, 1) != substr(b, j, 1)
                    rows[i, j] = least(rows[i - 1, j - 1] + cost, least(rows[i - 1, j], rows[i, j - 1]) + 1)
                    if (i > 1 && j > 1 && substr(a, i, 1) == substr(b, j - 1, 1) && substr(a, i - 1, 1) == substr(b, j, 1))
                        rows[i, j] = least(rows[i, j], rows[i - 2, j - 2] + 1)
                }
            }
            return rows[length(a), length(b)]
        }
        BEGIN {
            most = 1 + int((length(ARGV[1]) > 30 ? 0 : length(ARGV[1])) / 3)
            for (i = 2; i < ARGC; i++) if ((found = distance(substr(ARGV[1], 1, 30), ARGV[i])) <= most) { most = found - 1; best = ARGV[i] }
            print best
        }' "$@"
}

# Replaces all hints, including those about files, by a single hint about an error in the arguments.
word_fault() {
    hints='' hint_status=''
    hint 1 "$*"
}

# Adds a line to `hints`. $1 is the exit status, which counts unless an earlier hint has one. The
# other arguments are the line.
hint() {
    hint_status=${hint_status:-$1}
    shift
    hints="${hints:+$hints$newline}$*"
}

# Sets the hint that the word $1 is unknown, and which of the words $2, $3, .. may be meant.
unknown() {
    case $1 in
    --help | --version) word_fault "$1 comes alone: ./$name $1"; return ;;
    -h | -help | help) meant='--help' ;;
    -V | version) meant='--version' ;;
    *) meant=$(nearest "$@") ;;
    esac
    word_fault "unknown $kind $1${meant:+: did you mean $meant?}"
}

# Sets `content` to a description of the file $1 by its first bytes, or to an empty text if the file
# may be a trace.
look_into() {
    content=''
    [ -f "$1" ] || return 0
    [ -s "$1" ] || { content='an empty file'; return 0; }
    first=$(head -c 64 -- "$1" 2>/dev/null) 2>/dev/null
    line=${first%%"$newline"*}
    case $first in
    'psitrace '[0-9]*)
        case $line in *"$(printf '\r')") content="a trace whose lines end in CR LF: tr -d '\\r' < $1 > FILE makes one that psi_oomd takes" ;; esac
        ;;
    "$(printf '\037\213')"*) content="compressed by gzip: gunzip -c $1 > FILE" ;;
    "$(printf '\3757zXZ')"*) content="compressed by xz: xz -dc $1 > FILE" ;;
    "$(printf '\050\265\057\375')"*) content="compressed by zstd: zstd -dc $1 > FILE" ;;
    "$(printf '\027\010Dtracing')"*) content="trace-cmd's binary file: trace-cmd report $1 > TEXT, and tools/psitrace reads the text" ;;
    'report '[0-9]* | 'event '[0-9]* | 'kill '[0-9]* | 'live '[0-9]* | 'end '[0-9]*)
        content='what replay prints, and no trace: tools/chart and tools/top read it'
        ;;
    '# tracer:'*) content="a text of ftrace: tools/psitrace --cpus N $1 > FILE makes a trace of it" ;;
    '{'* | '['*) content='JSON: a rules file comes after --rules' ;;
    esac
}

# Adds a hint if the program won't be able to read the file $1. $2 says what the file should be,
# such as `trace`.
look_at_file() {
    if [ "$1" = - ]; then
        return 0
    elif [ ! -e "$1" ]; then
        hint 4 "no $2 $1: names count from the folder in which the command runs"
    elif [ -d "$1" ] && [ -f "$1/meta" ]; then
        hint 5 "the $2 $1 is a recording: tools/psitrace $1 > FILE makes a trace of it"
    elif [ -d "$1" ]; then
        hint 5 "the $2 $1 is a directory"
    elif [ ! -r "$1" ]; then
        hint 5 "the $2 $1 may not be read by this user"
    elif [ "$2" = trace ]; then
        look_into "$1"
        [ -z "$content" ] || hint '' "$1 is $content"
    fi
}

# Checks an option's name. Returns 1, with a hint, if the command has no such option or if the
# option was already given.
look_at_option() {
    case $found in *" $1 "*) word_fault "$1 may be given once"; return 1 ;; esac
    case " $options " in *" $1 "*) return 0 ;; esac
    kind="option"
    # shellcheck disable=SC2086 -- options are words
    unknown "$1" $options
    return 1
}

# Adds a hint if the option $1 can't have the value $2: if its file can't be read, or if it takes a
# whole number and the value isn't one. The program checks the range of numbers.
look_at_value() {
    case $1,$2 in
    --rules,- | --drop-in,-) hint '' "$1 takes a file's name: standard input is for the trace" ;;
    --rules,*) look_at_file "$2" 'rules file' ;;
    --drop-in,*) look_at_file "$2" 'drop-in file' ;;
    --live,*) ;;
    *, | *,0?* | *,*[!0-9]*) hint '' "$1 takes a whole number such as 2, not '$2'" ;;
    esac
}

# Checks the arguments after a command.
look_at_rest() {
    option='' found=' ' count=0 has_no_options=''
    for word do
        if [ -n "$option" ]; then
            look_at_value "$option" "$word"
            option=''
            continue
        fi
        case $has_no_options$word in
        --) has_no_options=yes ;;
        --*=*)
            look_at_option "${word%%=*}" || return 0
            found="$found${word%%=*} "
            look_at_value "${word%%=*}" "${word#*=}"
            ;;
        --*)
            look_at_option "$word" || return 0
            option=$word found="$found$word "
            ;;
        *)
            count=$((count + 1))
            if [ "$count" -eq 1 ] && [ -n "$role" ]; then look_at_file "$word" "$role"; fi
            ;;
        esac
    done
    look_at_counts
}

# Checks that the command has its required options, and as many file names as it takes.
look_at_counts() {
    [ -z "$option" ] || { word_fault "$option takes a value"; return; }
    missing=''
    case $command$found in replay*" --drop-in "*) needed='--rules' ;; esac
    for word in $needed; do
        case $found in *" $word "*) ;; *) missing="$missing $word" ;; esac
    done
    if [ -z "$role" ] && [ "$count" -gt 0 ]; then
        word_fault "$command takes no name of a file"
    elif [ -n "$role" ] && [ "$count" -eq 0 ]; then
        word_fault "$command takes the name of a $role, or - for standard input"
    elif [ -n "$role" ] && [ "$count" -gt 1 ]; then
        word_fault "$command takes the name of one $role, and there are $count words that aren't options"
    elif [ -n "$missing" ]; then
        word_fault "$command takes$missing too"
    fi
}

# Checks the arguments of psi_convert: a command, a table, and files of pages.
look_at_pages() {
    if [ "${1-}" != events ] || [ $# -lt 3 ]; then word_fault "psi_convert takes the word events and names: TABLE PAGES.."; return; fi
    shift
    role='table'
    for word do
        case $word in
        -?*) word_fault "psi_convert has no option $word: a name that begins with - is written as ./$word"; return ;;
        esac
        look_at_file "$word" "$role"
        role='file of pages'
    done
}

# Sets `hints` to the errors in these arguments, one per line, and `hint_status` to the exit status
# for them. The status stays empty if only the contents of a trace or the value of an option seem
# wrong, which the program itself checks.
look_at_words() {
    hints='' hint_status=''
    if [ "$name" = psi_observe ]; then
        if [ $# -eq 3 ]; then look_at_file "$1" trace; else word_fault "psi_observe takes three words: TRACE OBSERVERS PATH"; fi
        return
    fi
    if [ "$name" = psi_convert ]; then
        look_at_pages "$@"
        return
    fi
    [ $# -gt 0 ] || { word_fault "which command? ./psi_oomd --help has all of them"; return; }
    command=$1
    case $command in
    '' | *[!a-z]*) is_known='' ;;
    *) case " $commands " in *" $command "*) is_known=yes ;; *) is_known='' ;; esac ;;
    esac
    if [ -z "$is_known" ]; then
        kind="command"
        case $command in -*) kind="option" ;; esac
        # shellcheck disable=SC2086 -- commands are words
        unknown "$command" $commands --help --version --build --try
        return
    fi
    set_options_of "$command"
    shift
    look_at_rest "$@"
}
