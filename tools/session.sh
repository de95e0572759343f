# What ./ndb and ./try take, and how they run a program. They set `top`, and `me`, their name. Sourced, not run.

# The list of crates, or a file of these folders, changed since a program was built.
is_stale() {
    local program=$1
    shift
    [ ! -x "$program" ] ||
        [ -n "$(find "$top/crates.txt" "$@" -name out -prune -o -type f -newer "$program" -print -quit)" ]
}

# How the program is called.
usage() {
    cat <<END
ndb [--nodes N] [--replicas R] [--fragments F] [--trace] [FILE]
    A cluster of N nodes, 1 to 8 (2), with R replicas of each row, 1 to 4 (2), which divide N, and
    F fragments, 1 to 32 (4). It runs the script in FILE, or on standard input; at a terminal it is a
    console, where \`help\` tells more. With --trace it writes no replies, but the trace of its last life.
ndb --check [FILE]
    Tells the history of a trace, or why it is none of a right life.
ndb --help, ndb --version

./try takes the same, and runs the program unproved.

status   0  the input was read to its end, or to \`quit\`
         1  words refused                  2  a line refused                3  reading failed
         4  writing failed                 5  memory is wanting             6  a disk failed as a life began
         7  folders of another shape       8  a disk has what wasn't written to it
         9  a line or a trace too long     10 no number left for another life
         11 no trace                       12 a step of a trace is wrong
docs/SCRIPT.md is the manual, docs/TUTORIAL.md a first hour.
END
}

# The program's version is that of its sources.
version() {
    local at
    at=$(git -C "$top" describe --always --dirty --tags 2>/dev/null) || at='without git'
    [ "$me" = ndb ] || at="$at, unproved"
    echo "ndb $at, built with $(rt version 2>/dev/null || echo 'no Rattle toolchain')"
}

# An exit status in words, where somebody sees them.
tell_status() {
    local words
    case $1 in
        0) return ;;
        1) words="words refused: ./$me --help tells which there are" ;;
        2) words='a line is outside the grammar: the last line tells its number and a code, 1 no command, 2 too few or
    too many words, 3 no key or no value, 4 no number or one out of range; a console tells more' ;;
        3) words='reading failed' ;;
        4) words='writing failed' ;;
        5) words='memory is wanting' ;;
        6) words='a call on a disk failed as a life was to begin: the last line tells the node' ;;
        7) words='the folders here are of a cluster of another shape: the last line tells both; take its numbers, or
    another folder' ;;
        8) words='a disk has what was not written to it: the last line tells the node, the file, the place and the byte,
    and docs/SCRIPT.md, "Where the data is", what can be done' ;;
        9) words='a line is too long, of more than 512 bytes, or the 65,537th; or a trace, of more than 2^30' ;;
        10) words='no number is left for another life on these folders' ;;
        11) words='what was read is no trace of a cluster; the line tells where it stops being one' ;;
        12) words='the trace has a step that the machine does not make; the line tells which' ;;
        126 | 127) words='the program does not start' ;;
        *) words='the program was stopped' ;;
    esac
    [ ! -t 2 ] || echo "$me: status $1: $words" >&2
}

# Refuses a word as the program would, before it is built.
refuse() {
    echo "$me: $1; ./$me --help tells more" >&2
    exit 1
}

# Takes the words. Leaves those of the program in `words`, and the script's file in `script`.
take_words() {
    words=()
    script=
    while [ $# -gt 0 ]; do
        case $1 in
            --help | -h) usage; exit 0 ;;
            --version | -V) version; exit 0 ;;
            --nodes | --replicas | --fragments)
                words+=("$1")
                [ $# -lt 2 ] || { shift; words+=("$1"); }
                ;;
            --nodes=* | --replicas=* | --fragments=* | --trace | --check) words+=("$1") ;;
            -*) refuse "there is no option \`$1\`" ;;
            *)
                [ -z "$script" ] || refuse "one script is run at a time, and \`$1\` is a second one"
                [ -e "$1" ] && [ ! -d "$1" ] || refuse "there is no file \`$1\`"
                [ -r "$1" ] || refuse "\`$1\` may not be read"
                script=$1
                ;;
        esac
        shift
    done
}

# Leaves in `crate` that of the program that these words want: the console at a terminal, unless they ask for a trace or
# the check of one, and else the plain one.
choose_crate() {
    crate=ndb_shell
    case " ${words[*]} " in *' --trace '* | *' --check '*) return ;; esac
    if [ -z "$script" ] && [ -t 0 ]; then crate=ndb_console; fi
}

# Runs the console at the terminal. ^C gives up the line that is being typed, and ^\ ends the program at once.
run_console() {
    local program=$1 status=0 manner=--plain around=()
    if [ -z "${NO_COLOR:-}" ] && [ "${TERM:-dumb}" != dumb ] && [ -t 1 ] && [ -t 2 ]; then manner=--colours; fi
    saved=$(stty -g)
    trap 'stty "$saved"' EXIT
    trap : QUIT
    if [ "${TERM:-dumb}" != dumb ] && [ -t 1 ] && command -v rlwrap >/dev/null; then
        export INPUTRC=$top/tools/inputrc
        around=(rlwrap -C ndb -f "$top/tools/commands")
        stty intr undef
    else
        command -v rlwrap >/dev/null ||
            echo "$me: with rlwrap installed, arrows would edit the line and bring back earlier ones" >&2
        stty intr undef kill '^C'
    fi
    "${around[@]}" "$program" "$manner" "${words[@]}" || status=$?
    stty "$saved"
    trap - EXIT QUIT
    return "$status"
}

# Runs a program on the words, and tells its status where it is seen.
run_program() {
    local program=$1 status=0
    . "$top/crates/ndb_shell/settings.sh"
    if [ "$crate" = ndb_console ]; then
        run_console "$program" || status=$?
    elif [ -n "$script" ]; then
        "$program" "${words[@]}" <"$script" || status=$?
    else
        [ -t 1 ] || [ -t 2 ] || exec "$program" "${words[@]}"
        "$program" "${words[@]}" || status=$?
    fi
    tell_status "$status"
    exit "$status"
}
