# Which program bin/formula runs in a checkout. It is built on first use, and again after a change of its sources; the
# old one is kept until the new one is built:
#
#     bin/formula IN OUT [OPTIONS]
#
# or without proofs, in a minute or two each time, unless --unproved --keep has kept such a program beside the proved one:
#
#     bin/formula --unproved IN OUT [OPTIONS]
#     bin/formula --unproved --keep
#
# Where FORMULA names a program, that one is run and none is built; a script of bin or scripts is no program.
# --program alone prints which program it is, and builds it where it has to. --found alone prints the proved program, or
# else the one that is kept without proofs, and builds none; where neither is current the status is 70. Words that every
# program refuses, as --help, build none. A checkout is built once at a time: a second run waits for the first, and then
# uses its program. Where the program could not be built the status is 70. Needs the GNU tools and flock.
# shellcheck shell=dash disable=SC2154
set -u
top=$(cd "$top" && pwd) || exit 70

# is_script PROGRAM: whether it is a script of this checkout.
is_script() {
    local file
    file=$(realpath -- "$(command -v -- "$1")" 2>/dev/null) || return 1
    [ "${file%/*}" -ef "$top/bin" ] || [ "${file%/*}" -ef "$top/scripts" ]
}

named=${FORMULA:-}
unset FORMULA # a program that calls this script would be run by it again
if is_script "$named"; then named=; fi
program=${named:-$top/crates/fm_main/out/fm_main}
kept=$program.kept
without_proofs=$top/crates/fm_main/out/fm_main.unproved
log=
build=

# is_current PROGRAM: whether it is there, and as new as its sources.
is_current() {
    [ -x "$1" ] || return 1
    local newer
    newer=$(find "$top/crates.txt" "$top"/crates/*/src "$top"/crates/*/specs "$top"/crates/*/proofs \
        -type f -newer "$1" -not -path '*_tests/*' -print -quit 2>/dev/null)
    [ -z "$newer" ]
}

# Leaves the new program where it was built, else the old one, and nothing else.
clean_up() {
    if [ -e "$kept" ]; then
        if [ -x "$program" ]; then rm -f "$kept"; else mv -f "$kept" "$program"; fi
    fi
    [ -z "$log" ] || rm -f "$log"
}

# shellcheck disable=SC2317 # traps call it
# ends_build STATUS: ends the build that runs, and this script; the next build continues with what is not proved yet.
ends_build() {
    { kill "$build" && wait "$build"; } 2>/dev/null
    exit "$1"
}

# alone: waits until no other run of this script builds the program of this checkout; 8 holds the lock from then on.
alone() {
    exec 8<"$top/tools/gate/build.py" || exit 70
    if command -v flock >/dev/null && ! flock --nonblock 8; then
        echo "formula: another run builds the program; this one waits for it .." >&2
        flock 8
    fi
}

# fails WHAT STATUS: says how a build ended, the lines of its log that have the reason, and the last ones.
fails() {
    local how="status $2"
    if [ "$2" -gt 128 ]; then how="signal $(kill -l $(($2 - 128)))"; fi
    echo "formula: the program could not be built: $1 ended with $how" >&2
    { grep -a -i -m 10 -e 'error' -e 'not proved' -e 'cannot' "$log" && echo "..."; tail -n 20 "$log"; } >&2
    exit 70
}

# build_program: builds the program, in half an hour or so.
build_program() {
    trap clean_up EXIT
    trap 'ends_build 130' INT
    trap 'ends_build 143' TERM HUP
    echo "formula: proving and building the program; the first time may take half an hour .." >&2
    log=$(mktemp) || exit 70
    [ ! -e "$program" ] || mv -f "$program" "$kept"
    # traps act while the shell waits for what runs beside it; the build holds the lock too, should this be killed
    "$top/tools/gate/build.py" >"$log" &
    build=$!
    wait "$build" || ended=$?
    [ -x "$program" ] || fails "tools/gate/build.py" "${ended:-0}"
    clean_up
    trap - EXIT INT TERM HUP
}

# whole NAME: the name from the root, since rt runs the program in a folder of its own.
whole() { case $1 in /*) echo "$1" ;; *) echo "$PWD/$1" ;; esac }

# reads_from IN: prints the program that rt runs on IN, where it does: the word before IN.
reads_from() {
    local process made
    # shellcheck disable=SC2013 # names without blanks
    for process in $(grep -l -a -F "$1" /proc/[0-9]*/cmdline 2>/dev/null); do
        made=$({ tr '\0' '\n' <"$process"; } 2>/dev/null | grep -a -x -B 1 -F "$1" | head -n 1)
        case $made in */program) echo "$made" && break ;; esac
    done
}

# keep_unproved: builds a program without proofs, beside the proved one. rt try runs what it builds and then removes it:
# here it reads a pipe, and is copied meanwhile.
keep_unproved() {
    local scratch made
    echo "formula: building a program without proofs; it takes a minute or two .." >&2
    scratch=$(mktemp -d) && log=$scratch/log && mkfifo "$scratch/in" && mkdir -p "${without_proofs%/*}" || exit 70
    # shellcheck disable=SC2064 # this folder
    trap "rm -rf '$scratch'" EXIT
    trap 'ends_build 130' INT
    trap 'ends_build 143' TERM HUP
    (cd "$top/crates/fm_main" && exec rt try -- "$scratch/in" "$scratch/out") >"$log" 2>&1 &
    build=$!
    while kill -0 "$build" 2>/dev/null; do
        made=$(reads_from "$scratch/in")
        if [ -n "$made" ] && cp "$made" "$without_proofs.new"; then
            mv "$without_proofs.new" "$without_proofs"
            # it ends, or has ended
            echo 'formula 1; note c4 1/4;' | timeout 60 tee "$scratch/in" >/dev/null
            wait "$build"
            echo "formula: nothing is proved of this program: $without_proofs" >&2
            exit 0
        fi
        sleep 0.2
    done
    wait "$build" || ended=$?
    fails "rt try" "${ended:-0}"
}

# unproved WORDS: runs a program without proofs, the one that is kept, or one that is made for these words.
unproved() {
    local source target status
    if [ "$*" = --keep ]; then keep_unproved; fi
    words "$@"
    [ $# -ge 2 ] || tells "$top/python" 1 "formula: words refused" "$@"
    if is_current "$without_proofs"; then
        echo "formula: nothing is proved of this program" >&2
        runs "$without_proofs" "$top/python" "$@"
    fi
    echo "formula: without proofs, and for this run alone; it takes a minute or two .." >&2
    log=$(mktemp) || exit 70
    trap 'rm -f "$log"' EXIT
    source=$(whole "$1") target=$(whole "$2")
    (shift 2 && cd "$top/crates/fm_main" && rt try -- "$source" "$target" "$@") >"$log" 2>&1 || ended=$?
    status=$(sed -n 's/^run=ended status=\([0-9]*\) .*proved=no$/\1/p' "$log")
    [ -n "$status" ] || fails "rt try" "${ended:-0}"
    [ "$status" != 0 ] || echo "formula: this is done, and nothing is proved of it" >&2
    tells "$top/python" "$status" "$(grep -a -m 1 -e '^formula: ' -e '^processes ' -e '^process ' "$log")" "$@"
}

# found: prints the program that is there, without a build.
found() {
    if [ -n "$named" ] || is_current "$program"; then
        echo "$program"
    elif is_current "$without_proofs"; then
        echo "$without_proofs"
        echo "formula: nothing is proved of this program, which bin/formula --unproved --keep has built" >&2
    else
        cat >&2 <<EOF
formula: there is no program that is as new as its sources. Build one, or let FORMULA name one:
  $top/bin/formula --unproved --keep   without proofs, in a minute or two
  $top/bin/formula --program           proved, the first time in about half an hour
EOF
        exit 70
    fi
    exit
}

if [ "$*" = --found ]; then found; fi
if [ "${1:-}" = --unproved ]; then
    shift
    unproved "$@"
fi
if [ -z "$named" ] && ! is_current "$program"; then
    words "$@"
    # no program takes these words, so none is built for them
    case $given in
    *' --help '* | *' -h '* | *' --version '*) tells "$top/python" 1 "formula: words refused" "$@" ;;
    esac
    [ $# -ge 2 ] || [ "${1:-}" = --program ] || tells "$top/python" 1 "formula: words refused" "$@"
    alone
    # the run that was waited for may have built it
    is_current "$program" || build_program
    exec 8<&-
fi
if [ "${1:-}" = --program ]; then
    echo "$program"
    exit
fi
runs "$program" "$top/python" "$@"
