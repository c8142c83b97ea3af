# What scripts/faults shares: the texts and files that it tries, how it judges a run, and another user.
# shellcheck shell=bash disable=SC2034,SC2154 # scripts/faults and its modules share their variables

passed=0
failed=0

pass() { passed=$((passed + 1)); }
fail() {
    failed=$((failed + 1))
    echo "$1: $2"
}

# The program is in a place where another user may run it, apart from the toolchain.
program=$scratch/program
cp "$found" "$program" && chmod 755 "$program" || exit 70

# OUT stands alone in a folder of its own, so that any other file that is made is seen.
folder=$scratch/folder
out=$folder/out.mid
score=$scratch/score
refused=$scratch/refused
long=$scratch/long
absent=$scratch/absent
printf 'formula 1; note c4 1/4;' >"$score"
printf 'formula 1; note c4 1/7;' >"$refused"
printf 'formula 1; repeat 300 { note c4 1/4; }' >"$long"
printf 'something that was here before, and is longer than the whole file' >"$scratch/earlier"
mkdir "$folder"

# The file of the score, from the MIDI file standard; the file of the long one, and both before the
# track's length is written.
printf '\x4D\x54\x68\x64\0\0\0\x06\0\0\0\x01\x01\xE0\x4D\x54\x72\x6B\0\0\0\x14' >"$scratch/file"
printf '\0\xFF\x51\x03\x07\xA1\x20\0\x90\x3C\x40\x83\x30\x80\x3C\x40\x30\xFF\x2F\0' >>"$scratch/file"
"$program" "$long" "$scratch/long_file" || fail "a long score" "is not played"
for file in file long_file; do
    { head -c 18 "$scratch/$file" && printf '\0\0\0\0' && tail -c +23 "$scratch/$file"; } >"$scratch/begun_$file"
done
head -c 1024 "$scratch/begun_long_file" >"$scratch/begun"

words='formula: words refused'
read='formula: read fault'
write='formula: write fault'
memory='formula: out of memory'
fault() { echo "formula: score refused: $1"; }

clear_out() { rm -rf "$folder" && mkdir "$folder" && chmod 777 "$folder"; }

# ends NAME STATUS LINE COMMAND: the command, with the program in it, ends so and tells this line.
ends() {
    local status problem=
    "${@:4}" >"$scratch/said" 2>"$scratch/complaint"
    status=$?
    [ "$status" = "$2" ] || problem="status $status in place of $2"
    { [ -z "$3" ] || printf '%s\n' "$3"; } | cmp -s - "$scratch/said" \
        || problem="$problem; the console got: $(cat "$scratch/said")"
    [ ! -s "$scratch/complaint" ] || problem="$problem; it complained: $(cat "$scratch/complaint")"
    if [ -z "$problem" ]; then pass; else fail "$1" "$problem"; fi
}

# leaves NAME FILE: OUT is the same as this file, or not there without one, and nothing was made beside
# it. OUT is then taken away.
leaves() {
    local wanted=${2:-} names
    names=$(ls -A "$folder")
    if [ -z "$wanted" ]; then
        if [ -z "$names" ]; then pass; else fail "$1" "it made $names"; fi
    elif [ "$names" = "$(basename "$out")" ] && cmp -s "$wanted" "$out"; then
        pass
    else
        fail "$1" "OUT is not as it should be, or there is more: $names"
    fi
    clear_out
}

# refuses NAME STATUS LINE COMMAND: it ends so, and OUT is not touched, whether it is there or not.
refuses() {
    clear_out
    ends "$@"
    leaves "$1"
    cp "$scratch/earlier" "$out" && chmod 666 "$out"
    ends "$1 (over a file)" "${@:2}"
    leaves "$1 (over a file)" "$scratch/earlier"
}

# plays NAME COMMAND: it ends well, and OUT is the file of the score.
plays() {
    clear_out
    ends "$1" 0 "" "${@:2}"
    leaves "$1" "$scratch/file"
}

# Another user, who has no rights of root.
if [ "$(id -u)" != 0 ]; then
    as_user() { "$@"; }
elif command -v setpriv >/dev/null; then
    as_user() { setpriv --reuid=65534 --regid=65534 --clear-groups "$@"; }
else
    as_user() { return 71; }
    echo "not tried: files without rights, since there is no setpriv"
fi
may_try_rights() { as_user true; }

# scripts/faults goes on from a module that was read to its end.
true
