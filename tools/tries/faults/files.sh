# IN, OUT, words, standard output and large scores, for scripts/faults.
# shellcheck shell=bash disable=SC2034,SC2154 # scripts/faults and its modules share their variables

# IN.
refuses "IN is missing" 2 "$read" "$program" "$absent" "$out"
refuses "IN is a folder" 2 "$read" "$program" "$scratch" "$out"
refuses "IN is below a file" 2 "$read" "$program" "$score/score" "$out"
refuses "IN has no name" 2 "$read" "$program" "" "$out"
refuses "IN has a long name" 2 "$read" "$program" "$scratch/$(printf 'x%.0s' {1..300})" "$out"
ln -s "$scratch/ring" "$scratch/ring"
refuses "IN is a ring of links" 2 "$read" "$program" "$scratch/ring" "$out"
if may_try_rights; then
    cp "$score" "$scratch/secret" && chmod 000 "$scratch/secret"
    refuses "IN is unreadable" 2 "$read" as_user "$program" "$scratch/secret" "$out"
fi
: >"$scratch/empty"
head -c 1048576 /dev/zero | tr '\0' ' ' >"$scratch/most"
head -c 1048577 /dev/zero | tr '\0' ' ' >"$scratch/too_much"
refuses "IN is empty" 3 "$(fault '1:1 fault 3')" "$program" "$scratch/empty" "$out"
refuses "IN is /dev/null" 3 "$(fault '1:1 fault 3')" "$program" /dev/null "$out"
refuses "IN has 1,048,576 bytes" 3 "$(fault '1:1048577 fault 3')" "$program" "$scratch/most" "$out"
refuses "IN has 1,048,577 bytes" 3 "$(fault '1:1 fault 18')" "$program" "$scratch/too_much" "$out"
refuses "IN has no end" 3 "$(fault '1:1 fault 18')" "$program" /dev/zero "$out"
# shellcheck disable=SC2002 # standard input has to be a pipe
from_pipe() { cat "$1" | "${@:2}"; }
plays "IN is a pipe" from_pipe "$score" "$program" /dev/stdin "$out"
refuses "IN is a pipe with a fault" 3 "$(fault '1:20 fault 8')" from_pipe "$refused" "$program" /dev/stdin "$out"
refuses "IN is a pipe that is too long" 3 "$(fault '1:1 fault 18')" from_pipe /dev/zero "$program" /dev/stdin "$out"
slowly() { { head -c 5 "$score" && sleep 0.2 && tail -c +6 "$score"; } | "$@"; }
plays "IN is a slow pipe" slowly "$program" /dev/stdin "$out"

# OUT.
clear_out
ends "OUT is a folder" 4 "$write" "$program" "$score" "$folder"
leaves "OUT is a folder"
ends "OUT is in no folder" 4 "$write" "$program" "$score" "$folder/none/out.mid"
leaves "OUT is in no folder"
ends "OUT has no name" 4 "$write" "$program" "$score" ""
leaves "OUT has no name"
if [ -c /dev/full ]; then
    ends "OUT is full" 4 "$write" "$program" "$score" /dev/full
    leaves "OUT is full"
else
    echo "not tried: a full device, since there is no /dev/full"
fi
if may_try_rights; then
    cp "$scratch/earlier" "$out" && chmod 444 "$out"
    ends "OUT is read-only" 4 "$write" as_user "$program" "$score" "$out"
    leaves "OUT is read-only" "$scratch/earlier"
    chmod 555 "$folder"
    ends "OUT is in a folder without rights" 4 "$write" as_user "$program" "$score" "$out"
    leaves "OUT is in a folder without rights"
fi
little() { (ulimit -v 20000 && "$@"); }
# A score that is played in that, but whose file does not lie in it.
unwieldy=(--generate 124 --workers 0)
small() { (trap '' XFSZ && ulimit -f 1 && "$@"); }
ends "OUT may not grow" 4 "$write" small "$program" "$long" "$out"
leaves "OUT may not grow" "$scratch/begun"
cp "$scratch/earlier" "$out"
ends "OUT is there" 0 "" "$program" "$score" "$out"
leaves "OUT is there" "$scratch/file"
cp "$score" "$out"
ends "OUT is IN" 0 "" "$program" "$out" "$out"
leaves "OUT is IN" "$scratch/file"

# through_pipe COMMAND: OUT is a pipe, and what comes through it is the begun file of the score.
mkfifo "$scratch/pipe"
through_pipe() {
    local status
    cat "$scratch/pipe" >"$out" &
    "$@"
    status=$?
    wait $!
    return "$status"
}
ends "OUT is a pipe" 4 "$write" through_pipe "$program" "$score" "$scratch/pipe"
leaves "OUT is a pipe" "$scratch/begun_file"

# Descriptors that nobody opened. Neither IN nor anything else of the program's own is there when OUT is created.
none_open() { "$@" 3<&- 4<&- 5<&- 6<&-; }
cp "$score" "$scratch/unharmed"
for place in 3 4 5 6; do
    refuses "IN is descriptor $place" 2 "$read" none_open "$program" "/dev/fd/$place" "$out"
    ends "OUT is descriptor $place" 4 "$write" none_open "$program" "$scratch/unharmed" "/dev/fd/$place"
    ends "OUT is descriptor $place, a large score" 4 "$write" none_open "$program" none "/dev/fd/$place" --generate 0
done
all_closed() { "$@" <&- >&- 2>&-; }
ends "OUT is descriptor 3, all closed" 5 "" none_open all_closed "$program" "$scratch/unharmed" /dev/fd/3
ends "OUT is standard error, all closed" 0 "" none_open all_closed "$program" "$scratch/unharmed" /dev/stderr
leaves "OUT is a descriptor"
if cmp -s "$score" "$scratch/unharmed"; then pass; else fail "OUT is a descriptor" "IN was written"; fi

# Words.
refuses "IN is no text" 1 "$words" "$program" "$scratch/"$'\xFF' "$out"
refuses "OUT is no text" 1 "$words" "$program" "$score" "$folder/"$'\xC3'
refuses "an option is no text" 1 "$words" "$program" "$score" "$out" --room=$'\x80'
refuses "a third word" 1 "$words" "$program" "$score" "$out" more
refuses "an unknown option" 1 "$words" "$program" "$score" "$out" --help
refuses "no words" 1 "$words" "$program"

# Standard output: a line that can't be said is status 5, and it never stands in OUT. Where there is
# no line, nothing changes.
closed() { "$@" >&-; }
both_closed() { "$@" <&- >&-; }
input_closed() { "$@" <&-; }
full() { "$@" >/dev/full; }
# shellcheck disable=SC2094 # a pipe whose only reader is gone
unread() {
    (
        exec 3<>"$scratch/unread" 4>"$scratch/unread" 3>&-
        "$@" >&4
    )
}
mkfifo "$scratch/unread"
for way in closed both_closed all_closed full unread; do
    [ "$way" != full ] || [ -c /dev/full ] || continue
    plays "standard output $way" "$way" "$program" "$score" "$out"
    refuses "standard output $way, a refused score" 5 "" "$way" "$program" "$refused" "$out"
    refuses "standard output $way, no IN" 5 "" "$way" "$program" "$absent" "$out"
    refuses "standard output $way, words refused" 5 "" "$way" "$program" "$score"
    ends "standard output $way, OUT may not grow" 5 "" "$way" small "$program" "$long" "$out"
    leaves "standard output $way, OUT may not grow" "$scratch/begun"
    ends "standard output $way, OUT is a pipe" 5 "" through_pipe "$way" "$program" "$score" "$scratch/pipe"
    leaves "standard output $way, OUT is a pipe" "$scratch/begun_file"
done
plays "standard input closed" input_closed "$program" "$score" "$out"
refuses "standard input closed, a refused score" 3 "$(fault '1:20 fault 8')" input_closed "$program" "$refused" "$out"

# A large score from a number: IN is not opened, and the line comes after the file is written.
if large=$("$program" none "$scratch/large_file" --generate 0); then
    for way in closed both_closed all_closed; do
        ends "standard output $way, a large score" 5 "" "$way" "$program" none "$out" --generate 0
        leaves "standard output $way, a large score" "$scratch/large_file"
    done
    ends "a large score, IN is a folder" 0 "$large" "$program" "$scratch" "$out" --generate 0
    leaves "a large score, IN is a folder" "$scratch/large_file"
else
    echo "not tried: a large score from a number, which this program does not make"
fi

# scripts/faults goes on from a module that was read to its end.
true
