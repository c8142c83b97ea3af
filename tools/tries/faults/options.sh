# Listings, tracks, located ticks, excerpts and records, for scripts/faults.
# shellcheck shell=bash disable=SC2034,SC2154 # scripts/faults and its modules share their variables

# Listings, and the tracks of a score. They are pieces from the first byte to the last, so OUT may be a pipe, and
# what a write that fails has left is their beginning.
file_fault() { echo "formula: file refused: byte $1"; }
both() { "$program" "$scratch/file" "$scratch/listing" --list && "$program" "$long" "$scratch/parts" --parts; }
if both >/dev/null; then
    clear_out
    ends "a listing into a pipe" 0 "" through_pipe "$program" "$scratch/file" "$scratch/pipe" --list
    leaves "a listing into a pipe" "$scratch/listing"
    ends "tracks into a pipe" 0 "" through_pipe "$program" "$long" "$scratch/pipe" --parts
    leaves "tracks into a pipe" "$scratch/parts"
    ends "a listing from a pipe" 0 "" from_pipe "$scratch/file" "$program" /dev/stdin "$out" --list
    leaves "a listing from a pipe" "$scratch/listing"
    cp "$scratch/file" "$out"
    ends "a listing over its file" 0 "" "$program" "$out" "$out" --list
    leaves "a listing over its file" "$scratch/listing"
    "$program" "$scratch/long_file" "$scratch/long_listing" --list
    head -c 1024 "$scratch/long_listing" >"$scratch/begun_listing"
    head -c 1024 "$scratch/parts" >"$scratch/begun_parts"
    ends "a listing may not grow" 4 "$write" small "$program" "$scratch/long_file" "$out" --list
    leaves "a listing may not grow" "$scratch/begun_listing"
    ends "tracks may not grow" 4 "$write" small "$program" "$long" "$out" --parts
    leaves "tracks may not grow" "$scratch/begun_parts"
    refuses "a score to be listed" 3 "$(file_fault '0 fault 22')" "$program" "$score" "$out" --list
    refuses "a listing of nothing" 2 "$read" "$program" "$absent" "$out" --list --generate 0
    refuses "a listing without end" 3 "$(file_fault '0 fault 35')" "$program" /dev/zero "$out" --list
    refuses "tracks of a refused score" 3 "$(fault '1:20 fault 8')" "$program" "$refused" "$out" --parts
    for way in closed all_closed unread; do
        ends "standard output $way, a listing" 0 "" "$way" "$program" "$scratch/file" "$out" --list
        leaves "standard output $way, a listing" "$scratch/listing"
        refuses "standard output $way, a file that is refused" 5 "" "$way" "$program" "$score" "$out" --list
    done
else
    echo "not tried: listings and tracks, which this program does not make"
fi

# Ticks that are located: OUT is never touched, and the line is all.
locate() { "$program" "$score" "$folder" --locate 5; }
if locate >/dev/null; then
    located='process 0 levels 0 start 0 positions'
    missing='formula: no such process'
    refuses "a tick is located" 0 "$located" "$program" "$score" "$out" --locate 5
    refuses "a tick is located, OUT is in no folder" 0 "$located" "$program" "$score" "$folder/none/out.mid" --locate 5
    refuses "no such process" 7 "$missing" "$program" "$score" "$out" --locate 5 --process 1
    refuses "a tick of a refused score" 3 "$(fault '1:20 fault 8')" "$program" "$refused" "$out" --locate 5 --process 1
    for way in closed all_closed full unread; do
        [ "$way" != full ] || [ -c /dev/full ] || continue
        refuses "standard output $way, a tick is located" 5 "" "$way" "$program" "$score" "$out" --locate 5
        refuses "standard output $way, no such process" 5 "" "$way" "$program" "$score" "$out" --locate 5 --process 1
    done
else
    echo "not tried: ticks that are located, which this program does not do"
fi

# Excerpts, which are files as others are: their length is written last.
excerpt() { "$program" "$score" "$scratch/excerpt" --from 432 && "$program" "$score" "$out" --from 0; }
if excerpt >/dev/null; then
    leaves "an excerpt of the whole" "$scratch/file"
    { head -c 18 "$scratch/excerpt" && printf '\0\0\0\0' && tail -c +23 "$scratch/excerpt"; } >"$scratch/begun_excerpt"
    ends "an excerpt into a pipe" 4 "$write" through_pipe "$program" "$score" "$scratch/pipe" --from 432
    leaves "an excerpt into a pipe" "$scratch/begun_excerpt"
    ends "an excerpt may not grow" 4 "$write" small "$program" "$long" "$out" --from 0
    leaves "an excerpt may not grow" "$scratch/begun"
    refuses "little memory for an excerpt" 6 "$memory" little "$program" "$absent" "$out" --from 0 "${unwieldy[@]}"
else
    echo "not tried: excerpts, which this program does not make"
fi

# Records, which are two pieces from the first byte to the last, and files that are made of them.
record_fault() { echo "formula: record refused: $1"; }
record() { "$program" "$score" "$scratch/record" --record --workers 0 && "$program" "$scratch/record" "$out" --audit; }
if record >/dev/null; then
    leaves "an audited record" "$scratch/file"
    ends "a record into a pipe" 0 "" through_pipe "$program" "$score" "$scratch/pipe" --record --workers 1
    ends "an audit of that" 0 "" "$program" "$out" "$out" --audit
    leaves "an audit of that" "$scratch/file"
    ends "an audit from a pipe" 0 "" from_pipe "$scratch/record" "$program" /dev/stdin "$out" --audit
    leaves "an audit from a pipe" "$scratch/file"
    ends "an audit into a pipe" 4 "$write" through_pipe "$program" "$scratch/record" "$scratch/pipe" --audit
    leaves "an audit into a pipe" "$scratch/begun_file"
    refuses "a score to be audited" 3 "$(record_fault '0 fault 41')" "$program" "$score" "$out" --audit
    refuses "an audit of nothing" 2 "$read" "$program" "$absent" "$out" --audit --generate 0
    refuses "an audit without end" 3 "$(record_fault '0 fault 46')" "$program" /dev/zero "$out" --audit
    refuses "a record of a refused score" 3 "$(fault '1:20 fault 8')" "$program" "$refused" "$out" --record
    ends "a record may not grow" 4 "$write" small "$program" "$long" "$out" --record
    clear_out
    refuses "little memory for a record" 6 "$memory" little "$program" "$absent" "$out" --record "${unwieldy[@]}"
    for way in closed all_closed unread; do
        ends "standard output $way, an audit" 0 "" "$way" "$program" "$scratch/record" "$out" --audit
        leaves "standard output $way, an audit" "$scratch/file"
        refuses "standard output $way, a record that is refused" 5 "" "$way" "$program" "$score" "$out" --audit
    done
else
    echo "not tried: records, which this program does not make"
fi

# scripts/faults goes on from a module that was read to its end.
true
