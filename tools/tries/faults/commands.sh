# The command as it is installed, and bin/formula: what they explain, and names below /dev; for scripts/faults.
# shellcheck shell=bash disable=SC2034,SC2154 # scripts/faults and its modules share their variables

# The command as it is installed, and bin/formula, in a copy that a wrong one may spoil.
FORMULA=$program "$top/scripts/install" "$scratch/installed" >/dev/null
mkdir -p "$scratch/copy/tools/gate"
cp -r "$top/bin" "$scratch/copy"
cp "$top/tools/gate/checkout.sh" "$scratch/copy/tools/gate"
installed() { timeout 20 "$scratch/installed/bin/formula" "$@"; }
scripted() { FORMULA=$program timeout 20 "$scratch/copy/bin/formula" "$@"; }
explained_script() { FORMULA=$program "$top/bin/formula" "$@"; }

# What both say beside the program's line, on standard error.
# explains NAME STATUS LINE TEXT WORDS: it ends so, tells this line, and explains it with this text. Standard input is a
# pipe from the file $input.
explains() {
    local status problem way
    for way in explained_script installed; do
        problem=
        # shellcheck disable=SC2002 # standard input has to be a pipe
        cat "${input:-/dev/null}" | "$way" "${@:5}" >"$scratch/said" 2>"$scratch/complaint"
        status=${PIPESTATUS[1]}
        [ "$status" = "$2" ] || problem="status $status in place of $2"
        { [ -z "$3" ] || printf '%s\n' "$3"; } | cmp -s - "$scratch/said" \
            || problem="$problem; the console got: $(cat "$scratch/said")"
        [ "$(cat "$scratch/complaint")" = "$4" ] || problem="$problem; it explained: $(cat "$scratch/complaint")"
        if [ -z "$problem" ]; then pass; else fail "$1, explained by $way" "$problem"; fi
    done
}
if command -v python3 >/dev/null; then
    usage='usage: formula IN OUT [--workers N] [--lead T] [--room K] [--generate N] [--rounds] [--list]'
    usage+=' [--locate T] [--process P] [--parts] [--from A] [--to B] [--record] [--audit]'
    explains "a score" 0 "" "" "$score" "$out"
    ln -s refused "$scratch/other"
    explains "one file" 3 "$(fault '1:20 fault 8')" "formula: IN and OUT are one file: OUT replaces it
$refused:1:20: \`1/7\` is 274.29 ticks, and no whole number of them (fault 8)
1 | formula 1; note c4 1/7;
  |                    ^
write a whole number of ticks: the nearest are \`1/6\`, \`1/8\`, \`ticks 274\`" \
        "$refused" "$scratch/other"
    explains "an option without effect" 0 "" "formula: --from has no effect beside --parts" "$score" "$out" --parts --from=5
    explains "both ends of an excerpt" 0 "" "" "$score" "$out" --to 5 --from 0
    explains "no words" 1 "$words" "IN and OUT are missing"$'\n'"$usage"
    explains "17 workers" 1 "$words" "--workers takes a number from 0 to 16, and 17 is none of them"$'\n'"$usage" \
        "$score" "$out" --workers 17
    explains "an unknown option" 1 "$words" "there is no option '--help'"$'\n'"$usage" "$score" "$out" --help
    explains "IN is missing" 2 "$read" "'$absent' cannot be read: No such file or directory" "$absent" "$out"
    explains "IN is a folder" 2 "$read" "'$folder' cannot be read: Is a directory" "$folder" "$out"
    explains "OUT is a folder" 4 "$write" "'$folder' cannot be written: Is a directory" "$score" "$folder"
    explains "OUT is in no folder" 4 "$write" "'$absent/out' cannot be written: No such file or directory" \
        "$score" "$absent/out"
    # a tab stands in both lines; of two bytes of a letter the caret is one column wide
    tab=$'\t'
    printf 'formula 1; # \xc3\xa9t\xc3\xa9\n\tnote c4 1/4; # \xc3\xa9\n\tNote c4 1/4;' >"$scratch/slips"
    explains "a capital letter" 3 "$(fault '3:2 fault 1')" "$scratch/slips:3:2: \`Note\` is no word of the language, by its\
 capital letter (fault 1)
3 | ${tab}Note c4 1/4;
  | ${tab}^
words have small letters alone: write \`note c4 1/4;\`" "$scratch/slips" "$out"
    printf 'formula 1;\nnote c4 1/4 # a quarter\n\nnote e4 1/4;' >"$scratch/slips"
    explains "a line without its end" 3 "$(fault '4:1 fault 3')" "$scratch/slips:2:12: here a \`;\` is expected, and\
 \`note\` of line 4 follows (fault 3)
2 | note c4 1/4 # a quarter
  |            ^
each statement ends with \`;\`: write \`note c4 1/4;\`" "$scratch/slips" "$out"
    printf 'formula 1;\tnote c4 \xc3\xa9' >"$scratch/slips"
    explains "a byte above 127" 3 "$(fault '1:20 fault 1')" "$scratch/slips:1:20: \`é\` begins no word of the language (fault 1)
1 | formula 1;${tab}note c4 é
  |           ${tab}        ^
a length is a part of a whole note, as in \`note c4, e4, g4 1/4;\`, or \`ticks 480\`; a computed one is\
 \`ticks (E) max 1920\`" "$scratch/slips" "$out"
    input=$refused explains "a text from a pipe" 3 "$(fault '1:20 fault 8')" "/dev/stdin:1:20: \`1/7\` is 274.29 ticks, and no whole\
 number of them (fault 8)
1 | formula 1; note c4 1/7;
  |                    ^
write a whole number of ticks: the nearest are \`1/6\`, \`1/8\`, \`ticks 274\`" /dev/stdin "$out"
    input=$score explains "a score from a pipe" 0 "" "" /dev/stdin "$out"
    input=/dev/zero explains "a text from a pipe without end" 3 "$(fault '1:1 fault 18')" \
        "/dev/stdin:1:1: more than 1,048,576 bytes (fault 18)
shorten the text; use phrases and loops" /dev/stdin "$out"
    head -c 41 "$scratch/file" >"$scratch/cut"
    input=$scratch/cut explains "a file that is cut" 3 "$(file_fault '41 fault 23')" "/dev/stdin: byte 41: the bytes end too early: a\
 chunk passes the end of the file, or an event the end of its track; or one to seven bytes follow the last chunk\
 (fault 23)
29 | 00 90 3C 40 83 30 80 3C 40 30 FF 2F
   |                                     ^^
copy or download the file again; where the program that wrote it was stopped, write it again; cut off what follows\
 the last chunk, as a line end" \
        /dev/stdin "$out" --list
    if locate >/dev/null; then
        explains "one file, and a tick" 0 "$located" "" "$score" "$score" --locate 5
        explains "no such process" 7 "$missing" "there is no process 1: 0 is what stands before the first \`par\`, and each\
 branch and what follows a \`par\` is one more, numbered as they stand in the text" "$score" "$out" --locate 5 --process 1
    fi
    if record >/dev/null; then
        clear_out
        explains "a score to be audited" 3 "$(record_fault '0 fault 41')" "$score: byte 0: this is a score, and not the\
 record of a run (fault 41)
0 | 66 6F 72 6D 75 6C 61 20 31 3B 20 6E
  | ^^
write \`--record\` in place of \`--audit\`, which makes the record of a run, and audit that" "$score" "$out" --audit
    fi
    clear_out
    if FORMULA=$program "$top/bin/formula" "$scratch/file" /dev/stdout --list | cmp -s - "$scratch/listing"; then
        pass
    else
        fail "bin/formula, a listing into a pipe" "it came otherwise"
    fi
    explains "one byte too many" 3 "$(fault '1:1 fault 18')" \
        "$scratch/too_much:1:1: more than 1,048,576 bytes (fault 18)
shorten the text; use phrases and loops" "$scratch/too_much" "$out"
    explains "a long line" 3 "$(fault '1:1048577 fault 3')" \
        "$scratch/most:1:1048577: the text is empty (fault 3)
1 | …
  |  $(printf '%60s' '')^
begin the text with \`formula 1;\`" "$scratch/most" "$out"
    clear_out
    for way in closed full unread; do
        [ "$way" != full ] || [ -c /dev/full ] || continue
        # shellcheck disable=SC2016 # bash -c expands it
        ends "bin/formula, standard output $way" 5 "" "$way" env FORMULA="$program" \
            bash -c '"$0" "$@" 2>/dev/null' "$top/bin/formula" "$refused" "$out"
    done
else
    echo "not tried: what bin/formula explains, since there is no python3"
fi

# Names below /dev, and closed descriptors, without explanations.
rm -r "$scratch/installed/lib/formula/python"
ln -s /dev/stdout "$scratch/link"
echo "$read" >"$scratch/line"
{ cat "$score" && head -c 2000 /dev/zero | tr '\0' '\n' && echo 'note e4 1/4;'; } >"$scratch/padded"
"$program" "$scratch/padded" "$scratch/padded_file"
error_closed() { "$@" 2>&-; }
onto() { "$@" >"$out"; }
into_cat() {
    "$@" | cat >"$out"
    return "${PIPESTATUS[0]}"
}
third_open() { "$@" 3<"$score"; }
third_closed() { "$@" 3<&-; }
for way in installed scripted; do
    refuses "$way, IN is standard input, closed" 3 "$(fault '1:1 fault 3')" input_closed "$way" /dev/stdin "$out"
    ends "$way, OUT is standard input, closed" 0 "" input_closed "$way" "$score" /dev/stdin
    ends "$way, OUT is standard output, closed" 0 "" closed "$way" "$score" /dev/stdout
    ends "$way, OUT is standard output, closed, a refused score" 5 "" closed "$way" "$refused" /dev/stdout
    leaves "$way, closed descriptors"
    for name in /dev/stdout /dev/fd/1 /proc/self/fd/1 "$scratch/link"; do
        ends "$way, OUT is $name, a file" 0 "" onto "$way" "$score" "$name"
        leaves "$way, OUT is $name, a file" "$scratch/file"
        ends "$way, tracks into $name, a file" 0 "" onto "$way" "$long" "$name" --parts
        leaves "$way, tracks into $name, a file" "$scratch/parts"
        ends "$way, tracks into $name, a pipe" 0 "" into_cat "$way" "$long" "$name" --parts
        leaves "$way, tracks into $name, a pipe" "$scratch/parts"
        ends "$way, a record into $name, a file" 0 "" onto "$way" "$score" "$name" --record
        ends "$way, its audit" 0 "" "$program" "$out" "$out" --audit
        leaves "$way, its audit" "$scratch/file"
    done
    ends "$way, IN is a descriptor that is open" 0 "" third_open onto "$way" /dev/fd/3 /dev/stdout
    leaves "$way, IN is a descriptor that is open" "$scratch/file"
    ends "$way, IN is a descriptor that nobody opened" 2 "" third_closed into_cat "$way" /dev/fd/3 /dev/stdout
    leaves "$way, IN is a descriptor that nobody opened" "$scratch/line"
    ends "$way, OUT is a pipe, standard input" 4 "$write" from_pipe "$score" "$way" "$score" /dev/stdin
    leaves "$way, OUT is a pipe, standard input"
    ends "$way, IN is a pipe" 0 "" from_pipe "$scratch/padded" "$way" /dev/stdin "$out"
    leaves "$way, IN is a pipe" "$scratch/padded_file"
done
refuses "a pipe that cannot be kept" 2 "$read" from_pipe "$scratch/padded" small scripted /dev/stdin "$out"
# The command as it is installed has no word and obeys no variable of its own, and needs nothing but its program. A
# signal that ends the program ends it, and one that ends it ends the program.
alone() { env PATH=/none "$scratch/installed/bin/formula" "$@"; }
plays "installed, with variables" env FORMULA=/none program=/none home=/none library=/none in=- out=- task=--list \
    given=--list most=1 said=no BASH_ENV=/none ENV=/none "$scratch/installed/bin/formula" "$score" "$out"
for word in --unproved --program; do
    refuses "installed, $word" 1 "$words" installed "$word"
    refuses "installed, $word with names" 1 "$words" installed "$word" "$score" "$out"
done
plays "installed, without any command" alone "$score" "$out"
refuses "installed, a refused score without any command" 3 "$(fault '1:20 fault 8')" alone "$refused" "$out"
ln -s installed/bin/formula "$scratch/formula"
plays "installed, by a link" "$scratch/formula" "$score" "$out"
ended_by_a_signal() {
    # bash tells of a signal, in the shell that waits
    (
        ulimit -f 1
        "$scratch/installed/bin/formula" "$@"
        exit $?
    ) 2>/dev/null
}
ends "installed, the signal XFSZ" $((128 + $(kill -l XFSZ))) "" ended_by_a_signal "$long" "$out"
leaves "installed, the signal XFSZ" "$scratch/begun"
ended_in_the_middle() {
    "$scratch/installed/bin/formula" "$@" &
    sleep 0.3
    kill -KILL $! && wait $! 2>/dev/null
    sleep 0.3
    pgrep -f "$scratch/installed/lib/formula/formula" >/dev/null || return 3
}
if [ -x /usr/bin/setpriv ] && command -v pgrep >/dev/null; then
    ends "installed, it is killed" 3 "" ended_in_the_middle none "$out" --generate 124
    clear_out
else
    echo "not tried: an installed command that is killed, since there is no setpriv or no pgrep"
fi
for way in installed scripted; do
    ends "$way, OUT is standard error, closed" 0 "" error_closed "$way" "$score" /dev/stderr
    leaves "$way, OUT is standard error, closed"
done
if cmp -s "$top/bin/formula" "$scratch/copy/bin/formula"; then
    pass
else
    fail "bin/formula" "a run has written to it"
fi

# scripts/faults goes on from a module that was read to its end.
true
