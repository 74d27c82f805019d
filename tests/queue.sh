# queue: the outside records as one run, lines of every kind, input in parts, answers at once, and what cannot be read or written.
records=$root/crates/queue/stdin
answers=$(cat "$root/crates/queue/stdout")
program=$room/home/target/bin/queue
bdre=$room/home/bdre

submitted='0 0 0 00000000'
none='0 0 255 00000000'
six='6 0 0 00000000 the PSN is no multiple of 32'
seven='7 0 0 00000000 the PSN lies in no data zone'
unknown='26 0 0 00000000 the record is no submit and no serve'
no_bench='27 0 0 00000000 the bench is above 3'
waiting='28 0 0 00000000 the bench has a waiting order'

# The outside records: all answers, 400 of them.
[ "$(wc -l <"$records")" -eq 400 ] || fail "queue: not all outside records are there"
cp "$records" "$room/input"
begin 'queue: the outside records'
ends 0 "$answers" '' queue
begin 'queue: the outside records, with capital digits'
tr a-f A-F <"$records" >"$room/input"
ends 0 "$answers" '' queue
begin 'queue: the outside records, the last without a line feed'
printf '%s' "$(cat "$records")" >"$room/input"
ends 0 "$answers" '' queue

# answered TITLE TEXT ANSWER..: a text, with \ as printf has it, and a line for each of its records.
answered() {
    begin "queue: $1"
    printf -- "$2" >"$room/input"
    shift 2
    ends 0 "$(for line in "$@"; do printf '%s\n' "$line"; done)" '' queue
}
answered 'no bytes' ''
answered 'a serve' '02\n' "$none"
answered 'a serve without a line feed' '02' "$none"
answered 'a run that submits' '010300100000\n' "$submitted"
answered 'the next run begins empty' '02\n010300100000\n' "$none" "$submitted"
answered 'empty lines' '\n\n\n' "$unknown" "$unknown" "$unknown"
answered 'an empty line before a serve, and behind it' '\n02\n\n' "$unknown" "$none" "$unknown"
answered 'capital and small digits' '010000aBCdE0\n02\n' "$submitted" '0 0 0 00abcde0'
answered 'round from bench 0' '010300100000\n010200100020\n010100100040\n010000100060\n02\n02\n02\n02\n02\n' \
    "$submitted" "$submitted" "$submitted" "$submitted" '0 0 0 00100060' '0 0 1 00100040' '0 0 2 00100020' '0 0 3 00100000' "$none"
answered 'on from the bench served last' '010100100000\n02\n010100100000\n010000100020\n010200100040\n02\n02\n02\n' \
    "$submitted" '0 0 1 00100000' "$submitted" "$submitted" "$submitted" '0 0 2 00100040' '0 0 0 00100020' '0 0 1 00100000'
answered 'a serve of none leaves the turn' '010000100000\n02\n02\n010000100020\n010100100040\n02\n' \
    "$submitted" '0 0 0 00100000' "$none" "$submitted" "$submitted" '0 0 1 00100040'
answered 'each zone' '010000100000\n010102f76400\n010205089be0\n02\n02\n02\n' \
    "$submitted" "$submitted" "$submitted" '0 0 0 00100000' '0 0 1 02f76400' '0 0 2 05089be0'
answered '6 and 7' '010000100001\n010000000000\n010006000001\n0100000fffe0\n01000010001f\n02\n' \
    "$six" "$seven" "$six" "$seven" "$six" "$none"
answered '27' '010400100000\n01ff00100000\n010400100001\n02\n' "$no_bench" "$no_bench" "$no_bench" "$none"
answered '28, before 6 and 7, keeps the order' '010200100000\n010200100020\n010200100001\n010206000000\n02\n' \
    "$submitted" "$waiting" "$waiting" "$waiting" '0 0 2 00100000'
answered '26 before 27' '0104001000\n01040010000000\n' "$unknown" "$unknown"
answered 'other text leaves the queue' '010200100000\nserve\n\n0200\n02\n' "$submitted" "$unknown" "$unknown" "$unknown" '0 0 2 00100000'

# no_record TITLE TEXT: a line that is no submit and no serve, between two that are.
no_record() {
    answered "$1" "010300100000\n$2\n02\n" "$submitted" "$unknown" '0 0 3 00100000'
    answered "$1, without a line feed" "$2" "$unknown"
}
no_record 'one digit' 2
no_record 'three digits' 020
no_record 'three digits, the serve last' 002
no_record 'eleven digits' 01000010000
no_record 'thirteen digits' 0100001000000
no_record 'kind 0' 00
no_record 'kind 3' 03
no_record 'kind ff' ff
no_record 'a submit alone' 01
no_record 'a submit of five bytes' 0100001000
no_record 'a submit of seven bytes' 01000010000000
no_record 'a serve with a body' 0200
no_record 'a serve of six bytes' 020000100000
no_record 'two serves' 0202
no_record 'a carriage return' '02\r'
no_record 'a carriage return behind a submit' '010000100000\r'
no_record 'a blank in front' ' 02'
no_record 'a blank behind' '02 '
no_record 'a blank within' '0 2'
no_record 'blanks between the bytes' '01 00 00 10 00 00'
no_record 'a tab' '\t02'
no_record 'a blank alone' ' '
no_record 'a carriage return alone' '\r'
no_record 'a sign' '+2'
no_record '0x' '0x02'
no_record 'a dash' -
no_record 'words' serve
for byte in / : @ G '\140' g; do no_record "0$byte" "0$byte"; done
no_record 'a zero byte behind' '02\000'
no_record 'a zero byte in front' '\00002'
no_record 'a zero byte within' '0\0002'
no_record 'a zero byte alone' '\000'
no_record 'a digit with its highest bit' '0\262'
no_record 'a byte above 127' '\37702'
no_record 'a byte-order mark' '\357\273\27702'
no_record 'a form feed' '\f02'

# long TITLE COUNT BYTES START: a line of so many times the bytes, behind a start, between two records.
long() {
    { printf '010300100000\n%s' "$4" && awk -v n="$2" -v bytes="$3" 'BEGIN { for (i = 0; i < n; i++) printf "%s", bytes }'; } >"$room/long"
    begin "queue: $1"
    { cat "$room/long" && printf '\n02\n'; } >"$room/input"
    ends 0 "$submitted
$unknown
0 0 3 00100000" '' queue
    begin "queue: $1, without a line feed"
    cp "$room/long" "$room/input"
    ends 0 "$submitted
$unknown" '' queue
}
long 'a serve and 256 bytes' 256 02 02
long 'a submit and 256 bytes' 256 00 010000100000
long 'a serve and 65536 bytes' 65536 02 02
long 'a submit and 65536 bytes' 65536 00 010000100000
long '300001 digits' 300000 0 2
long '200000 bytes of other text' 200000 x ''
long 'a submit and blanks' 200000 ' ' 010000100000
long 'other text, then digits' 100000 02 x

# The ends of parts of 65,536 bytes fall within lines, and on them: other text in front moves them by a byte each.
for more in 0 1 2 3 4 5 6 7 8 9 10 11 12 13 14 15 16; do
    begin "queue: a part ends within records, $more"
    { awk -v n="$((65519 + more))" 'BEGIN { for (i = 0; i < n; i++) printf "x"; print "" }' && printf '010300abcde0\n02\n02\n'; } >"$room/input"
    ends 0 "$unknown
$submitted
0 0 3 00abcde0
$none" '' queue
done
begin 'queue: 40000 records'
awk 'BEGIN { for (i = 0; i < 20000; i++) printf "010%d%08x\n02\n", i % 4, 1048576 + 32 * i }' >"$room/input"
ends 0 "$(awk 'BEGIN { for (i = 0; i < 20000; i++) printf "0 0 0 00000000\n0 0 %d %08x\n", i % 4, 1048576 + 32 * i }')" '' queue

# Input in small parts, with time between them.
: >"$room/input"
lines "$submitted
0 0 3 00abcde0
$none" >"$room/say"
: >"$room/complain"
for command in "$program" "$bdre queue"; do
    begin "queue: input in parts"
    run_once "$command" 0 sh -c '{ for part in 0 103 00ABCDE "0\n" "02\n0" 2; do printf "$part" && sleep 0.1; done; } | $1' - "$command"
done

# Each answer is there before the next record is.
trap 'fail "queue: it ends before its input does"' PIPE
for command in "$program" "$bdre queue"; do
    rm -f "$room/pipe" "$room/said"
    mkfifo "$room/pipe"
    $command <"$room/pipe" >"$room/said" &
    exec 4>"$room/pipe"
    n=0
    for record in 02 010100100000 02 x; do
        printf '%s\n' "$record" >&4
        n=$((n + 1))
        tries=0
        while [ ! -e "$room/said" ] || [ "$(wc -l <"$room/said")" -lt "$n" ]; do
            tries=$((tries + 1))
            [ "$tries" -lt 500 ] || fail "queue: $command: record $n gets no answer while the input is open"
            sleep 0.02
        done
    done
    exec 4>&-
    wait "$!" || fail "queue: $command: another status behind single records"
    title='queue: single records'
    how=$command
    lines "$none
$submitted
0 0 1 00100000
$unknown" >"$room/say"
    compare "$room/say" "$room/said" "another text is printed"
    cases=$((cases + 1))
done
trap - PIPE

# An input that does not end, to a reader who does; where the reader ends first, queue is not done.
lines "$none
$none" >"$room/say"
for command in "$program" "$bdre queue"; do
    begin "queue: an endless input"
    run_once "$command" 0 sh -c 'yes 02 2>/dev/null | $1 2>/dev/null | head -n 2' - "$command"
done
begin 'queue: a reader who ends first'
lines "$none
1" >"$room/say"
run_once 'bdre queue' 0 sh -c '{ { yes 02 2>/dev/null | "$1" queue 2>/dev/null; echo "$?" >&5; } | head -n 1; } 5>&1' - "$bdre"

# Bad arguments; what cannot be read or written.
no_arguments queue RECORDS
printf '02\n02\n' >"$room/input"
unusable queue 'standard input closed' 'standard input: Bad file descriptor' '"$@" <&-'
unusable queue 'a folder as standard input' 'standard input: Is a directory' '"$@" <.'
unusable queue 'answers to a full disk' 'standard output: No space left on device' '"$@" >/dev/full'
printf '02' >"$room/input"
unusable queue 'the last answer to a full disk' 'standard output: No space left on device' '"$@" >/dev/full'
unusable queue 'endless answers to a full disk' 'standard output: No space left on device' 'yes 02 2>/dev/null | "$@" >/dev/full'
: >"$room/input"
