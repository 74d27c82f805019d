# sheet: the outside sheets, lines of every kind, long files, and what is refused.
sheets=$root/crates/sheet/data/sheets.txt

# Words of an answer; the line of its entry, where it names one.
words() {
    case $1 in
        6) echo "line $2: the PSN is no multiple of 32" ;;
        7) echo "line $2: the PSN lies in no data zone" ;;
        23) echo 'the sheet has not 1 to 64 PSNs' ;;
        24) echo "line $2: an earlier entry has the same PSN" ;;
    esac
}

# judged TITLE NUMBER PLACE LINE: what is to be said of the file that stands in the room.
judged() {
    begin "sheet: $1"
    given file "$room/file"
    if [ "$2" -eq 0 ]; then
        ends 0 '0 0' '' sheet file
    else
        ends 1 "$2 $3
$(words "$2" "$4")" '' sheet file
    fi
}

# Each outside sheet: a PSN a line, so entry n stands in line n + 1; then with a blank line before each, and digits in small letters.
n=0
while read -r number place psns; do
    printf '%s\n' "$psns" | tr , '\n' >"$room/file"
    judged "outside sheet $n" "$number" "$place" $((place + 1))
    tr A-F a-f <"$room/file" | sed 's/^/\n/' >"$room/spaced"
    mv "$room/spaced" "$room/file"
    judged "outside sheet $n, every other line blank" "$number" "$place" $((2 * place + 2))
    n=$((n + 1))
done <"$sheets"
[ "$n" -eq 38 ] || fail "sheet: not all outside sheets were tried"

# contents TITLE NUMBER PLACE LINE TEXT: a file of this text, with \ as printf has it.
contents() {
    printf -- "$5" >"$room/file"
    judged "$1" "$2" "$3" "$4"
}
contents 'no line feed at the end' 0 0 0 '00100000\n00100020'
contents 'one line without an end' 0 0 0 '00100000'
contents 'blank lines before, between and behind' 0 0 0 '\n\n00100000\n\n\n00100020\n\n\n'
contents 'lines of white bytes are blank' 24 1 5 ' \n\t\n00100000\n \t\r \n00100000\n\r\n'
contents 'carriage returns before line feeds' 24 1 2 '00100000\r\n00100000\r\n'
contents 'white bytes behind a PSN' 24 1 2 '00100000 \t \n00100000   '
contents 'capital and small digits are one number' 24 1 2 '00abcde0\n00ABCDE0\n'
contents 'no bytes' 23 0 0 ''
contents 'blank lines alone' 23 0 0 '\n \n\t\r\n\n'
contents '6 before 7' 6 1 2 '06000000\n00100001\n'
contents '7 before 24' 7 2 3 '00100000\n00100000\n06000000\n'
contents 'the lowest of two that 6 refuses' 6 1 2 '00100000\n00100001\n00100003\n'
contents 'the lowest repetition, behind two first entries' 24 2 3 '00100000\n00100020\n00100020\n00100000\n'
contents 'a repetition far behind' 24 3 4 '00100000\n00100020\n00100040\n00100000\n'

# psns FIRST COUNT: so many PSNs, from the first of zone 0 on.
psns() {
    awk -v first="$1" -v count="$2" 'BEGIN { for (i = 0; i < count; i++) printf "%08X\n", 1048576 + 32 * (first + i) }'
}
psns 0 64 >"$room/file"
judged '64 PSNs' 0 0 0
{ psns 0 63 && psns 0 1; } >"$room/file"
judged 'the 64th repeats the first' 24 63 64
psns 0 65 >"$room/file"
judged '65 PSNs' 23 0 0
{ psns 0 64 && psns 0 1; } >"$room/file"
judged '65, of which the last repeats the first' 23 0 0
{ psns 0 64 && echo 00100001; } >"$room/file"
judged '65, of which the last is no multiple of 32' 23 0 0
psns 0 129 >"$room/file"
judged '129 PSNs' 23 0 0
psns 0 300000 >"$room/file"
judged '300000 PSNs, read in many parts' 23 0 0
{ psns 0 1 && awk 'BEGIN { for (i = 0; i < 200000; i++) print "" }' && psns 0 1; } >"$room/file"
judged 'a repetition behind 200000 blank lines' 24 1 200002
{ printf '00100000' && awk 'BEGIN { for (i = 0; i < 200000; i++) printf " " }' && printf '\n00100001\n'; } >"$room/file"
judged 'a line of 200008 bytes' 6 1 2

# The ends of parts of 65,536 bytes fall within lines, and on them: blank lines in front move them by a byte each.
for blank in 0 1 2 3 4 5 6 7 8 9; do
    { awk -v n="$blank" 'BEGIN { for (i = 0; i < n; i++) print "" }' && awk 'BEGIN { for (i = 0; i < 65527; i++) printf "\n" }' && printf '00100020\n00100000\n00100020\n'; } >"$room/file"
    judged "a part ends behind a PSN's line, beside the PSN or within it, $blank" 24 2 $((65527 + blank + 3))
done

begin 'sheet: a file in two reads'
lines '24 1
line 2: an earlier entry has the same PSN' >"$room/say"
: >"$room/complain"
: >"$room/input"
run_once sheet 0 sh -c '{ printf 001000 && sleep 0.2 && printf "00\n00100000\n"; } | "$1" /dev/stdin' - "$room/home/target/bin/sheet"

# no_psn TITLE LINE TEXT: a line that is no PSN is named, and there is no answer.
no_psn() {
    begin "sheet: $1"
    printf -- "$3" >"$room/file"
    given file "$room/file"
    ends 1 '' "file: line $2: not eight hexadecimal digits" sheet file
}
no_psn 'seven digits' 2 '00100000\n0010002\n'
no_psn 'nine digits' 1 '001000000\n00100020\n'
no_psn 'another letter' 1 '0010000g\n'
no_psn 'a slash' 1 '/0100000\n'
no_psn 'a colon' 1 ':0100000\n'
no_psn 'a sign' 1 '-0100000\n'
no_psn 'white bytes in front' 1 ' 00100000\n'
no_psn 'white bytes within' 1 '0010 0000\n'
no_psn 'two on a line' 3 '\n00100020\n00100000 00100040\n'
no_psn 'a carriage return within' 1 '0010000\r0\n'
no_psn 'a zero byte' 1 '001000\0000\n'
no_psn 'a byte above 127' 1 '\3740100000\n'
no_psn 'a byte-order mark' 1 '\357\273\27700100000\n'
no_psn 'a form feed' 2 '00100000\n\f\n'
no_psn 'the last line, without its end' 4 '00100000\n\n00100020\n0010004'
no_psn 'the first of several' 2 '00100000\nx\ny\n'
no_psn 'before entries that are refused' 3 '00100001\n06000000\nx\n00100001\n'
no_psn 'one digit' 1 '0'

{ psns 0 100 && echo x; } >"$room/long"
begin 'sheet: behind more than 64 entries'
given file "$room/long"
ends 1 '' 'file: line 101: not eight hexadecimal digits' sheet file
awk 'BEGIN { for (i = 0; i < 70000; i++) printf "0" }' >"$room/long"
begin 'sheet: a line of 70000 digits'
given file "$room/long"
ends 1 '' 'file: line 1: not eight hexadecimal digits' sheet file

# Bad arguments and files.
begin 'sheet: no argument, and two'
printf '00100000\n' >"$room/file"
given file "$room/file"
ends 2 'usage: sheet FILE' '' sheet
ends 2 'usage: sheet FILE' '' sheet file file
begin 'sheet: a file whose name is -'
given - "$room/file"
ends 0 '0 0' '' sheet -
begin 'sheet: no such file'
ends 1 '' 'file: No such file or directory' sheet file
begin 'sheet: a folder'
given_folder file
ends 1 '' 'file: Is a directory' sheet file
begin 'sheet: an empty name'
ends 1 '' 'a file name is missing, empty or too long' sheet ''
begin 'sheet: a name too long'
ends 1 '' 'a file name is missing, empty or too long' sheet "$(printf '%05000d' 0)"
begin 'sheet: from standard input'
printf '00100000\n00100000\n' >"$room/input"
ends 1 '24 1
line 2: an earlier entry has the same PSN' '' sheet /dev/stdin
: >"$room/input"
