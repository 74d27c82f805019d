# ahead: the outside frames, frames made by hand, other lengths and dc words, and what cannot be read or written. Input is standard input.
frames=$root/crates/look_ahead_test/stdin
needs=$root/crates/look_ahead_test/stdout
program=$room/home/target/bin/ahead
bdre=$room/home/bdre

wrong_row='21 0
the frame is not 155 bytes'
wrong_dc='8 0
dc word 0 is above 0FFFFFFF'

needed() {
    begin "ahead: $1"
    ends 0 "$2" '' ahead
}

refused() {
    begin "ahead: $1"
    ends 1 "$2" '' ahead
}

# Outside frame n.
outside() {
    dd if="$frames" bs=159 skip="$1" count=1 2>/dev/null
}

n=0
while read -r number place bits; do
    [ "$number" -eq 0 ] || continue
    outside "$n" >"$room/input"
    needed "outside frame $n" "$bits"
    n=$((n + 1))
done <"$needs"
[ "$n" -eq 24 ] && [ "$(wc -c <"$frames")" -eq 3816 ] || fail "ahead: not all outside frames were tried"

# made TITLE MOST AT BITS: a frame of the pair 01, 634 times, but with these bits from bit AT on.
made() {
    bytes=$(awk -v at="$3" -v bits="$4" '
        BEGIN {
            for (i = 0; i < 634; i++) frame = frame "01"
            frame = substr(frame, 1, at) bits substr(frame, at + length(bits) + 1)
            dc = "0000"
            for (j = 0; j < 1268; j++) {
                bit = substr(frame, j + 1, 1)
                if ((j + 20) % 46 == 45) dc = dc bit; else row = row bit
            }
            all = dc row
            for (k = 0; k < 159; k++) {
                byte = 0
                for (i = 1; i <= 8; i++) byte = 2 * byte + substr(all, 8 * k + i, 1)
                printf "\\%03o", byte
            }
        }')
    printf "$bytes" >"$room/input"
    needed "$1" "$2"
}

# Words of one pair, and of more.
made '01 alone' 2 0 ''
made '10' 2 600 10
made '0001' 4 600 0001
made '000001' 6 600 000001
made '00000001: three pairs, or four with 00 behind them' 8 600 00000001
made '00000000' 8 600 00000000
made '00001001: three pairs, or four with 00 behind them' 8 600 00001001
# 11, alone or substituted with 0111 behind it, which the modulation bits behind these decide.
made '1100' 4 600 1100
made '1110' 4 600 1110
made '1111 and 01 behind it' 6 600 1111
made '11 and 01 behind it' 6 600 11
made '110111 and 01 behind it' 8 600 110111
made '11011110' 8 600 11011110
made '1101111101' 8 600 1101111101
made '1101110001' 10 600 1101110001
made '1101110010' 10 600 1101110010
made '110111000001' 12 600 110111000001
made '110111000010' 12 600 110111000010
# Bit 25 of the frame is the first dc-control bit, bit 71 the second.
for at in 0 2 14 16 24 62 70 300 700 1254; do made "110111000001 at bit $at" 12 "$at" 110111000001; done
# The same bits where no word begins: a word 0011, and a word 01 that ends within them.
made '110111000001 behind 00' 6 600 00110111000001
made '110111000001 at an odd bit' 6 601 110111000001
# The frame's end: no bits stand behind it.
made 'the last two bits 00' 2 1266 00
made 'the last two bits 11' 2 1266 11
made 'the last four bits 1101' 2 1264 1101
made 'the last four bits 1100' 2 1264 1100
made 'the last four bits 0000' 4 1264 0000
made 'the last six bits 000000' 6 1262 000000
made 'the last six bits 000010' 6 1262 000010
made 'the last eight bits 00000000' 8 1260 00000000
made 'the last eight bits 00000001' 8 1260 00000001
made 'the last six bits 110101' 2 1262 110101
made 'the last six bits 110111' 2 1262 110111
made 'the last eight bits 11010101' 6 1260 11010101
made 'the last eight bits 11011101' 8 1260 11011101
made 'the last eight bits 11011100' 8 1260 11011100
made 'the last ten bits 1101110001' 10 1258 1101110001
made 'the last ten bits 1101110000' 10 1258 1101110000
made 'the last twelve bits 110111000000' 12 1256 110111000000
made 'the last twelve bits 110111000001' 12 1256 110111000001

# Other lengths, and dc words; 21 comes before 8.
outside 5 >"$room/frame"

# with_dc DIGITS: the frame with another dc word.
with_dc() {
    for byte in $(printf '%s' "$1" | sed 's/../0x& /g'); do printf "\\$(printf '%03o' "$byte")"; done
    tail -c +5 "$room/frame"
}

# of_length FILE SIZE: so many bytes of a file.
of_length() {
    head -c "$2" "$1" >"$room/input"
    refused "$2 bytes" "$wrong_row"
}
cat "$room/frame" "$room/frame" >"$room/frames"
for size in 0 1 3 4 155 158 160 318; do of_length "$room/frames" "$size"; done
for word in 00000000 10000000 FFFFFFFF; do
    { with_dc "$word" && printf x; } >"$room/long"
    of_length "$room/long" 158
    of_length "$room/long" 160
done
for word in 10000000 1FFFFFFF 80000000 FFFFFFFF; do
    with_dc "$word" >"$room/input"
    refused "dc word $word" "$wrong_dc"
done
# All data bits are ones: a word 11 has 11 or 10 behind it.
outside 1 >"$room/frame"
for word in 0FFFFFFF 00000000 08000000 00000001; do
    with_dc "$word" >"$room/input"
    needed "ones and the dc word $word" 4
done

# Input in two parts with time between them, and input that does not end.
outside 5 >"$room/frame"
: >"$room/complain"
for command in "$program" "$bdre ahead"; do
    begin "ahead: input in two parts"
    lines 10 >"$room/say"
    run_once "$command" 0 sh -c '{ head -c 100 "$1" && sleep 0.2 && tail -c +101 "$1"; } | $2' - "$room/frame" "$command"
done
lines "$wrong_row" >"$room/say"
begin "ahead: a byte more, later"
run_once ahead 0 sh -c '{ cat "$1" && sleep 0.2 && printf x; } | "$2"' - "$room/frame" "$program"
run_once 'bdre ahead' 1 sh -c '{ cat "$1" && sleep 0.2 && printf x; } | "$2" ahead' - "$room/frame" "$bdre"
begin "ahead: an endless input"
run_once ahead 0 sh -c 'yes 2>/dev/null | "$1"' - "$program"
run_once 'bdre ahead' 1 sh -c 'yes 2>/dev/null | "$1" ahead' - "$bdre"

# Bad arguments; what cannot be read or written.
cp "$room/frame" "$room/input"
no_arguments ahead FRAME
unusable ahead 'standard input closed' 'standard input: Bad file descriptor' '"$@" <&-'
unusable ahead 'a folder as standard input' 'standard input: Is a directory' '"$@" <.'
# Behind bdre the shell says it in its own words.
begin 'ahead: the number to a full disk'
expect '' 'standard output: No space left on device'
run_once ahead 0 sh -c '"$1" >/dev/full' - "$program"
expect '' ''
run_once 'bdre ahead' 1 sh -c '"$1" ahead >/dev/full 2>/dev/null' - "$bdre"
: >"$room/input"
