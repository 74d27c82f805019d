# tally: the example of document 01, frames of a known cluster, and what is refused. Input is standard input.
table() {
    printf 'gap count'
    length=1
    for count in "$@"; do
        printf '\n%d %d' "$length" "$count"
        length=$((length + 1))
    done
}

# Record n of the tally's inputs.
record() {
    dd if="$tallies" bs=161 skip="$1" count=1 2>/dev/null
}

tallied() {
    begin "tally: $1"
    ends "$2" "$3" '' tally
}

cp "$root/crates/tally/stdin" "$room/input"
tallied "document 01's example" 0 "$(table 160 319 158 0 0 0 0 2)"
n=0
while read -r counts; do
    record "$n" >"$room/input"
    tallied "record $n" 0 "$(table $counts)"
    n=$((n + 1))
done <<'END'
204 144 98 48 47 14 7 2
204 143 86 61 35 18 11 2
211 140 104 55 38 11 9 2
215 120 99 50 40 23 9 2
252 184 97 54 22 9 0 2
196 91 124 70 35 19 7 2
209 188 70 48 31 15 15 2
END

record 0 >"$room/frame"
begin "tally: input in two parts"
lines "$(table 204 144 98 48 47 14 7 2)" >"$room/say"
: >"$room/complain"
run_once tally 0 sh -c '{ head -c 100 "$1" && sleep 0.2 && tail -c +101 "$1"; } | "$2"' - "$room/frame" "$room/home/target/bin/tally"
with() {
    changed "$room/frame" "$room/input" "$2" "$3"
    tallied "$1" "$4" "$5"
}
with "# ZERO" 0 0 0 "$(table 204 144 98 48 47 14 7 2)"
with "# ONE" 0 1 0 "$(table 205 144 98 48 47 14 7 2)"
with "sync number 6" 1 6 0 "$(table 204 144 98 48 47 14 7 2)"
with "# 2" 0 2 1 refused
with "# 255" 0 255 1 refused
with "sync number 7" 1 7 1 refused
with "sync number 255" 1 255 1 refused
with "dc word 10......h" 2 16 1 refused
with "dc word ff......h" 2 255 1 refused

head -c 160 "$room/frame" >"$room/input"
tallied "160 bytes" 1 refused
{ cat "$room/frame" && printf '\000'; } >"$room/input"
tallied "162 bytes" 1 refused
{ cat "$room/frame" && cat "$room/frame"; } >"$room/input"
tallied "322 bytes" 1 refused
: >"$room/input"
tallied "no bytes" 1 refused
