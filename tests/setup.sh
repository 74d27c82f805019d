# What the tests of the programs share. A case prepares a folder, says what is to be left in it, and runs a program twice: by itself and behind bdre.
# Compared are what is printed, what is said on standard error, bdre's exit status, and every file of the folder.
umask 022
vectors=$root/crates/image_test/data
tallies=$root/crates/frame_gaps_test/stdin
room=$(mktemp -d)
trap 'rm -rf "$room"' EXIT
trap 'exit 1' HUP INT TERM
cases=0

# bdre with the programs beside it, as it stands once they are built, and the programs where rt leaves them
mkdir -p "$room/home/target" "$room/home/crates"
cp "$root/bdre" "$room/home/bdre"
cp "$root/crates.txt" "$room/home/crates.txt"
cp -R "$root/target/tests/bin" "$room/home/target/bin"
for program in encode decode mark sheet queue tally ahead; do
    mkdir -p "$room/home/crates/$program/out"
    cp "$root/target/tests/bin/$program" "$room/home/crates/$program/out/$program"
done
touch "$room/home/target/bdre.built"

fail() {
    echo "tests: $*" >&2
    exit 1
}

# A new case: an empty folder.
begin() {
    title=$1
    rm -rf "$room/before" "$room/after"
    mkdir "$room/before" "$room/after"
}

# A file that is there before the program runs, and is to be there behind it, unchanged.
given() {
    cp "$2" "$room/before/$1"
    cp "$2" "$room/after/$1"
}

given_folder() {
    mkdir "$room/before/$1" "$room/after/$1"
}

# A file that the program is to leave.
left() {
    cp "$2" "$room/after/$1"
}

# User bytes, side data and dc words of a cluster as files to read.
given_cluster() {
    given user "$vectors/$1.user"
    given side "$vectors/$1.side"
    given dc "$vectors/$1.dc"
}

# A line, or nothing.
lines() {
    [ -z "$1" ] || printf '%s\n' "$1"
}

compare() {
    cmp -s "$1" "$2" && return
    echo "wanted:" >&2
    cat "$1" >&2
    echo "got:" >&2
    cat "$2" >&2
    fail "$title: $how: $3"
}

# Runs a command in a copy of the folder and compares. A wrong program may not end by itself.
run_once() {
    how=$1
    wanted=$2
    shift 2
    rm -rf "$room/now"
    cp -R "$room/before" "$room/now"
    status=0
    (cd "$room/now" && timeout -k 5 120 "$@" <"$room/input" >"$room/said" 2>"$room/complained") || status=$?
    [ "$status" -eq "$wanted" ] || fail "$title: $how: exit status $status, wanted $wanted"
    compare "$room/say" "$room/said" "another text is printed"
    compare "$room/complain" "$room/complained" "another line on standard error"
    diff -r "$room/after" "$room/now" >&2 || fail "$title: $how: other files are left"
    cases=$((cases + 1))
}

# What is to be printed and complained of; without an input of the case's own, standard input is empty.
expect() {
    lines "$1" >"$room/say"
    lines "$2" >"$room/complain"
    [ -e "$room/input" ] || : >"$room/input"
}

# ends STATUS PRINTED COMPLAINED PROGRAM ARGUMENTS: what a program is to do, by itself and behind bdre.
ends() {
    behind=$1
    expect "$2" "$3"
    name=$4
    shift 4
    run_once "$name" 0 "$room/home/target/bin/$name" "$@"
    run_once "bdre $name" "$behind" "$room/home/bdre" "$name" "$@"
}

# Only behind bdre.
bdre_ends() {
    behind=$1
    expect "$2" "$3"
    shift 3
    run_once "bdre $*" "$behind" "$room/home/bdre" "$@"
}

# no_arguments PROGRAM INPUT: a program that reads standard input and takes no argument.
no_arguments() {
    begin "$1: arguments"
    for argument in file '' --help; do ends 2 "usage: $1 < $2" '' "$1" "$argument"; done
    ends 2 "usage: $1 < $2" '' "$1" 02 02
}

# unusable PROGRAM TITLE COMPLAINED SCRIPT: an input or output of such a program that cannot be used: it ends with 0, bdre with 1.
unusable() {
    begin "$1: $2"
    expect '' "$3"
    run_once "$1" 0 sh -c "$4" - "$room/home/target/bin/$1"
    run_once "bdre $1" 1 sh -c "$4" - "$room/home/bdre" "$1"
}

# A byte, given as a number, at an offset of a file.
poke() {
    printf "\\$(printf '%03o' "$3")" | dd of="$1" bs=1 seek="$2" conv=notrunc 2>/dev/null
}

# A copy of a file with one byte changed.
changed() {
    cp "$1" "$2"
    poke "$2" "$3" "$4"
}

# The damaged images of zone1: records of an offset in four bytes and a new byte, an offset of ffffffffh behind each image; image NAME is that
# of its line in zone1.damage.txt.
damaged() {
    line=$(grep -n "^$1 " "$vectors/zone1.damage.txt" | cut -d: -f1)
    [ -n "$line" ] || fail "no damaged image $1"
    cp "$vectors/zone1.image" "$2"
    awk -v image="$line" '
        BEGIN { at = 1 }
        $1 == "end" { at++; next }
        at == image { print $1, $2 }
    ' "$room/records" >"$room/patch"
    while read -r offset byte; do poke "$2" "$offset" "$byte"; done <"$room/patch"
}
od -An -v -tu1 "$vectors/zone1.damage" | tr -s ' ' '\n' | awk '
    NF { n++; v = n % 5 ? v * 256 + $1 : v }
    NF && n % 5 == 0 { print v == 4294967295 ? "end" : v, $1; v = 0 }
' >"$room/records"

# The PSN of an outside cluster.
psn_of() {
    sed -n "s/^$1 //p" "$root/tests/psns"
}

# What is printed of an outside cluster that was read, with this first #.
read_as() {
    psn_of "$1"
    echo "first # $2"
}

# The image of an outside cluster with this first #: ONE changes the first bit of the image with ZERO, and nothing else.
image_with() {
    cp "$vectors/$1.image" "$3"
    [ "$2" -eq 0 ] || poke "$3" 0 $(($(od -An -tu1 -N 1 "$3") + 128))
}

# The first byte in which two files differ, counted from 0.
first_other() {
    echo $(($(cmp "$1" "$2" | sed 's/.*differ: [a-z]* \([0-9]*\),.*/\1/') - 1))
}

# A copy of a file with another byte at an offset.
other_byte() {
    byte=$(od -An -tu1 -j "$3" -N 1 "$1")
    changed "$1" "$2" "$3" $(((byte + 1) % 256))
}
