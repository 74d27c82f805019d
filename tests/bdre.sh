# bdre: its own usage, the paths by which it finds one file under two names, and what it says where it cannot build.
usage=$(cat help.txt)
begin "bdre: help, version, usage"
bdre_ends 0 "$usage" '' --help
version=$(sed -n 's/^#define BDRE_VERSION "\(.*\)".*/\1/p' "$root/include/bdre.h")
bdre_ends 0 "bdre $version" '' --version
grep -qxF "pub const VERSION: &str = \"$version\";" "$root/include/bdre.rs" || fail "the header and the wrapper for Rust say other versions"
for words in '' 'enkode' 'tally more' 'demo more'; do
    bdre_ends 2 "$usage" '' $words
done

one_file() {
    begin "bdre $1: one file under two names"
    all_but none
    ln -s user "$room/before/link"
    ln -s user "$room/after/link"
    mkdir "$room/before/folder" "$room/after/folder"
    behind=$1
    shift
    bdre_ends 1 '' "$behind" "$@"
}
one_file './user: it is read and is to be written' encode "$psn" user side dc ./user
one_file 'folder/../side: it is read and is to be written' encode "$psn" user side dc folder/../side
one_file 'user: it is read and is to be written' encode "$psn" link side dc user
one_file './user: it is read and is to be written' encode "$psn" user side dc ./user 1
one_file './image: it is read and is to be written' decode image ./image s d
one_file './dc: it is read and is to be written' encode "$psn" user side dc ./dc
one_file './image: it is read and is to be written' decode image u ./image d
one_file './image: it is read and is to be written' decode image u s ./image
one_file 'folder/../u: it is to be written twice' decode image u folder/../u d
one_file './u: it is to be written twice' decode image u s ./u
one_file './s: it is to be written twice' decode image u s ./s
one_file './u.part: it is to be written twice' decode image u ./u.part d
one_file './u: it is to be written twice' decode image u.part ./u d
begin "bdre encode: bad usage before names"
all_but none
bdre_ends 2 'usage: a PSN is eight hexadecimal digits' '' encode zz user - - user
bdre_ends 2 'usage: FIRST is 0 or 1' '' encode "$psn" user - - user 2

begin "bdre: no toolchain"
rm "$room/home/target/bdre.built"
mkdir "$room/tools"
for tool in awk cp dirname find head mkdir mv readlink tail; do ln -s "$(command -v "$tool")" "$room/tools/$tool"; done
: >"$room/say"
lines 'bdre: the Rattle toolchain (rt) is not on the path' >"$room/complain"
run_once "bdre tally" 1 env PATH="$room/tools" "$room/home/bdre" tally
begin "bdre: a program is not proved"
printf '#!/bin/sh\nexit 1\n' >"$room/tools/rt"
chmod +x "$room/tools/rt"
lines "bdre: proving and building the programs; this takes some minutes, once
bdre: they were not built; see $room/home/target/bdre.log" >"$room/complain"
run_once "bdre tally" 1 env PATH="$room/tools" "$room/home/bdre" tally

# Built once, then again when a source is newer, also one that is changed while it is built.
building="bdre: proving and building the programs; this takes some minutes, once"
builds() {
    begin "bdre: $1"
    lines "$2" >"$room/complain"
    rm -f "$room/asked"
    run_once "bdre tally" 1 env PATH="$room/tools" "$room/home/bdre" tally
    if [ -n "$2" ]; then
        [ "$(cat "$room/asked")" = "$all_built" ] || fail "$title: rt was asked for something else"
    elif [ -e "$room/asked" ]; then
        fail "$title: rt was asked for nothing new"
    fi
}
all_built=$(for program in encode decode mark sheet queue tally ahead; do echo "$room/home/crates/$program: run"; done)
fake_rt() {
    printf '#!/bin/sh\necho "$PWD: $@" >>"%s"\n%s\n' "$room/asked" "$1" >"$room/tools/rt"
}
lines refused >"$room/say"
fake_rt ''
builds "the programs are proved" "$building"
builds "they are proved already" ''
sleep 0.1
: >"$room/home/crates/source.rt"
fake_rt "/bin/sleep 0.1; : >'$room/home/crates/source.rt'"
builds "a source is newer" "$building"
fake_rt ''
builds "a source was changed meanwhile" "$building"
builds "all is proved again" ''

begin "bdre: the demonstration"
cp demo.txt "$room/say"
run_once "bdre demo" 0 "$room/home/bdre" demo
