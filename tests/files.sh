# Bad arguments and files, for each program that has several and each file (sheet.sh, queue.sh and ahead.sh have their own): what is said, and that nothing is left.
wrong_usage='usage: a PSN is eight hexadecimal digits'

usage_of() {
    begin "$1: $2 arguments"
    given_cluster zone1
    given image "$vectors/zone1.image"
    program=$1
    line=$3
    shift 3
    ends 2 "$line" '' "$program" "$@"
}
usage_of encode 0 'usage: encode PSN USER SIDE DC IMAGE [FIRST]'
usage_of encode 4 'usage: encode PSN USER SIDE DC IMAGE [FIRST]' "$(psn_of zone1)" user side dc
usage_of encode 7 'usage: encode PSN USER SIDE DC IMAGE [FIRST]' "$(psn_of zone1)" user side dc made 1 more
usage_of decode 0 'usage: decode IMAGE USER SIDE DC'
usage_of decode 3 'usage: decode IMAGE USER SIDE DC' image made more
usage_of decode 5 'usage: decode IMAGE USER SIDE DC' image u s d more
usage_of mark 0 'usage: mark PSN USER SIDE IMAGE'
usage_of mark 3 'usage: mark PSN USER SIDE IMAGE' "$(psn_of zone1)" user side
usage_of mark 5 'usage: mark PSN USER SIDE IMAGE' "$(psn_of zone1)" user side image more

for text in 0010000 001000000 0010000g '' -0100000 0x100000; do
    usage_of encode "the PSN '$text' among" "$wrong_usage" "$text" user side dc made
    usage_of mark "the PSN '$text' among" "$wrong_usage" "$text" user side image
done

for text in '' 2 / : 00 01 10 -1 ' 1' '1 ' ONE; do
    usage_of encode "the first # '$text' among" 'usage: FIRST is 0 or 1' "$(psn_of zone1)" user side dc made "$text"
done
usage_of encode 'a wrong PSN among' "$wrong_usage" 0010000 user side dc made 1
usage_of encode 'a wrong PSN and first # among' 'usage: FIRST is 0 or 1' 0010000 user side dc made 2
usage_of encode 'a wrong first # and no files among' 'usage: FIRST is 0 or 1' "$(psn_of zone1)" none none none none 2

begin "capital and small digits"
given_cluster zone0
left made "$vectors/zone0.image"
ends 0 '0 0' '' encode "$(psn_of zone0 | tr a-f A-F)" user side dc made

# A file to read that is missing, short, long, a folder, or has no name, in each place where one is read.
bad_file() {
    program=$1
    file=$2
    length=$3
    shift 3
    source=$vectors/zone1.$file

    begin "$program: no $file"
    all_but "$file"
    ends 1 '' "$file: No such file or directory" "$program" "$@"

    begin "$program: $file a byte short"
    all_but "$file"
    head -c $((length - 1)) "$source" >"$room/short"
    given "$file" "$room/short"
    ends 1 '' "$file: not $length bytes long" "$program" "$@"

    begin "$program: $file a byte long"
    all_but "$file"
    { cat "$source" && printf '\000'; } >"$room/long"
    given "$file" "$room/long"
    ends 1 '' "$file: not $length bytes long" "$program" "$@"

    begin "$program: $file empty"
    all_but "$file"
    : >"$room/empty"
    given "$file" "$room/empty"
    ends 1 '' "$file: not $length bytes long" "$program" "$@"

    begin "$program: $file a folder"
    all_but "$file"
    given_folder "$file"
    ends 1 '' "$file: Is a directory" "$program" "$@"
}

# All inputs of zone1 but one.
all_but() {
    for part in user side dc image; do
        [ "$part" = "$1" ] || given "$part" "$vectors/zone1.$part"
    done
}

psn=$(psn_of zone1)
bad_file encode user 65536 "$psn" user side dc made
bad_file encode side 592 "$psn" user side dc made
bad_file encode dc 1984 "$psn" user side dc made
bad_file decode image 119788 image u s d
bad_file mark user 65536 "$psn" user side image
bad_file mark side 592 "$psn" user side image
bad_file mark image 119788 "$psn" user side image

no_name='a file name is missing, empty or too long'
no_name() {
    begin "$1: no name"
    all_but none
    ends 1 '' "$no_name" "$@"
}
no_name encode "$psn" '' side dc made
no_name encode "$psn" user '' dc made
no_name encode "$psn" user side '' made
no_name encode "$psn" user side dc ''
no_name decode '' u s d
no_name decode image '' s d
no_name decode image u '' d
no_name decode image u s ''
no_name mark "$psn" '' side image
no_name mark "$psn" user '' image
no_name mark "$psn" user side ''
# A name of 5,000 bytes, and one of 4,093, to which .part cannot be added.
long_name() {
    printf './%.0s' $(seq "$1")
    printf 'x'
}
no_name encode "$psn" "$(long_name 2500)" side dc made
no_name encode "$psn" user side dc "$(long_name 2046)"
no_name decode image u "$(long_name 2046)" d

# `-` stands for zeros where side data or dc words are read, and nowhere else.
begin "encode: - for user bytes"
all_but none
ends 1 '' '-: No such file or directory' encode "$psn" - side dc made
begin "mark: - for user bytes"
all_but none
ends 1 '' '-: No such file or directory' mark "$psn" - side image
begin "decode: - for the image"
ends 1 '' '-: No such file or directory' decode - u s d
begin "mark: - for the image"
all_but none
ends 1 '' '-: No such file or directory' mark "$psn" user side -
begin "decode: user bytes into a file called -"
all_but none
left - "$vectors/zone1.user"
left s "$vectors/zone1.side"
left d "$vectors/zone1.dc"
ends 0 "$(read_as zone1 0)" '' decode image - s d

# What is in the way of a result: then no result is left, and no part of one.
in_the_way() {
    begin "$1: $2 in the way"
    all_but none
    printf 'another run' >"$room/another"
    given "$2" "$room/another"
    given "${2%.part}" "$room/another"
    program=$1
    line=$2
    shift 2
    ends 1 '' "$line: File exists" "$program" "$@"
}
in_the_way encode made.part "$psn" user side dc made
in_the_way decode u.part image u s d
in_the_way decode s.part image u s d
in_the_way decode d.part image u s d

folder_of_that_name() {
    begin "$1: a folder $2"
    all_but none
    given_folder "$2"
    program=$1
    folder=$2
    shift 2
}
folder_of_that_name encode made
ends 1 '' 'made: Is a directory' encode "$psn" user side dc made
folder_of_that_name decode u
ends 1 '' 'u: Is a directory' decode image u s d
folder_of_that_name decode s
left u "$vectors/zone1.user"
ends 1 '' 's: Is a directory' decode image u s d
folder_of_that_name decode d
left u "$vectors/zone1.user"
left s "$vectors/zone1.side"
ends 1 '' 'd: Is a directory' decode image u s d

begin "encode: no folder for the image"
all_but none
ends 1 '' 'there/made.part: No such file or directory' encode "$psn" user side dc there/made
for names in 'there/u s d' 'u there/s d' 'u s there/d'; do
    begin "decode: no folder: $names"
    all_but none
    ends 1 '' "there/$(expr "$names" : '.*there/\(.\)').part: No such file or directory" decode image $names
done

# A folder that may not be written; to root every folder may be, so root tries it as nobody.
begin "encode: a folder that may not be written"
all_but none
chmod 555 "$room/before"
chmod 755 "$room"
lines '' >"$room/say"
lines 'made.part: Permission denied' >"$room/complain"
as=
[ "$(id -u)" -ne 0 ] || as='setpriv --reuid=65534 --regid=65534 --clear-groups'
if [ -z "$as" ] || command -v setpriv >/dev/null; then
    run_once encode 0 $as "$room/home/target/bin/encode" "$psn" user side dc made
else
    echo "tests: no setpriv here, so a folder that may not be written is not tried"
fi
chmod 755 "$room/before" "$room/now"

# A file that cannot be written whole: no part of it is left.
begin "encode: no room for the image"
all_but none
given made "$vectors/zone0.image"
lines 'made.part: File too large' >"$room/complain"
run_once encode 0 sh -c 'trap "" XFSZ && ulimit -f 100 && exec "$@"' - "$room/home/target/bin/encode" "$psn" user side dc made
begin "decode: no room for the user bytes"
all_but none
lines 'u.part: File too large' >"$room/complain"
run_once decode 0 sh -c 'trap "" XFSZ && ulimit -f 100 && exec "$@"' - "$room/home/target/bin/decode" image u s d

# An output that is an input, and two outputs of one name.
read_and_written() {
    begin "$1: $2 read and written"
    all_but none
    program=$1
    line=$2
    shift 2
    ends 1 '' "$line: it is read and is to be written" "$program" "$@"
}
begin "encode: names are compared before files are read"
ends 1 '' 'none: it is read and is to be written' encode "$psn" none none none none
begin "decode: names are compared before files are read"
ends 1 '' 'none: it is read and is to be written' decode none none none none
read_and_written encode user "$psn" user side dc user
read_and_written encode side "$psn" user side dc side
read_and_written encode dc "$psn" user side dc dc
read_and_written encode user "$psn" user side dc user 1
read_and_written decode image image image s d
read_and_written decode image image u image d
read_and_written decode image image u s image
written_twice() {
    begin "decode: a file written twice: $*"
    all_but none
    ends 1 '' 'made: it is to be written twice' decode "$@"
}
written_twice image made made d
written_twice image made s made
written_twice image u made made
part_written_twice() {
    begin "decode: a result that is another's part: $*"
    all_but none
    line=$1
    shift
    ends 1 '' "$line: it is to be written twice" decode "$@"
}
part_written_twice u image u.part u d
part_written_twice a image a.part s a
part_written_twice d image u d.part d
part_written_twice u.part image u u.part d
part_written_twice u.part image u s u.part
part_written_twice s.part image u s s.part

begin "encode: an image called -"
all_but none
left - "$vectors/zone1.image"
ends 0 '0 0' '' encode "$psn" user side dc -
begin "encode: an image called -, side data zero"
given user "$vectors/zero.user"
left - "$vectors/zero.image"
ends 0 '0 0' '' encode "$(psn_of zero)" user - - -
