# mark: all five verdicts.
marked() {
    begin "mark: $1"
    given user "$2"
    given side "$3"
    given image "$4"
}

for name in ones zone0 zone1 zone2; do
    marked "$name" "$vectors/$name.user" "$vectors/$name.side" "$vectors/$name.image"
    ends 0 pass '' mark "$(psn_of "$name")" user side image
done

for name in zero ones zone0 zone1 zone2; do
    image_with "$name" 1 "$room/one"
    marked "$name, first # 1" "$vectors/$name.user" "$vectors/$name.side" "$room/one"
    ends 0 pass '' mark "$(psn_of "$name")" user side image
done

begin "mark: side data zero"
given user "$vectors/zero.user"
given image "$vectors/zero.image"
ends 0 pass '' mark "$(psn_of zero)" user - image

begin "mark: side data zero, the image has other"
given user "$vectors/zone1.user"
given image "$vectors/zone1.image"
ends 1 "side byte $(first_other /dev/zero "$vectors/zone1.side") differs" '' mark "$(psn_of zone1)" user - image

marked "another PSN" "$vectors/zone1.user" "$vectors/zone1.side" "$vectors/zone1.image"
ends 1 "the PSN differs: the image has $(psn_of zone1)" '' mark "$(psn_of zone2)" user side image

marked "a PSN that is refused" "$vectors/zone1.user" "$vectors/zone1.side" "$vectors/zone1.image"
ends 1 "the PSN differs: the image has $(psn_of zone1)" '' mark 06000000 user side image

marked "all differs" "$vectors/zone0.user" "$vectors/zone0.side" "$vectors/zone1.image"
ends 1 "the PSN differs: the image has $(psn_of zone1)" '' mark "$(psn_of zone0)" user side image

for place in 0 1 2047 2048 40000 65535; do
    other_byte "$vectors/zone1.user" "$room/other" "$place"
    marked "user byte $place" "$room/other" "$vectors/zone1.side" "$vectors/zone1.image"
    ends 1 "user byte $place differs" '' mark "$(psn_of zone1)" user side image
done

other_byte "$vectors/zone1.user" "$room/first" 3000
other_byte "$room/first" "$room/other" 50000
marked "the first of two user bytes" "$room/other" "$vectors/zone0.side" "$vectors/zone1.image"
ends 1 'user byte 3000 differs' '' mark "$(psn_of zone1)" user side image

for place in 0 15 16 300 591; do
    other_byte "$vectors/zone1.side" "$room/other" "$place"
    marked "side byte $place" "$vectors/zone1.user" "$room/other" "$vectors/zone1.image"
    ends 1 "side byte $place differs" '' mark "$(psn_of zone1)" user side image
done

while IFS='|' read -r name answer words; do
    damaged "$name" "$room/damaged"
    marked "$name" "$vectors/zone1.user" "$vectors/zone1.side" "$room/damaged"
    ends 1 "$answer
$words" '' mark "$(psn_of zone1)" user side image
done <<'END'
last_bits_both|9 0|the last two bits are not zero
sync_496_1|10 496|the frame sync of frame 496 is wrong
hash_100|11 99|no bits give frame 99 and the # behind it
bis_11_30|12 11|BIS column 11 has a wrong parity
address_7_0|13 7|the address field of unit 7 has a wrong parity
aun_swapped|14 0|no accepted PSN has these address unit numbers
ldc_150_216|15 150|LDC column 150 has a wrong parity
edc_16_2048|16 16|sector 16 has a wrong error-detection code
END
