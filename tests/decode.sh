# decode: outside images, what they were made of, and each answer that an image can get.
left_cluster() {
    left user "$vectors/$1.user"
    left side "$vectors/$1.side"
    left dc "$vectors/$1.dc"
}
for cluster in zero ones zone0 zone1 zone2; do
    for first in 0 1; do
        begin "decode $cluster, first # $first"
        image_with "$cluster" "$first" "$room/read"
        given image "$room/read"
        left_cluster "$cluster"
        ends 0 "$(read_as "$cluster" "$first")" '' decode image user side dc
    done
done

begin "decode first_hash"
damaged first_hash "$room/damaged"
given image "$room/damaged"
left_cluster zone1
ends 0 "$(read_as zone1 1)" '' decode image user side dc

refused_image() {
    begin "decode $1"
    damaged "$1" "$room/damaged"
    given image "$room/damaged"
    ends 1 "$2" '' decode image user side dc
}
while IFS='|' read -r name answer words; do
    refused_image "$name" "$answer
$words"
done <<'END'
last_bits|9 0|the last two bits are not zero
sync_0_1|10 0|the frame sync of frame 0 is wrong
sync_31_13|10 31|the frame sync of frame 31 is wrong
sync_496_29|10 496|the frame sync of frame 496 is wrong
hash_1|11 0|no bits give frame 0 and the # behind it
hash_495|11 494|no bits give frame 494 and the # behind it
bis_0_0|12 0|BIS column 0 has a wrong parity
bis_23_61|12 23|BIS column 23 has a wrong parity
address_0_4|13 0|the address field of unit 0 has a wrong parity
address_15_8|13 15|the address field of unit 15 has a wrong parity
aun_out_of_zone|14 0|no accepted PSN has these address unit numbers
ldc_0_0|15 0|LDC column 0 has a wrong parity
ldc_303_247|15 303|LDC column 303 has a wrong parity
edc_0_2051|16 0|sector 0 has a wrong error-detection code
edc_31_0|16 31|sector 31 has a wrong error-detection code
END

begin "decode, results are there already"
given image "$vectors/zone1.image"
given_cluster zone0
for part in user side dc; do cp "$vectors/zone1.$part" "$room/after/$part"; done
ends 0 "$(read_as zone1 0)" '' decode image user side dc

begin "decode, refused, first # 1"
image_with zone1 1 "$room/read"
poke "$room/read" 119787 $(($(od -An -tu1 -j 119787 -N 1 "$room/read") + 1))
given image "$room/read"
ends 1 '9 0
the last two bits are not zero' '' decode image user side dc

begin "decode, refused, results are there already"
damaged last_bits "$room/damaged"
given image "$room/damaged"
given_cluster zone0
ends 1 '9 0
the last two bits are not zero' '' decode image user side dc
