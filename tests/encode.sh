# encode: images of outside clusters, and refusals 6, 7 and 8.
for cluster in zero ones zone0 zone1 zone2; do
    begin "encode $cluster"
    given_cluster "$cluster"
    left image "$vectors/$cluster.image"
    ends 0 '0 0' '' encode "$(psn_of "$cluster")" user side dc image
    for first in 0 1; do
        begin "encode $cluster, first # $first"
        given_cluster "$cluster"
        image_with "$cluster" "$first" "$room/wanted"
        left image "$room/wanted"
        ends 0 '0 0' '' encode "$(psn_of "$cluster")" user side dc image "$first"
    done
done

begin "encode, side data and dc words zero"
given user "$vectors/zero.user"
left image "$vectors/zero.image"
ends 0 '0 0' '' encode "$(psn_of zero)" user - - image

# One of them zero, the other not: no outside image has that, so what is made is read back, and its image is the only one that is read so.
one_zero() {
    begin "encode, $1"
    given user "$vectors/zero.user"
    given side "$2"
    given dc "$3"
    (cd "$room/before" && "$room/home/target/bin/encode" "$(psn_of zero)" user "$4" "$5" "$room/made") >/dev/null
    left image "$room/made"
    ends 0 '0 0' '' encode "$(psn_of zero)" user "$4" "$5" image
    begin "decode, $1"
    given image "$room/made"
    left user "$vectors/zero.user"
    left side "$2"
    left dc "$3"
    ends 0 "$(read_as zero 0)" '' decode image user side dc
    rm "$room/made"
}
one_zero "side data zero alone" "$vectors/zero.side" "$vectors/zone1.dc" - dc
one_zero "dc words zero alone" "$vectors/zone1.side" "$vectors/zero.dc" side -

begin "encode, an image is there already"
given_cluster zone1
cp "$vectors/zone0.image" "$room/before/image"
left image "$vectors/zone1.image"
ends 0 '0 0' '' encode "$(psn_of zone1)" user side dc image

# What a refused cluster leaves alone: an older image, and what another run is writing.
given_older() {
    given image "$vectors/zone0.image"
    given image.part "$vectors/zone2.side"
}

refused_psn() {
    begin "encode $1"
    given_cluster zone1
    given_older
    ends 1 "$2" '' encode "$1" user side dc image
    ends 1 "$2" '' encode "$1" user side dc image 1
}
refused_psn 00100010 '6 0
the PSN is no multiple of 32'
refused_psn 06000001 '6 0
the PSN is no multiple of 32'
for psn in 000fffe0 01089C00 06000000 00000000 ffffffe0; do
    refused_psn "$psn" '7 0
the PSN lies in no data zone'
done

refused_word() {
    begin "encode, dc word $1"
    given_older
    given user "$vectors/zone1.user"
    given side "$vectors/zone1.side"
    changed "$vectors/zone1.dc" "$room/dc" $((4 * $1)) 16
    [ -z "${2-}" ] || poke "$room/dc" $((4 * $2)) 255
    given dc "$room/dc"
    ends 1 "8 $1
dc word $1 is above 0FFFFFFF" '' encode "$(psn_of zone1)" user side dc image
}
refused_word 0
refused_word 495
refused_word 7 8

begin "encode, dc word 0FFFFFFF is refused by none"
given_cluster ones
left image "$vectors/ones.image"
ends 0 '0 0' '' encode "$(psn_of ones)" user side dc image
