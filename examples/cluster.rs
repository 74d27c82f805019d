//! Writes the image of a cluster, reads it back, marks it, and has a damaged image and a wrong PSN refused.
#[path = "../include/bdre.rs"]
#[allow(dead_code)]
mod bdre;

fn main() {
    let mut user = vec![0; bdre::USER];
    let mut side = vec![0; bdre::SIDE];
    let mut dc = vec![0; bdre::DC];
    let mut image = vec![0; bdre::IMAGE];
    let mut work = vec![0; bdre::WORK];
    user[..14].copy_from_slice(b"reference disk");
    dc[7] = 0x0FFF_FFFF;

    let written = bdre::write_image(&user, 0x0010_0000, &side, &dc, true, &mut image, &mut work);
    println!("written: {}", written.number);

    user.fill(0);
    dc.fill(0);
    let found = bdre::read_image(&image, &mut user, &mut side, &mut dc, &mut work);
    let text = String::from_utf8_lossy(&user[..14]);
    let first = found.first as u8;
    println!("read: {}, PSN {:08X}, {text:?}, dc word 7 is {:07X}, first # {first}", found.number, found.psn, dc[7]);

    let (mut given, control) = (user.clone(), side.clone());
    let psn = 0x0010_0000;
    let marking = bdre::mark_image(psn, &given, &control, &image, &mut user, &mut side, &mut dc, &mut work);
    println!("marked: {}", marking.verdict);
    given[10] = b'D';
    let marking = bdre::mark_image(psn, &given, &control, &image, &mut user, &mut side, &mut dc, &mut work);
    println!("marked by other user data: {}, place {}", marking.verdict, marking.place);

    image[60000] ^= 0x10;
    let found = bdre::read_image(&image, &mut user, &mut side, &mut dc, &mut work);
    println!("damaged: {}, place {}, first # {}", found.number, found.place, found.first as u8);

    let written = bdre::write_image(&user, 0x0108_9C00, &side, &dc, true, &mut image, &mut work);
    println!("outside the data zones: {}", written.number);

    let paa = bdre::psn_to_paa(0x0010_0000);
    println!("PAA: {:06X}", paa.value);
}
