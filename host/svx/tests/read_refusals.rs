//! Each refusal of reading, by a small damaged file.
mod common;
use common::{chan, chunk, form, vhdr, EXAMPLE};
use svx::Sheet;

/// The number that turns the file back.
fn refusal(file: &[u8]) -> u32 {
    let number = svx::parse_voice(file).expect_err("a refusal").number();
    assert_eq!(Sheet::read(file).expect_err("a refusal").number(), number);
    number
}

/// The example with one byte changed.
fn changed(place: usize, byte: u8) -> Vec<u8> {
    let mut file = EXAMPLE.to_vec();
    file[place] = byte;
    file
}

fn body(bytes: &[u8]) -> Vec<u8> {
    chunk(b"BODY", bytes)
}

#[test]
fn by_1_too_short() {
    assert_eq!(refusal(&[]), 1);
    assert_eq!(refusal(&EXAMPLE[..11]), 1);
}

#[test]
fn by_2_no_form() {
    assert_eq!(refusal(&changed(0, b'L')), 2);
}

#[test]
fn by_3_another_type() {
    assert_eq!(refusal(&changed(8, b'9')), 3);
}

#[test]
fn by_4_past_the_form() {
    assert_eq!(refusal(&changed(47, 3)), 4);
    assert_eq!(refusal(&EXAMPLE[..48]), 4);
    // A FORM length past the file is no damage: the walk ends with the file.
    assert!(svx::parse_voice(&changed(4, 0xFF)).is_ok());
}

#[test]
fn by_5_second_chunks() {
    let good = [vhdr(0, 4, 1, 0), body(&[1, 2, 3, 4])];
    let single = [
        chan(2),
        chunk(b"PAN ", &[0; 4]),
        chunk(b"SEQN", &[]),
        chunk(b"FADE", &[0; 4]),
    ];
    for once in single.iter().chain(&good) {
        let file = form(&[good.concat(), once.clone(), once.clone()]);
        assert_eq!(refusal(&file), 5, "{:?}", &once[..4]);
    }
    // ATAK, RLSE and texts may come more than once.
    let many = [chunk(b"ATAK", &[]), chunk(b"RLSE", &[]), chunk(b"NAME", b"n")].concat();
    assert!(svx::parse_voice(&form(&[good.concat(), many.clone(), many])).is_ok());
}

#[test]
fn by_6_lengths() {
    let bad: [(&[u8; 4], usize); 7] = [
        (b"VHDR", 19),
        (b"CHAN", 3),
        (b"PAN ", 3),
        (b"FADE", 3),
        (b"ATAK", 5),
        (b"RLSE", 7),
        (b"SEQN", 12),
    ];
    for (id, length) in bad {
        assert_eq!(refusal(&form(&[chunk(id, &vec![0; length])])), 6, "{id:?}");
    }
}

#[test]
fn by_7_channel() {
    assert_eq!(refusal(&form(&[chan(3)])), 7);
    assert_eq!(refusal(&form(&[chan(0x0100_0002)])), 7);
}

#[test]
fn by_8_and_9_missing() {
    assert_eq!(refusal(&form(&[body(&[1])])), 8);
    assert_eq!(refusal(&form(&[])), 8);
    assert_eq!(refusal(&form(&[vhdr(1, 0, 1, 0)])), 9);
}

#[test]
fn by_10_compression() {
    assert_eq!(refusal(&changed(35, 2)), 10);
}

#[test]
fn by_11_and_12_fibonacci() {
    let two = |bytes: &[u8]| form(&[vhdr(0, 0, 1, 1), chan(6), body(bytes)]);
    assert_eq!(refusal(&two(&[0, 1, 2, 3, 4])), 11);
    assert_eq!(refusal(&two(&[0, 1])), 12);
    assert_eq!(refusal(&form(&[vhdr(0, 0, 1, 1), body(&[0])])), 12);
}

#[test]
fn by_13_total() {
    assert_eq!(refusal(&form(&[vhdr(1, 0, 65, 0), body(&[1])])), 13);
}

#[test]
fn by_14_short_channel() {
    assert_eq!(refusal(&form(&[vhdr(1, 1, 2, 0), body(&[1, 2, 3, 4, 5])])), 14);
    assert_eq!(refusal(&form(&[vhdr(1, 0, 64, 0), body(&[1])])), 14);
    assert_eq!(refusal(&form(&[vhdr(1, 0, 1, 0), chan(6), body(&[1])])), 14);
}

#[test]
fn in_order() {
    // The first bad chunk comes before what is missing, and within a chunk the lowest number.
    assert_eq!(refusal(&form(&[chan(2), chunk(b"CHAN", &[])])), 5);
    assert_eq!(refusal(&form(&[chan(9), chunk(b"VHDR", &[])])), 7);
    assert_eq!(refusal(&form(&[vhdr(1, 0, 65, 2), chan(6), body(&[1])])), 10);
}
