//! The specification's whole example file.
mod common;
use common::EXAMPLE;
use svx::{Note, Sheet};

#[test]
fn is_read() {
    let voice = svx::parse_voice(&EXAMPLE).unwrap();
    assert_eq!(voice, common::mono(common::header(1, 0, 1, 0), vec![vec![-2]]));
}

#[test]
fn is_written_again() {
    let voice = svx::parse_voice(&EXAMPLE).unwrap();
    assert_eq!(svx::encode_voice(&voice).unwrap(), EXAMPLE);
    assert_eq!(Sheet::read(&EXAMPLE).unwrap().write().unwrap(), EXAMPLE);
}

#[test]
fn is_played() {
    let sheet = Sheet::read(&EXAMPLE).unwrap();
    let mut block = [77; 6];
    let (note, sounding) = Note::start(0, 65_536, 8_000, 127).fill(&sheet, &mut block).unwrap();
    assert_eq!(block, [-512, -512, 0, 0, 0, 0]);
    assert_eq!(sounding, 1);
    assert_eq!(
        note,
        Note {
            octave: 0,
            velocity: 127,
            step: 65_536,
            rate: 8_000,
            frames: 3,
            key_up: None
        }
    );

    let (after, sounding) = note.fill(&sheet, &mut block).unwrap();
    assert_eq!((block, sounding, after.frames), ([0; 6], 0, 6));
}

#[test]
fn lies_flat() {
    let sheet = Sheet::read(&EXAMPLE).unwrap();
    assert_eq!(
        (sheet.bytes(), sheet.left(), sheet.right()),
        (&[&[1], &EXAMPLE[20..40]].concat()[..], &[-2][..], &[][..])
    );
    assert_eq!(sheet.records().collect::<Vec<_>>(), [(1, &EXAMPLE[20..40])]);
}
