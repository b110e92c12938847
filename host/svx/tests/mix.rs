//! Mixes: which are refused and in which order, blocks, starts and key-ups, and sums.
mod common;
use common::{full_voice, header, long_sequence, mono, play, rich_voice, sequenced};
use std::mem::{offset_of, size_of};
use svx::{mix, Entry, Note, Sheet, Voice};

/// An entry that nothing turns back on a voice of one octave.
const GOOD: Entry = Entry {
    start: 0,
    key_up: 100,
    step: 65_536,
    octave: 0,
    velocity: 127,
};

/// A later one.
const LATE: Entry = Entry { start: 9, ..GOOD };

/// One that is let go before it starts.
const EARLY: Entry = Entry { key_up: 8, ..LATE };

const RATE: u32 = 8_000;

/// The number that turns a mix of so many places back, or 0; a refused one writes nothing.
fn refusal_at(score: &[Entry], rate: u32, sheet: &Sheet, places: usize) -> u32 {
    let mut out = vec![77; places];
    match mix(score, rate, 0, sheet, &mut out) {
        Ok(place) => {
            assert_eq!(place as usize, places / 2);
            0
        }
        Err(refusal) => {
            assert_eq!(out, vec![77; places]);
            refusal.number()
        }
    }
}

fn refusal(score: &[Entry], sheet: &Sheet) -> u32 {
    refusal_at(score, RATE, sheet, 2)
}

/// A voice that repeats one sample, 256 times as loud in 16 bits.
fn steady(sample: i8) -> Sheet {
    Sheet::of(&mono(header(0, 1, 1, 0), vec![vec![sample]])).unwrap()
}

/// The first frames of a mix in blocks of so many.
fn mixed(score: &[Entry], rate: u32, sheet: &Sheet, frames: usize, block: usize) -> Vec<i16> {
    let (mut out, mut place) = (vec![77; 2 * frames], 0);
    for places in out.chunks_mut(2 * block) {
        let after = mix(score, rate, place, sheet, places).unwrap();
        assert_eq!(after as usize, place as usize + places.len() / 2);
        place = after;
    }
    out
}

/// The first frames of an entry's note, with its key-up, by fills.
fn filled(entry: Entry, rate: u32, sheet: &Sheet, frames: usize) -> Vec<i16> {
    let held = frames.min((entry.key_up - entry.start) as usize);
    let note = Note::start(entry.octave, entry.step, rate, entry.velocity);
    let (mut out, _, note) = play(sheet, note, held, 500);
    out.extend(play(sheet, note.key_up(), frames - held, 500).0);
    out
}

/// The same frames as `mixed` gives, by fills: each entry's note from its start on, summed, and held once.
fn summed(score: &[Entry], rate: u32, sheet: &Sheet, frames: usize) -> Vec<i16> {
    let mut sums = vec![0; 2 * frames];
    for entry in score {
        let start = frames.min(entry.start as usize);
        let values = filled(*entry, rate, sheet, frames - start);
        for (sum, value) in sums[2 * start..].iter_mut().zip(values) {
            *sum += i32::from(value);
        }
    }
    let held = |sum: i32| sum.clamp(-32_768, 32_767) as i16;
    sums.into_iter().map(held).collect()
}

/// Six entries on two octaves that overlap, two of them at one start, one of them let go at once, and one never.
fn rich_score() -> [Entry; 6] {
    [
        (0, 900, 90_001, 1, 100),
        (3, 3, 40_000, 0, 127),
        (64, 2_000, 65_536, 0, 61),
        (64, 128, 1_000, 1, 127),
        (1_001, 1_500, 200_000, 1, 90),
        (1_234, u32::MAX, 70_000, 0, 1),
    ]
    .map(|(start, key_up, step, octave, velocity)| Entry {
        start,
        key_up,
        step,
        octave,
        velocity,
    })
}

#[test]
fn entries_lie_as_in_c() {
    let places = [
        offset_of!(Entry, start),
        offset_of!(Entry, key_up),
        offset_of!(Entry, step),
        offset_of!(Entry, octave),
        offset_of!(Entry, velocity),
    ];
    assert_eq!((places, size_of::<Entry>()), ([0, 4, 8, 12, 13], 16));
}

#[test]
fn blocks_agree() {
    for voice in [rich_voice(), full_voice()] {
        let sheet = Sheet::of(&voice).unwrap();
        let whole = mixed(&rich_score(), 11_025, &sheet, 4_000, 4_000);
        assert!(whole.iter().any(|&v| v != 0));
        assert_eq!(whole, summed(&rich_score(), 11_025, &sheet, 4_000));
        for block in [1, 7, 64, 1_000] {
            let joined = mixed(&rich_score(), 11_025, &sheet, 4_000, block);
            assert!(joined == whole, "blocks of {block}");
        }
    }
}

#[test]
fn a_block_may_begin_anywhere() {
    let sheet = Sheet::of(&rich_voice()).unwrap();
    let whole = mixed(&rich_score(), 11_025, &sheet, 3_000, 3_000);
    for place in [0, 1, 2, 3, 63, 64, 65, 899, 900, 901, 1_233, 1_234, 2_000] {
        let mut out = vec![77; 2 * 700];
        let after = mix(&rich_score(), 11_025, place, &sheet, &mut out).unwrap();
        let place = place as usize;
        assert_eq!(after as usize, place + 700);
        assert!(out == whole[2 * place..2 * place + 1_400], "from {place} on");
    }
}

#[test]
fn one_entry_is_its_note() {
    let sheet = Sheet::of(&rich_voice()).unwrap();
    for key_up in [0, 1, 700, 2_345, 5_000, u32::MAX] {
        let entry = Entry {
            key_up,
            step: 90_001,
            octave: 1,
            velocity: 100,
            ..GOOD
        };
        let own = filled(entry, 11_025, &sheet, 5_000);
        assert!(mixed(&[entry], 11_025, &sheet, 5_000, 999) == own, "{key_up}");
    }
}

#[test]
fn starts_are_exact() {
    let sheet = steady(1);
    let (first, second) = (
        Entry {
            start: 2,
            key_up: 6,
            ..GOOD
        },
        Entry {
            start: 5,
            key_up: 7,
            ..GOOD
        },
    );
    // Without a release an entry sounds from its start to its key-up: 2 to 6, and 5 to 7.
    let left = |score: &[Entry]| -> Vec<i16> { mixed(score, RATE, &sheet, 8, 8).into_iter().step_by(2).collect() };
    assert_eq!(left(&[first]), [0, 0, 256, 256, 256, 256, 0, 0]);
    assert_eq!(left(&[first, second]), [0, 0, 256, 256, 256, 512, 256, 0]);
    assert_eq!(left(&[second, second, second]), [0, 0, 0, 0, 0, 768, 768, 0]);
    // Let go at its start it never sounds.
    let unheard = Entry { key_up: 2, ..first };
    assert_eq!(left(&[unheard]), [0; 8]);
    // The first frame is the first sample's, whenever it starts.
    let sheet = Sheet::of(&sequenced(None, None)).unwrap();
    for start in 0..6 {
        let out = mixed(&[Entry { start, ..GOOD }], RATE, &sheet, 9, 4);
        let from = 2 * start as usize;
        assert!(out[..from + 2].iter().all(|&v| v == 0) && out[from + 2..from + 4] == [256, 256]);
    }
}

#[test]
fn a_key_up_may_lie_ahead() {
    let sheet = steady(1);
    for key_up in [1, 2, 3, 4, 1_000_000, u32::MAX] {
        let mut out = [77; 6];
        assert_eq!(mix(&[Entry { key_up, ..GOOD }], RATE, 0, &sheet, &mut out), Ok(3));
        let heard = 2 * key_up.min(3) as usize;
        assert!(out[..heard].iter().all(|&v| v == 256) && out[heard..].iter().all(|&v| v == 0));
    }
}

#[test]
fn sums_are_held_once() {
    // 127 is 32,512 and -128 is -32,768; the voice repeats two of each.
    let sheet = Sheet::of(&mono(header(0, 4, 1, 0), vec![vec![127, 127, -128, -128]])).unwrap();
    let apart = Entry { start: 2, ..GOOD };
    let score = [GOOD, GOOD, apart, apart, apart];
    let left: Vec<i16> = mixed(&score, RATE, &sheet, 8, 3).into_iter().step_by(2).collect();
    // From frame 2 on two entries are below 0 where three are above it, 2 × -32,768 + 3 × 32,512, and then the other way round. Held
    // after each addition the former would be 32,767, and -32,768 from the last entry on.
    assert_eq!(left, [32_767, 32_767, 32_000, 32_000, -32_768, -32_768, 32_000, 32_000]);
    // As many as there can be.
    for (sample, value) in [(127, 32_767), (-128, -32_768), (8, 32_767), (7, 28_672), (-8, -32_768)] {
        let out = mixed(&[GOOD; 16], RATE, &steady(sample), 3, 2);
        assert_eq!(out, [value; 6], "{sample}");
    }
}

#[test]
fn the_place_stops() {
    let (sheet, most) = (steady(1), u32::MAX);
    let held = Entry { key_up: most, ..GOOD };
    let from = |place, out: &mut [i16]| mix(&[held], RATE, place, &sheet, out).unwrap();
    let mut out = [77; 6];
    assert_eq!(from(most - 3, &mut out), most);
    assert_eq!(out, [256; 6]);
    out = [77; 6];
    assert_eq!(from(most - 1, &mut out), most);
    assert_eq!(out, [256, 256, 0, 0, 0, 0]);
    out = [77; 6];
    assert_eq!(from(most, &mut out), most);
    assert_eq!(out, [0; 6]);
    assert_eq!(from(most, &mut []), most);
    assert_eq!(from(most - 1, &mut []), most - 1);
    // An entry may start there and is never heard, and one may start just before.
    let last = Entry {
        start: most - 1,
        ..held
    };
    let never = Entry { start: most, ..held };
    out = [77; 6];
    assert_eq!(mix(&[last, never], RATE, most - 2, &sheet, &mut out), Ok(most));
    assert_eq!(out, [0, 0, 256, 256, 0, 0]);
}

#[test]
fn an_empty_score_is_silent() {
    let sheet = Sheet::of(&rich_voice()).unwrap();
    for rate in [0, 1, RATE, 192_000, 192_001, u32::MAX] {
        let mut out = [77; 10];
        assert_eq!(mix(&[], rate, 7, &sheet, &mut out), Ok(12));
        assert_eq!(out, [0; 10]);
        assert_eq!(refusal_at(&[], rate, &sheet, 3), 25);
    }
}

#[test]
fn by_45_to_47_the_score() {
    let sheet = Sheet::of(&sequenced(None, None)).unwrap();
    assert_eq!(
        [15, 16, 17, 40].map(|n| refusal(&vec![GOOD; n], &sheet)),
        [0, 0, 46, 46]
    );
    assert_eq!(refusal(&[GOOD, LATE, LATE], &sheet), 0);
    assert_eq!(refusal(&[LATE, GOOD], &sheet), 45);
    assert_eq!(refusal(&[GOOD, EARLY], &sheet), 47);
    assert_eq!(refusal(&[Entry { key_up: 9, ..LATE }], &sheet), 0);
    // 46 before both; then the first bad entry, and of one entry 45 before 47.
    assert_eq!(refusal(&[&[LATE, GOOD, EARLY][..], &[GOOD; 14]].concat(), &sheet), 46);
    let later = Entry { start: 10, ..GOOD };
    assert_eq!(refusal(&[later, EARLY], &sheet), 45);
    assert_eq!(refusal(&[EARLY, GOOD], &sheet), 47);
    assert_eq!(refusal(&[later, GOOD, EARLY], &sheet), 45);
    // A start is held against the entry before it.
    assert_eq!(refusal(&[GOOD, later, LATE, later], &sheet), 45);
}

#[test]
fn by_the_score_before_the_voice() {
    // A sheet was judged by 10, 13 and 15 to 18 when it was made; these are what it can still be turned back by.
    let one_shot = Voice {
        header: header(4, 12, 1, 0),
        ..sequenced(Some(&[(0, 4)]), None)
    };
    for (voice, number) in [
        (sequenced(Some(&[(0, 6)]), None), 21),
        (one_shot, 22),
        (sequenced(None, Some(0)), 23),
    ] {
        let sheet = Sheet::of(&voice).unwrap();
        assert_eq!(refusal(&[GOOD; 17], &sheet), 46);
        assert_eq!(refusal(&[LATE, GOOD], &sheet), 45);
        assert_eq!(refusal(&[EARLY], &sheet), 47);
        // An empty score is on this voice too, and the voice comes before the places and the entries.
        assert_eq!([refusal(&[], &sheet), refusal(&[GOOD], &sheet)], [number; 2]);
        let bad = Entry { velocity: 0, ..GOOD };
        assert_eq!(refusal_at(&[bad], 0, &sheet, 3), number);
    }
}

#[test]
fn by_21_before_22_before_23() {
    let voice = |segments, one_shot, fade| Voice {
        header: header(one_shot, 16 - one_shot, 1, 0),
        ..sequenced(Some(segments), Some(fade))
    };
    let of = |voice: &Voice| refusal(&[GOOD], &Sheet::of(voice).unwrap());
    assert_eq!(of(&voice(&[(0, 6)], 4, 9)), 21);
    assert_eq!(of(&voice(&[(0, 4)], 4, 9)), 22);
    assert_eq!(of(&voice(&[(0, 4)], 0, 9)), 23);
    assert_eq!(of(&voice(&[(0, 4)], 0, 0)), 0);
}

#[test]
fn by_25_before_the_entries() {
    let sheet = Sheet::of(&sequenced(None, None)).unwrap();
    let of = |entry, places| refusal_at(&[entry], RATE, &sheet, places);
    assert_eq!([0, 1, 2, 3].map(|places| of(GOOD, places)), [0, 25, 0, 25]);
    for bad in [
        Entry { octave: 1, ..GOOD },
        Entry { step: 0, ..GOOD },
        Entry { velocity: 0, ..GOOD },
    ] {
        assert_eq!(of(bad, 1), 25);
    }
    assert_eq!(refusal_at(&[GOOD], 0, &sheet, 1), 25);
    assert_eq!(refusal_at(&[Entry { key_up: 0, ..GOOD }; 17], 0, &sheet, 1), 46);
}

#[test]
fn by_24_a_long_sequence() {
    let sheet = Sheet::of(&long_sequence()).unwrap();
    let [six, seven, eight] = [6, 7, 8].map(|octave| Entry { octave, ..GOOD });
    assert_eq!([six, seven, eight].map(|entry| refusal(&[entry], &sheet)), [0, 24, 31]);
    // The places come first here, and the entries one after another.
    assert_eq!(refusal_at(&[seven], RATE, &sheet, 1), 25);
    assert_eq!(refusal(&[six, seven, eight], &sheet), 24);
    assert_eq!(refusal(&[six, eight, seven], &sheet), 31);
    let all_bad = Entry {
        step: 0,
        velocity: 0,
        ..seven
    };
    assert_eq!(refusal_at(&[all_bad], 0, &sheet, 2), 24);
}

#[test]
fn by_31_to_33_and_44_an_entry() {
    let sheet = Sheet::of(&sequenced(None, None)).unwrap();
    let of = |entry| refusal(&[entry], &sheet);
    assert_eq!([0, 1, 255].map(|octave| of(Entry { octave, ..GOOD })), [0, 31, 31]);
    assert_eq!(
        [0, 1, 16_777_216, 16_777_217].map(|step| of(Entry { step, ..GOOD })),
        [32, 0, 0, 32]
    );
    assert_eq!(
        [0, 1, 192_000, 192_001].map(|rate| refusal_at(&[GOOD], rate, &sheet, 2)),
        [33, 0, 0, 33]
    );
    assert_eq!(
        [0, 1, 127, 128, 255].map(|velocity| of(Entry { velocity, ..GOOD })),
        [44, 0, 0, 44, 44]
    );
}

#[test]
fn entry_by_entry() {
    let sheet = Sheet::of(&sequenced(None, None)).unwrap();
    let mut entry = Entry {
        octave: 1,
        step: 0,
        velocity: 0,
        ..GOOD
    };
    assert_eq!(refusal_at(&[entry], 0, &sheet, 2), 31);
    entry.octave = 0;
    assert_eq!(refusal_at(&[entry], 0, &sheet, 2), 32);
    entry.step = 1;
    assert_eq!(refusal_at(&[entry], 0, &sheet, 2), 33);
    assert_eq!(refusal_at(&[entry], 1, &sheet, 2), 44);
    // The first bad entry decides, by whatever number.
    let (soft, still, high) = (
        Entry { velocity: 0, ..GOOD },
        Entry { step: 0, ..GOOD },
        Entry { octave: 9, ..GOOD },
    );
    assert_eq!(refusal(&[soft, still, high], &sheet), 44);
    assert_eq!(refusal(&[GOOD, still, soft, high], &sheet), 32);
    assert_eq!(refusal(&[GOOD, GOOD, high, soft, still], &sheet), 31);
    assert_eq!(refusal_at(&[GOOD, high], 0, &sheet, 2), 33);
    assert_eq!(refusal_at(&[high, GOOD], 0, &sheet, 2), 31);
    // One that is never heard is judged as well.
    let unheard = Entry {
        start: u32::MAX,
        key_up: u32::MAX,
        ..soft
    };
    assert_eq!(refusal(&[GOOD, unheard], &sheet), 44);
}
