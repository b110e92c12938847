//! Crossings: the nearest to a place, against all places looked at one by one.
mod common;
use common::Xorshift;
use svx::{ChannelSamples, Refusal};

fn number<T>(answer: Result<T, Refusal>) -> Result<T, u32> {
    answer.map_err(|refusal| refusal.number())
}

/// All crossings, of which the least by distance and then by place is taken.
fn plain(samples: &[i8], place: usize, reach: usize) -> Result<usize, u32> {
    let crossings = (1..samples.len()).filter(|i| (samples[i - 1] < 0) != (samples[*i] < 0));
    let near = crossings.filter(|i| i.abs_diff(place) <= reach);
    near.min_by_key(|i| (i.abs_diff(place), *i)).ok_or(43)
}

#[test]
fn nearest() {
    let samples = [3, -1, -2, 4, 5, 0];
    let nearest = |place, reach| number(svx::nearest_crossing(&samples, place, reach));
    // 1 and 3 are as far from 2, and the earlier is taken.
    assert_eq!(nearest(2, 1), Ok(1));
    assert_eq!([nearest(0, 1), nearest(1, 0), nearest(3, 0)], [Ok(1), Ok(1), Ok(3)]);
    assert_eq!([nearest(0, 0), nearest(2, 0), nearest(4, 0)], [Err(43); 3]);
    assert_eq!([nearest(5, 2), nearest(5, 1)], [Ok(3), Err(43)]);
}

#[test]
fn past_the_end() {
    let samples = [3, -1, -2, 4, 5, 0];
    let nearest = |place, reach| number(svx::nearest_crossing(&samples, place, reach));
    assert_eq!([nearest(6, 3), nearest(6, 2)], [Ok(3), Err(43)]);
    let most = usize::MAX;
    assert_eq!([nearest(most, most), nearest(most, most - 3)], [Ok(3); 2]);
    assert_eq!(nearest(most, most - 4), Err(43));
}

#[test]
fn zero_is_not_below_zero() {
    assert_eq!(
        svx::nearest_crossing(&[5, 0, 7, 0], 0, usize::MAX)
            .unwrap_err()
            .number(),
        43
    );
    assert_eq!(svx::nearest_crossing(&[5, 0, -1], 0, usize::MAX), Ok(2));
    assert_eq!(svx::nearest_crossing(&[-128, 0], 0, 1), Ok(1));
}

#[test]
fn few_samples_have_none() {
    for samples in [&[][..], &[-1], &[0]] {
        for place in [0, 1, 2, usize::MAX] {
            assert_eq!(number(svx::nearest_crossing(samples, place, usize::MAX)), Err(43));
        }
    }
}

#[test]
fn of_an_octave() {
    let channel = ChannelSamples {
        octaves: vec![vec![1, -1], vec![1, 1, 1, -1]],
    };
    assert_eq!(number(channel.nearest_crossing(0, 0, 1)), Ok(1));
    assert_eq!(number(channel.nearest_crossing(1, 0, 1)), Err(43));
    assert_eq!(number(channel.nearest_crossing(1, 9, 6)), Ok(3));
    assert_eq!(number(channel.nearest_crossing(2, 0, 1)), Err(31));
    assert_eq!(number(ChannelSamples::default().nearest_crossing(0, 0, 1)), Err(31));
}

/// Signs in runs, so that crossings are near and far, and places and reaches about them.
#[test]
fn any_samples() {
    let mut r = Xorshift::new(11);
    for _ in 0..20_000 {
        let (length, run) = (r.below(40), 1 + r.below(12));
        let signs = r.samples(length / run + 1);
        let samples: Vec<i8> = (0..length).map(|i| signs[i / run] % 3).collect();
        let (place, reach) = (r.below(44), r.below(20));
        for (place, reach) in [
            (place, reach),
            (place, usize::MAX),
            (usize::MAX - place, usize::MAX - reach),
        ] {
            let found = number(svx::nearest_crossing(&samples, place, reach));
            assert_eq!(found, plain(&samples, place, reach), "{samples:?} {place} {reach}");
        }
    }
}
