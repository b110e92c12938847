//! The nearest crossing, plainly: every place is looked at, and the least of those within reach is taken, by distance and then by place. For the
//! speed also the search as one would write it by hand.

/// Whether the sign changes from sample i - 1 to sample i.
pub fn crosses(samples: &[i8], i: usize) -> bool { (samples[i - 1] < 0 && samples[i] >= 0) || (samples[i - 1] >= 0 && samples[i] < 0) }

pub fn nearest(samples: &[i8], place: u64, reach: u64) -> Result<u64, u32> {
    let crossings = (1..samples.len()).filter(|i| crosses(samples, *i)).map(|i| i as u64);
    crossings.filter(|i| i.abs_diff(place) <= reach).min_by_key(|i| (i.abs_diff(place), *i)).ok_or(43)
}

/// Outward from the place, both sides at each distance.
pub fn outward(samples: &[i8], place: usize, reach: usize) -> Option<usize> {
    let n = samples.len();
    let first = place.saturating_sub(n.saturating_sub(1));
    for d in first..=reach {
        if d < place && place - d < n && crosses(samples, place - d) { return Some(place - d); }
        let after = place.saturating_add(d);
        if after >= 1 && after < n && crosses(samples, after) { return Some(after); }
        if d >= place && after >= n { return None; }
    }
    None
}
