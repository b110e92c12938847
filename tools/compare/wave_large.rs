//! WAVE files of 4 GiB, by their lengths alone: the largest data that fit and the first that don't. The samples are lent from a mapping
//! that is never touched, which is looked at afterwards.
use crate::{abi, plain_wave as plain, rust_side};
use oracle::svx::{ChannelAssignment, Voice, VoiceHeader};
use std::ffi::c_void;

extern "C" {
    fn mmap(at: *mut c_void, len: usize, rights: i32, flags: i32, file: i32, offset: i64) -> *mut c_void;
    fn mincore(at: *mut c_void, len: usize, pages: *mut u8) -> i32;
    fn munmap(at: *mut c_void, len: usize) -> i32;
}

/// Samples, all 0, that take no memory until they are read.
struct Lent { at: *mut c_void, len: usize }

impl Lent {
    fn new(len: usize) -> Self {
        // for reading; private, anonymous and without a reserve
        let at = unsafe { mmap(std::ptr::null_mut(), len, 1, 0x2 | 0x20 | 0x4000, -1, 0) };
        assert!(at as isize != -1, "no mapping of {len} bytes");
        Lent { at, len }
    }
    fn samples(&self, n: u64) -> &[i8] {
        assert!(n as usize <= self.len);
        unsafe { std::slice::from_raw_parts(self.at as *const i8, n as usize) }
    }
    /// How many pages are there. Reading a sample brings its page, though the resident size of the process doesn't count a page of zeros.
    fn touched(&self) -> usize {
        let mut pages = vec![0u8; self.len.div_ceil(4096)];
        assert_eq!(unsafe { mincore(self.at, self.len, pages.as_mut_ptr()) }, 0);
        pages.iter().filter(|p| **p & 1 == 1).count()
    }
}

impl Drop for Lent {
    fn drop(&mut self) { unsafe { munmap(self.at, self.len); } }
}

/// A voice whose sides have so many samples, the octave asked for, and the answer.
struct Case { stereo: bool, parts: (u32, u32), octaves: u8, rate: u16, left: u64, right: u64, k: u8, want: Result<usize, u32> }

/// Channel counts aside, all data of one length make files of one length; these are the largest.
const FITS: u64 = 4_294_967_258;
const FILE: usize = 4_294_967_302;

fn mono(parts: (u32, u32), octaves: u8, left: u64, k: u8, want: Result<usize, u32>) -> Case {
    Case { stereo: false, parts, octaves, rate: 8363, left, right: 0, k, want }
}

fn stereo(parts: (u32, u32), left: u64, want: Result<usize, u32>) -> Case {
    Case { stereo: true, parts, octaves: 1, rate: 8363, left, right: left, k: 0, want }
}

fn cases() -> Vec<Case> {
    let half = FITS / 2;
    vec![
        mono((0, 0), 1, FITS - 1, 0, Ok(FILE)),
        mono((0, 0), 1, FITS, 0, Ok(FILE)),
        // one byte more is odd: without its pad it would fit
        mono((0, 0), 1, FITS + 1, 0, Err(19)),
        mono((0, 0), 1, FITS + 2, 0, Err(19)),
        // lengths that 32 bits would drop
        mono((0, 0), 1, 1 << 32, 0, Err(19)),
        mono((0, 0), 1, (1 << 32) + 1, 0, Err(19)),
        mono((u32::MAX, u32::MAX), 1, 2 * u32::MAX as u64, 0, Err(19)),
        stereo((0, 0), 1 << 31, Err(19)),
        // by the header
        mono((FITS as u32, 0), 1, FITS, 0, Ok(FILE)),
        mono((FITS as u32 - 5, 6), 1, FITS + 1, 0, Err(19)),
        stereo((0, half as u32), half, Ok(FILE)),
        stereo((1, half as u32), half + 1, Err(19)),
        // the second octave is the longer one
        mono((half as u32, 0), 2, 3 * half, 1, Ok(FILE)),
        mono((half as u32, 1), 2, 3 * half + 3, 1, Err(19)),
        mono((half as u32, 1), 2, 3 * half + 3, 0, Ok(half as usize + 45)),
        // what comes before it
        Case { rate: 0, ..mono((0, 0), 1, FITS + 1, 0, Err(41)) },
        Case { rate: 0, ..mono((0, 0), 1, FITS + 1, 1, Err(31)) },
        Case { right: half, ..stereo((0, 0), half + 1, Err(18)) },
    ]
}

pub fn run(seen: &mut [u64; 64]) {
    let list = cases();
    let lent = Lent::new(list.iter().map(|c| c.left).max().unwrap_or(0) as usize);
    for (i, c) in list.iter().enumerate() {
        let header = VoiceHeader { one_shot_hi_samples: c.parts.0, repeat_hi_samples: c.parts.1, samples_per_sec: c.rate, ct_octave: c.octaves, ..VoiceHeader::default() };
        let channel = if c.stereo { Some(ChannelAssignment::Stereo) } else { None };
        let sheet = rust_side::flat(&Voice::default().with_header(header).with_channel(channel));
        let (left, right) = (lent.samples(c.left), lent.samples(c.right));
        let v = plain::Voice { header, stereo: c.stereo, left, right };
        assert_eq!(v.length(c.k).map(|n| n as usize), c.want, "the plain version, large voice {i}");
        assert_eq!(abi::octave_wave_length(&sheet, left, right, c.k), c.want, "large voice {i}");
        // a buffer of no bytes is short, but that is said last
        let short = c.want.err().unwrap_or(20);
        assert_eq!(abi::octave_wave(&sheet, left, right, c.k, &mut []), Err(short), "large voice {i}");
        seen[c.want.err().unwrap_or(0) as usize] += 1;
        if short == 20 { seen[20] += 1; }
    }
    let pages = lent.touched();
    assert_eq!(pages, 0, "samples were read for a length");
    println!("  {} large voices of up to {} samples a side, by length alone: no difference, and no page of the samples was touched", list.len(), lent.len);
}
