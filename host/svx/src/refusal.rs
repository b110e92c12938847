//! Why a call is turned back.
use std::error::Error;
use std::fmt;

/// Why a call was turned back: one of the library's numbered rules.
///
/// A refused call changes nothing: no buffer is written, and a note stays as it was. 1 to 14 turn back a file that is
/// read, 10, 13 and 15 to 19 a voice that is written, these and 31 and 41 an octave that is written as a WAVE file, 10,
/// 13, 18, 21 to 25, 31 to 34 and 44 a fill, all of these but 34 and also 45 to 47 a mix, 31 and 43 a search for a
/// crossing, 13 and 18 a channel that is put into difference order or restored from it, and 48 a number that a voice is
/// drawn from.
///
/// ```
/// let refusal = svx::parse_voice(b"FORM").unwrap_err();
/// assert_eq!(refusal.number(), 1);
/// assert_eq!(refusal.to_string(), "refused by 1: the file is shorter than 12 bytes");
/// ```
#[derive(Clone, Copy, Debug, PartialEq, Eq, Hash)]
pub struct Refusal(u32);

/// What each rule says, in a few words; nothing where no rule has that number.
fn words_of(number: u32) -> Option<&'static str> {
    Some(match number {
        // refusals.txt { written by tools/refusals.sh
        1 => "the file is shorter than 12 bytes",
        2 => "the file doesn't begin with FORM",
        3 => "the FORM's type isn't 8SVX",
        4 => "a chunk runs past the FORM",
        5 => "a second VHDR, CHAN, PAN, SEQN, FADE or BODY",
        6 => "a chunk's length is wrong",
        7 => "CHAN isn't 2, 4 or 6",
        8 => "there is no VHDR",
        9 => "there is no BODY",
        10 => "the compression is neither 0 nor 1",
        11 => "a Fibonacci BODY of two channels has an odd length",
        12 => "a Fibonacci channel is shorter than 2 bytes",
        13 => "the octaves have more samples than 64 bits can count",
        14 => "a channel is shorter than its octaves",
        15 => "the sheet ends inside a record",
        16 => "a record's kind, order or value is wrong, or the sheet has no header",
        17 => "a text isn't UTF-8",
        18 => "the sample lengths don't suit the header and CHAN",
        19 => "the length of the FORM or RIFF would be above 4,294,967,295",
        20 => "an output buffer is too short",
        21 => "a SEQN segment isn't on multiples of 4, runs backwards or ends past the highest octave",
        22 => "there is a SEQN beside a one-shot part",
        23 => "FADE names a segment that isn't there",
        24 => "the sequence is longer than 4,294,967,295 samples",
        25 => "the buffer to fill has an odd number of places",
        31 => "the voice has no such octave",
        32 => "the step is 0 or above 16,777,216",
        33 => "the output rate is 0 or above 192,000",
        34 => "the key-up frame is later than the frames filled",
        41 => "the voice's rate is 0",
        43 => "there is no crossing within reach",
        44 => "the velocity is 0 or above 127",
        45 => "an entry of the score starts before the entry before it",
        46 => "the score has more than 16 entries",
        47 => "an entry's key-up frame is before its start frame",
        48 => "the starting number is 0",
        // } refusals.txt
        _ => return None,
    })
}

impl Refusal {
    pub(crate) const SAMPLES_UNSUITED: Refusal = Refusal(18);
    pub(crate) const FORM_LENGTH: Refusal = Refusal(19);
    pub(crate) const BUFFER_SHORT: Refusal = Refusal(20);
    pub(crate) const NO_OCTAVE: Refusal = Refusal(31);

    /// A call's answer in C: 0 where it was accepted, else the refusal's number.
    pub(crate) fn judge(number: u32) -> Result<(), Refusal> {
        match number {
            0 => Ok(()),
            number => Err(Refusal(number)),
        }
    }

    /// The refusal that has this number, where there is one.
    pub fn of_number(number: u32) -> Option<Refusal> {
        words_of(number).map(|_| Refusal(number))
    }

    /// The rule's number.
    pub fn number(&self) -> u32 {
        self.0
    }

    /// What the rule says, in a few words.
    pub fn words(&self) -> &'static str {
        words_of(self.0).unwrap_or("by an unknown rule")
    }
}

impl fmt::Display for Refusal {
    fn fmt(&self, f: &mut fmt::Formatter<'_>) -> fmt::Result {
        write!(f, "refused by {}: {}", self.0, self.words())
    }
}

impl Error for Refusal {}
