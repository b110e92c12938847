//! `crossing`: the quiet spot beside a place of an octave.
use crate::args::{Command, Given};
use crate::failure::Failure;
use crate::files::{say, Input};

pub const CROSSING: Command = Command {
    name: "crossing",
    takes: "FILE --octave K --place N [--reach R] [--right]",
    does: "find the nearest place where the sign of the samples changes",
    help: "\
Prints the crossing of octave K of the voice FILE that is nearest to place N: the
sample before it is below 0 and the sample there isn't, or the other way round. A
loop clicks less where its ends lie on crossings.

  --octave K   which octave; 0 is the highest
  --place N    where to look: places count from 0, and may lie past the end
  --reach R    how far off it may be; 0 asks about place N alone, and if it isn't
               given, any distance will do
  --right      the right side of a voice with two channels, not the left

Of two as near the earlier is printed. If none is within reach, that is refused.",
    flags: &["--right"],
    values: &["--octave", "--place", "--reach"],
    files: 1..=1,
    run: crossing,
};

fn crossing(given: &Given) -> Result<u8, Failure> {
    let octave = given.needed("--octave", 0..=255)? as u8;
    let place = given.needed("--place", 0..=u64::MAX)?;
    let reach = given.number("--reach", 0..=u64::MAX)?.unwrap_or(u64::MAX);
    let input = Input::read(given.file(0))?;
    let voice = input.sheet()?.voice();
    let side = usize::from(given.has("--right"));
    let Some(channel) = voice.channels.get(side) else {
        return Err(Failure::wrong(&input.name, "has one channel, and no right side"));
    };
    // The library is for machines of 64 bits, so nothing is cut off.
    let found = channel.nearest_crossing(octave, place as usize, reach as usize);
    say(&format!("{}\n", found.map_err(|refusal| input.refused(refusal))?))?;
    Ok(0)
}
