//! `info`: a voice in plain words.
use crate::args::{Command, Given};
use crate::failure::Failure;
use crate::files::{say, Input};
use crate::words::{counted, escaped, grouped, lasting, percent};
use svx::{ChannelAssignment, EgPoint, Envelope, Note, Sheet, Voice};

pub const INFO: Command = Command {
    name: "info",
    takes: "FILE",
    does: "tell what is in a voice",
    help: "\
Tells in plain words what is in the voice FILE: channels, octaves, rate, volume,
compression, pan, texts, envelopes, sequence and fade. Levels and shares are in
percent, where 100% is full. Of long lists the first 100 entries are shown.",
    flags: &[],
    values: &[],
    files: 1..=1,
    run: info,
};

/// How many entries of a list are shown.
const SHOWN: usize = 100;

fn info(given: &Given) -> Result<u8, Failure> {
    let input = Input::read(given.file(0))?;
    let sheet = input.sheet()?;
    let voice = sheet.voice();
    let mut report = Report(format!(
        "{}: {}\n",
        input.name,
        counted(input.bytes.len() as u64, "byte")
    ));
    for (key, text) in &voice.metadata {
        report.line(key, &escaped(text));
    }
    report.line("channels", &channels(&voice));
    octaves(&mut report, &voice);
    sound(&mut report, &voice);
    envelope(&mut report, "attack", &voice.attack, "none: full level from the start");
    envelope(&mut report, "release", &voice.release, "none: over at the key-up");
    sequence(&mut report, &voice);
    report.line("fade", &fade(&voice));
    report.line("notes", &notes(&sheet));
    say(&report.0)?;
    Ok(0)
}

/// The lines of a report: a word, and what there is to say about it.
struct Report(String);

impl Report {
    fn line(&mut self, word: &str, words: &str) {
        self.0 += &format!("{:<14}{words}\n", format!("{word}:"));
    }

    /// The first entries of a list, below the line that it belongs to.
    fn list(&mut self, entries: impl ExactSizeIterator<Item = String>) {
        let more = entries.len().saturating_sub(SHOWN);
        for entry in entries.take(SHOWN) {
            self.0 += &format!("  {entry}\n");
        }
        if more > 0 {
            self.0 += &format!("  and {} more\n", grouped(more as u64));
        }
    }
}

/// How many channels there are and where they are heard: of one the pan decides before CHAN.
fn channels(voice: &Voice) -> String {
    let side = match voice.channel {
        Some(ChannelAssignment::Stereo) => return "2, left and right".to_string(),
        Some(ChannelAssignment::Left) => Some("left"),
        Some(ChannelAssignment::Right) => Some("right"),
        None => None,
    };
    match (voice.pan, side) {
        (Some(_), Some(side)) => format!("1, placed by its pan; CHAN, {side}, is not used"),
        (Some(_), None) => "1, placed by its pan".to_string(),
        (None, Some(side)) => format!("1, on the {side} side"),
        (None, None) => "1, on both sides".to_string(),
    }
}

/// Rate and octaves, with the parts and the duration of each.
fn octaves(report: &mut Report, voice: &Voice) {
    let rate = u32::from(voice.header.samples_per_sec);
    let rate_words = if rate == 0 {
        "not named".to_string()
    } else {
        counted(u64::from(rate), "sample") + " a second"
    };
    report.line("rate", &rate_words);
    report.line("octaves", &grouped(voice.octave_count() as u64));
    let Some(channel) = voice.channels.first() else { return };
    let entry = |(k, octave): (usize, &Vec<i8>)| {
        let samples = octave.len() as u64;
        let lasts = lasting(samples, rate).map_or(String::new(), |words| format!(", {words}"));
        let split = u8::try_from(k).ok().and_then(|k| channel.loop_split(&voice.header, k));
        let parts = split.map_or(String::new(), |(one_shot, repeat)| parts(one_shot.len(), repeat.len()));
        format!("octave {k}: {}{lasts}{parts}", counted(samples, "sample"))
    };
    report.list(channel.octaves.iter().enumerate().map(entry));
}

fn parts(one_shot: usize, repeat: usize) -> String {
    format!(
        "; one-shot {}, loop {}",
        grouped(one_shot as u64),
        grouped(repeat as u64)
    )
}

/// Cycle, volume, compression and pan.
fn sound(report: &mut Report, voice: &Voice) {
    let header = &voice.header;
    let cycle = counted(u64::from(header.samples_per_hi_cycle), "sample");
    let words = match header.hi_cycle_frequency_hz() {
        Some(hertz) => format!("{cycle} in octave 0, {hertz:.2} Hz at the voice's rate"),
        None if header.samples_per_hi_cycle > 0 => format!("{cycle} in octave 0"),
        None => "not known".to_string(),
    };
    report.line("cycle", &words);
    report.line("volume", &percent(i64::from(header.volume)));
    // Reading refuses every other compression.
    let compression = if header.compression_byte == 0 {
        "none"
    } else {
        "Fibonacci-delta"
    };
    report.line("compression", compression);
    report.line("pan", &pan(voice));
}

fn pan(voice: &Voice) -> String {
    let Some(pan) = voice.pan else {
        return "none".to_string();
    };
    let share = |weight: f32| percent((weight * 65_536.0) as i64);
    let unused = if voice.channel == Some(ChannelAssignment::Stereo) {
        "; not used, since two channels have a side each"
    } else {
        ""
    };
    format!(
        "{} left, {} right{unused}",
        share(pan.left_weight()),
        share(pan.right_weight())
    )
}

/// The points of an envelope's chunks, joined as a note joins them.
fn envelope(report: &mut Report, word: &str, chunks: &[Envelope], without: &str) {
    let points: Vec<EgPoint> = chunks.iter().flat_map(|chunk| chunk.points.iter().copied()).collect();
    if points.is_empty() {
        return report.line(word, without);
    }
    let total: u64 = points.iter().map(|point| u64::from(point.duration_ms)).sum();
    report.line(
        word,
        &format!("{}, {} ms", counted(points.len() as u64, "point"), grouped(total)),
    );
    let mut at = 0;
    let entry = |point: &EgPoint| {
        at += u64::from(point.duration_ms);
        let lasts = grouped(u64::from(point.duration_ms));
        format!(
            "to {} in {lasts} ms, at {} ms",
            percent(i64::from(point.dest)),
            grouped(at)
        )
    };
    report.list(points.iter().map(entry));
}

fn sequence(report: &mut Report, voice: &Voice) {
    let Some(seqn) = &voice.seqn else {
        return report.line("sequence", "none");
    };
    report.line("sequence", &counted(seqn.segments.len() as u64, "segment"));
    let place = |n: u32| grouped(u64::from(n));
    let entry =
        |(i, s): (usize, &svx::SeqnSegment)| format!("segment {i}: samples {} to {}", place(s.start), place(s.end));
    report.list(seqn.segments.iter().enumerate().map(entry));
}

fn fade(voice: &Voice) -> String {
    voice.fade.map_or("none".to_string(), |fade| {
        format!("from segment {} on", grouped(u64::from(fade.segment)))
    })
}

/// Whether notes of the voice can be played, asked of the library.
fn notes(sheet: &Sheet) -> String {
    match Note::start(0, 65_536, 44_100, 127).fill(sheet, &mut []) {
        Ok(_) => "can be played".to_string(),
        Err(refusal) => refusal.to_string(),
    }
}
