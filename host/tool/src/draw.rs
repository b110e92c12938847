//! `draw`: the waveforms and the envelope of a voice as a picture.
use crate::args::{Command, Given};
use crate::envelope;
use crate::failure::Failure;
use crate::files::{Input, Output};
use crate::panel::{Area, COLUMNS, HEADING, LABEL, LEFT, MARK, RIGHT, SMALL, WIDTH};
use crate::svg::{number, Anchor, Svg};
use crate::words::{counted, escaped, grouped, lasting, percent, shown};
use std::path::Path;
use svx::{ChannelSamples, Voice};

pub const DRAW: Command = Command {
    name: "draw",
    takes: "FILE OUT.svg",
    does: "draw the waveforms and the envelope as a picture",
    help: "\
Draws the voice FILE to OUT.svg (- is standard output): the waveform of each
octave with its loop part shaded, the loop's ends marked, and how far from each
the nearest crossing is (svx crossing --help tells what that is); on each
waveform a mark with the value of its loudest sample, the first where several
are as loud; below them the level of a note over time, the key being let go
where the attack ends.",
    flags: &[],
    values: &[],
    files: 2..=2,
    run: draw,
};

const TITLE: &str = r##"font-size="22" font-weight="bold" fill="#222222""##;
const SUBTITLE: &str = r##"font-size="12" fill="#555555""##;
const LOOP: &str = r##"fill="#e3ecf8""##;
const END: &str = r##"fill="#2f5d9b""##;
const PEAK: &str = r##"fill="#c92a2a" stroke="#ffffff""##;
const PEAK_LABEL: &str = r##"font-size="11" fill="#c92a2a""##;
/// What is behind a peak's label, so that it can be read on a wave.
const PAPER: &str = r##"fill="#ffffff" fill-opacity="0.85""##;
/// The waves of the channels.
const INKS: [&str; 2] = ["#1f3b63", "#7a3420"];

fn draw(given: &Given) -> Result<u8, Failure> {
    let input = Input::read(given.file(0))?;
    let voice = input.sheet()?.voice();
    let picture = picture(&voice, given.file(0).as_ref());
    let mut out = Output::create(given.file(1), &input)?;
    out.write(picture.as_bytes())?;
    out.finish(&format!("{} drawn", counted(voice.octave_count() as u64, "octave")))?;
    Ok(0)
}

fn picture(voice: &Voice, path: &Path) -> String {
    let name = voice
        .metadata
        .iter()
        .find(|(key, _)| key == "title")
        .map(|(_, text)| text.clone());
    let title = name.unwrap_or_else(|| shown(path.file_name().unwrap_or(path.as_os_str())));
    let mut svg = Svg::new(WIDTH);
    svg.text((LEFT, 38.0), Anchor::Start, TITLE, &fitted(&escaped(&title)));
    svg.text((LEFT, 58.0), Anchor::Start, SUBTITLE, &subtitle(voice));
    let mut top = 82.0;
    for k in 0..voice.octave_count() {
        top = octave(&mut svg, voice, k, top);
    }
    let height = envelope::draw(&mut svg, voice, top);
    svg.finish(height, &title)
}

/// A title cut to the width of the picture. A wide letter takes the room of two.
fn fitted(title: &str) -> String {
    let (mut out, mut room) = (String::new(), 66);
    for c in title.chars() {
        let width = if c >= '\u{1100}' { 2 } else { 1 };
        if room < width {
            return out + "…";
        }
        room -= width;
        out.push(c);
    }
    out
}

fn subtitle(voice: &Voice) -> String {
    let header = &voice.header;
    let mut facts = vec![counted(voice.channel_count() as u64, "channel")];
    if header.samples_per_sec > 0 {
        facts.push(format!(
            "{} samples a second",
            grouped(u64::from(header.samples_per_sec))
        ));
    }
    facts.push(format!("volume {}", percent(i64::from(header.volume))));
    if header.compression_byte == 1 {
        facts.push("Fibonacci-delta".to_string());
    }
    if let Some(seqn) = &voice.seqn {
        facts.push(format!(
            "a sequence of {}",
            counted(seqn.segments.len() as u64, "segment")
        ));
    }
    facts.join(", ")
}

/// Draws the panel of an octave from `top` on, one area for each channel. Gives the place below it.
fn octave(svg: &mut Svg, voice: &Voice, k: usize, top: f64) -> f64 {
    let samples = voice
        .channels
        .first()
        .and_then(|c| c.octaves.get(k))
        .map_or(0, Vec::len) as u64;
    let lasts = lasting(samples, u32::from(voice.header.samples_per_sec)).map_or(String::new(), |s| format!(", {s}"));
    svg.text((LEFT, top + 14.0), Anchor::Start, HEADING, &format!("Octave {k}"));
    let facts = format!("{}{lasts}", counted(samples, "sample"));
    svg.text((LEFT + 98.0, top + 14.0), Anchor::Start, SMALL, &facts);
    let height = if voice.channel_count() > 1 { 80.0 } else { 120.0 };
    let mut area = Area {
        top: top + 44.0,
        height,
        end: samples,
    };
    parts(svg, voice, k, &area);
    for (i, channel) in voice.channels.iter().enumerate() {
        if i > 0 {
            area.top = area.bottom() + 26.0;
        }
        ends(svg, voice, channel, k, &area);
        wave(svg, voice, channel, k, &area, INKS[i % 2]);
        peak(svg, octave_of(channel, k), &area);
        if voice.channel_count() > 1 {
            let side = if i == 0 { "left" } else { "right" };
            svg.text((14.0, area.top + height / 2.0 + 4.0), Anchor::Start, LABEL, side);
        }
    }
    area.ticks(svg, "samples");
    area.bottom() + 40.0
}

/// The names of an octave's parts, above their beginning and end.
fn parts(svg: &mut Svg, voice: &Voice, k: usize, area: &Area) {
    let Some((one_shot, repeat)) = split(voice, k) else {
        return;
    };
    let y = area.top - 8.0;
    if one_shot > 0 {
        svg.text(
            (LEFT, y),
            Anchor::Start,
            LABEL,
            &format!("one-shot {}", grouped(one_shot)),
        );
    }
    if repeat > 0 {
        let name = if voice.seqn.is_some() {
            "played by the sequence"
        } else {
            "loop"
        };
        svg.text((RIGHT, y), Anchor::End, LABEL, &format!("{name} {}", grouped(repeat)));
    }
}

/// The lengths of an octave's one-shot and repeat part.
fn split(voice: &Voice, k: usize) -> Option<(u64, u64)> {
    let (one_shot, repeat) = voice
        .channels
        .first()?
        .loop_split(&voice.header, u8::try_from(k).ok()?)?;
    Some((one_shot.len() as u64, repeat.len() as u64))
}

/// The first place of an octave's loop, and the place past its last; none where it has no loop.
fn loop_ends(voice: &Voice, k: usize) -> Option<[u64; 2]> {
    let (one_shot, repeat) = split(voice, k)?;
    (repeat > 0 && voice.seqn.is_none()).then_some([one_shot, one_shot + repeat])
}

/// Marks above the ends of a channel's loop, and how far from each the nearest crossing is.
fn ends(svg: &mut Svg, voice: &Voice, channel: &ChannelSamples, k: usize, area: &Area) {
    let Some(ends) = loop_ends(voice, k) else {
        return;
    };
    for end in ends {
        let (x, y) = (area.x(end as f64), area.top);
        let corners = [(x - 4.0, y - 6.0), (x + 4.0, y - 6.0), (x, y)];
        let points = corners.map(|(x, y)| format!("{},{}", number(x), number(y))).join(" ");
        svg.element("polygon", &format!(r#"points="{points}" {END}"#));
    }
    let [start, end] = ends.map(|end| format!("{}: {}", grouped(end), crossing(channel, k, end)));
    let middle = ((LEFT + RIGHT) / 2.0, area.top - 8.0);
    svg.text(
        middle,
        Anchor::Middle,
        SMALL,
        &format!("loop start {start}; loop end {end}"),
    );
}

/// An octave's samples of a channel.
fn octave_of(channel: &ChannelSamples, k: usize) -> &[i8] {
    channel.octaves.get(k).map_or(&[], Vec::as_slice)
}

/// How far the nearest crossing to a place is.
fn crossing(channel: &ChannelSamples, k: usize, place: u64) -> String {
    match svx::nearest_crossing(octave_of(channel, k), place as usize, usize::MAX).map(|i| i as u64) {
        Ok(i) if i == place => "on a crossing".to_string(),
        Ok(i) if i < place => format!("nearest crossing {} earlier", grouped(place - i)),
        Ok(i) => format!("nearest crossing {} later", grouped(i - place)),
        Err(_) => "no crossing".to_string(),
    }
}

/// One channel of an octave.
fn wave(svg: &mut Svg, voice: &Voice, channel: &ChannelSamples, k: usize, area: &Area, ink: &str) {
    let split = split(voice, k).filter(|(_, repeat)| *repeat > 0);
    if let Some((one_shot, _)) = split {
        let x = area.x(one_shot as f64);
        svg.rect([x, area.top, RIGHT - x, area.height], LOOP);
    }
    for value in [127, 0, -128] {
        area.value(svg, height(area, value), &value.to_string());
    }
    if let Some((one_shot, _)) = split.filter(|(one_shot, _)| *one_shot > 0) {
        let x = area.x(one_shot as f64);
        svg.line((x, area.top), (x, area.bottom()), MARK);
    }
    let samples = octave_of(channel, k);
    if samples.is_empty() {
        let middle = ((LEFT + RIGHT) / 2.0, area.top + area.height / 2.0 - 6.0);
        svg.text(middle, Anchor::Middle, SMALL, "no samples");
    } else if samples.len() <= COLUMNS as usize {
        let look = format!(r#"fill="none" stroke="{ink}" stroke-width="1.3""#);
        svg.element("path", &format!(r#"d="{}" {look}"#, steps(samples, area)));
    } else {
        let look = format!(r#"fill="{ink}" stroke="{ink}" stroke-width="0.7" stroke-linejoin="round""#);
        svg.element("path", &format!(r#"d="{}" {look}"#, band(samples, area)));
    }
    area.frame(svg);
}

/// A mark on the loudest of a channel's samples, the first where several are as loud, with its value.
fn peak(svg: &mut Svg, samples: &[i8], area: &Area) {
    let Some((_, place)) = svx::peak(samples) else {
        return;
    };
    let value = samples[place];
    // The middle of the step that the sample is drawn as.
    let (x, y) = (area.x(place as f64 + 0.5), height(area, value));
    peak_label(svg, (x, y), value, area);
    let (x, y) = (number(x), number(y));
    svg.element("circle", &format!(r#"cx="{x}" cy="{y}" r="3.5" {PEAK}"#));
}

/// The value of a peak: past it, where no wave is, or beside it where there is no room.
fn peak_label(svg: &mut Svg, (x, y): (f64, f64), value: i8, area: &Area) {
    let words = format!("peak {value}");
    let width = 6.5 * words.len() as f64;
    let past = if value < 0 { y + 14.0 } else { y - 7.0 };
    if past - 10.0 > area.top && past + 4.0 < area.bottom() {
        let middle = x.clamp(LEFT + width / 2.0, RIGHT - width / 2.0);
        svg.text((middle, past), Anchor::Middle, PEAK_LABEL, &words);
        return;
    }
    let room = x + width + 10.0 < RIGHT;
    let left = if room { x + 8.0 } else { x - 8.0 - width };
    let base = (y + 4.0).clamp(area.top + 13.0, area.bottom() - 5.0);
    svg.rect([left - 2.0, base - 10.0, width + 4.0, 13.0], PAPER);
    svg.text((left, base), Anchor::Start, PEAK_LABEL, &words);
}

/// The place of a sample's value.
fn height(area: &Area, value: i8) -> f64 {
    area.top + area.height * (127.0 - f64::from(value)) / 255.0
}

/// A few samples: each is held until the next, as a note holds it.
fn steps(samples: &[i8], area: &Area) -> String {
    let mut path = String::new();
    for (i, sample) in samples.iter().enumerate() {
        let y = number(height(area, *sample));
        path += &if i == 0 {
            format!("M{} {y}", number(LEFT))
        } else {
            format!("V{y}")
        };
        path += &format!("H{}", number(area.x((i + 1) as f64)));
    }
    path
}

/// Many samples: the highest of each column from left to right, then the lowest back.
fn band(samples: &[i8], area: &Area) -> String {
    let columns = COLUMNS as usize;
    let edge = |c: usize| (c as u128 * samples.len() as u128 / columns as u128) as usize;
    let (mut above, mut below) = (Vec::new(), Vec::new());
    for c in 0..columns {
        let column = &samples[edge(c)..edge(c + 1)];
        let x = number(LEFT + c as f64 + 0.5);
        let place = |value: Option<&i8>| format!("{x} {}", number(height(area, value.copied().unwrap_or(0))));
        above.push(place(column.iter().max()));
        below.push(place(column.iter().min()));
    }
    below.reverse();
    format!("M{}L{}Z", above.join("L"), below.join("L"))
}
