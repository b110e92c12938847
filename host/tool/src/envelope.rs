//! The panel of the envelope: the level of a note whose key is let go where the attack ends.
use crate::panel::{Area, HEADING, LABEL, LEFT, MARK, RIGHT, SMALL};
use crate::svg::{number, Anchor, Svg};
use crate::words::grouped;
use svx::{EgPoint, Envelope, Voice};

const FULL: f64 = 65_536.0;
const LINE: &str = r##"fill="none" stroke="#1f3b63" stroke-width="1.5" stroke-linejoin="round""##;
const BELOW: &str = r##"fill="#eef1f5""##;
const DOT: &str = r##"r="3" fill="#1f3b63""##;

/// A curve of more points has no dots.
const FEW: usize = 60;
/// A curve of more corners is thinned out.
const MANY: usize = 4_000;

/// Draws the panel from `top` on. Gives the place below it.
pub fn draw(svg: &mut Svg, voice: &Voice, top: f64) -> f64 {
    let (attack, release) = (joined(&voice.attack), joined(&voice.release));
    svg.text((LEFT, top + 14.0), Anchor::Start, HEADING, "Envelope");
    svg.text(
        (LEFT + 98.0, top + 14.0),
        Anchor::Start,
        SMALL,
        &facts(&attack, &release),
    );
    if attack.is_empty() && release.is_empty() {
        return top + 34.0;
    }
    let mut curve = Curve::starting(if attack.is_empty() { FULL } else { 0.0 });
    curve.follow(&attack);
    let rise = curve.at;
    curve.follow(&release);
    let (top, end) = (top + 44.0, (duration(&attack) + duration(&release)).max(1));
    let area = Area {
        top,
        height: 120.0,
        end,
    };
    curve.fill(svg, &area);
    for (share, words) in [(1.0, "100%"), (0.5, "50%"), (0.0, "0%")] {
        area.value(svg, height(&area, share * FULL), words);
    }
    key_up(svg, &area, rise);
    area.frame(svg);
    curve.stroke(svg, &area);
    area.ticks(svg, "ms");
    area.bottom() + 40.0
}

fn facts(attack: &[EgPoint], release: &[EgPoint]) -> String {
    let (rise, fall) = (grouped(duration(attack)), grouped(duration(release)));
    match (attack.is_empty(), release.is_empty()) {
        (true, true) => "none: full level from the start, over at the key-up".to_string(),
        (false, true) => format!("attack {rise} ms; over at the key-up"),
        (true, false) => format!("full level from the start; release {fall} ms from the key-up on"),
        (false, false) => format!("attack {rise} ms; release {fall} ms from the key-up on"),
    }
}

/// The points of all chunks, as a note joins them.
fn joined(chunks: &[Envelope]) -> Vec<EgPoint> {
    chunks.iter().flat_map(|chunk| chunk.points.iter().copied()).collect()
}

fn duration(points: &[EgPoint]) -> u64 {
    points.iter().map(|point| u64::from(point.duration_ms)).sum()
}

/// The place of a level.
fn height(area: &Area, level: f64) -> f64 {
    area.bottom() - area.height * level / FULL
}

/// The line at which the attack ends and the release begins.
fn key_up(svg: &mut Svg, area: &Area, rise: f64) {
    let x = area.x(rise);
    svg.line((x, area.top - 4.0), (x, area.bottom()), MARK);
    svg.text(
        (x.clamp(LEFT + 20.0, RIGHT - 20.0), area.top - 8.0),
        Anchor::Middle,
        LABEL,
        "key-up",
    );
}

/// A level over time, in milliseconds, held between silence and full as a note holds it.
struct Curve {
    corners: Vec<(f64, f64)>,
    /// The points themselves, where they lie within the bounds.
    dots: Vec<(f64, f64)>,
    at: f64,
}

impl Curve {
    fn starting(level: f64) -> Curve {
        Curve {
            corners: vec![(0.0, level)],
            dots: Vec::new(),
            at: 0.0,
        }
    }

    /// Goes on along an envelope, from the level that was reached.
    fn follow(&mut self, points: &[EgPoint]) {
        let mut level = self.corners.last().map_or(0.0, |corner| corner.1);
        for point in points {
            let (lasts, dest) = (f64::from(point.duration_ms), f64::from(point.dest));
            // Where the straight line passes a bound, the curve has a corner.
            let mut bounds = [0.0, FULL];
            if dest < level {
                bounds.reverse();
            }
            for bound in bounds {
                if (level - bound) * (dest - bound) < 0.0 {
                    self.corners
                        .push((self.at + lasts * (bound - level) / (dest - level), bound));
                }
            }
            self.at += lasts;
            level = dest;
            self.corners.push((self.at, dest.clamp(0.0, FULL)));
            if (0.0..=FULL).contains(&dest) {
                self.dots.push((self.at, dest));
            }
        }
    }

    /// The corners as places in the picture; of many, those that a column shows.
    fn places(&self, area: &Area) -> Vec<(f64, f64)> {
        let places: Vec<(f64, f64)> = self.corners.iter().map(|c| (area.x(c.0), height(area, c.1))).collect();
        if places.len() <= MANY {
            return places;
        }
        let column = |a: &(f64, f64), b: &(f64, f64)| a.0.floor() == b.0.floor();
        let low_and_high = |group: &[(f64, f64)]| {
            let by_height = |a: &&(f64, f64), b: &&(f64, f64)| a.1.total_cmp(&b.1);
            [
                group.iter().min_by(by_height).copied(),
                group.iter().max_by(by_height).copied(),
            ]
        };
        places.chunk_by(column).flat_map(low_and_high).flatten().collect()
    }

    fn fill(&self, svg: &mut Svg, area: &Area) {
        let line = points(&self.places(area));
        let (start, end, y) = (number(LEFT), number(area.x(self.at)), number(area.bottom()));
        svg.element("polygon", &format!(r#"points="{start},{y} {line} {end},{y}" {BELOW}"#));
    }

    fn stroke(&self, svg: &mut Svg, area: &Area) {
        let line = points(&self.places(area));
        svg.element("polyline", &format!(r#"points="{line}" {LINE}"#));
        if self.dots.len() <= FEW {
            for dot in &self.dots {
                let (x, y) = (number(area.x(dot.0)), number(height(area, dot.1)));
                svg.element("circle", &format!(r#"cx="{x}" cy="{y}" {DOT}"#));
            }
        }
    }
}

fn points(places: &[(f64, f64)]) -> String {
    let pairs: Vec<String> = places
        .iter()
        .map(|(x, y)| format!("{},{}", number(*x), number(*y)))
        .collect();
    pairs.join(" ")
}
