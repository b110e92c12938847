//! A panel of the picture: an area with axes in which a curve is drawn.
use crate::svg::{Anchor, Svg};
use crate::words::grouped;

pub const WIDTH: f64 = 1_000.0;
/// Where the area begins; what stands left of it is the axis of values.
pub const LEFT: f64 = 84.0;
/// How wide the area is. It has a whole number of columns.
pub const COLUMNS: u32 = 880;
pub const RIGHT: f64 = LEFT + COLUMNS as f64;

pub const SMALL: &str = r##"font-size="11" fill="#555555""##;
pub const LABEL: &str = r##"font-size="12" fill="#2f5d9b""##;
pub const HEADING: &str = r##"font-size="14" font-weight="bold" fill="#222222""##;
pub const MARK: &str = r##"stroke="#5b8fd6" stroke-dasharray="4 3""##;
const FRAME: &str = r##"fill="none" stroke="#999999""##;
const GRID: &str = r##"stroke="#dddddd""##;

/// The area of a panel: where it lies, and what stands at its right end.
pub struct Area {
    pub top: f64,
    pub height: f64,
    pub end: u64,
}

impl Area {
    pub fn bottom(&self) -> f64 {
        self.top + self.height
    }

    /// The place of a sample or a millisecond.
    pub fn x(&self, at: f64) -> f64 {
        LEFT + f64::from(COLUMNS) * at / self.end.max(1) as f64
    }

    pub fn frame(&self, svg: &mut Svg) {
        svg.rect([LEFT, self.top, f64::from(COLUMNS), self.height], FRAME);
    }

    /// A value of the axis at the left, with a line across.
    pub fn value(&self, svg: &mut Svg, y: f64, words: &str) {
        svg.line((LEFT, y), (RIGHT, y), GRID);
        svg.text((LEFT - 8.0, y + 4.0), Anchor::End, SMALL, words);
    }

    /// The axis below: round numbers, and their unit at the left.
    pub fn ticks(&self, svg: &mut Svg, unit: &str) {
        let (y, mut at) = (self.bottom(), 0);
        svg.text((LEFT - 24.0, y + 18.0), Anchor::End, SMALL, unit);
        while at <= self.end {
            let x = self.x(at as f64);
            svg.line((x, y), (x, y + 5.0), r##"stroke="#999999""##);
            svg.text((x, y + 18.0), Anchor::Middle, SMALL, &grouped(at));
            at += round_step(self.end);
        }
    }
}

/// The least of 1, 2, 5, 10, 20, .. that makes at most 8 steps.
fn round_step(end: u64) -> u64 {
    let mut ten = 1;
    loop {
        for step in [ten, 2 * ten, 5 * ten] {
            if end / step <= 8 {
                return step;
            }
        }
        ten *= 10;
    }
}
