//! The plot, as SVG written out by hand: ratios to peer as bars, and growth with m and with n as lines.

use crate::contestants::{LAYER, PEER};
use crate::results::{main_works, with_places, with_rows, Results, PLACES, ROWS};
use crate::work::Work;

/// The three operations, and then the hash and the block.
const COLOURS: [&str; 4] = ["#1b6ca8", "#b3541e", "#3f7d3a", "#6b6b6b"];
const OPERATIONS: [&str; 3] = ["prepare", "answer", "open"];

fn colour(work: Work) -> &'static str {
    COLOURS[OPERATIONS.iter().position(|name| *name == work.operation()).unwrap_or(3)]
}

fn text(x: f64, y: f64, anchor: &str, words: &str) -> String {
    format!("<text x=\"{x:.1}\" y=\"{y:.1}\" text-anchor=\"{anchor}\">{words}</text>\n")
}

fn line(x1: f64, y1: f64, x2: f64, y2: f64, stroke: &str) -> String {
    format!("<line x1=\"{x1:.1}\" y1=\"{y1:.1}\" x2=\"{x2:.1}\" y2=\"{y2:.1}\" stroke=\"{stroke}\"/>\n")
}

fn bars(results: &Results) -> String {
    let (left, top, width, step) = (170.0, 50.0, 230.0, 24.0);
    let ratio = |work: &Work| results.of(*work).ratio(LAYER, PEER).expect("peer's time");
    let works = main_works();
    let most = works.iter().map(ratio).fold(1.0, f64::max) * 1.05;
    let mut svg = text(left, 28.0, "start", "Time as a multiple of peer's");
    for (index, work) in works.iter().enumerate() {
        let (y, length) = (top + step * index as f64, width * ratio(work) / most);
        svg += &text(left - 8.0, y + 13.0, "end", &work.to_string());
        let fill = colour(*work);
        svg += &format!(
            "<rect x=\"{left}\" y=\"{y:.1}\" width=\"{length:.1}\" height=\"17\" fill=\"{fill}\"/>\n"
        );
        svg += &text(left + length + 5.0, y + 13.0, "start", &format!("{:.2}", ratio(work)));
    }
    let one = left + width / most;
    let bottom = top + step * works.len() as f64;
    svg + &line(one, top - 8.0, one, bottom, "#222") + &text(one, bottom + 16.0, "middle", "1")
}

/// A chart of times over a doubling number, both by powers: a straight line is a cost that grows with a
/// power of the number, and a flat one a cost that does not grow.
struct Growth<'a> {
    results: &'a Results,
    numbers: &'a [u16],
    works: fn(u16) -> [Work; 3],
    top: f64,
    /// The powers of ten, in nanoseconds, between which all times lie.
    powers: (i32, i32),
}

const LEFT: f64 = 540.0;
const WIDTH: f64 = 300.0;
const HEIGHT: f64 = 170.0;

impl<'a> Growth<'a> {
    fn new(results: &'a Results, numbers: &'a [u16], works: fn(u16) -> [Work; 3], top: f64) -> Growth<'a> {
        let mut growth = Growth { results, numbers, works, top, powers: (i32::MAX, i32::MIN) };
        for work in numbers.iter().flat_map(|number| works(*number)) {
            for power in [LAYER, PEER].map(|by| growth.time(work, by).log10()) {
                growth.powers.0 = growth.powers.0.min(power.floor() as i32);
                growth.powers.1 = growth.powers.1.max(power.ceil() as i32);
            }
        }
        growth
    }

    fn time(&self, work: Work, by: usize) -> f64 {
        self.results.of(work).median(by).expect("a time")
    }

    fn x(&self, index: usize) -> f64 {
        LEFT + WIDTH * index as f64 / (self.numbers.len() - 1) as f64
    }

    fn y(&self, time: f64) -> f64 {
        let (low, high) = (f64::from(self.powers.0), f64::from(self.powers.1));
        self.top + HEIGHT * (high - time.log10()) / (high - low)
    }

    fn axes(&self, title: &str) -> String {
        let mut svg = text(LEFT, self.top - 14.0, "start", title);
        for power in self.powers.0..=self.powers.1 {
            let y = self.y(10f64.powi(power));
            svg += &line(LEFT, y, LEFT + WIDTH, y, "#ddd");
            svg += &text(LEFT - 6.0, y + 4.0, "end", &power_of_ten(power));
        }
        for (index, number) in self.numbers.iter().enumerate() {
            svg += &text(self.x(index), self.top + HEIGHT + 16.0, "middle", &number.to_string());
        }
        svg
    }

    /// One operation's times by one contestant.
    fn times(&self, operation: usize, by: usize, dashes: &str) -> String {
        let points = self.numbers.iter().enumerate().map(|(index, number)| {
            format!("{:.1},{:.1}", self.x(index), self.y(self.time((self.works)(*number)[operation], by)))
        });
        let (points, stroke) = (points.collect::<Vec<_>>().join(" "), COLOURS[operation]);
        let style =
            format!("fill=\"none\" stroke=\"{stroke}\" stroke-width=\"1.8\" stroke-dasharray=\"{dashes}\"");
        format!("<polyline points=\"{points}\" {style}/>\n")
    }

    /// Each operation's name at its line's end, or below the one before it where two lines end together.
    fn names(&self) -> String {
        let last = (self.works)(self.numbers[self.numbers.len() - 1]);
        let mut names = last.map(|work| (self.y(self.time(work, LAYER)) + 4.0, work));
        names.sort_by(|one, other| one.0.total_cmp(&other.0));
        let (mut svg, mut free) = (String::new(), 0.0);
        for (y, work) in names {
            let y = y.max(free);
            svg += &text(LEFT + WIDTH + 8.0, y, "start", work.operation());
            free = y + 13.0;
        }
        svg
    }

    fn chart(&self, title: &str) -> String {
        let operations = 0..OPERATIONS.len();
        let both = |operation| self.times(operation, PEER, "4 3") + &self.times(operation, LAYER, "none");
        self.axes(title) + &operations.map(both).collect::<String>() + &self.names()
    }
}

/// A power of ten, in nanoseconds.
fn power_of_ten(power: i32) -> String {
    let unit = ["ns", "µs", "ms", "s"][power as usize / 3];
    format!("{} {unit}", 10i32.pow(power as u32 % 3))
}

pub fn svg(results: &Results) -> String {
    let head = "<svg xmlns=\"http://www.w3.org/2000/svg\" viewBox=\"0 0 920 545\" font-family=\"sans-serif\" font-size=\"12\">";
    let page = "<rect width=\"920\" height=\"545\" fill=\"#fff\"/>";
    let rows = Growth::new(results, &ROWS, with_rows, 50.0).chart("Growth with m at (2, m, 16, 2)");
    let places = Growth::new(results, &PLACES, with_places, 290.0).chart("Growth with n at (2, 128, n, 1)");
    let key = text(LEFT, 528.0, "start", "solid: the layer; broken: peer");
    format!("{head}\n{page}\n{}{rows}{places}{key}</svg>\n", bars(results))
}
