//! The tables, in Markdown: one text a section of docs/PERFORMANCE.md.

use over_openssl::libcrypto;

use crate::contestants::{LAYER, OPENSSL, PEER, PLAIN_C};
use crate::results::{main_works, with_places, with_rows, Results, MANY_HASHES, PLACES, ROWS};
use crate::timing::Timed;
use crate::work::{shape, Work};

/// Three figures, and the unit that suits them.
pub fn time(nanoseconds: f64) -> String {
    let (value, unit) = match nanoseconds {
        t if t < 1e3 => (t, "ns"),
        t if t < 1e6 => (t / 1e3, "µs"),
        t => (t / 1e6, "ms"),
    };
    let digits = if value < 10.0 { 2 } else { usize::from(value < 100.0) };
    format!("{value:.digits$} {unit}")
}

fn or_dash(figure: Option<String>) -> String {
    figure.unwrap_or_else(|| "–".to_string())
}

pub fn row(cells: impl IntoIterator<Item = String>) -> String {
    let cells: Vec<String> = cells.into_iter().collect();
    format!("| {} |\n", cells.join(" | "))
}

/// The first row and the line under it. Columns after the first `left` hold numbers, which stand to the
/// right.
pub fn head(left: usize, names: &[&str]) -> String {
    let lines = names.iter().enumerate().map(|(i, _)| if i < left { "---" } else { "---:" }.to_string());
    row(names.iter().map(|name| name.to_string())) + &row(lines)
}

/// The layer's time, then each other contestant's and the layer's ratio to it.
fn beside(timed: &Timed, others: &[usize]) -> Vec<String> {
    let median = |contestant| or_dash(timed.median(contestant).map(time));
    let ratio = |other| or_dash(timed.ratio(LAYER, other).map(|ratio| format!("**{ratio:.2}**")));
    let mut cells = vec![median(LAYER)];
    cells.extend(others.iter().flat_map(|other| [median(*other), ratio(*other)]));
    cells
}

/// Peer, and OpenSSL where it was there.
fn others(results: &Results) -> Vec<usize> {
    [PEER].into_iter().chain(results.with_openssl.then_some(OPENSSL)).collect()
}

/// The heads of the columns that `beside` fills.
fn beside_heads(others: &[usize]) -> Vec<&'static str> {
    let heads = |other: &usize| match *other {
        PEER => ["peer", "layer / peer"],
        OPENSSL => ["over OpenSSL", "layer / OpenSSL"],
        _ => ["plain C", "layer / plain C"],
    };
    ["layer"].into_iter().chain(others.iter().flat_map(heads)).collect()
}

/// The operations, or the other calls, beside some contestants.
fn calls(results: &Results, names: [&str; 2], others: &[usize], operations: bool) -> String {
    let mut table = head(2, &[&names, &beside_heads(others)[..]].concat());
    for work in main_works().into_iter().filter(|work| work.is_operation() == operations) {
        let cells = beside(results.of(work), others);
        table += &row([work.operation().to_string(), work.subject()].into_iter().chain(cells));
    }
    table
}

fn operations(results: &Results) -> String {
    calls(results, ["operation", "(mode, m, n, l)"], &others(results), true)
}

fn hash_and_block(results: &Results) -> String {
    let others = [&others(results)[..], &[PLAIN_C]].concat();
    calls(results, ["call", "of"], &others, false)
}

/// The layer's times along a growing number and their ratios to peer's. Where an operation grows with it,
/// its time is also divided by `parts`.
fn growth(
    results: &Results,
    name: &str,
    each: &str,
    grows: [bool; 3],
    line: impl Iterator<Item = (u16, f64, [Work; 3])>,
) -> String {
    let mut names = vec![name.to_string()];
    for (operation, grows) in ["prepare", "answer", "open"].into_iter().zip(grows) {
        names.push(operation.to_string());
        names.extend(grows.then(|| format!("a {each}")));
        names.push("/ peer".to_string());
    }
    let mut table = head(0, &names.iter().map(String::as_str).collect::<Vec<_>>());
    for (number, parts, works) in line {
        let mut cells = vec![number.to_string()];
        for (timed, grows) in works.map(|work| results.of(work)).into_iter().zip(grows) {
            let layer = timed.median(LAYER).expect("the layer's time");
            cells.push(time(layer));
            cells.extend(grows.then(|| time(layer / parts)));
            cells.push(or_dash(timed.ratio(LAYER, PEER).map(|ratio| format!("{ratio:.2}"))));
        }
        table += &row(cells);
    }
    table
}

fn growth_with_rows(results: &Results) -> String {
    let line = ROWS.into_iter().map(|m| (m, f64::from(m), with_rows(m)));
    growth(results, "m", "row", [true; 3], line)
}

/// Answering and opening work on every place.
fn growth_with_places(results: &Results) -> String {
    let line = PLACES.into_iter().map(|n| (n, 128.0 * f64::from(n), with_places(n)));
    growth(results, "n", "string", [false, true, true], line)
}

fn percent(share: f64) -> String {
    format!("{:.1} %", 100.0 * share)
}

fn shares(results: &Results) -> String {
    let (_, m, n, _) = MANY_HASHES;
    let answer = results.of(Work::Answer(shape(MANY_HASHES))).median(LAYER).expect("the layer's time");
    let hash = results.of(Work::Hash(48)).median(LAYER).expect("the layer's time");
    head(1, &["of answering at (2, 128, 256, 1)", ""])
        + &row(["the whole call".to_string(), time(answer)])
        + &row([
            format!("{m} · {n} times the public hash of 48 bytes"),
            time(f64::from(m) * f64::from(n) * hash),
        ])
        + &row(["share that is not hashing".to_string(), percent(results.share_beside_hashes())])
        + &row(["share that does not grow with n".to_string(), percent(results.share_without_places())])
}

/// Each goal with what was measured.
fn goals(results: &Results) -> String {
    let met = |holds| if holds { "met" } else { "**not met**" }.to_string();
    let ratio = |work: &Work| results.of(*work).ratio(LAYER, PEER).expect("peer's time");
    let works = main_works();
    let operations = works.iter().filter(|work| work.is_operation());
    let worst = operations.max_by(|one, other| ratio(one).total_cmp(&ratio(other))).expect("an operation");
    let plain = results.of(Work::Hash(48)).ratio(LAYER, PLAIN_C).expect("the plain C's time");
    let share = results.share_beside_hashes();
    head(3, &["goal", "measured", ""])
        + &row([
            "every operation at most 1.0 times peer's time".to_string(),
            format!("{:.2} at most, {worst}", ratio(worst)),
            met(ratio(worst) <= 1.0),
        ])
        + &row([
            "the hash of 48 bytes at most 0.9 times plain C at -O3".to_string(),
            format!("{plain:.2}"),
            met(plain <= 0.9),
        ])
        + &row([
            "setting up, transposing and copying at most 15 % of answering at (2, 128, 256, 1)".to_string(),
            percent(share),
            met(share <= 0.15),
        ])
}

/// The lines of the machine's table that only this program knows.
fn machine(results: &Results) -> String {
    let openssl = match libcrypto::version() {
        Some(version) => {
            match ["OPENSSL_armcap", "OPENSSL_ia32cap"].iter().find(|name| std::env::var_os(name).is_some()) {
                Some(name) => format!("{version}, {name} set"),
                None => format!("{version}, with what the processor has"),
            }
        }
        None => "no libcrypto.so.3 was found: its columns are left out".to_string(),
    };
    row(["OpenSSL".to_string(), openssl]) + &row(["rounds".to_string(), results.rounds.to_string()])
}

pub fn sections(results: &Results) -> [(&'static str, String); 7] {
    [
        ("machine", machine(results)),
        ("goals", goals(results)),
        ("operations", operations(results)),
        ("hash-and-block", hash_and_block(results)),
        ("growth-with-rows", growth_with_rows(results)),
        ("growth-with-places", growth_with_places(results)),
        ("shares", shares(results)),
    ]
}
