//! Instruction counts, which no other program on the machine disturbs. Callgrind counts from
//! `counting_begins` to `counting_ends` and then writes a numbered dump; dumps and calls are in the same
//! order.

use std::fs;

use peer::Verdict;

use crate::contestants::{contestants, Contestant, LAYER};
use crate::results::{main_works, MANY_HASHES};
use crate::tables::{head, row};
use crate::work::{shape, Desk, Work};

extern "C" {
    fn counting_begins();
    fn counting_ends();
}

fn counted_call(desk: &mut Desk, by: &Contestant) -> Verdict {
    unsafe { counting_begins() };
    let verdict = desk.run(by);
    unsafe { counting_ends() };
    verdict
}

/// Who does what, in the order of the calls.
fn calls(contestants: &[Contestant]) -> Vec<(Work, usize)> {
    let each = |work| (0..contestants.len()).map(move |number| (work, number));
    main_works()
        .into_iter()
        .flat_map(each)
        .filter(|(work, number)| contestants[*number].does(*work))
        .collect()
}

pub fn call_each_once() {
    let contestants = contestants();
    for (work, number) in calls(&contestants) {
        let (mut desk, by) = (Desk::of(work), &contestants[number]);
        // Once before it counts: what a library sets up at its first call is not the call's.
        desk.run(by);
        desk.clear();
        let verdict = counted_call(&mut desk, by);
        desk.check(verdict, by);
    }
}

fn counted(dump: &str) -> u64 {
    let text = fs::read_to_string(dump).unwrap_or_else(|error| panic!("{dump}: {error}"));
    let total = text.lines().find_map(|line| line.strip_prefix("totals: "));
    total.and_then(|number| number.trim().parse().ok()).unwrap_or_else(|| panic!("{dump} has no total"))
}

/// A number with a comma at every thousand.
fn spaced(number: u64) -> String {
    let digits = number.to_string();
    let parts: Vec<&str> =
        digits.as_bytes().rchunks(3).rev().map(|part| std::str::from_utf8(part).unwrap()).collect();
    parts.join(",")
}

/// The table of the dumps `DUMPS.1`, `DUMPS.2` and so on.
pub fn table(dumps: &str) -> String {
    let contestants = contestants();
    let calls = calls(&contestants);
    let count = |work, number| {
        let at = calls.iter().position(|call| *call == (work, number))?;
        Some(counted(&format!("{dumps}.{}", at + 1)))
    };
    let others = LAYER + 1..contestants.len();
    let mut names = vec!["call".to_string(), "layer".to_string()];
    names.extend(others.clone().flat_map(|number| {
        let name = contestants[number].name;
        [name.to_string(), format!("layer / {name}")]
    }));
    let mut table = head(1, &names.iter().map(String::as_str).collect::<Vec<_>>());
    for work in main_works() {
        let layer = count(work, LAYER).expect("the layer does everything");
        let mut cells = vec![work.to_string(), spaced(layer)];
        for number in others.clone() {
            let other = count(work, number);
            let ratio = other.map(|other| format!("**{:.2}**", layer as f64 / other as f64));
            cells.extend([other.map(spaced), ratio].map(|figure| figure.unwrap_or_else(|| "–".to_string())));
        }
        table += &row(cells);
    }
    let (_, m, n, _) = MANY_HASHES;
    let whole = count(Work::Answer(shape(MANY_HASHES)), LAYER).expect("the layer does everything") as f64;
    let hash = count(Work::Hash(48), LAYER).expect("the layer does everything") as f64;
    let share = 100.0 * (1.0 - f64::from(m) * f64::from(n) * hash / whole);
    table + &format!("\nOf answering at (2, {m}, {n}, 1), {share:.1} % is not hashing, counted so.\n")
}
