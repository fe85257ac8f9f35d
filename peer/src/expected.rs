//! The texts about the generated cases that this program writes.

use crate::case::{run, NUMBERS, OWN};
use crate::table::{cases, groups};

/// A line for each case.
pub fn case_lines() -> String {
    let numbered = cases().into_iter().enumerate();
    numbered.map(|(number, case)| run(number as u32, &case, &OWN).line(number) + "\n").collect()
}

/// A row for each case, every number in five columns with a comma after it: fit for reading at
/// fixed places, and for pasting into an array.
pub fn case_table() -> String {
    let row = |numbers: [u16; NUMBERS]| numbers.map(|number| format!("{number:5},")).concat() + "\n";
    cases().iter().map(|case| row(case.numbers())).collect()
}

/// A line for each group, as CASES.md shows them.
pub fn case_groups() -> String {
    let mut text = String::new();
    let mut first = 0;
    for group in groups() {
        let next = first + group.cases.len();
        text += &format!("| {} | {} | {} |\n", first, next - 1, group.name);
        first = next;
    }
    text
}
