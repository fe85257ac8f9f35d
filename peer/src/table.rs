//! The table of generated cases, group by group. The program in Rattle runs the same rows.

use crate::case::*;
use crate::shape::{Shape, CHOICES, PAIRS};

/// Cases that are about one thing.
pub struct Group {
    pub name: &'static str,
    pub cases: Vec<Case>,
}

const fn shape(mode: u8, rows: u16, places: u16, bytes: u8) -> Shape {
    Shape { mode, rows, places, bytes }
}

/// Two small shapes with padding, for cases that are about refusals.
const SMALL_PAIRS: Shape = shape(PAIRS, 9, 2, 3);
const SMALL_CHOICES: Shape = shape(CHOICES, 11, 3, 2);
const SMALL: [Shape; 2] = [SMALL_PAIRS, SMALL_CHOICES];

/// Row counts around multiples of eight, and the smallest and the largest.
const ROWS: [u16; 22] =
    [1, 2, 7, 8, 9, 15, 16, 17, 23, 24, 25, 63, 64, 65, 127, 128, 129, 511, 512, 513, 1_023, 1_024];

/// A lawful shape that has at most as many bytes as asked.
fn at_most(mode: u8, rows: u16, places: u16, bytes: u8) -> Shape {
    let fits = 32_768 / (u32::from(rows) * u32::from(places));
    shape(mode, rows, places, fits.min(u32::from(bytes)) as u8)
}

/// Pairs at every row count, in both forms.
fn pairs() -> Vec<Case> {
    let mut cases = Vec::new();
    for (index, rows) in ROWS.into_iter().enumerate() {
        for form in [COLUMNS, SEEDS] {
            let bytes = [1, 31, 32][index % 3];
            cases.push(Case::plain(at_most(PAIRS, rows, 2, bytes), form));
        }
    }
    cases
}

/// Choices at every row count, the forms in turn.
fn choices() -> Vec<Case> {
    let mut cases = Vec::new();
    for (index, rows) in ROWS.into_iter().enumerate() {
        let form = (index % 2) as u16;
        cases.push(Case::plain(at_most(CHOICES, rows, 2 + form, [1, 32][index / 2 % 2]), form));
    }
    cases
}

/// Choices at the places and bytes that matter, in both forms.
fn places_and_bytes() -> Vec<Case> {
    let mut cases = Vec::new();
    for places in [2, 3, 40, 41, 255, 256] {
        for rows in [1, 4, 8, 9] {
            for bytes in [1, 31, 32] {
                let asked = shape(CHOICES, rows, places, bytes);
                if asked.check().is_ok() {
                    cases.extend([COLUMNS, SEEDS].map(|form| Case::plain(asked, form)));
                }
            }
        }
    }
    cases
}

/// The largest batches; those with the most hashes in one form only.
fn largest() -> Vec<Case> {
    let mut cases = Vec::new();
    for largest in [
        shape(CHOICES, 4, 256, 32),
        shape(PAIRS, 1_024, 2, 16),
        shape(PAIRS, 512, 2, 32),
        shape(CHOICES, 1_024, 2, 16),
        shape(CHOICES, 512, 2, 32),
        shape(CHOICES, 1_024, 4, 8),
    ] {
        cases.extend([COLUMNS, SEEDS].map(|form| Case::plain(largest, form)));
    }
    cases.push(Case::plain(shape(CHOICES, 128, 256, 1), SEEDS));
    cases.push(Case::plain(shape(CHOICES, 1_024, 32, 1), COLUMNS));
    cases
}

/// Secrets of zeros and of ones.
fn secrets() -> Vec<Case> {
    let mut cases = Vec::new();
    for used in [SMALL_PAIRS, shape(PAIRS, 64, 2, 32), SMALL_CHOICES, shape(CHOICES, 16, 40, 1)] {
        for secret in [ZEROS, ONES] {
            cases.extend([COLUMNS, SEEDS].map(|form| Case::plain(used, form).secret(secret)));
        }
    }
    cases
}

/// Each of refusals 1 to 5 by each of its limits, in each call.
fn shapes_refused() -> Vec<Case> {
    let refused = [
        shape(0, 9, 2, 3),
        shape(3, 9, 2, 3),
        shape(255, 9, 2, 3),
        shape(PAIRS, 0, 2, 3),
        shape(PAIRS, 1_025, 2, 3),
        shape(CHOICES, 0, 3, 2),
        shape(CHOICES, 65_535, 3, 2),
        shape(PAIRS, 9, 0, 3),
        shape(PAIRS, 9, 1, 3),
        shape(PAIRS, 9, 3, 3),
        shape(PAIRS, 9, 258, 3),
        shape(CHOICES, 11, 0, 2),
        shape(CHOICES, 11, 1, 2),
        shape(CHOICES, 11, 257, 2),
        shape(CHOICES, 11, 65_535, 2),
        shape(PAIRS, 9, 2, 0),
        shape(CHOICES, 11, 3, 33),
        shape(CHOICES, 11, 3, 255),
        shape(CHOICES, 5, 256, 32),
        shape(PAIRS, 1_024, 2, 17),
        shape(CHOICES, 129, 255, 1),
        shape(CHOICES, 1_024, 33, 1),
    ];
    in_each_call(&refused)
}

/// Several numbers at fault: the smallest refusal is given.
fn shapes_refused_twice() -> Vec<Case> {
    let refused = [
        shape(0, 0, 0, 0),
        shape(255, 65_535, 65_535, 255),
        shape(PAIRS, 0, 3, 0),
        shape(CHOICES, 1_025, 1, 33),
        shape(CHOICES, 1_024, 257, 33),
        shape(CHOICES, 1_024, 256, 33),
        shape(CHOICES, 1_024, 256, 32),
    ];
    in_each_call(&refused)
}

/// The refused shapes in each call of an exchange of that mode, and in all calls at once.
fn in_each_call(refused: &[Shape]) -> Vec<Case> {
    let mut cases = Vec::new();
    for (index, other) in refused.iter().enumerate() {
        let used = if other.mode == PAIRS { SMALL_PAIRS } else { SMALL_CHOICES };
        let form = (index % 2) as u16;
        cases.extend([1, 2, 4].map(|calls| Case::plain(used, form).other(calls, *other)));
    }
    cases.push(Case::plain(SMALL_PAIRS, COLUMNS).other(7, refused[0]));
    cases
}

/// What each call is lent, in document 01's order: inputs, then outputs.
const LENT: [(u16, &[u16]); 3] = [
    (PREPARE, &[SESSION, FIRST, SECOND, SELECTIONS, MESSAGE, KEPT]),
    (ANSWER, &[SESSION, SECRET, TAKEN, STRINGS, ANSWERED]),
    (OPEN, &[SESSION, SELECTIONS, KEPT, OPENED]),
];

/// Each lent buffer too short by one, too long by one, and empty, in both forms.
fn lengths() -> Vec<Case> {
    let mut cases = Vec::new();
    for (form, used) in [(COLUMNS, SMALL_PAIRS), (SEEDS, SMALL_CHOICES)] {
        let plain = Case::plain(used, form);
        for (call, buffers) in LENT {
            for buffer in buffers {
                let usual = plain.usual(call, *buffer);
                cases.extend([usual - 1, usual + 1, 0].map(|length| plain.length(call, *buffer, length)));
            }
        }
    }
    cases
}

/// Two lengths wrong, or a length and something else: the smallest number, then the first buffer.
fn lengths_and_more() -> Vec<Case> {
    let mut cases = Vec::new();
    for (call, buffers) in LENT {
        for pair in buffers.windows(2) {
            let plain = Case::plain(SMALL_CHOICES, COLUMNS);
            cases.push(plain.length(call, pair[1], 1).length(call, pair[0], 2));
        }
    }
    let (columns, seeds) = (Case::plain(SMALL_CHOICES, COLUMNS), Case::plain(SMALL_CHOICES, SEEDS));
    cases.extend([
        // A set as long as the other form wants it.
        columns.length(PREPARE, FIRST, SMALL_CHOICES.seeds()),
        seeds.length(PREPARE, SECOND, SMALL_CHOICES.columns()),
        columns.length(ANSWER, TAKEN, SMALL_CHOICES.seeds()),
        seeds.length(ANSWER, TAKEN, SMALL_CHOICES.columns()),
        // A refused shape comes before a wrong length.
        columns.other(1, shape(CHOICES, 5, 256, 32)).length(PREPARE, SESSION, 0),
        columns.other(2, shape(CHOICES, 5, 256, 32)).length(ANSWER, SECRET, 0),
        columns.other(4, shape(CHOICES, 5, 256, 32)).length(OPEN, KEPT, 0),
        // A wrong length comes before a selection, padding and the message.
        columns.length(PREPARE, KEPT, 0).poke(PREPARE, SELECTIONS, 0, 255),
        columns.length(PREPARE, MESSAGE, 0).poke(PREPARE, FIRST, 1, xor(128)),
        columns.length(ANSWER, ANSWERED, 0).poke(ANSWER, TAKEN, 1, xor(128)),
        columns.length(ANSWER, STRINGS, 0).poke(ANSWER, MESSAGE, 0, 0),
        columns.length(OPEN, OPENED, 0).poke(OPEN, SELECTIONS, 0, 255),
        columns.length(OPEN, KEPT, 0).poke(OPEN, ANSWERED, 0, 0),
    ]);
    cases
}

/// Selections at and above n, and the largest that passes, in prepare and in open.
fn selections() -> Vec<Case> {
    let pairs = Case::plain(shape(PAIRS, 9, 2, 1), COLUMNS);
    let forty = Case::plain(shape(CHOICES, 20, 40, 1), SEEDS);
    let most = Case::plain(shape(CHOICES, 3, 255, 1), COLUMNS);
    let all = Case::plain(shape(CHOICES, 3, 256, 1), COLUMNS);
    let mut cases = Vec::new();
    for call in [PREPARE, OPEN] {
        let set = |case: Case, row, r| case.poke(call, SELECTIONS, row, r);
        cases.extend([
            set(pairs, 0, 2),
            set(pairs, 4, 3),
            set(pairs, 8, 255),
            set(pairs, 8, 1),
            set(forty, 0, 40),
            set(forty, 10, 41),
            set(forty, 19, 255),
            set(forty, 19, 39),
            set(most, 1, 255),
            set(most, 1, 254),
            set(all, 2, 255),
            // The first bad row, whichever was changed first; and a bad row that is not lent.
            set(set(forty, 7, 40), 3, 200),
            set(set(forty, 2, 255), 18, 40),
            set(pairs, 9, 255),
        ]);
    }
    // An honest selection may differ from the prepared one: another row opens, to nothing useful.
    cases.push(forty.poke(OPEN, SELECTIONS, 5, 0).poke(OPEN, SELECTIONS, 6, 39));
    cases
}

/// The byte of column i that has its padding, in a set of the shape's columns.
fn last_byte(shape: Shape, i: usize) -> usize {
    i * shape.c() + shape.c() - 1
}

/// The lowest padding bit of a shape, as a change of the byte that has it.
fn lowest_padding(shape: Shape) -> u16 {
    xor(1 << (shape.rows % 8))
}

/// The first, a middle and the last column.
fn some_columns(shape: Shape) -> [usize; 3] {
    [0, shape.k() / 2 - 3, shape.k() - 1]
}

/// Padding set in handed-in columns: first, middle and last of each set, lowest and highest bit.
fn padding_handed_in() -> Vec<Case> {
    let mut cases = Vec::new();
    for used in SMALL {
        let plain = Case::plain(used, COLUMNS);
        for (call, buffer) in [(PREPARE, FIRST), (PREPARE, SECOND), (ANSWER, TAKEN)] {
            for i in some_columns(used) {
                cases.push(plain.poke(call, buffer, last_byte(used, i), lowest_padding(used)));
                cases.push(plain.poke(call, buffer, last_byte(used, i), xor(0x80)));
            }
        }
    }
    for rows in [1, 7, 15, 1_023] {
        let used = shape(CHOICES, rows, 2, 1);
        let plain = Case::plain(used, COLUMNS);
        cases.push(plain.poke(PREPARE, SECOND, last_byte(used, 200), xor(0x80)));
        cases.push(plain.poke(ANSWER, TAKEN, last_byte(used, 255), xor(0x80)));
    }
    let (used, whole) = (SMALL_CHOICES, shape(PAIRS, 8, 2, 1));
    let plain = Case::plain(used, COLUMNS);
    let set = |case: Case, call, buffer, i| case.poke(call, buffer, last_byte(used, i), xor(0x80));
    cases.extend([
        // The smallest place; and a selection comes first.
        set(set(plain, PREPARE, FIRST, 5), PREPARE, FIRST, 3),
        set(set(plain, PREPARE, SECOND, 0), PREPARE, FIRST, 255),
        set(set(plain, PREPARE, SECOND, 9), PREPARE, SECOND, 8),
        set(set(plain, ANSWER, TAKEN, 254), ANSWER, TAKEN, 1),
        set(plain.poke(PREPARE, SELECTIONS, 10, 3), PREPARE, FIRST, 0),
        // No padding where m is a multiple of eight, and none in seeds.
        Case::plain(whole, COLUMNS).poke(PREPARE, FIRST, last_byte(whole, 3), xor(0x80)),
        Case::plain(whole, COLUMNS).poke(ANSWER, TAKEN, last_byte(whole, 3), xor(0x80)),
        Case::plain(used, SEEDS).poke(PREPARE, FIRST, 1, xor(0x80)),
        Case::plain(used, SEEDS).poke(ANSWER, TAKEN, 1, xor(0x80)),
    ]);
    cases
}

/// A received message: the call that receives it and its buffer.
const RECEIVED: [(u16, u16); 2] = [(ANSWER, MESSAGE), (OPEN, ANSWERED)];

const HEADERS: [usize; 9] = [0, 1, 2, 9, 10, 11, 24, 25, 26];

/// Each byte of the three headers changed in three ways.
fn headers() -> Vec<Case> {
    let mut cases = Vec::new();
    for (call, buffer) in RECEIVED {
        for (index, place) in HEADERS.into_iter().enumerate() {
            let plain = Case::plain(SMALL[index % 2], COLUMNS);
            cases.extend([0x01, 0x80, 0xff].map(|with| plain.poke(call, buffer, place, xor(with))));
        }
    }
    cases
}

/// Each byte of the shape and of the session changed on the way.
fn shape_and_session_bytes() -> Vec<Case> {
    let mut cases = Vec::new();
    for (call, buffer) in RECEIVED {
        for place in (3..9).chain(12..24) {
            let plain = Case::plain(SMALL[place % 2], (place % 2) as u16);
            cases.push(plain.poke(call, buffer, place, xor([0x01, 0x80][place / 2 % 2])));
        }
    }
    cases
}

/// Shapes that no caller has: refusals 1 to 5 of the listing.
fn shapes_listed() -> Vec<Case> {
    let mut cases = Vec::new();
    for (call, buffer) in RECEIVED {
        let set = |used: Shape, changes: &[(usize, u16)]| {
            let plain = Case::plain(used, COLUMNS);
            changes.iter().fold(plain, |case, (place, value)| case.poke(call, buffer, *place, *value))
        };
        cases.extend([
            set(SMALL_PAIRS, &[(3, 0)]),
            set(SMALL_PAIRS, &[(3, 3)]),
            set(SMALL_PAIRS, &[(3, 2)]),
            set(SMALL_PAIRS, &[(4, 0), (5, 0)]),
            set(SMALL_CHOICES, &[(4, 4), (5, 1)]),
            set(SMALL_CHOICES, &[(4, 4), (5, 0)]),
            set(SMALL_PAIRS, &[(7, 1)]),
            set(SMALL_PAIRS, &[(7, 3)]),
            set(SMALL_CHOICES, &[(7, 1)]),
            set(SMALL_CHOICES, &[(6, 1), (7, 0)]),
            set(SMALL_CHOICES, &[(6, 1), (7, 1)]),
            set(SMALL_PAIRS, &[(8, 0)]),
            set(SMALL_CHOICES, &[(8, 33)]),
            set(shape(CHOICES, 200, 2, 1), &[(6, 1), (7, 0)]),
            set(SMALL_CHOICES, &[(8, 0), (9, 9)]),
        ]);
    }
    cases
}

/// Cut at every byte up to 40 and at the end, and with bytes added.
fn cut_and_added() -> Vec<Case> {
    let mut cases = Vec::new();
    for (call, buffer) in RECEIVED {
        let cut = |used, length| Case::plain(used, COLUMNS).length(call, buffer, length);
        cases.extend((0..=40).map(|length| cut(SMALL[length % 2], length)));
        for used in SMALL {
            let whole = Case::plain(used, COLUMNS).usual(call, buffer);
            cases.extend([whole - 1, whole + 1, whole + 2, whole + 64].map(|length| cut(used, length)));
        }
    }
    // The longest messages and one byte more.
    let (columns, answers) = (shape(CHOICES, 1_024, 2, 1), shape(CHOICES, 4, 256, 32));
    cases.push(Case::plain(columns, COLUMNS).length(ANSWER, MESSAGE, 32_796));
    cases.push(Case::plain(answers, COLUMNS).length(OPEN, ANSWERED, 32_796));
    cases
}

/// Tags exchanged, where both blocks are equally long, and the other block's length.
fn tags() -> Vec<Case> {
    let mut cases = Vec::new();
    for used in [shape(PAIRS, 8, 2, 8), shape(CHOICES, 8, 2, 16)] {
        let plain = Case::plain(used, COLUMNS);
        for (call, buffer) in RECEIVED {
            cases.extend([0, 3, 4, 5].map(|tag| plain.poke(call, buffer, 24, tag)));
        }
    }
    for used in SMALL {
        let plain = Case::plain(used, COLUMNS);
        for ((call, buffer), length) in RECEIVED.into_iter().zip([used.strings(), used.columns()]) {
            let [high, low] = (length as u16).to_be_bytes().map(u16::from);
            cases.push(plain.poke(call, buffer, 25, high).poke(call, buffer, 26, low));
        }
    }
    cases
}

/// Padding set in a column message: the first, a middle and the last column.
fn padding_received() -> Vec<Case> {
    let mut cases = Vec::new();
    let set = |case: Case, i, value| case.poke(ANSWER, MESSAGE, 27 + last_byte(case.shape, i), value);
    for used in SMALL {
        let plain = Case::plain(used, COLUMNS);
        for i in some_columns(used) {
            cases.extend([lowest_padding(used), xor(0x80)].map(|value| set(plain, i, value)));
        }
    }
    for rows in [1, 7, 15, 1_023] {
        let plain = Case::plain(shape(CHOICES, rows, 2, 1), SEEDS);
        cases.extend([1, 255].map(|i| set(plain, i, xor(0x80))));
    }
    let plain = Case::plain(SMALL_CHOICES, COLUMNS);
    cases.extend([
        set(set(plain, 77, xor(0x80)), 76, xor(0x08)),
        set(Case::plain(shape(PAIRS, 8, 2, 1), COLUMNS), 5, xor(0x80)),
    ]);
    cases
}

/// Bytes of a block changed: no refusal, and other bytes come out.
fn blocks() -> Vec<Case> {
    let mut cases = Vec::new();
    for (call, buffer) in RECEIVED {
        for used in SMALL {
            let plain = Case::plain(used, SEEDS);
            let last = plain.usual(call, buffer) - 1;
            cases.push(plain.poke(call, buffer, 27, xor(0x01)));
            cases.push(plain.poke(call, buffer, 30, xor(0x01)).poke(call, buffer, last, xor(0x01)));
        }
    }
    cases
}

/// A caller whose own shape differs from the message's, at each byte of the field.
fn other_shapes() -> Vec<Case> {
    let mut cases = Vec::new();
    for (sent, own) in [
        (shape(PAIRS, 9, 2, 1), shape(CHOICES, 9, 2, 1)),
        (shape(CHOICES, 1, 2, 1), shape(CHOICES, 257, 2, 1)),
        (shape(CHOICES, 257, 2, 1), shape(CHOICES, 1, 2, 1)),
        (shape(CHOICES, 9, 2, 1), shape(CHOICES, 10, 2, 1)),
        (shape(CHOICES, 10, 2, 1), shape(CHOICES, 9, 2, 1)),
        (shape(CHOICES, 3, 2, 1), shape(CHOICES, 3, 256, 1)),
        (shape(CHOICES, 3, 40, 1), shape(CHOICES, 3, 41, 1)),
        (shape(CHOICES, 3, 41, 1), shape(CHOICES, 3, 40, 1)),
        (shape(PAIRS, 9, 2, 1), shape(PAIRS, 9, 2, 2)),
        (shape(CHOICES, 9, 5, 4), shape(CHOICES, 17, 5, 3)),
    ] {
        for form in [COLUMNS, SEEDS] {
            cases.extend([2, 4, 6].map(|calls| Case::plain(sent, form).other(calls, own)));
        }
    }
    cases
}

/// A caller whose own session differs from the message's.
fn other_sessions() -> Vec<Case> {
    let mut cases = Vec::new();
    for call in [ANSWER, OPEN] {
        let plain = Case::plain(SMALL_CHOICES, SEEDS);
        cases.extend([0, 1, 5, 6, 11].map(|place| plain.poke(call, SESSION, place, xor(0x40))));
        cases.push(plain.poke(call, SESSION, 11, xor(0x01)).poke(call, SESSION, 3, xor(0x01)));
    }
    cases
}

/// Two faults in one call, next to each other in the order in which they are tried.
fn first_fault() -> Vec<Case> {
    let mut cases = Vec::new();
    let plain = Case::plain(SMALL_CHOICES, COLUMNS);
    for (call, buffer) in RECEIVED {
        let set = |case: Case, place, value| case.poke(call, buffer, place, value);
        let longer = plain.length(call, buffer, plain.usual(call, buffer) + 1);
        cases.extend([
            set(set(plain, 3, 9), 2, 7),
            set(set(plain, 9, 9), 8, 9),
            set(set(plain, 11, 13), 12, xor(1)),
            set(set(plain, 24, 9), 23, xor(1)),
            set(set(plain, 8, 9), 3, 1),
            set(longer, 26, xor(1)),
            set(longer, 12, xor(1)),
            set(longer, 3, 1),
        ]);
    }
    let padded = last_byte(SMALL_CHOICES, 40);
    let longer = plain.length(ANSWER, MESSAGE, plain.usual(ANSWER, MESSAGE) + 1);
    cases.extend([
        longer.poke(ANSWER, MESSAGE, 27 + padded, xor(0x80)),
        plain.poke(ANSWER, TAKEN, padded, xor(0x80)).poke(ANSWER, MESSAGE, 0, 0),
        plain.poke(ANSWER, TAKEN, padded, xor(0x80)).poke(ANSWER, MESSAGE, 27 + 1, xor(0x80)),
        plain.poke(ANSWER, MESSAGE, 26, 1).poke(ANSWER, MESSAGE, 27 + padded, xor(0x80)),
        plain.poke(OPEN, SELECTIONS, 10, 3).poke(OPEN, ANSWERED, 0, 0),
        plain.poke(OPEN, SELECTIONS, 0, 4).length(OPEN, ANSWERED, 0),
        plain.other(4, shape(CHOICES, 11, 3, 0)).length(OPEN, ANSWERED, 0),
        plain.poke(OPEN, KEPT, 0, xor(0x01)),
    ]);
    cases
}

pub fn groups() -> Vec<Group> {
    let group = |name, cases| Group { name, cases };
    vec![
        group("pairs at every row count", pairs()),
        group("choices at every row count", choices()),
        group("places and bytes", places_and_bytes()),
        group("largest batches", largest()),
        group("secrets of zeros and of ones", secrets()),
        group("shapes refused (1 to 5)", shapes_refused()),
        group("shapes refused twice over", shapes_refused_twice()),
        group("wrong lengths (6, 7)", lengths()),
        group("wrong lengths and more", lengths_and_more()),
        group("selections (8)", selections()),
        group("padding in handed-in columns (9)", padding_handed_in()),
        group("headers damaged (10)", headers()),
        group("shape and session damaged (11, 12)", shape_and_session_bytes()),
        group("shapes refused in listings", shapes_listed()),
        group("messages cut and bytes added (10)", cut_and_added()),
        group("tags and block lengths (10)", tags()),
        group("padding in received columns (13)", padding_received()),
        group("blocks damaged", blocks()),
        group("other shapes (11)", other_shapes()),
        group("other sessions (12)", other_sessions()),
        group("the first fault", first_fault()),
    ]
}

/// All cases, in order; a case's number is its seed.
pub fn cases() -> Vec<Case> {
    groups().into_iter().flat_map(|group| group.cases).collect()
}
