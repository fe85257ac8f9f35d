//! Random cases: rows of the kind that the table has, made by chance.

use std::ops::Range;

use peer::case::*;
use peer::generate::Stream;
use peer::Shape;

fn number_of(variable: &str) -> Option<u32> {
    std::env::var(variable).ok().map(|text| text.parse().expect("a number"))
}

#[cfg(archive)]
/// How many runs a test makes that makes `usual` of them, unless PEER_RUNS says otherwise.
pub fn runs(usual: u32) -> u32 {
    number_of("PEER_RUNS").unwrap_or(usual)
}

/// As many seeds as asked, from 1,000,000 or PEER_SEED on: past the numbers of the table's cases.
pub fn seeds(count: u32) -> Range<u32> {
    let first = number_of("PEER_SEED").unwrap_or(1_000_000);
    first..first + count
}

fn one_of<T: Copy>(stream: &mut Stream, choices: &[T]) -> T {
    choices[stream.below(choices.len())]
}

/// A lawful shape, most often a small one.
fn lawful_shape(stream: &mut Stream) -> Shape {
    let mode = 1 + stream.below(2) as u8;
    let most_rows = one_of(stream, &[3, 10, 10, 20, 20, 70, 70, 260, 1_024]);
    let rows = 1 + stream.below(most_rows) as u16;
    let small = 2 + stream.below(8) as u16;
    let places = if mode == 1 { 2 } else { one_of(stream, &[small, small, small, 3, 40, 41, 255, 256]) };
    let any = 1 + stream.below(32) as u8;
    let bytes = one_of(stream, &[1, 31, 32, any]);
    // Too many rows or bytes for the rest: fewer of them, so that the shape stays lawful and cheap.
    let rows = rows.min(4_096 / places);
    let fits = 32_768 / (u32::from(rows) * u32::from(places));
    Shape { mode, rows, places, bytes: fits.min(u32::from(bytes)) as u8 }
}

/// A shape with one number changed, to a near one or to one at a limit.
fn other_shape(stream: &mut Stream, shape: Shape) -> Shape {
    let mut other = shape;
    let any = stream.step() as u16;
    match stream.below(4) {
        0 => other.mode = one_of(stream, &[0, 1, 2, 3, 255]),
        1 => other.rows = one_of(stream, &[0, 1, shape.rows + 1, shape.rows - 1, 1_024, 1_025, any]),
        2 => other.places = one_of(stream, &[0, 1, 2, shape.places + 1, shape.places - 1, 256, 257, any]),
        _ => other.bytes = one_of(stream, &[0, 1, shape.bytes + 1, shape.bytes - 1, 32, 33, any as u8]),
    }
    other
}

/// The buffers that a call is lent or receives.
fn buffers(call: u16) -> &'static [u16] {
    match call {
        PREPARE => &[SESSION, FIRST, SECOND, SELECTIONS, MESSAGE, KEPT],
        ANSWER => &[SESSION, SECRET, TAKEN, STRINGS, MESSAGE, ANSWERED],
        _ => &[SESSION, SELECTIONS, KEPT, ANSWERED, OPENED],
    }
}

/// A call, more often one of those that receive a message, and one of its buffers.
fn call_and_buffer(stream: &mut Stream) -> (u16, u16) {
    match stream.below(6) {
        0 | 1 => (ANSWER, MESSAGE),
        2 => (OPEN, ANSWERED),
        _ => {
            let call = 1 + stream.below(3) as u16;
            (call, one_of(stream, buffers(call)))
        }
    }
}

fn with_poke(stream: &mut Stream, case: Case) -> Case {
    let (call, buffer) = call_and_buffer(stream);
    let length = case.usual(call, buffer).max(1);
    let place = match stream.below(3) {
        0 => stream.below(length.min(27)),
        1 => length - 1 - stream.below(length.min(8)),
        _ => stream.below(length),
    };
    let any = stream.below(512) as u16;
    let value = one_of(stream, &[any, any, xor(0x80), xor(0x01), case.shape.places, case.shape.places - 1]);
    case.poke(call, buffer, place.min(32_999), value)
}

fn with_length(stream: &mut Stream, case: Case) -> Case {
    let (call, buffer) = call_and_buffer(stream);
    let usual = case.usual(call, buffer).min(ROOM);
    let any = stream.below(usual + 100);
    let length = one_of(stream, &[usual.saturating_sub(1), usual + 1, 0, any, any.min(40)]);
    case.length(call, buffer, length)
}

/// An exchange with up to four things changed; a third of them with none.
pub fn random_case(stream: &mut Stream) -> Case {
    let form = stream.below(2) as u16;
    let mut case = Case::plain(lawful_shape(stream), form);
    case.secret = one_of(stream, &[GENERATED, GENERATED, GENERATED, ZEROS, ONES]);
    case.other = other_shape(stream, case.shape);
    if stream.below(3) == 0 {
        return case;
    }
    if stream.below(8) == 0 {
        case.calls = 1 + stream.below(7) as u16;
    }
    for _ in 0..stream.below(3) {
        case = with_poke(stream, case);
    }
    if stream.below(4) == 0 {
        case = with_length(stream, case);
    }
    case
}
