//! One generated case: a row of small numbers, and the procedure that runs it. CASES.md specifies
//! both for the program in Rattle, which runs the same rows.

use crate::bits::{bit, clear_padding};
use crate::generate::Stream;
use crate::sha256::sha256;
use crate::shape::Shape;
use crate::text::hex;
use crate::verdict::Verdict;

/// How many numbers a row has.
pub const NUMBERS: usize = 21;

/// The forms of prepare and answer.
pub const COLUMNS: u16 = 0;
pub const SEEDS: u16 = 1;

/// The kinds of secret.
pub const GENERATED: u16 = 0;
pub const ZEROS: u16 = 1;
pub const ONES: u16 = 2;

/// The calls of a case, in the order in which they run.
pub const PREPARE: u16 = 1;
pub const ANSWER: u16 = 2;
pub const OPEN: u16 = 3;

/// The buffers.
pub const SESSION: u16 = 1;
pub const FIRST: u16 = 2;
pub const SECOND: u16 = 3;
pub const SELECTIONS: u16 = 4;
pub const MESSAGE: u16 = 5;
pub const KEPT: u16 = 6;
pub const SECRET: u16 = 7;
pub const TAKEN: u16 = 8;
pub const STRINGS: u16 = 9;
pub const ANSWERED: u16 = 10;
pub const OPENED: u16 = 11;

/// A poke's value that xors its byte by `with` and does not set it.
pub const fn xor(with: u8) -> u16 {
    256 + with as u16
}

/// A buffer just before a call, as one number of a row; 0 is none.
pub const fn at(call: u16, buffer: u16) -> u16 {
    16 * call + buffer
}

/// A change of one byte: a value below 256 is set, one of 256 + v xors the byte by v.
#[derive(Clone, Copy, Debug, Default, PartialEq, Eq)]
pub struct Poke {
    pub at: u16,
    pub place: u16,
    pub value: u16,
}

/// A length at which a buffer is lent instead of its usual one.
#[derive(Clone, Copy, Debug, Default, PartialEq, Eq)]
pub struct Length {
    pub at: u16,
    pub length: u16,
}

#[derive(Clone, Copy, Debug, PartialEq, Eq)]
pub struct Case {
    /// The shape of the inputs and, but for the calls below, of the calls. Always lawful.
    pub shape: Shape,
    pub form: u16,
    pub secret: u16,
    /// The calls that are given the other shape: 1 for prepare, 2 for answer, 4 for open, added up.
    pub calls: u16,
    pub other: Shape,
    pub pokes: [Poke; 2],
    pub lengths: [Length; 2],
}

impl Case {
    /// An exchange in which nothing is changed.
    pub fn plain(shape: Shape, form: u16) -> Case {
        Case {
            shape,
            form,
            secret: GENERATED,
            calls: 0,
            other: Shape { mode: 0, rows: 0, places: 0, bytes: 0 },
            pokes: Default::default(),
            lengths: Default::default(),
        }
    }

    pub fn secret(self, secret: u16) -> Case {
        Case { secret, ..self }
    }

    pub fn other(self, calls: u16, other: Shape) -> Case {
        Case { calls, other, ..self }
    }

    /// With one more poke; there is room for two.
    pub fn poke(mut self, call: u16, buffer: u16, place: usize, value: u16) -> Case {
        let free = self.pokes.iter_mut().find(|poke| poke.at == 0).expect("at most two pokes");
        *free = Poke { at: at(call, buffer), place: place as u16, value };
        self
    }

    /// With one more length; there is room for two.
    pub fn length(mut self, call: u16, buffer: u16, length: usize) -> Case {
        let free = self.lengths.iter_mut().find(|entry| entry.at == 0).expect("at most two lengths");
        *free = Length { at: at(call, buffer), length: length as u16 };
        self
    }

    pub fn numbers(&self) -> [u16; NUMBERS] {
        let of_shape = |s: Shape| [u16::from(s.mode), s.rows, s.places, u16::from(s.bytes)];
        let mut numbers = [0; NUMBERS];
        numbers[..4].copy_from_slice(&of_shape(self.shape));
        numbers[4..7].copy_from_slice(&[self.form, self.secret, self.calls]);
        numbers[7..11].copy_from_slice(&of_shape(self.other));
        for (poke, part) in self.pokes.iter().zip(numbers[11..17].chunks_exact_mut(3)) {
            part.copy_from_slice(&[poke.at, poke.place, poke.value]);
        }
        for (entry, part) in self.lengths.iter().zip(numbers[17..].chunks_exact_mut(2)) {
            part.copy_from_slice(&[entry.at, entry.length]);
        }
        numbers
    }

    /// The shape that a call is given.
    pub fn shape_of(&self, call: u16) -> Shape {
        if self.calls >> (call - 1) & 1 == 1 {
            self.other
        } else {
            self.shape
        }
    }

    /// The bytes of a set of the case's form.
    fn set(&self, shape: Shape) -> usize {
        if self.form == SEEDS {
            shape.seeds()
        } else {
            shape.columns()
        }
    }

    /// The length at which a call is usually lent a buffer: what document 01 asks for the call's
    /// shape, and for a received message what the inputs' shape gives it.
    pub fn usual(&self, call: u16, buffer: u16) -> usize {
        let shape = self.shape_of(call);
        match (call, buffer) {
            (_, SESSION) => 12,
            (_, FIRST | SECOND | TAKEN) => self.set(shape),
            (_, SELECTIONS) => shape.m(),
            (PREPARE, MESSAGE) => 27 + shape.columns(),
            (_, MESSAGE) => 27 + self.shape.columns(),
            (_, KEPT) => shape.kept(),
            (_, SECRET) => shape.row(),
            (_, STRINGS) => shape.strings(),
            (ANSWER, ANSWERED) => 27 + shape.strings(),
            (_, ANSWERED) => 27 + self.shape.strings(),
            _ => shape.opened(),
        }
    }

    /// The length at which a call is lent a buffer of so much room.
    fn lent(&self, call: u16, buffer: u16, room: usize) -> usize {
        let changed = self.lengths.iter().find(|entry| entry.at == at(call, buffer));
        let length = changed.map_or(self.usual(call, buffer), |entry| usize::from(entry.length));
        length.min(room)
    }
}

/// What every byte of a buffer is before the inputs are generated: a refusal leaves outputs so.
pub const OLD: u8 = 165;

/// The room of the session, of the selections, of the secret, and of every other buffer.
pub const SESSION_ROOM: usize = 16;
pub const SELECTIONS_ROOM: usize = 1_040;
pub const SECRET_ROOM: usize = 48;
pub const ROOM: usize = 33_000;

#[derive(Clone, Debug, PartialEq, Eq)]
pub struct Buffers {
    pub session: Vec<u8>,
    pub first: Vec<u8>,
    pub second: Vec<u8>,
    pub selections: Vec<u8>,
    pub message: Vec<u8>,
    pub kept: Vec<u8>,
    pub secret: Vec<u8>,
    pub taken: Vec<u8>,
    pub strings: Vec<u8>,
    pub answered: Vec<u8>,
    pub opened: Vec<u8>,
}

impl Buffers {
    fn old() -> Buffers {
        let room = |length| vec![OLD; length];
        Buffers {
            session: room(SESSION_ROOM),
            first: room(ROOM),
            second: room(ROOM),
            selections: room(SELECTIONS_ROOM),
            message: room(ROOM),
            kept: room(ROOM),
            secret: room(SECRET_ROOM),
            taken: room(ROOM),
            strings: room(ROOM),
            answered: room(ROOM),
            opened: room(ROOM),
        }
    }

    fn numbered(&mut self, buffer: u16) -> Option<&mut Vec<u8>> {
        match buffer {
            SESSION => Some(&mut self.session),
            FIRST => Some(&mut self.first),
            SECOND => Some(&mut self.second),
            SELECTIONS => Some(&mut self.selections),
            MESSAGE => Some(&mut self.message),
            KEPT => Some(&mut self.kept),
            SECRET => Some(&mut self.secret),
            TAKEN => Some(&mut self.taken),
            STRINGS => Some(&mut self.strings),
            ANSWERED => Some(&mut self.answered),
            OPENED => Some(&mut self.opened),
            _ => None,
        }
    }

    /// The case's inputs, one stream through all of them in this order.
    fn generate(&mut self, seed: u32, case: &Case) {
        let shape = case.shape;
        let set = case.set(shape);
        let mut stream = Stream::of_seed(seed);
        stream.fill(&mut self.session[..12]);
        stream.fill(&mut self.first[..set]);
        stream.fill(&mut self.second[..set]);
        stream.fill(&mut self.selections[..shape.m()]);
        stream.fill(&mut self.strings[..shape.strings()]);
        stream.fill(&mut self.secret[..shape.row()]);
        for r in &mut self.selections[..shape.m()] {
            *r = (usize::from(*r) % shape.n()) as u8;
        }
        match case.secret {
            ZEROS => self.secret[..shape.row()].fill(0x00),
            ONES => self.secret[..shape.row()].fill(0xff),
            _ => {}
        }
        if case.form == COLUMNS {
            for set in [&mut self.first[..set], &mut self.second[..set]] {
                set.chunks_exact_mut(shape.c()).for_each(|column| clear_padding(column, shape.m()));
            }
        }
        self.take(shape.k(), set);
    }

    /// The base transfers: the supplier takes of each pair the first where its secret has 0 and the
    /// second where it has 1.
    fn take(&mut self, k: usize, set: usize) {
        let width = set / k;
        for i in 0..k {
            let part = i * width..(i + 1) * width;
            let from = if bit(&self.secret, i) == 0 { &self.first } else { &self.second };
            self.taken[part.clone()].copy_from_slice(&from[part]);
        }
    }

    /// The pokes that come just before a call.
    fn poke(&mut self, case: &Case, call: u16) {
        for poke in case.pokes.iter().filter(|poke| poke.at / 16 == call) {
            let buffer = self.numbered(poke.at % 16);
            if let Some(byte) = buffer.and_then(|bytes| bytes.get_mut(usize::from(poke.place))) {
                *byte = if poke.value < 256 { poke.value as u8 } else { *byte ^ (poke.value % 256) as u8 };
            }
        }
    }
}

type Prepare = fn(Shape, &[u8], &[u8], &[u8], &[u8], &mut [u8], &mut [u8]) -> Verdict;
type Answer = fn(Shape, &[u8], &[u8], &[u8], &[u8], &[u8], &mut [u8]) -> Verdict;
type Open = fn(Shape, &[u8], &[u8], &[u8], &[u8], &mut [u8]) -> Verdict;

/// The calls that a case runs, so that another program's can be put in their place.
#[derive(Clone, Copy)]
pub struct Calls {
    /// By form: columns, seeds.
    pub prepare: [Prepare; 2],
    pub answer: [Answer; 2],
    pub open: Open,
    pub list: fn(&[u8]) -> Vec<u8>,
}

/// This program's own calls.
pub const OWN: Calls = Calls {
    prepare: [crate::prepare_from_columns, crate::prepare_from_seeds],
    answer: [crate::answer_from_columns, crate::answer_from_seeds],
    open: crate::open,
    list: |message| crate::list(message).into_bytes(),
};

/// What one call of a case comes to.
#[derive(Clone, Debug, PartialEq, Eq)]
pub struct Ran {
    pub verdict: Verdict,
    /// The listing of the message that the call received; prepare receives none.
    pub listing: Vec<u8>,
    /// The call's part of the case's line, with digests of the outputs as the call left them.
    pub text: String,
}

/// What a case comes to: its three calls, and all buffers at the end.
#[derive(Clone, Debug, PartialEq, Eq)]
pub struct Outcome {
    pub prepare: Ran,
    pub answer: Ran,
    pub open: Ran,
    pub buffers: Buffers,
}

impl Outcome {
    /// The case's line, without its line feed.
    pub fn line(&self, number: usize) -> String {
        format!("case {number} {} {} {}", self.prepare.text, self.answer.text, self.open.text)
    }
}

/// The first eight bytes of a digest, which tell outputs apart well enough and keep lines short.
fn short_digest(bytes: &[u8]) -> String {
    hex(&sha256(bytes)[..8])
}

fn listing_text(listing: &[u8]) -> String {
    format!("l {} {}", listing.len(), short_digest(listing))
}

fn run_prepare(case: &Case, calls: &Calls, b: &mut Buffers) -> Ran {
    b.poke(case, PREPARE);
    let lent = |buffer, room| case.lent(PREPARE, buffer, room);
    let (message, kept) = (&mut b.message[..lent(MESSAGE, ROOM)], &mut b.kept[..lent(KEPT, ROOM)]);
    let verdict = calls.prepare[usize::from(case.form)](
        case.shape_of(PREPARE),
        &b.session[..lent(SESSION, SESSION_ROOM)],
        &b.first[..lent(FIRST, ROOM)],
        &b.second[..lent(SECOND, ROOM)],
        &b.selections[..lent(SELECTIONS, SELECTIONS_ROOM)],
        message,
        kept,
    );
    let Verdict { code, place } = verdict;
    let text = format!("p {code} {place} {} {}", short_digest(message), short_digest(kept));
    Ran { verdict, listing: Vec::new(), text }
}

fn run_answer(case: &Case, calls: &Calls, b: &mut Buffers) -> Ran {
    b.poke(case, ANSWER);
    let lent = |buffer, room| case.lent(ANSWER, buffer, room);
    let (received, message) = (&b.message[..lent(MESSAGE, ROOM)], &mut b.answered[..lent(ANSWERED, ROOM)]);
    let listing = (calls.list)(received);
    let verdict = calls.answer[usize::from(case.form)](
        case.shape_of(ANSWER),
        &b.session[..lent(SESSION, SESSION_ROOM)],
        &b.secret[..lent(SECRET, SECRET_ROOM)],
        &b.taken[..lent(TAKEN, ROOM)],
        &b.strings[..lent(STRINGS, ROOM)],
        received,
        message,
    );
    let Verdict { code, place } = verdict;
    let text = format!("{} a {code} {place} {}", listing_text(&listing), short_digest(message));
    Ran { verdict, listing, text }
}

fn run_open(case: &Case, calls: &Calls, b: &mut Buffers) -> Ran {
    b.poke(case, OPEN);
    let lent = |buffer, room| case.lent(OPEN, buffer, room);
    let (received, opened) = (&b.answered[..lent(ANSWERED, ROOM)], &mut b.opened[..lent(OPENED, ROOM)]);
    let listing = (calls.list)(received);
    let verdict = (calls.open)(
        case.shape_of(OPEN),
        &b.session[..lent(SESSION, SESSION_ROOM)],
        &b.selections[..lent(SELECTIONS, SELECTIONS_ROOM)],
        &b.kept[..lent(KEPT, ROOM)],
        received,
        opened,
    );
    let Verdict { code, place } = verdict;
    let text = format!("{} o {code} {place} {}", listing_text(&listing), short_digest(opened));
    Ran { verdict, listing, text }
}

/// Runs a case: the inputs are generated, then each call works on what the one before it left.
pub fn run(seed: u32, case: &Case, calls: &Calls) -> Outcome {
    let mut buffers = Buffers::old();
    buffers.generate(seed, case);
    let prepare = run_prepare(case, calls, &mut buffers);
    let answer = run_answer(case, calls, &mut buffers);
    let open = run_open(case, calls, &mut buffers);
    Outcome { prepare, answer, open, buffers }
}
