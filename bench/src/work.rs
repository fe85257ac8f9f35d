//! What is measured: one call, from seeds, with its inputs and outputs.

use std::fmt;

use peer::case::{run, Buffers, Case, OWN, SEEDS};
use peer::generate::Stream;
use peer::{Shape, Verdict, SUCCESS};

use crate::contestants::Contestant;

#[derive(Clone, Copy, Debug, PartialEq, Eq)]
pub enum Work {
    Prepare(Shape),
    Answer(Shape),
    Open(Shape),
    Hash(usize),
    Block,
}

/// The three operations at a shape.
pub fn operations(shape: Shape) -> [Work; 3] {
    [Work::Prepare(shape), Work::Answer(shape), Work::Open(shape)]
}

pub fn shape((mode, rows, places, bytes): (u8, u16, u16, u8)) -> Shape {
    Shape { mode, rows, places, bytes }
}

impl Work {
    pub fn operation(self) -> &'static str {
        match self {
            Work::Prepare(_) => "prepare",
            Work::Answer(_) => "answer",
            Work::Open(_) => "open",
            Work::Hash(_) => "hash",
            Work::Block => "block",
        }
    }

    /// Whether it is one of the three operations, and not the hash or the block.
    pub fn is_operation(self) -> bool {
        !matches!(self, Work::Hash(_) | Work::Block)
    }

    /// What the operation is done on.
    pub fn subject(self) -> String {
        match self {
            Work::Prepare(shape) | Work::Answer(shape) | Work::Open(shape) => {
                format!("({}, {}, {}, {})", shape.mode, shape.rows, shape.places, shape.bytes)
            }
            Work::Hash(length) => format!("{length} bytes"),
            Work::Block => "64 bytes".to_string(),
        }
    }
}

impl fmt::Display for Work {
    fn fmt(&self, f: &mut fmt::Formatter<'_>) -> fmt::Result {
        write!(f, "{} {}", self.operation(), self.subject())
    }
}

/// One work with the buffers that all contestants share, and what its outputs must come to.
pub struct Desk {
    pub work: Work,
    inputs: Buffers,
    output: Vec<u8>,
    kept: Vec<u8>,
    wanted: (Vec<u8>, Vec<u8>),
}

const NO_SHAPE: Shape = Shape { mode: 1, rows: 1, places: 2, bytes: 1 };

/// A whole exchange by peer, its buffers cut to the lengths that the shape asks for.
fn exchanged(shape: Shape) -> Buffers {
    let mut buffers = run(1, &Case::plain(shape, SEEDS), &OWN).buffers;
    for (buffer, length) in [
        (&mut buffers.session, 12),
        (&mut buffers.first, shape.seeds()),
        (&mut buffers.second, shape.seeds()),
        (&mut buffers.taken, shape.seeds()),
        (&mut buffers.selections, shape.m()),
        (&mut buffers.secret, shape.row()),
        (&mut buffers.strings, shape.strings()),
        (&mut buffers.message, 27 + shape.columns()),
        (&mut buffers.kept, shape.kept()),
        (&mut buffers.answered, 27 + shape.strings()),
        (&mut buffers.opened, shape.opened()),
    ] {
        buffer.truncate(length);
    }
    buffers
}

impl Desk {
    pub fn of(work: Work) -> Desk {
        let shape = match work {
            Work::Prepare(shape) | Work::Answer(shape) | Work::Open(shape) => shape,
            Work::Hash(_) | Work::Block => NO_SHAPE,
        };
        let mut inputs = exchanged(shape);
        let wanted = match work {
            Work::Prepare(_) => (inputs.message.clone(), inputs.kept.clone()),
            Work::Answer(_) => (inputs.answered.clone(), vec![]),
            Work::Open(_) => (inputs.opened.clone(), vec![]),
            Work::Hash(length) => {
                // A hash is of so many bytes of the exchange's generator, in the place of the strings.
                inputs.strings = Stream::of_seed(1).bytes(length);
                (peer::sha256::sha256(&inputs.strings).to_vec(), vec![])
            }
            Work::Block => (peer::chacha20::block(&inputs.first[..32], 1, &inputs.session).to_vec(), vec![]),
        };
        Desk { work, inputs, output: vec![0; wanted.0.len()], kept: vec![0; wanted.1.len()], wanted }
    }

    /// Zeros in every output, so that what `check` finds there is what the next call wrote.
    pub fn clear(&mut self) {
        self.output.fill(0);
        self.kept.fill(0);
    }

    /// One call.
    #[inline(never)]
    pub fn run(&mut self, by: &Contestant) -> Verdict {
        let (i, out) = (&self.inputs, &mut self.output[..]);
        let others = || by.others.expect("more than a hash");
        let seeds = usize::from(SEEDS);
        match self.work {
            Work::Prepare(shape) => {
                let call = others().1.prepare[seeds];
                call(shape, &i.session, &i.first, &i.second, &i.selections, out, &mut self.kept)
            }
            Work::Answer(shape) => {
                let call = others().1.answer[seeds];
                call(shape, &i.session, &i.secret, &i.taken, &i.strings, &i.message, out)
            }
            Work::Open(shape) => {
                let call = others().1.open;
                call(shape, &i.session, &i.selections, &i.kept, &i.answered, out)
            }
            Work::Hash(_) => (by.hash)(&i.strings, out),
            Work::Block => (others().0)(&i.first[..32], &i.session, 1, out),
        }
    }

    /// That the calls since `clear` gave what peer gave.
    pub fn check(&self, verdict: Verdict, by: &Contestant) {
        let right = verdict == SUCCESS && (&self.output, &self.kept) == (&self.wanted.0, &self.wanted.1);
        assert!(right, "{}: {} gave {verdict:?} or other bytes than peer", self.work, by.name);
    }
}
