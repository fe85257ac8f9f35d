//! What is measured in one run, and the figures that more than one table or the plot needs.

use crate::contestants::{contestants, LAYER};
use crate::timing::{measure, median, Timed};
use crate::work::{operations, shape, Work};

/// The shapes (mode, m, n, l) of the operations' table: the largest batches, and the smallest.
pub const SHAPES: [(u8, u16, u16, u8); 5] =
    [(1, 1024, 2, 16), (2, 128, 256, 1), (2, 4, 256, 32), (2, 1024, 16, 2), (1, 1, 2, 1)];
pub const HASHES: [usize; 3] = [32, 48, 4096];

/// The shape at which the parts of answering are told apart, with its m · n hashes of 48 bytes.
pub const MANY_HASHES: (u8, u16, u16, u8) = (2, 128, 256, 1);

/// The rows and the places along which growth is followed, at shapes whose largest stand in SHAPES too.
pub const ROWS: [u16; 6] = [32, 64, 128, 256, 512, 1024];
pub const PLACES: [u16; 8] = [2, 4, 8, 16, 32, 64, 128, 256];

pub fn with_rows(rows: u16) -> [Work; 3] {
    operations(shape((2, rows, 16, 2)))
}

pub fn with_places(places: u16) -> [Work; 3] {
    operations(shape((2, 128, places, 1)))
}

/// The works of the operations' table and of the table of the hash and the block.
pub fn main_works() -> Vec<Work> {
    let operations = SHAPES.into_iter().flat_map(|numbers| operations(shape(numbers)));
    operations.chain(HASHES.map(Work::Hash)).chain([Work::Block]).collect()
}

pub struct Results {
    timed: Vec<Timed>,
    pub rounds: usize,
    pub with_openssl: bool,
}

impl Results {
    pub fn measured(seconds: u64) -> Results {
        let mut works = main_works();
        for work in ROWS.into_iter().flat_map(with_rows).chain(PLACES.into_iter().flat_map(with_places)) {
            if !works.contains(&work) {
                works.push(work);
            }
        }
        let contestants = contestants();
        let (timed, rounds) = measure(&works, &contestants, seconds);
        Results { timed, rounds, with_openssl: contestants.len() > crate::contestants::OPENSSL }
    }

    pub fn of(&self, work: Work) -> &Timed {
        self.timed.iter().find(|timed| timed.work == work).expect("a measured work")
    }

    /// The share of answering at MANY_HASHES that is not hashing: its time without m · n times that of one
    /// hash of as many bytes, by the public call. It is all the rest: setting up, transposing, copying,
    /// masking.
    pub fn share_beside_hashes(&self) -> f64 {
        let (_, m, n, _) = MANY_HASHES;
        let hashes = f64::from(m) * f64::from(n);
        let answers = &self.of(Work::Answer(shape(MANY_HASHES))).times[LAYER];
        let hash = &self.of(Work::Hash(48)).times[LAYER];
        median(answers.iter().zip(hash).map(|(answer, hash)| 1.0 - hashes * hash / answer).collect())
    }

    /// The share of answering at MANY_HASHES that does not grow with n: setting up and transposing. A
    /// straight line through the times at the two largest n, carried on to none.
    pub fn share_without_places(&self) -> f64 {
        let at = |n| &self.of(with_places(n)[1]).times[LAYER];
        let pairs = at(256).iter().zip(at(128));
        median(pairs.map(|(all, half)| (2.0 * half - all) / all).collect())
    }
}
