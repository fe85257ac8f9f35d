//! Rounds of samples. In every round each contestant does each work once, one right after the other and in
//! another order than in the round before, so that whatever disturbs the machine disturbs all of them.
//!
//! A time is what this thread had of the processor, so that the turns of other programs do not count.

use std::ffi::{c_int, c_long};
use std::time::{Duration, Instant};

use crate::contestants::Contestant;
use crate::work::{Desk, Work};

/// A sample repeats its call until it takes about so long, so that reading the clock costs nothing beside
/// it.
const SAMPLE: Duration = Duration::from_micros(100);
const LEAST_ROUNDS: usize = 5;

#[repr(C)]
struct Clock {
    seconds: c_long,
    nanoseconds: c_long,
}

extern "C" {
    fn clock_gettime(clock: c_int, time: *mut Clock) -> c_int;
}

const OF_THIS_THREAD: c_int = 3;

/// The processor time of this thread so far.
fn processor_time() -> Duration {
    let mut time = Clock { seconds: 0, nanoseconds: 0 };
    let failed = unsafe { clock_gettime(OF_THIS_THREAD, &mut time) };
    assert!(failed == 0, "no clock of the thread");
    Duration::new(time.seconds as u64, time.nanoseconds as u32)
}

/// One work's times in nanoseconds a call: by contestant, and then by round. A contestant that does not do
/// the work has none.
pub struct Timed {
    pub work: Work,
    pub times: Vec<Vec<f64>>,
}

pub fn median(mut values: Vec<f64>) -> f64 {
    values.sort_by(f64::total_cmp);
    let middle = values.len() / 2;
    if values.len() % 2 == 1 {
        values[middle]
    } else {
        (values[middle - 1] + values[middle]) / 2.0
    }
}

impl Timed {
    pub fn median(&self, contestant: usize) -> Option<f64> {
        self.times.get(contestant).filter(|times| !times.is_empty()).map(|times| median(times.clone()))
    }

    /// The median of the rounds' ratios: both times of one ratio are from the same moment.
    pub fn ratio(&self, one: usize, other: usize) -> Option<f64> {
        let other = self.times.get(other).filter(|times| !times.is_empty())?;
        Some(median(self.times[one].iter().zip(other).map(|(one, other)| one / other).collect()))
    }
}

fn sample(desk: &mut Desk, by: &Contestant, calls: u32) -> Duration {
    desk.clear();
    let start = processor_time();
    for _ in 1..calls {
        desk.run(by);
    }
    let verdict = desk.run(by);
    let taken = processor_time() - start;
    desk.check(verdict, by);
    taken
}

/// How often a sample repeats its call, found once and the same for all.
fn calls_a_sample(desk: &mut Desk, by: &Contestant) -> u32 {
    let mut calls = 1;
    while calls < 1_000 && sample(desk, by, calls) < SAMPLE {
        calls *= 2;
    }
    calls
}

/// Measures for about so long; answers the times and the number of rounds.
pub fn measure(works: &[Work], contestants: &[Contestant], seconds: u64) -> (Vec<Timed>, usize) {
    let start = Instant::now();
    let mut desks: Vec<Desk> = works.iter().map(|work| Desk::of(*work)).collect();
    let calls: Vec<u32> = desks.iter_mut().map(|desk| calls_a_sample(desk, &contestants[0])).collect();
    let none = || contestants.iter().map(|_| vec![]).collect();
    let mut all: Vec<Timed> = works.iter().map(|work| Timed { work: *work, times: none() }).collect();
    let mut rounds = 0;
    while rounds < LEAST_ROUNDS || start.elapsed().as_secs() < seconds {
        for ((desk, timed), calls) in desks.iter_mut().zip(&mut all).zip(&calls) {
            for turn in 0..contestants.len() {
                let number = (turn + rounds) % contestants.len();
                let by = &contestants[number];
                if by.does(desk.work) {
                    let taken = sample(desk, by, *calls);
                    timed.times[number].push(taken.as_nanos() as f64 / f64::from(*calls));
                }
            }
        }
        rounds += 1;
    }
    (all, rounds)
}
