//! The proved library beside this program, on random and damaged inputs. It is linked as the C
//! library that desks link; where no archive was found, these tests are ignored and say so.
//!
//! A failure prints the seed. PEER_SEED starts from another seed, PEER_RUNS sets how many exchanges
//! are run; the other tests follow it in proportion.

#[cfg(archive)]
mod library;
mod random;

use std::collections::BTreeSet;

use peer::case::{run, OWN};
use peer::generate::Stream;
use random::{random_case, seeds};

// The random cases are worth comparing: between them they meet every refusal of every call.
#[test]
fn random_cases_meet_every_refusal() {
    let mut codes = [BTreeSet::new(), BTreeSet::new(), BTreeSet::new()];
    for seed in seeds(3_000) {
        let outcome = run(seed, &random_case(&mut Stream::of_seed(seed)), &OWN);
        for (codes, ran) in codes.iter_mut().zip([outcome.prepare, outcome.answer, outcome.open]) {
            codes.insert(ran.verdict.code);
        }
    }
    let [prepare, answer, open] = codes;
    assert_eq!(prepare, (0..=9).collect());
    assert_eq!(answer, (0..=7).chain(9..=13).collect());
    assert_eq!(open, (0..=8).chain(10..=12).collect());
}

#[cfg(not(archive))]
#[test]
#[ignore = "no libcapi.a was found: build it, and name its folder in ADUNWEZI_ARCHIVE"]
fn proved_library_agrees() {}

#[cfg(archive)]
mod comparison {
    use super::library;
    use super::random::{random_case, runs, seeds};
    use super::{run, Stream, OWN};

    /// Exchanges run where PEER_RUNS does not say otherwise.
    const EXCHANGES: u32 = 20_000;

    #[test]
    fn exchanges() {
        let mut refused = 0;
        for seed in seeds(runs(EXCHANGES)) {
            let case = random_case(&mut Stream::of_seed(seed));
            let (ours, theirs) = (run(seed, &case, &OWN), run(seed, &case, &library::CALLS));
            let (own, other) = (ours.line(seed as usize), theirs.line(seed as usize));
            assert_eq!(own, other, "seed {seed}: {case:?}");
            assert!(ours == theirs, "seed {seed}: same line, other buffers: {case:?}");
            refused += u32::from(ours.open.verdict != peer::SUCCESS);
        }
        println!("{} exchanges, {refused} of them refused somewhere", runs(EXCHANGES));
    }

    #[test]
    fn generated_cases() {
        for (number, case) in peer::table::cases().iter().enumerate() {
            let (ours, theirs) = (run(number as u32, case, &OWN), run(number as u32, case, &library::CALLS));
            assert_eq!(ours.line(number), theirs.line(number));
            assert!(ours == theirs, "case {number}: same line, other buffers");
        }
    }

    #[test]
    fn hashes() {
        for seed in seeds(runs(EXCHANGES) / 5) {
            let mut stream = Stream::of_seed(seed);
            let most = [130, 130, 130, 300, 5_000, 66_000][stream.below(6)];
            let length = stream.below(most + 1);
            let input = stream.bytes(length);
            let room = if stream.below(4) == 0 { stream.below(70) } else { 32 };
            let mut digests = [vec![165; room], vec![165; room]];
            let [own, other] = &mut digests;
            assert_eq!(peer::hash(&input, own), library::hash(&input, other), "seed {seed}");
            assert_eq!(own, other, "seed {seed}: {length} bytes");
        }
    }

    #[test]
    fn longest_hashes() {
        for length in [65_534, 65_535, 65_536, 65_537, 100_000] {
            let input = Stream::of_seed(1).bytes(length);
            let mut digests = [[165; 32]; 2];
            let [own, other] = &mut digests;
            assert_eq!(peer::hash(&input, own), library::hash(&input, other), "{length} bytes");
            assert_eq!(own, other, "{length} bytes");
        }
    }

    #[test]
    fn blocks() {
        for seed in seeds(runs(EXCHANGES) / 5) {
            let mut stream = Stream::of_seed(seed);
            let mut near = |right: usize| match stream.below(8) {
                0 => right - 1,
                1 => right + 1,
                2 => stream.below(2 * right),
                _ => right,
            };
            let [key, nonce, room] = [32, 12, 64].map(&mut near);
            let (key, nonce) = (stream.bytes(key), stream.bytes(nonce));
            let counter = [stream.step(), 0, 1, u32::MAX][stream.below(4)];
            let mut keystreams = [vec![165; room], vec![165; room]];
            let [own, other] = &mut keystreams;
            let ours = peer::cipher_block(&key, &nonce, counter, own);
            assert_eq!(ours, library::cipher_block(&key, &nonce, counter, other), "seed {seed}");
            assert_eq!(own, other, "seed {seed}");
        }
    }

    /// A message with no exchange behind it: any lawful or near-lawful shape, and then damaged.
    fn random_message(stream: &mut Stream) -> Vec<u8> {
        let case = random_case(stream);
        let shape = if stream.below(4) == 0 { case.other } else { case.shape };
        let (tag, block) = if stream.below(2) == 0 { (3, shape.columns()) } else { (4, shape.strings()) };
        let block = block.min(40_000);
        let mut message = vec![0; 27 + block];
        peer::message::write_front(&mut message, shape, &stream.bytes(12), tag, block);
        if tag == 4 {
            stream.fill(&mut message[27..]);
        }
        for _ in 0..stream.below(3) {
            let most = if stream.below(2) == 0 { 27 } else { message.len() };
            let place = stream.below(most);
            message[place] = stream.step() as u8;
        }
        match stream.below(6) {
            0 => message.truncate(stream.below(40)),
            1 => message.extend(stream.bytes(3)),
            _ => {}
        }
        message
    }

    #[test]
    fn listings() {
        for seed in seeds(runs(EXCHANGES)) {
            let message = random_message(&mut Stream::of_seed(seed));
            let (ours, theirs) = (peer::list(&message), library::list(&message));
            assert_eq!(ours.as_bytes(), theirs, "seed {seed}: {}", String::from_utf8_lossy(&theirs));
        }
    }

    // Where the text's buffer is not 128 bytes long the length is 0 and the buffer as it was.
    #[test]
    fn listings_into_wrong_buffers() {
        for room in [0, 1, 127, 129, 200] {
            let mut text = vec![165; room];
            assert_eq!(library::list_into(&[], &mut text), 0);
            assert_eq!(text, vec![165; room]);
        }
    }
}
