//! Who is measured. All are called through pointers, so that none is compiled into the loop that times it.

use over_openssl::libcrypto;
use peer::case::{Calls, OWN};
use peer::{Verdict, SUCCESS};

use crate::work::Work;

/// The proved library's C functions, as the comparison in `peer` declares them.
#[path = "../../peer/tests/library/mod.rs"]
#[allow(dead_code)]
mod library;

type Hash = fn(&[u8], &mut [u8]) -> Verdict;
type Block = fn(&[u8], &[u8], u32, &mut [u8]) -> Verdict;

pub struct Contestant {
    pub name: &'static str,
    pub hash: Hash,
    /// The cipher's block and the operations, but for the plain C, which is a hash alone.
    pub others: Option<(Block, Calls)>,
}

pub const LAYER: usize = 0;
pub const PEER: usize = 1;
pub const PLAIN_C: usize = 2;
/// The last, since it may not be there.
pub const OPENSSL: usize = 3;

extern "C" {
    fn plain_sha256(input: *const u8, length: usize, digest: *mut u8);
}

fn plain_hash(input: &[u8], digest: &mut [u8]) -> Verdict {
    assert!(digest.len() == 32);
    unsafe { plain_sha256(input.as_ptr(), input.len(), digest.as_mut_ptr()) };
    SUCCESS
}

/// In the order of the numbers above.
pub fn contestants() -> Vec<Contestant> {
    let layer = (library::cipher_block as Block, library::CALLS);
    let own = (peer::cipher_block as Block, OWN);
    let openssl = (over_openssl::chacha20::cipher_block as Block, over_openssl::CALLS);
    let mut all = vec![
        Contestant { name: "layer", hash: library::hash, others: Some(layer) },
        Contestant { name: "peer", hash: peer::hash, others: Some(own) },
        Contestant { name: "plain C", hash: plain_hash, others: None },
    ];
    if libcrypto::version().is_some() {
        all.push(Contestant { name: "OpenSSL", hash: over_openssl::sha256::hash, others: Some(openssl) });
    }
    all
}

impl Contestant {
    pub fn does(&self, work: Work) -> bool {
        matches!(work, Work::Hash(_)) || self.others.is_some()
    }
}
