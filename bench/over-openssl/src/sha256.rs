//! SHA-256 by libcrypto.

use crate::libcrypto::{libcrypto, HashState};
use crate::verdict::{Verdict, SUCCESS};

/// The digest of `input`, of any length.
pub fn sha256(input: &[u8]) -> [u8; 32] {
    let library = libcrypto();
    let (mut state, mut digest): (HashState, _) = ([0; 28], [0; 32]);
    unsafe {
        (library.hash_init)(&mut state);
        (library.hash_update)(&mut state, input.as_ptr(), input.len());
        (library.hash_final)(digest.as_mut_ptr(), &mut state);
    }
    digest
}

/// In place of the hash's call; it refuses nothing.
pub fn hash(input: &[u8], digest: &mut [u8]) -> Verdict {
    digest.copy_from_slice(&sha256(input));
    SUCCESS
}
