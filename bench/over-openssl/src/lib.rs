//! peer's own code once more, compiled over another hash and another cipher: `sha256` and `chacha20` here
//! are OpenSSL's, and `expand` gets a column's keystream by one call. Every other module is peer's file, so
//! that the two differ in nothing else.

pub mod chacha20;
mod expand;
pub mod libcrypto;
pub mod sha256;

#[path = "../../../peer/src/answer.rs"]
mod answer;
#[path = "../../../peer/src/bits.rs"]
mod bits;
#[path = "../../../peer/src/message.rs"]
#[allow(dead_code)]
mod message;
#[path = "../../../peer/src/open.rs"]
mod open;
#[path = "../../../peer/src/expand.rs"]
#[allow(dead_code)]
mod peers_expand;
#[path = "../../../peer/src/prepare.rs"]
mod prepare;
#[path = "../../../peer/src/selections.rs"]
mod selections;
#[path = "../../../peer/src/words.rs"]
#[allow(dead_code)]
mod words;

// The values that calls take and give are peer's own types, so that one table of calls serves both.
use peer::{shape, verdict};

use peer::case::Calls;

/// peer's calls over libcrypto. It must have been found: see `libcrypto::version`.
pub const CALLS: Calls = Calls {
    prepare: [prepare::prepare_from_columns, prepare::prepare_from_seeds],
    answer: [answer::answer_from_columns, answer::answer_from_seeds],
    open: open::open,
    list: peer::case::OWN.list,
};
