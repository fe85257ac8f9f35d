//! The independent second program of the transfer layer, written from document 01, RFC 8439 and
//! FIPS 180-4 and from nothing else. It gives the same verdicts, bytes and listings by other code,
//! so that what the layer does can be run and compared.

pub mod answer;
pub mod bits;
pub mod case;
pub mod chacha20;
pub mod expand;
pub mod expected;
pub mod generate;
pub mod list;
pub mod message;
pub mod open;
pub mod prepare;
pub mod published;
pub mod selections;
pub mod sha256;
pub mod shape;
pub mod table;
pub mod text;
pub mod vectors;
pub mod verdict;
pub mod words;

pub use answer::{answer_from_columns, answer_from_seeds};
pub use chacha20::cipher_block;
pub use list::list;
pub use open::open;
pub use prepare::{prepare_from_columns, prepare_from_seeds};
pub use sha256::hash;
pub use shape::Shape;
pub use verdict::{Verdict, SUCCESS};
